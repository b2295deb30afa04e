"""OGC API Tiles and styles: GDAL reads the tiles back, QGIS takes its style, and an edit changes the tiles that it
touches alone."""
from __future__ import annotations

import math
import subprocess
import sys
from urllib.parse import urlsplit

import pytest
from osgeo import gdal, ogr
from shapely import wkb
from shapely.geometry import box, shape

from served import Served, prepared, pretty
from session_register import grid_city

CITY, RINGS = grid_city(8, 8, 1)
MERCATOR = "http://www.opengis.net/def/crs/EPSG/0/3857"
EDGE = 20037508.342789244
MVT = "application/vnd.mapbox-vector-tile"
gdal.UseExceptions()


@pytest.fixture(scope="module")
def served(tmp_path_factory):
    folder = tmp_path_factory.mktemp("tiles")
    with Served(prepared(folder / "work", CITY, RINGS), folder / "register.txt") as served:
        yield served
        assert served.end() == 0


def features(served, name="parcels"):
    """The features of a collection in Web Mercator."""
    answer = served.ask(f"/collections/{name}/items", params={"crs": MERCATOR, "limit": 1000})
    return {it["id"]: it for it in answer.json()["features"]}


def tile_at(x, y, level):
    """The row and the column of the tile with a place."""
    side = 2 * EDGE / 2**level
    return int((EDGE - y) // side), int((x + EDGE) // side)


def asked(served, level, row, column, name="parcels", **headers):
    return served.ask(f"/collections/{name}/tiles/WebMercatorQuad/{level}/{row}/{column}", headers=headers)


def read(content, level, row, column):
    """The shapes of a tile by their ids, as GDAL reads them, in metres of Web Mercator, with their numbers."""
    path = f"/vsimem/test_{level}_{row}_{column}.pbf"
    gdal.FileFromMemBuffer(path, content)
    try:
        options = [f"Z={level}", f"Y={row}", f"X={column}", "CLIP=NO", "METADATA_FILE="]
        dataset = gdal.OpenEx(path, gdal.OF_VECTOR, ["MVT"], options)
        found = {}
        for at in range(dataset.GetLayerCount()):
            for it in dataset.GetLayer(at):
                key = it.GetField("id")
                found[key] = wkb.loads(bytes(it.GetGeometryRef().ExportToWkb(ogr.wkbNDR))), it.items()
        return found
    finally:
        gdal.Unlink(path)


@pytest.mark.parametrize("name", ["parcels", "zones"])
def test_tileset(served, name):
    """/req/core/tc-..., /req/tileset/...: links lead to the tiles, and the limits are those of the register."""
    links = {it["rel"]: it for it in served.ask(f"/collections/{name}").json()["links"]}
    body = served.ask(urlsplit(links["http://www.opengis.net/def/rel/ogc/1.0/tilesets-vector"]["href"]).path).json()
    (told,) = body["tilesets"]
    itself = {it["rel"]: it for it in told["links"]}
    whole = served.ask(urlsplit(itself["self"]["href"]).path).json()
    assert whole["crs"] == MERCATOR and whole["dataType"] == "vector" and whole["layers"][0]["id"] == name
    template = {it["rel"]: it for it in whole["links"]}["item"]
    assert template["templated"] and template["type"] == MVT
    matrices = served.ask("/tileMatrixSets/WebMercatorQuad").json()["tileMatrices"]
    assert [it["matrixWidth"] for it in matrices] == [2**level for level in range(25)]
    assert matrices[0]["scaleDenominator"] == pytest.approx(559082264.0287178)
    known = features(served, name)
    for limit in whole["tileMatrixSetLimits"]:
        for it in list(known.values())[:8]:
            x, y = shape(it["geometry"]).centroid.coords[0]
            row, column = tile_at(x, y, int(limit["tileMatrix"]))
            assert limit["minTileRow"] <= row <= limit["maxTileRow"]
            assert limit["minTileCol"] <= column <= limit["maxTileCol"]
    address = template["href"].format(tileMatrix=17, tileRow=row >> 7, tileCol=column >> 7)
    answer = served.ask(urlsplit(address).path)
    assert answer.status_code == 200 and answer.headers["content-type"] == MVT


@pytest.mark.parametrize("name", ["parcels", "zones"])
@pytest.mark.parametrize("level", [18, 20, 22])
def test_tiles_have_what_is_there(served, name, level):
    """Each shape that meets the tile is in it, within the grid's rounding, under its id and number."""
    known = features(served, name)
    it = known[sorted(known)[len(known) // 2]]
    row, column = tile_at(*shape(it["geometry"]).centroid.coords[0], level)
    answer = asked(served, level, row, column, name)
    assert answer.status_code == 200 and answer.headers["content-type"] == MVT
    found, side = read(answer.content, level, row, column), 2 * EDGE / 2**level
    west, north = column * side - EDGE, EDGE - row * side
    tile, step = box(west, north - side, west + side, north), side / 4096
    wanted = {key for key, one in known.items() if shape(one["geometry"]).buffer(-4 * step).intersects(tile)}
    assert wanted and wanted <= set(found)
    for key in wanted:
        mine, theirs = shape(known[key]["geometry"]).intersection(tile), found[key][0].buffer(0).intersection(tile)
        assert mine.symmetric_difference(theirs).area < 8 * step * tile.length + 0.01 * mine.area, (key, level)
        label = "number" if name == "parcels" else "name"
        assert found[key][1][label] == known[key]["properties"][label]


def test_an_edit_changes_its_own_tiles_alone(served):
    known = features(served)
    places = {key: tile_at(*shape(known[key]["geometry"]).centroid.coords[0], 21) for key in (1, 2, 64)}
    before = {key: asked(served, 21, *place) for key, place in places.items()}
    assert served.edit("merge 1 2").status_code == 200
    near, far = asked(served, 21, *places[1]), asked(served, 21, *places[64])
    assert 1 in read(before[1].content, 21, *places[1]) and 1 not in read(near.content, 21, *places[1])
    assert 65 in read(near.content, 21, *places[1]) and near.headers["etag"] != before[1].headers["etag"]
    assert far.content == before[64].content and far.headers["etag"] == before[64].headers["etag"]
    assert far.headers["gandovel-entries"] == "1"
    again = asked(served, 21, *places[64], **{"If-None-Match": far.headers["etag"]})
    assert again.status_code == 304 and again.content == b""


@pytest.mark.parametrize(
    "path", ["25/0/0", "1/2/0", "1/0/2", "x/0/0", "1/-1/0", "1/0/²", "1/0/" + "9" * 40, "-1/0/0", "5/0", "0/0/0/0"]
)
def test_tiles_that_are_none(served, path):
    answer = served.ask(f"/collections/parcels/tiles/WebMercatorQuad/{path}")
    assert answer.status_code == 404 and answer.json()["description"], pretty(answer)


def test_other_tilings_and_collections(served):
    for path in (
        "/collections/parcels/tiles/Other",
        "/collections/history/tiles",
        "/tileMatrixSets/Other",
        "/styles/x",
    ):
        assert served.ask(path).status_code == 404
    assert asked(served, 0, 0, 0).content == b"" and asked(served, 3, 1, 1).status_code == 200


def test_style_of_mapbox(served):
    """Its source is the tiles, from the level on at which parcels are drawn."""
    listed = {it["id"]: it for it in served.ask("/styles").json()["styles"]}
    assert set(listed) == {"parcels", "zones"}
    for name, it in listed.items():
        link = next(link for link in it["links"] if "mapbox" in link["type"])
        parts = urlsplit(link["href"])
        answer = served.ask(f"{parts.path}?{parts.query}")
        style = answer.json()
        assert style["version"] == 8 and answer.headers["content-type"] == link["type"]
        assert (
            {layer["source"] for layer in style["layers"]} == {name} == {it["source-layer"] for it in style["layers"]}
        )
        assert {layer["type"] for layer in style["layers"]} == {"fill", "line"}
        level = style["sources"][name]["minzoom"]
        x, y = shape(features(served, name)[5 if name == "parcels" else 1]["geometry"]).centroid.coords[0]
        row, column = tile_at(x, y, max(level, 16))
        address = style["sources"][name]["tiles"][0].format(z=max(level, 16), y=row, x=column)
        assert served.ask(urlsplit(address).path).content
        assert 0 <= level <= 24 and math.isfinite(style["center"][0])


LOADS = """
import sys
sys.path.append("/usr/share/qgis/python")
from qgis.core import QgsApplication, QgsVectorLayer
application = QgsApplication([], False)
application.initQgis()
layer = QgsVectorLayer("Polygon?crs=EPSG:25832&field=number:string&field=name:string", "parcels", "memory")
text, is_loaded = layer.loadNamedStyle(sys.argv[1])
symbol = layer.renderer().symbol()
print(is_loaded, layer.labelsEnabled(), layer.labeling().settings().fieldName, symbol.color().name())
"""


@pytest.mark.parametrize("name, field, colour", [("parcels", "number", "#e8ecef"), ("zones", "name", "#0b57a4")])
def test_style_of_qgis(served, tmp_path, name, field, colour):
    """QGIS loads it, and draws the numbers."""
    answer = served.ask(f"/styles/{name}?f=qml")
    assert answer.headers["content-type"] == "application/vnd.qgis.style+xml"
    (tmp_path / "style.qml").write_bytes(answer.content)
    command = [sys.executable, "-c", LOADS, str(tmp_path / "style.qml")]
    ended = subprocess.run(
        command, stdout=subprocess.PIPE, text=True, env={"QT_QPA_PLATFORM": "offscreen", "HOME": str(tmp_path)}
    )
    words = ended.stdout.split()
    assert words[:4] == ["True", "True", field, colour], ended.stdout
