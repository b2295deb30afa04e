"""OGC API Features, Parts 1 and 2, by the abstract tests of the standard: each test here has their identifiers. Part 3
and the tiles have files of their own."""
from __future__ import annotations

from datetime import datetime, timedelta, timezone
from urllib.parse import parse_qsl, urlsplit

import jsonschema
import pytest
from pyproj import Transformer
from shapely.geometry import box, shape

from served import Served, ogr, prepared
from session_register import grid_city

CITY, RINGS = grid_city(8, 8, 1)
PART1, PART2 = "http://www.opengis.net/spec/ogcapi-features-1/1.0", "http://www.opengis.net/spec/ogcapi-features-2/1.0"
CRS84, OWN = "http://www.opengis.net/def/crs/OGC/1.3/CRS84", "http://www.opengis.net/def/crs/EPSG/0/25832"
WGS84, MERCATOR = (f"http://www.opengis.net/def/crs/EPSG/0/{code}" for code in (4326, 3857))
NAMES = ["parcels", "history", "zones", "split"]
GEOJSON = {
    "type": "object",
    "required": ["type", "id", "geometry", "properties"],
    "properties": {
        "type": {"const": "Feature"},
        "geometry": {
            "type": "object",
            "required": ["type", "coordinates"],
            "properties": {
                "type": {"const": "Polygon"},
                "coordinates": {"type": "array", "items": {"type": "array", "minItems": 4, "items": {"minItems": 2}}},
            },
        },
        "properties": {"type": "object"},
    },
}


@pytest.fixture(scope="module")
def served(tmp_path_factory):
    folder = tmp_path_factory.mktemp("ogc")
    with Served(prepared(folder / "work", CITY, RINGS), folder / "register.txt") as served:
        for line in ("merge 1 2", "merge 9 10"):
            assert served.edit(line).status_code == 200
        yield served
        assert served.end() == 0


def related(body, relation, kind=None):
    """The addresses of the links of this relation, and of this media type."""
    return [it["href"] for it in body["links"] if it["rel"] == relation and kind in (None, it["type"])]


def asked(served, address):
    """What an address of a link answers."""
    parts = urlsplit(address)
    answer = served.ask(parts.path + ("?" + parts.query if parts.query else ""))
    assert answer.status_code == 200, (address, answer.text[:300])
    return answer


def features(served, name, **query):
    """All features of a collection that match, by its `next` links; each page is tested by itself."""
    answer = served.ask(f"/collections/{name}/items", params=query)
    found, pages = [], 0
    while True:
        body = answer.json()
        assert answer.status_code == 200, answer.text[:300]
        is_a_page(body)
        found += body["features"]
        pages += 1
        following = related(body, "next")
        if not following:
            assert body["numberMatched"] == len(found) == len({it["id"] for it in found})
            return found, pages
        answer = asked(served, following[0])


def is_a_page(body):
    """/conf/core/fc-response, fc-links, fc-timeStamp, fc-numberMatched, fc-numberReturned; /conf/geojson/content."""
    assert body["type"] == "FeatureCollection" and body["numberReturned"] == len(body["features"])
    assert body["numberReturned"] <= body["numberMatched"]
    moment = datetime.fromisoformat(body["timeStamp"])
    assert abs(datetime.now(timezone.utc) - moment) < timedelta(minutes=5)
    assert related(body, "self", "application/geo+json") and related(body, "alternate", "text/html")
    for feature in body["features"]:
        jsonschema.Draft7Validator(GEOJSON).validate(feature)


def test_root(served):
    """/conf/core/http, root-op, root-success."""
    body = served.ask("/").json()
    for relation in ("service-desc", "service-doc", "conformance", "data", "self"):
        for address in related(body, relation):
            assert asked(served, address).content
    assert related(body, "service-desc") and related(body, "conformance") and related(body, "data")


def test_api_definition(served):
    """/conf/core/api-definition-op, api-definition-success; /conf/oas30/oas-definition-1, oas-impl."""
    body = served.ask("/").json()
    answer = asked(served, related(body, "service-desc")[0])
    assert answer.headers["content-type"] == "application/vnd.oai.openapi+json;version=3.0"
    assert asked(served, related(body, "service-doc")[0]).headers["content-type"].startswith("text/html")
    paths = answer.json()["paths"]
    for path in ("/", "/conformance", "/collections", "/collections/{collectionId}"):
        assert "200" in paths[path]["get"]["responses"]
    named = {it["name"]: it for it in paths["/collections/{collectionId}/items"]["get"]["parameters"]}
    box_, limit, moment = named["bbox"], named["limit"], named["datetime"]
    assert (box_["schema"]["type"], box_["schema"]["items"]["type"]) == ("array", "number")
    assert (box_["schema"]["minItems"], box_["schema"]["maxItems"]) == (4, 6)
    assert (limit["schema"]["type"], limit["schema"]["minimum"], limit["schema"]["maximum"]) == ("integer", 1, 1000)
    assert limit["schema"]["default"] == 100 and moment["schema"]["type"] == "string"
    for it in (box_, limit, moment):
        assert (it["in"], it["required"], it["style"], it["explode"]) == ("query", False, "form", False)


def test_conformance(served):
    """/conf/core/conformance-op, conformance-success."""
    told = set(served.ask("/conformance").json()["conformsTo"])
    classes = {f"{PART1}/conf/{name}" for name in ("core", "oas30", "html", "geojson")}
    assert classes | {f"{PART2}/conf/crs"} <= told
    others = {it for it in told if not it.startswith((PART1, PART2))}
    assert all("ogcapi-features-3/1.0" in it or "/cql2/1.0" in it or "ogcapi-tiles-1/1.0" in it for it in others)


def test_collections(served):
    """/conf/core/fc-md-op, fc-md-success, fc-md-links, fc-md-items, fc-md-items-links, fc-md-extent."""
    body = asked(served, related(served.ask("/").json(), "data")[0]).json()
    assert [it["id"] for it in body["collections"]] == NAMES
    assert related(body, "self", "application/json") and related(body, "alternate", "text/html")
    for told in body["collections"]:
        for kind in ("application/geo+json", "text/html"):
            assert asked(served, related(told, "items", kind)[0]).headers["content-type"].startswith(kind)
        (west, south, east, north) = told["extent"]["spatial"]["bbox"][0]
        assert told["extent"]["spatial"]["crs"] == CRS84 and -180 <= west < east <= 180 and south < north
        for feature in features(served, told["id"])[0]:
            assert shape(feature["geometry"]).within(box(west, south, east, north))
        assert all({"href", "rel", "type", "title"} == set(it) for it in told["links"])


@pytest.mark.parametrize("name", NAMES)
def test_collection(served, name):
    """/conf/core/sfc-md-op, sfc-md-success: as the list of all tells it."""
    listed = {it["id"]: it for it in served.ask("/collections").json()["collections"]}
    assert served.ask(f"/collections/{name}").json() == listed[name]


@pytest.mark.parametrize("name", NAMES)
def test_features(served, name):
    """/conf/core/fc-op, fc-limit-definition, fc-limit-response: pages of any size come to the same."""
    whole, _ = features(served, name, limit=1000)
    for limit in (1, 3, 10, len(whole)):
        some, pages = features(served, name, limit=limit)
        assert some == whole and pages == -(-len(whole) // limit)
    assert features(served, name, limit=10**12)[0] == whole
    for limit in ("0", "-1", "x", "1.5", ""):
        assert served.ask(f"/collections/{name}/items", params={"limit": limit}).status_code == 400


@pytest.mark.parametrize("name", NAMES)
def test_box(served, name):
    """/conf/core/fc-bbox-definition, fc-bbox-response; /conf/crs/fc-bbox-crs-definition: GEOS finds the same."""
    whole, _ = features(served, name, limit=1000)
    west, south, east, north = served.ask(f"/collections/{name}").json()["extent"]["spatial"]["bbox"][0]
    for part in ((0.1, 0.2, 0.5, 0.7), (0.31, 0.31, 0.32, 0.32), (0.0, 0.0, 1.0, 1.0), (0.95, 0.1, 2.0, 0.2)):
        low = west + (east - west) * part[0], south + (north - south) * part[1]
        high = west + (east - west) * part[2], south + (north - south) * part[3]
        area = box(*low, *high)
        wanted = {it["id"] for it in whole if shape(it["geometry"]).buffer(-1e-8).intersects(area)}
        at_most = {it["id"] for it in whole if shape(it["geometry"]).buffer(1e-8).intersects(area)}
        for crs, corners in ((CRS84, (low, high)), (WGS84, (low[::-1], high[::-1])), (MERCATOR, (low, high))):
            if crs == MERCATOR:
                there = Transformer.from_crs("OGC:CRS84", 3857, always_xy=True)
                corners = tuple(there.transform(*corner) for corner in corners)
            text = ",".join(repr(z) for corner in corners for z in corner)
            found = {it["id"] for it in features(served, name, bbox=text, **{"bbox-crs": crs})[0]}
            assert wanted <= found <= at_most, (name, crs, part)
    for text in ("1,2,3", "1,2,3,4,5", "a,b,c,d", "", "1,5,2,4", "inf,0,1,1"):
        assert served.ask(f"/collections/{name}/items", params={"bbox": text}).status_code == 400, text
    assert served.ask(f"/collections/{name}/items?bbox=1,2,3,4&bbox-crs=EPSG:25832").status_code == 400


@pytest.mark.parametrize("name", ["parcels", "history", "zones"])
def test_time(served, name):
    """/conf/core/fc-time-definition, fc-time-response: of what has no time all come."""
    whole, _ = features(served, name, limit=1000)
    for text in (
        "2100-01-01T00:00:00Z/..",
        "../2100-01-01T00:00:00Z",
        "2000-01-01T00:00:00Z/2100-01-01T00:00:00+01:00",
    ):
        found = {it["id"] for it in features(served, name, datetime=text, limit=1000)[0]}
        assert found >= {it["id"] for it in whole if it["properties"].get("until") is None}
    if name == "zones":
        assert features(served, name, datetime="1999-01-01T00:00:00Z")[0] == whole
    else:
        early = {it["id"] for it in features(served, name, datetime="1999-01-01T00:00:00Z", limit=1000)[0]}
        assert early == set(range(1, 65))


@pytest.mark.parametrize("name", NAMES)
def test_feature(served, name):
    """/conf/core/f-op, f-success, f-links; /conf/html/content."""
    for wanted in features(served, name, limit=1000)[0][:5]:
        answer = served.ask(f"/collections/{name}/items/{wanted['id']}")
        told = answer.json()
        assert answer.headers["content-type"] == "application/geo+json"
        assert {key: told[key] for key in wanted} == wanted
        assert related(told, "self") and related(told, "alternate", "text/html")
        assert asked(served, related(told, "collection")[0]).json()["id"] == name
        page = served.ask(f"/collections/{name}/items/{wanted['id']}", headers={"Accept": "text/html"})
        assert page.headers["content-type"].startswith("text/html") and "area2_mm2" in page.text


@pytest.mark.parametrize("path", ["items?unknown=1", "items?f=xml", "items/1?bbox=1,2,3,4", "?limit=1"])
def test_invalid_and_unknown_parameters(served, path):
    """/conf/core/query-param-unknown, query-param-invalid."""
    address = f"/collections/parcels{path}" if path.startswith("?") else f"/collections/parcels/{path}"
    assert served.ask(address).status_code == 400


@pytest.mark.parametrize("name", NAMES)
def test_projections(served, name):
    """/conf/crs/crs-uri, fc-md-crs-list, fc-md-storageCrs, crs-parameter, ogc-crs-header, crs-parameter-invalid."""
    told = served.ask(f"/collections/{name}").json()
    assert told["crs"] == [CRS84, OWN, WGS84, MERCATOR] == served.ask("/collections").json()["crs"]
    assert told["storageCrs"] == OWN and told["storageCrs"] in told["crs"]
    there = {crs: Transformer.from_crs(OWN, crs) for crs in (WGS84, MERCATOR)}
    own = features(served, name, crs=OWN, limit=1000)[0]
    for crs in told["crs"]:
        answer = served.ask(f"/collections/{name}/items", params={"crs": crs, "limit": 1000})
        assert answer.headers["content-crs"] == f"<{crs}>"
        for mine, theirs in zip(own[:4], answer.json()["features"]):
            for place, other in zip(mine["geometry"]["coordinates"][0], theirs["geometry"]["coordinates"][0]):
                wanted = list(there[crs].transform(*place)) if crs in there else other if crs == CRS84 else place
                assert other == pytest.approx(wanted, rel=0, abs=1e-3 if crs == MERCATOR else 1e-8)
        one = served.ask(f"/collections/{name}/items/{own[0]['id']}", params={"crs": crs})
        assert one.headers["content-crs"] == f"<{crs}>"
        assert one.json()["geometry"] == answer.json()["features"][0]["geometry"]
    for crs in ("EPSG:25832", "http://www.opengis.net/def/crs/EPSG/0/3006", "x", ""):
        assert served.ask(f"/collections/{name}/items", params={"crs": crs}).status_code == 400
    default = served.ask(f"/collections/{name}/items?limit=1")
    assert default.headers["content-crs"] == f"<{CRS84}>"


def test_links_keep_what_was_asked(served):
    """`self` has all parameters, and `next` those of the page."""
    query = {"limit": "3", "crs": OWN, "bbox": "-180,-90,180,90", "datetime": "2000-01-01T00:00:00Z/.."}
    body = served.ask("/collections/parcels/items", params=query).json()
    assert dict(parse_qsl(urlsplit(related(body, "self")[0]).query)) == query
    more = dict(parse_qsl(urlsplit(related(body, "next")[0]).query))
    assert {**more, **query} == more and more["offset"] == "3" and more["entries"] == "2"


def test_gdal_reads_each_collection_whole(served):
    for name in NAMES:
        count = len(features(served, name, limit=1000)[0])
        assert f"Feature Count: {count}" in ogr("ogrinfo", "-ro", "-al", "-so", f"OAPIF:{served.address}", name)
