"""What is refused: one line that says what and where, status 4, and nothing left under the final name."""
from __future__ import annotations

import os
import resource
import subprocess
import sys

import geopandas as gpd
import numpy as np
import pytest
from shapely.geometry import LineString, Polygon, box

import gandovel as gv
from gandovel.program import tool
from gandovel.large import is_large
from gandovel.exact.grid import twice_area
from gandovel.program.layer_files import read_rings, write_rings
from gandovel.program.limits import MOST_CORNERS, too_large
from gandovel.reading.prepared import Island, Rows
from test_register import SOURCES, command

CRS = 25832


def layer(shapes, numbers=None, crs=CRS):
    """Parcels of shapes, numbered p0, p1 .. or as told."""
    return gpd.GeoDataFrame({"parcel_no": numbers or [f"p{at}" for at in range(len(shapes))]}, geometry=shapes, crs=crs)


BOWTIE = Polygon([(0, 0), (2, 2), (2, 0), (0, 2)])
ONE = box(0, 0, 10, 10)

BAD = {
    "invalid": (layer([box(5, 0, 9, 9), BOWTIE]), {}, "P6", "p1", "(1.000, 1.000) (measured)"),
    "empty": (layer([ONE, Polygon()]), {}, "P4", "p1", "no geometry"),
    "line": (layer([LineString([(0, 0), (1, 1)])]), {}, "P5", "p0", "LineString"),
    "twice": (layer([ONE, box(10, 0, 20, 10)], ["a", "a"]), {}, "P3", "a", "same parcel_no"),
    "column": (layer([ONE]), {"number": "nr"}, "P2", None, "parcel_no"),
    "degrees": (layer([ONE], crs=4326), {}, "P7", None, "degrees"),
    "mixed": (layer([ONE]), {"zones": layer([ONE], crs=25833)}, "P7", None, "UTM zone 33N"),
    "apart": (layer([ONE]), {"zones": layer([box(50, 50, 60, 60)])}, "P11", None, "(50.000, 50.000)"),
    "move": (layer([box(0.0004, 0, 10, 10)]), {"max_move": 0.1}, "P8", "p0", "0.40 mm (measured)"),
    "far": (layer([box(1e12, 0, 1e12 + 10, 10)]), {"zones": layer([ONE]), "unit": 1.0}, "P9", None, "parcels: "),
    "far zones": (layer([ONE]), {"zones": layer([box(1e12, 0, 1e12 + 10, 10)])}, "P9", None, "zones: "),
    "thin": (layer([ONE, box(10, 0, 10.0001, 10)]), {}, "P9", "p1", "nothing is left"),
}


@pytest.mark.parametrize("name", sorted(BAD))
def test_refused_by_name_and_place(name):
    frame, options, code, number, words = BAD[name]
    with pytest.raises(gv.Refused) as refused:
        gv.prepare(frame, **options)
    assert (refused.value.code, refused.value.number) == (code, number)
    assert words in str(refused.value) and "\n" not in str(refused.value)


def test_a_ring_past_4096_corners_is_cut():
    """Into several, none past the limit, that together cover what it did: the program tells no fault."""
    angles = np.linspace(0, 2 * np.pi, 4098)[:-1]
    round_one = Polygon(np.column_stack([np.cos(angles), np.sin(angles)]) * 10_000)
    whole = twice_area(np.floor(np.asarray(round_one.exterior.coords)[:-1] * 1000 + 0.5).astype(np.int64))
    prepared = gv.prepare(layer([round_one]))
    island = prepared.islands[0]
    pieces = [ring for ring, row in zip(island.parcels.rings, island.parcels.source) if row == 0]
    assert len(pieces) > 1 and all(len(ring) <= MOST_CORNERS for ring in [island.city, *island.parcels.rings])
    assert len({tuple(corner) for ring in pieces for corner in ring.tolist()}) == 4097
    assert sum(map(twice_area, pieces)) == whole == gv.area(prepared).area2_mm2[0]
    assert len(gv.check(prepared)) == 0 and gv.report(prepared).verdict == "tiles"


def test_65537_rings():
    ring = np.array([[0, 0], [1, 0], [0, 1]])
    prepared = gv.prepare(layer([ONE]))
    for count, cut in ((65_537, True), (65_536, False)):
        prepared.islands = [Island(ring, Rows([ring] * count, [0] * count, [1] * count))]
        assert too_large(prepared) is None and is_large(prepared.islands[0].parcels.rings) == cut
    with pytest.raises(gv.Refused, match="P10 65537 rings can't be edited at once"):
        prepared.islands = [Island(ring, Rows([ring] * 65_537, [0] * 65_537, [1] * 65_537))]
        gv.apply(prepared, [])


def test_a_file_that_is_torn_or_not_there(tmp_path):
    layer([ONE]).to_file(tmp_path / "parcels.gpkg", driver="GPKG")
    whole = (tmp_path / "parcels.gpkg").read_bytes()
    (tmp_path / "torn.gpkg").write_bytes(whole[:3000])
    for name in ("torn.gpkg", "none.gpkg"):
        ended = command("prepare", name, "--out", "work", cwd=tmp_path)
        assert ended.returncode == 4 and ended.stdout == ""
        assert ended.stderr.strip().splitlines()[-1].startswith("error: parcels: P1 ") and name in ended.stderr
        assert not (tmp_path / "work").exists()


def test_a_program_that_is_not_there(tmp_path, monkeypatch):
    monkeypatch.setenv("GANDOVEL_TOOL", str(tmp_path / "none"))
    with pytest.raises(gv.Refused, match="T1 the program parcel_tool is not there"):
        gv.check(gv.prepare(layer([ONE])))


@pytest.mark.parametrize("printed", ["", "pair 1\n", "pair 1 1 1\n", "pair x 1\n", "pair 1 1\npair 1\n", "pair 1 2\n"])
def test_an_overlay_that_fits_no_layer_is_not_believed(printed, tmp_path, monkeypatch):
    for name in ("city", "parcels", "zones"):
        write_rings(tmp_path / f"{name}.shp", [np.array([[0, 0], [1, 0], [0, 1]])])
    monkeypatch.setattr(tool, "ask", lambda _: printed)
    paths = [tmp_path / f"{name}.shp" for name in ("city", "parcels", "zones")]
    with pytest.raises(gv.Refused, match="T2 parcel_tool overlay gave no verdict that fits the layer"):
        tool.overlay_pairs(*paths)
    monkeypatch.setattr(tool, "ask", lambda _: "entries 0\npair 1 1\n")
    assert tool.overlay_pairs(*paths).tolist() == [[1, 1]]


@pytest.mark.parametrize(
    "printed", ["", "area 1 2 1\n", "area 1 1\n", "area 1 1 2\n", "area 1 1 1\n" * 2, "area 1 1 1\narea x\n"]
)
def test_areas_that_fit_no_pairs_are_not_believed(printed, tmp_path, monkeypatch):
    for name in ("city", "parcels", "zones"):
        write_rings(tmp_path / f"{name}.shp", [np.array([[0, 0], [1, 0], [0, 1]])])
    paths = [tmp_path / f"{name}.shp" for name in ("city", "parcels", "zones")]
    said = {"area": "1 1\n", "overlay": f"entries 0\npair 1 1\nwithin 1 1\n{printed}"}
    monkeypatch.setattr(tool, "ask", lambda words: said[words[0]])
    with pytest.raises(gv.Refused, match="T2 parcel_tool overlay gave no verdict that fits the layer"):
        tool.overlay_areas(*paths)
    said["overlay"] = "entries 0\npair 1 1\nwithin 1 1\narea 1 1 1\n"
    found = tool.overlay_areas(*paths)
    assert (found.pairs.tolist(), found.area2) == ([[1, 1]], [1])


def test_a_layer_of_the_folder_that_is_torn_is_refused(tmp_path):
    whole = np.array([[0, 0], [9, 0], [0, 9]])
    write_rings(tmp_path / "layer.shp", [whole, whole + 20])
    assert [ring.tolist() for ring in read_rings(tmp_path / "layer.shp")] == [whole.tolist(), (whole + 20).tolist()]
    data = (tmp_path / "layer.shp").read_bytes()
    off = data[:-8] + np.array([0.5]).tobytes()
    many = data[:148] + np.array([1000], "<i4").tobytes() + data[152:]
    for torn, words in (
        (data[:-8], "ends too early"),
        (off, "record 2 is not in whole"),
        (many, "record 1 ends too early"),
    ):
        (tmp_path / "torn.shp").write_bytes(torn)
        with pytest.raises(gv.Refused, match=f"P1 .*torn.shp is no layer of whole millimetres: .*{words}"):
            read_rings(tmp_path / "torn.shp")


def test_a_full_disk_leaves_nothing_half_written(tmp_path):
    cells = [box(x, y, x + 1, y + 1) for x in range(40) for y in range(40)]
    layer(cells).to_file(tmp_path / "parcels.gpkg", driver="GPKG")
    ended = subprocess.run(
        [sys.executable, "-m", "gandovel", "prepare", "parcels.gpkg", "--out", "work"],
        cwd=tmp_path,
        text=True,
        stdout=subprocess.PIPE,
        stderr=subprocess.PIPE,
        env={**os.environ, "PYTHONPATH": str(SOURCES)},
        preexec_fn=lambda: resource.setrlimit(resource.RLIMIT_FSIZE, (100_000, 100_000)),
    )
    assert ended.returncode == 4 and ended.stderr.strip().splitlines()[-1].startswith("error: P14 ")
    assert sorted(path.name for path in tmp_path.iterdir()) == ["parcels.gpkg"]


def test_a_folder_of_someone_else_is_left(tmp_path):
    (tmp_path / "work").mkdir()
    (tmp_path / "work/mine.txt").write_text("mine")
    with pytest.raises(gv.Refused, match="P14"):
        gv.prepare(layer([ONE])).save(tmp_path / "work")
    assert (tmp_path / "work/mine.txt").read_text() == "mine"


def test_edits_of_a_parcel_of_several_records(whole):
    with pytest.raises(gv.Refused, match="P13"):
        gv.apply(whole, [gv.Merge("11/2", "1/1")])
