"""What `benches/compare` says of other programs: which planted fault each reported one is, its area, and the tables."""
from __future__ import annotations

import sys
from pathlib import Path

import geopandas as gpd
import pytest
from shapely.geometry import Point

import gandovel as gv
from planted import case

BENCHES = Path(__file__).resolve().parents[2] / "benches"
sys.path.insert(0, str(BENCHES))
from compare.__main__ import layers_of, score, unit_of  # noqa: E402
from compare.peers import PEERS, geos, rows_said  # noqa: E402
from compare.tables import Row, Score, by_way, page_part  # noqa: E402

SEED = 90_003
"""A small register with faults of both kinds."""


@pytest.fixture(scope="module")
def made(tmp_path_factory):
    """A register in centimetres, and the path of its layer."""
    folder = tmp_path_factory.mktemp("peers")
    one = case("centimetres", SEED, folder)
    one.source.to_file(folder / "layer.gpkg", layer="parcels", driver="GPKG")
    return one, folder / "layer.gpkg"


def test_areas_of_planted_faults_are_those_of_the_layer_as_it_is_kept(made):
    """The ring of a fault's corners in the kept layer has the area that the program's noded edges have, exactly."""
    one, path = made
    kept = gpd.read_file(path)
    faults = gv.report(gv.prepare(path)).faults()
    rows = [(it.kind, it.numbers.split(","), it.geometry) for it in faults.itertuples()]
    found = one.matched(rows)
    assert sorted(found) == list(range(len(one.planted))) and found
    for at, area in zip(found, faults["area_m2"]):
        assert one.kept_area(at, kept) == pytest.approx(area, abs=1e-6)
        assert one.kept_area(at, kept) != pytest.approx(one.planted[at].area, abs=1e-6)


def test_areas_of_a_geodatabase_in_feet(tmp_path):
    """Its shapes are of one part each in a list of parts, its areas in square feet; the distance is in feet, too."""
    pytest.importorskip("osgeo")
    one = case("hundredths of feet", SEED, tmp_path)
    _, layer = layers_of(one, tmp_path)
    kept = gpd.read_file(layer)
    assert unit_of(kept) == pytest.approx(0.3048006096)
    for at, fault in enumerate(one.planted):
        assert one.kept_area(at, kept) * unit_of(kept) ** 2 == pytest.approx(fault.area, rel=0.25)


def test_a_fault_is_matched_once_and_only_at_its_place(made):
    one, _ = made
    fault = one.planted[0]
    here, away = fault.shape.representative_point(), Point(0, 0)
    rows = [(fault.kind, fault.numbers, away), (fault.kind, fault.numbers, here), (fault.kind, fault.numbers, here)]
    assert one.matched(rows) == [None, 0, None]
    counts = one.judged(rows)
    assert (counts.found, counts.missed, counts.false) == (1, len(one.planted) - 1, 2)


def test_geos_reports_the_faults_and_slivers_beside(made):
    one, path = made
    said = geos(path, one.distance / 1000, path.parent)
    rows = [[it.kind, it.numbers, it.place.wkb_hex, it.area] for it in said]
    scored = score(one, gpd.read_file(path), {"said": rows, "seconds": 1.5, "mib": 7.0})
    assert (scored.found, scored.missed) == (len(one.planted), 0)
    assert scored.false == len(said) - len(one.planted) > 10
    assert 0.01 < scored.off < 2 and (scored.seconds, scored.mib) == (1.5, 7.0)


def test_a_program_that_gives_up_has_missed_all(made):
    one, path = made
    scored = score(one, gpd.read_file(path), {"failed": "no memory"})
    assert (scored.found, scored.missed, scored.failed) == (0, len(one.planted), "no memory")


def test_lines_of_the_small_programs_are_read():
    shape = Point(3, 4).buffer(1)
    (one, other) = rows_said([["gap", "n1,n2", "3.5", shape.wkb_hex], ["overlap", "", "1", shape.wkb_hex]])
    assert (one.kind, one.numbers, one.area) == ("gap", ("n1", "n2"), 3.5) and one.place.equals(shape)
    assert other.numbers == ()


def test_the_tables_have_each_program_and_way():
    """A count of what gave up stands beside the others; a program that gave up everywhere has no number."""
    names = [it.name for it in PEERS]
    scores = {name: [Score(2, 1, 3, 1.0, 10.0, 0.034), Score(1, 0, 0, 3.0, 30.0, 0.001)] for name in names}
    scores[names[1]][1] = Score(missed=3, failed="no memory")
    scores[names[2]] = [Score(missed=3, failed="no memory")] * 2
    rows = [Row("feet", at, name, scores[name][at]) for name in names for at in range(2)]
    page = page_part(rows, ["feet"], 2)
    assert f"| {names[0]} | {PEERS[0].asks} | 3 / 1 / 3 | 3.4 % | 2.0 | 30 |" in page
    assert "2 / 4 / 3 (gave up 1 of 2)" in page and f"| {names[2]} | {PEERS[2].asks} | gave up | - |" in page
    assert by_way(rows, ["feet"])[2].startswith("| feet | 3 / 1 / 3 | 2 / 4 / 3 (gave up 1 of 2) | gave up |")
