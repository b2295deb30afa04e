"""How much of each parcel lies in each zone: whole numbers of the program that sum to the parcel's, else measured."""
from __future__ import annotations

import csv
import io
import json
from collections import defaultdict
from fractions import Fraction
from pathlib import Path

import geopandas as gpd
import numpy as np
import pytest
from hypothesis import HealthCheck, given, settings, strategies as st
from shapely.affinity import translate
from shapely.geometry import MultiPolygon, Polygon, box

import gandovel as gv
from gandovel.out.report_formats import answer_of
from gandovel.cli import main
from gandovel.large import Cutting, cut_by, frames
from gandovel.program.zone_areas import ROUNDED, proved
from test_common_area import clipped_area2
from test_properties import SLANTS, STEPS, tiling

TOWN = Path(__file__).resolve().parents[2] / "examples/town"
FEW = settings(max_examples=12, deadline=None, suppress_health_check=list(HealthCheck))


def layer(shapes, column="parcel_no", names=None):
    """A layer of shapes in metres, named from 1 on where they have no names."""
    names = names or [str(at) for at in range(1, len(shapes) + 1)]
    return gpd.GeoDataFrame({column: names}, geometry=shapes, crs=25832)


def areas_of(parts):
    """Twice the area of each part in mm2, by parcel and zone; each is proved."""
    assert set(parts.area_how) <= {"proved"}
    assert parts.area_m2.tolist() == [int(area2) / 2e6 for area2 in parts.area2_mm2]
    keys = zip(parts.iloc[:, 0].astype(str), parts.iloc[:, 1].astype(str))  # the own columns, whatever their names
    return {pair: int(area2) for pair, area2 in zip(keys, parts.area2_mm2)}


def sums_of(areas):
    """The sums of areas by parcel."""
    sums = defaultdict(int)
    for (number, _), area2 in areas.items():
        sums[number] += area2
    return sums


def test_the_town():
    words = [f"{TOWN}/parcels.shp", "--zones", f"{TOWN}/zones.shp", "--city", f"{TOWN}/city.shp", "--unit", "cm"]
    prepared = gv.prepare(words[0], words[2], "ROW", "ROW", words[4], unit="cm")
    found = areas_of(gv.overlay(prepared))
    assert found == {
        ("1", "1"): 4_000_000_000,
        ("2", "1"): 1_575_000_000,
        ("2", "2"): 2_625_000_000,
        ("3", "1"): 4_000_000_000,
        ("4", "1"): 1_625_000_000,
        ("4", "2"): 2_375_000_000,
        ("5", "2"): 3_000_000_000,
    }
    answer = gv.report(prepared)
    assert areas_of(answer.parts) == {pair: area2 for pair, area2 in found.items() if pair[0] in "24"}
    assert answer.parts.share.tolist() == [0.375, 0.625, 0.40625, 0.59375]
    assert set(answer.split.sliver_how) == {"proved"}
    assert [tuple(pair.values()) for pair in answer_of(answer, prepared)["pairs"]] == [
        (number, zone, number in "24", str(area2)) for (number, zone), area2 in found.items()
    ]
    lines = answer.table().splitlines()
    assert lines[:2] == [
        "parcel_no,zone,area_m2,share,sliver,areas,area2_mm2",
        "2,1,787.500000,0.375000,0,proved,1575000000",
    ]


def test_squares_that_share_a_quarter():
    around, corner = box(0, 0, 150, 150), [box(0, 0, 100, 100), box(50, 50, 150, 150)]
    parcels, zones = ([it, around.difference(it)] for it in corner)
    found = areas_of(gv.overlay(layer(parcels), layer(zones, "zone", ["A", "B"])))
    halves = {("1", "A"): 2_500, ("1", "B"): 7_500, ("2", "A"): 7_500, ("2", "B"): 5_000}
    assert found == {pair: area * 2_000_000 for pair, area in halves.items()}


def test_areas_that_are_no_whole_numbers():
    """Three parcels a metre wide, cut by a border that rises from 1 m to 2 m: parts of 7/6 m2 and 11/6 m2."""
    parcels = [box(at, 0, at + 1, 3) for at in range(3)]
    zones = [Polygon([(0, 0), (3, 0), (3, 2), (0, 1)]), Polygon([(0, 1), (3, 2), (3, 3), (0, 3)])]
    prepared = gv.prepare(layer(parcels), layer(zones, "zone", ["A", "B"]), touch=0)
    found = areas_of(gv.overlay(prepared))
    thirds = {"1": (7_000_000, 11_000_000), "2": (9_000_000, 9_000_000), "3": (11_000_000, 7_000_000)}
    for number, both in thirds.items():
        for zone, three in zip(("A", "B"), both):
            assert abs(found[number, zone] - Fraction(three, 3)) < 1
    assert set(sums_of(found).values()) == {6_000_000}
    assert gv.report(prepared).parts.share.tolist() == [found[pair] / 6_000_000 for pair in found]


def exact_areas(prepared):
    """Twice the exact area of each parcel in each zone, in mm2, by clipping in fractions."""
    areas = defaultdict(Fraction)
    for island in prepared.islands:
        for ring, row in zip(island.parcels.rings, island.parcels.source):
            for other, zone in zip(island.zones.rings, island.zones.source):
                boxes = [(it.min(axis=0), it.max(axis=0)) for it in (ring, other)]
                if (boxes[0][0] < boxes[1][1]).all() and (boxes[1][0] < boxes[0][1]).all():
                    rings = ([tuple(map(int, corner)) for corner in it - ring[0]] for it in (ring, other))
                    areas[prepared.number_of(row), prepared.zone_of(zone)] += clipped_area2(*rings)
    return {pair: area2 for pair, area2 in areas.items() if area2}


def zones_around(width, height, columns, rows, slant, third):
    """Zones of a random tiling, stretched so that parcels of this size lie well inside."""
    across, up = Fraction(3 * width, sum(columns)), Fraction(6 * (width + height), sum(rows))
    cells = tiling(columns, rows, slant * across / up, third)
    return [[(x * across - width, y * up - 3 * (width + height)) for x, y in cell] for cell in cells]


@FEW
@given(STEPS, STEPS, SLANTS, STEPS, STEPS, SLANTS, st.integers(3, 7))
def test_areas_are_within_one_and_sum_to_the_parcels(columns, rows, slant, across, up, rising, third):
    cells = tiling(columns, rows, slant, third), zones_around(sum(columns), sum(rows), across, up, rising, third)
    shapes = [[Polygon([(float(x), float(y)) for x, y in cell]) for cell in some] for some in cells]
    prepared = gv.prepare(layer(shapes[0]), layer(shapes[1], "zone"))
    found, exact = areas_of(gv.overlay(prepared)), exact_areas(prepared)
    assert set(found) == set(exact)
    assert all(abs(found[pair] - exact[pair]) <= 1 for pair in found)
    whole = gv.area(prepared)
    assert sums_of(found) == dict(zip(whole.parcel_no, whole.area2_mm2))
    parts = gv.report(prepared).parts
    assert areas_of(parts).items() <= found.items()
    assert np.allclose(parts.area, parts.area_m2, rtol=1e-9, atol=1e-5)


def test_what_does_not_tile_is_measured(faulty, whole):
    measured, exact = gv.report(faulty), gv.report(whole)
    assert set(measured.parts.area_how) == set(measured.split.sliver_how) == {"measured"}
    assert measured.parts.area2_mm2.isna().all() and {pair[3] for pair in measured.pairs} == {None}
    assert "of them by less than 1 m2 (measured)" in measured.summary()
    assert "parcels split, 3 of them by less than 1 m2; " in exact.summary()
    pairs, area = areas_of(gv.overlay(whole)), gv.area(whole)
    assert sums_of(pairs) == dict(zip(area.parcel_no, area.area2_mm2))
    assert np.allclose(exact.parts.area, exact.parts.area_m2, atol=1e-4)
    assert {line.rsplit(",", 2)[1] for line in measured.table().splitlines()[1:]} == {"measured"}
    assert {line.rsplit(",", 2)[1] for line in exact.table().splitlines()[1:]} == {"proved"}


def two_islands(gap=0.0):
    """Two cities apart, with a parcel that has a part in each, one zone of two records, and a gap in the second one."""
    first = [box(0, 0, 10, 10), box(10, 0, 20, 10)]
    second = [translate(it, 500) for it in first]
    second[1] = box(510 + gap, 0, 520, 10)
    shapes = [MultiPolygon([first[0], second[0]]), first[1], second[1]]
    cut = [Polygon([(0, 0), (13, 0), (6, 10), (0, 10)]), Polygon([(13, 0), (20, 0), (20, 10), (6, 10)])]
    zones = [*cut, *(translate(it, 500) for it in cut)]
    cities = layer([box(0, 0, 20, 10), box(500, 0, 520, 10)], "city")
    return gv.prepare(layer(shapes), layer(zones, "zone", ["W", "E", "W", "E"]), city=cities)


def test_parcels_and_zones_of_several_islands():
    """In each island the border cuts a triangle of 80/7 m2 off the first parcel."""
    found = areas_of(gv.report(two_islands()).parts)
    assert abs(found["1", "E"] - 2 * Fraction(160_000_000, 7)) <= 2
    assert sums_of(found) == {"1": 400_000_000, "2": 200_000_000, "3": 200_000_000}
    assert found["2", "W"] == found["3", "W"]


def test_an_island_that_does_not_tile_is_measured_alone():
    prepared = two_islands(gap=0.5)
    assert len(prepared.islands) == 2
    parts = gv.report(prepared).parts.set_index(["parcel_no", "zone"])
    assert parts.area_how.to_dict() == {
        (number, zone): "proved" if number == "2" else "measured" for number in "123" for zone in "WE"
    }
    assert parts.area2_mm2.notna().tolist() == (parts.area_how == "proved").tolist()
    assert np.allclose(parts.area_m2, parts.area, atol=1e-6)
    assert np.allclose(parts.groupby("parcel_no")["share"].sum(), 1)


def test_districts_have_the_areas_of_the_whole(monkeypatch, whole):
    """A layer that is cut; and one whose zones are so many that no run has all those of a parcel."""
    expected, districts = gv.overlay(whole), Cutting(30, jobs=2)
    with cut_by(districts):
        assert areas_of(gv.overlay(whole)) == areas_of(expected)
    monkeypatch.setattr(frames, "A_SHARE", 2)
    with cut_by(districts):
        found, parts = gv.overlay(whole), gv.report(whole).parts
    assert (found.parcel_no.tolist(), found.zone.tolist()) == (expected.parcel_no.tolist(), expected.zone.tolist())
    assert set(found.area_how) == set(parts.area_how) == {"proved", "measured"}
    for number, rows in found.groupby("parcel_no"):
        known = expected[expected.parcel_no == number]
        assert set(rows.area_how) == {"measured"} or rows.area2_mm2.tolist() == known.area2_mm2.tolist()
        assert np.allclose(rows.area_m2, known.area_m2, atol=1e-4)


def test_parcels_with_too_many_corners_are_measured():
    rings = [np.zeros((many, 2), dtype=np.int64) for many in (4, 2**13, 2**13)]
    zones = [np.zeros((2**12, 2), dtype=np.int64), np.zeros((2**12 - 1, 2), dtype=np.int64)]
    pairs = np.array([[0, 0], [0, 1], [1, 0], [1, 1], [2, 1]])
    assert ROUNDED == 2**26 == 2**13 * 2**13
    assert proved(pairs, [1, 2, 3, 4, 5], rings, zones) == [1, 2, 3, 4, 5]
    assert proved(pairs, [1, 2, 3, 4, 5], rings, [zones[0], zones[0]]) == [1, 2, None, None, 5]
    assert proved(pairs, [1, 2, None, 4, 5], rings, zones) == [1, 2, None, 4, 5]


def test_the_command_prints_them(capsys):
    words = ["overlay", f"{TOWN}/parcels.shp", "--zones", f"{TOWN}/zones.shp", "--city", f"{TOWN}/city.shp"]
    words += ["--number", "ROW", "--zone", "ROW", "--unit", "cm"]
    assert main([*words, "--csv"]) == 0
    rows = list(csv.DictReader(io.StringIO(capsys.readouterr().out)))
    assert rows[1] == {
        "number": "2",
        "zone": "1",
        "split": "1",
        "area2_mm2": "1575000000",
        "area_m2": "787.5",
        "area_how": "proved",
    }
    assert main([*words, "--json"]) == 0
    pairs = json.loads(capsys.readouterr().out)["pairs"]
    assert [{name: str(value) for name, value in pair.items()} for pair in pairs] == [
        {**row, "split": str(row["split"] == "1")} for row in rows
    ]
