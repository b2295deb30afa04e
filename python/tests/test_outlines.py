"""The city that parcels make, and cities with holes and exclaves: outlines and open gaps in whole numbers."""
from __future__ import annotations

import math
import random

import geopandas as gpd
import numpy as np
import pytest
from hypothesis import HealthCheck, given, settings, strategies as st
from shapely.affinity import rotate, translate
from shapely.geometry import MultiPolygon, Polygon, box

import gandovel as gv
from gandovel.exact.city import OpenGap, open_gaps
from gandovel.exact.noding import points_of
from gandovel.exact.outlines import outlines
from gandovel.faults.neighbours import Neighbour, overlaps_with
from gandovel.reading.loops import PARCELS, loops_of

EAST, NORTH = 561_000, 5_934_000
MANY = settings(max_examples=100, deadline=None, suppress_health_check=list(HealthCheck))


def outlines_of(shapes, with_holes=False):
    """The outlines of shapes in mm."""
    loops = loops_of(shapes, 1.0, PARCELS)
    points, loops.corners = points_of(loops.corners)
    return outlines(loops, points, with_holes)


def gaps_of(*shapes, narrow=1000.0, least=1.0):
    """The open gaps of what shapes in mm cover."""
    return open_gaps(outlines_of(shapes).rings, narrow, least)


def frame_of(shapes, **columns):
    """A layer of parcels with numbers, or of a city."""
    numbers = columns or {"parcel_no": [f"p{at}" for at in range(len(shapes))]}
    return gpd.GeoDataFrame(numbers, geometry=list(shapes), crs=25832)


def here(x0, y0, x1, y1):
    """A box in metres, where registers are."""
    return box(EAST + x0, NORTH + y0, EAST + x1, NORTH + y1)


CORNERS = (566123.417, 5934567.883), (566034.205, 5934854.311), (566580.328, 5935024.41), (566669.54, 5934737.981)


@pytest.mark.parametrize("left_out", [(1, 3), (0, 2)])
def test_two_triangles_of_a_rectangle_tile(left_out):
    halves = [Polygon([corner for at, corner in enumerate(CORNERS) if at != out]) for out in left_out]
    report = gv.report(gv.prepare(frame_of(halves)))
    assert report.verdict == "tiles" and len(report.open_gaps) == 0


def test_no_open_gap_in_1500_layers_of_two_triangles():
    numbers = random.Random(85)
    for _ in range(1500):
        wide, high, way = numbers.uniform(20, 900), numbers.uniform(20, 900), numbers.uniform(0, 2 * math.pi)
        whole = translate(rotate(box(0, 0, wide, high), way, (0, 0), True), EAST + wide, NORTH + high)
        ring = [(round(x, 3), round(y, 3)) for x, y in list(whole.exterior.coords)[:4]]
        halves = [Polygon([(1000 * x, 1000 * y) for x, y in (*ring[:at], *ring[at + 1 :])]) for at in (1, 3)]
        found = outlines_of(halves)
        assert len(found.rings) == 1 and len(found.rings[0]) == 4 and open_gaps(found.rings, 1000.0, 1.0) == []


def test_no_open_gap_in_2000_outlines_of_four_corners():
    """Any four corners but those with a notch that opens by less than 1 in 5."""
    numbers, done = random.Random(2000), 0
    while done < 2000:
        ring = Polygon([(numbers.randrange(10**6), numbers.randrange(10**6)) for _ in range(4)])
        if ring.is_valid and ring.area > 10**9 and not has_slit(ring):
            done += 1
            assert gaps_of(translate(ring, 5.6e8, 5.9e9)) == [], ring.wkt


def has_slit(ring):
    """Whether an outline of four corners has a notch that opens by less than 1 in 4."""
    for at in range(4):
        before, corner, after = (np.array(ring.exterior.coords[(at + step) % 4]) for step in (-1, 0, 1))
        u, v = before - corner, after - corner
        across = abs(u[0] * v[1] - u[1] * v[0])
        if 4 * across < (u * v).sum():
            return True
    return False


@pytest.mark.parametrize("way", [0, 17, 45, 133.3])
def test_slits_channels_and_bends(way):
    turned = lambda shape: translate(rotate(shape, way, (0, 0)), 5.6e8, 5.9e9)
    whole = box(0, 0, 20_000, 20_000)
    bend = Polygon(
        [(10_000, -10), (10_050, -10), (10_050, 10_000), (20_010, 10_000), (20_010, 10_050), (10_000, 10_050)]
    )
    tapered = Polygon([(-10, 5_000), (9_000, 5_000), (-10, 5_300)])
    for cut, area in ((bend, 10**6), (tapered, 9_000 * 300 / 2), (box(-10, 3_000, 6_000, 3_900), 6_000 * 900)):
        parts = turned(whole.difference(cut))
        gaps = gaps_of(*getattr(parts, "geoms", [parts]))
        assert len(gaps) == 1 and float(gaps[0].area2) / 2 == pytest.approx(area, rel=2e-2)


def test_what_is_wide_or_short_is_no_open_gap():
    whole = box(0, 0, 20_000, 20_000)
    for cut in (
        box(-10, 3_000, 6_000, 4_100),  # wider than 1 m
        box(-10, 3_000, 300, 3_900),  # wider than long
        Polygon([(-10, 3_000), (9_000, 9_000), (-10, 15_000)]),  # a wide notch
        box(15_000, 19_500, 20_010, 20_010),  # a step
    ):
        assert gaps_of(whole.difference(cut)) == []
    assert gaps_of(whole.difference(box(-10, 3_000, 6_000, 3_009)), least=14.2) == []


def test_a_wedge_that_opens_wide_is_told_as_far_as_it_is_narrow():
    wedge = Polygon([(-1, 25_000), (90_000, 25_000), (-1, 28_000)])
    (gap,) = gaps_of(box(0, 0, 100_000, 50_000).difference(wedge))
    assert float(gap.area2) / 2 == pytest.approx(30_000 * 1_000 / 2, rel=1e-3)
    assert OpenGap.of(gap.told()) == gap


SPANS = st.lists(st.tuples(*[st.integers(0, 8)] * 4), min_size=1, max_size=7).map(
    lambda several: [(x0, y0, x1, y1) for x0, y0, x1, y1 in several if x0 < x1 and y0 < y1]
)


@MANY
@given(SPANS.filter(len), st.booleans())
def test_outlines_against_counted_cells(spans, with_holes):
    """Cells of 1 m: those covered, and without holes those that no way from outside reaches."""
    size = 10
    covered = np.zeros((size, size), dtype=bool)
    for x0, y0, x1, y1 in spans:
        covered[x0 + 1 : x1 + 1, y0 + 1 : y1 + 1] = True
    reached, waiting = {(0, 0)}, [(0, 0)]
    while waiting:
        x, y = waiting.pop()
        for cell in ((x + 1, y), (x - 1, y), (x, y + 1), (x, y - 1)):
            inside = 0 <= cell[0] < size and 0 <= cell[1] < size
            if inside and cell not in reached and not covered[cell]:
                reached.add(cell)
                waiting.append(cell)
    wanted = int(covered.sum()) if with_holes else size * size - len(reached)
    found = outlines_of([box(*(1000 * value for value in span)) for span in spans], with_holes)
    assert sum(part.area for part in found.parts) == wanted * 10**6
    for part, left_out in zip(found.parts, found.left_out):
        assert [it.area for it in left_out] == [Polygon(hole).area for hole in part.interiors]
    assert all(part.is_valid for part in found.parts)


def ring_of_four():
    """Four parcels around a place of 20 m by 20 m, in metres."""
    return [here(0, 0, 100, 40), here(0, 60, 100, 100), here(0, 40, 40, 60), here(60, 40, 100, 60)]


def city_with_hole():
    """A city of 100 m by 100 m without 20 m by 20 m in its middle."""
    return Polygon(here(0, 0, 100, 100).exterior, [here(40, 40, 60, 60).exterior.coords])


def test_the_hole_of_a_city_is_honoured():
    city = frame_of([city_with_hole()], name=["city"])
    assert gv.report(gv.prepare(frame_of(ring_of_four()), city=city)).verdict == "tiles"
    over = [*ring_of_four()[:3], here(40, 40, 100, 60)]
    report = gv.report(gv.prepare(frame_of(over), city=city))
    assert report.verdict == "does not tile" and len(report.overlaps) == len(report.gaps) == 0
    told = report.faults()[["kind", "area2_mm2", "numbers", "numbers_how"]].values.tolist()
    assert told == [["beyond", 2 * 400 * 10**6, "p3", "exact"]]
    assert "1 part beyond the city (400.00 m2)" in report.summary()


def test_what_reaches_out_of_the_city_is_beyond_it():
    shapes = [here(0, 0, 60, 100), here(50, 0, 110, 100)]
    report = gv.report(gv.prepare(frame_of(shapes), city=frame_of([here(0, 0, 100, 100)], name=["city"])))
    told = {(kind, numbers, area) for kind, numbers, area in report.faults()[["kind", "numbers", "area2_mm2"]].values}
    assert told == {("overlap", "p0,p1", 2 * 10**9), ("beyond", "p1", 2 * 10**9)}


def test_exclaves_and_a_part_within_a_hole():
    inner, far = here(45, 45, 55, 55), here(300, 0, 320, 20)
    city = frame_of([MultiPolygon([city_with_hole(), inner, far])], name=["city"])
    every = [*ring_of_four(), inner, far]
    prepared = gv.prepare(frame_of(every), city=city)
    assert len(prepared.islands) == 3 and gv.report(prepared).verdict == "tiles"
    missing = gv.report(gv.prepare(frame_of(every[:-1]), city=city))
    assert missing.faults()[["kind", "area2_mm2"]].values.tolist() == [["gap", 2 * 400 * 10**6]]


def test_zones_of_a_city_with_a_hole():
    zones = frame_of([here(-10, -10, 50, 110), here(50, -10, 110, 110)], zone=["west", "east"])
    city = frame_of([city_with_hole()], name=["city"])
    report = gv.report(gv.prepare(frame_of(ring_of_four()), zones, city=city))
    assert report.verdict == "tiles" and sorted(report.split.parcel_no) == ["p0", "p1"]


def test_what_parcels_cover_of_a_neighbouring_city_is_told(tmp_path):
    parcels = frame_of([here(0, 0, 50, 100), here(50, 0, 100.5, 100), here(0, 100, 100, 150)])
    east = Polygon(here(100, -50, 300, 200).exterior, [here(200, 0, 210, 10).exterior.coords])
    beside = frame_of([east, here(-200, -50, 0, 200)], name=["East", "West"])
    prepared = gv.prepare(parcels, neighbours=beside)
    prepared.save(tmp_path / "work")
    for report in (gv.report(prepared), gv.report(gv.load(tmp_path / "work"))):
        assert report.verdict == "does not tile" and "1 overlap with neighbouring cities (50.00 m2)" in report.summary()
        told = report.faults()[["kind", "layer", "area2_mm2", "numbers"]].values.tolist()
        assert told == [["overlap", "neighbours", 10**8, "p1,East"]]
    assert gv.report(gv.prepare(frame_of([here(0, 0, 100, 100)]), neighbours=beside)).verdict == "tiles"


@MANY
@given(SPANS.filter(len), SPANS.filter(len))
def test_overlaps_with_a_neighbour_against_counted_cells(spans, others):
    rings = [np.array(box(*(1000 * value for value in span)).exterior.coords)[3::-1].astype(np.int64) for span in spans]
    for at, other in enumerate(others):
        covered = {
            (x, y)
            for x0, y0, x1, y1 in spans
            for x in range(max(x0, other[0]), min(x1, other[2]))
            for y in range(max(y0, other[1]), min(y1, other[3]))
        }
        polygon = np.array(box(*(1000 * value for value in other)).exterior.coords)[:4].astype(np.int64)
        found = overlaps_with(Neighbour("it", [[polygon]]), rings)
        assert sum(fault.area2 for fault, _ in found) == 2 * 10**6 * len(covered)
        assert {row for _, rows in found for row in rows} == {
            row
            for row, (x0, y0, x1, y1) in enumerate(spans)
            if max(x0, other[0]) < min(x1, other[2]) and max(y0, other[1]) < min(y1, other[3])
        }


def test_a_part_of_the_city_without_parcels_is_a_gap(tmp_path):
    city = frame_of([MultiPolygon([here(0, 0, 50, 50), here(100, 0, 110, 10)])], name=["city"])
    zones = frame_of([here(-10, -10, 120, 60)], zone=["all"])
    prepared = gv.prepare(frame_of([here(0, 0, 50, 50)]), zones, city=city)
    prepared.save(tmp_path / "work")
    for report in (gv.report(prepared), gv.report(gv.load(tmp_path / "work"))):
        assert report.faults()[["kind", "area2_mm2", "numbers"]].values.tolist() == [["gap", 2 * 10**8, ""]]
