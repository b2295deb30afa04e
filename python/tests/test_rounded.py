"""Rounded registers: exactly the planted faults are told, whatever the decimals; what was made to touch is told,
too."""
from __future__ import annotations

import os

import geopandas as gpd
import numpy as np
import pytest
from hypothesis import HealthCheck, given, settings, strategies as st
from shapely.geometry import Polygon, box

import gandovel as gv
from gandovel.reading.precision import grids_of
from registers import register
from slanted import slanted

LONG = bool(os.environ.get("GANDOVEL_LONG"))
FEW = settings(max_examples=25 if LONG else 4, deadline=None, suppress_health_check=list(HealthCheck))
EAST, NORTH = 561_000, 5_934_000


DRAWN = [None, 3, 2, 1]
"""How a register is kept: as floats, or rounded to mm, cm or dm."""


def touch_of(decimals):
    """How far, in m, a corner touches in a layer of so many decimals; of floats how far the grid moves two apart."""
    return 1.42 * 10.0 ** -(3 if decimals is None else decimals)


def told_as_planted(report, planted, touch):
    """Asserts that the report has exactly the planted faults, with their areas but for what touching closed."""
    faults = report.faults()
    found = faults[faults.kind.isin(["gap", "overlap", "open_gap"])]
    key = lambda kind, numbers: (kind, frozenset(numbers))
    told = {}
    for kind, numbers, area in zip(found.kind, found.numbers, found.area_m2):
        pair = next(one for one in planted if one.kind == kind and set(one.numbers) <= set(numbers.split(",")))
        assert key(kind, pair.numbers) not in told, "a fault is told twice"
        told[key(kind, pair.numbers)] = area
        assert abs(area - pair.area) <= pair.around * touch + 1e-6
    assert len(told) == len(found) == len(planted)


@FEW
@given(st.integers(0, 10**6), st.sampled_from(DRAWN), st.data())
def test_exactly_the_planted_faults_of_200_parcels(seed, decimals, data):
    touch = touch_of(decimals)
    places = data.draw(st.lists(st.integers(5, 44), max_size=6, unique=True))
    sides = st.tuples(st.sampled_from([-1, 1]), st.floats(3.01, 8 if decimals == 1 else 60))
    faults = {4 * at + 1: way * wide * touch for at, (way, wide) in ((at, data.draw(sides)) for at in places)}
    frame, planted = slanted(seed, 10, 20, decimals, faults)
    prepared = gv.prepare(frame)
    step = prepared.told["grid_mm"]
    assert step is None if decimals is None else abs(step - 1000 * 10.0**-decimals) < 1e-9
    told_as_planted(gv.report(prepared), planted, touch)


@pytest.mark.parametrize("decimals", DRAWN)
def test_exactly_the_planted_faults_of_2000_parcels(decimals):
    wide = 3.5 * touch_of(decimals)
    frame, planted = slanted(7, 40, 50, decimals, {at: wide * (-1) ** (at // 100) for at in range(10, 2000, 100)})
    told_as_planted(gv.report(gv.prepare(frame)), planted, touch_of(decimals))


@pytest.mark.parametrize("decimals", DRAWN if LONG else [2])
def test_exactly_the_planted_faults_of_20000_parcels(decimals):
    wide = 3.5 * touch_of(decimals)
    frame, planted = slanted(8, 100, 200, decimals, {at: wide * (-1) ** (at // 500) for at in range(10, 20_000, 500)})
    told_as_planted(gv.report(gv.prepare(frame)), planted, touch_of(decimals))


@pytest.mark.parametrize("decimals", [2, 3])
def test_the_packages_own_register_rounded(decimals):
    def rounded(frame):
        from shapely.ops import transform

        shapes = [transform(lambda x, y: (np.round(x, decimals), np.round(y, decimals)), it) for it in frame.geometry]
        return gpd.GeoDataFrame(frame.drop(columns="geometry"), geometry=shapes, crs=frame.crs)

    prepared = gv.prepare(*map(rounded, register()))
    report = gv.report(prepared)
    assert (len(report.gaps), len(report.overlaps)) == (1, 2)
    assert prepared.told["touched"] > 200 and 0 < prepared.told["largest_touch"] <= 1420 * 10.0**-decimals
    assert len(set(zip(report.touched.x_mm, report.touched.y_mm))) == prepared.told["touched"]
    assert f"{prepared.told['touched']} corners made to touch a border" in prepared.summary()
    assert report.touched.closed_m2.sum() == pytest.approx(prepared.told["closed_m2"], rel=0.2)


def two(corner):
    """Two parcels with a common side, in the middle of which the right one has a corner this far (m) to the right."""
    left = Polygon([(EAST, NORTH), (EAST + 10, NORTH), (EAST + 10, NORTH + 10), (EAST, NORTH + 10)])
    right = [(10, 0), (20, 0), (20, 10), (10, 10), (10 + corner, 5)]
    shapes = [left, Polygon([(EAST + x, NORTH + y) for x, y in right])]
    return gpd.GeoDataFrame({"parcel_no": ["left", "right"]}, geometry=shapes, crs=25832)


def test_touch_0_compares_exactly_on_the_grid_too():
    found = gv.check(two(0.001), touch=0)
    assert list(zip(found.kind, found.area2_mm2)) == [("gap", 10_000)]
    assert len(gv.check(two(0.001))) == 0 and len(gv.check(two(0.05), touch=51, max_move=1)) == 0


def test_no_side_is_bent_away_from_its_neighbour():
    """A zone's corner on the outline, near the end of a slanted side: one of its two parcels can't go through it."""
    parcels = [Polygon([(0, 0), (10, 0), (8, 10), (0, 10)]), Polygon([(10, 0), (20, 0), (20, 10), (8, 10)])]
    zones = [box(0, 0, 9.99, 10), box(9.99, 0, 20, 10)]
    frames = [gpd.GeoDataFrame({"parcel_no": list("12")}, geometry=some, crs=25832) for some in (parcels, zones)]
    assert len(gv.report(gv.prepare(*frames, grid=10)).faults()) == 0


def test_a_grid_that_is_told():
    assert len(gv.check(two(0.008), grid=10)) == 0 and len(gv.check(two(0.008))) == 1


@pytest.mark.parametrize("name", ["grid", "touch", "max_move", "narrow"])
@pytest.mark.parametrize("bad", [-1.0, float("nan"), float("inf")])
def test_what_is_no_distance_is_refused(name, bad):
    with pytest.raises(gv.Refused, match=f"P8 a {name.replace('_', '-')} of .* is none: give millimetres"):
        gv.prepare(two(0.0), **{name: bad})


def test_a_grid_of_nothing_is_refused():
    with pytest.raises(gv.Refused, match="P8 a grid of 0 mm is none: give millimetres, above 0 and up to"):
        gv.prepare(two(0.0), grid=0)


def test_what_is_no_area_is_refused():
    for bad in (-1.0, float("nan")):
        with pytest.raises(gv.Refused, match="P8 a least area of .* is none"):
            gv.report(gv.prepare(two(0.0)), min_area=bad)


def test_a_thin_parcel_is_no_rounding():
    strips = [box(EAST + x, NORTH, EAST + x + wide, NORTH + 10) for x, wide in ((0, 5), (5, 0.01), (5.01, 5))]
    prepared = gv.prepare(gpd.GeoDataFrame({"parcel_no": ["a", "thin", "b"]}, geometry=strips, crs=25832))
    assert gv.area(prepared).area2_mm2.tolist() == [10**8, 2 * 10**5, 10**8] and len(gv.check(prepared)) == 0


def test_slivers_are_no_faults_and_mended():
    """Neighbours whose corners differ by a step where neither lies beside a side of the other."""
    left = [(0, 0), (10, 0), (11, 5), (10, 10), (0, 10)]
    right = [(10, 0), (20, 0), (20, 10), (10, 10), (11.001, 5.0)]
    shapes = [Polygon([(EAST + x, NORTH + y) for x, y in ring]) for ring in (left, right)]
    frame = gpd.GeoDataFrame({"parcel_no": ["left", "right"]}, geometry=shapes, crs=25832)
    report = gv.report(gv.prepare(frame, touch=0))
    assert (len(report.gaps), len(report.slivers)) == (1, 0)
    mended = gv.mend(gv.prepare(frame, touch=0), 1.0)
    assert [(one["kind"], one["area2_mm2"]) for one in mended.closed] == [("gap", "10000")]
    assert mended.verdict == "tiles" and len(gv.check(mended.frame, touch=0)) == 0


def test_mend_leaves_what_is_wider():
    mended = gv.mend(gv.prepare(two(0.05)), 20)
    assert mended.closed == [] and mended.verdict == "does not tile"
    assert [one["area2_mm2"] for one in gv.mend(gv.prepare(two(0.05)), 50).closed] == ["500000"]


def test_what_mending_leaves_open_is_told():
    """A slit of 3 mm that is open to the outside is no sliver that is closed: the verdict has it, however wide
    --width."""
    strips = [box(EAST, NORTH, EAST + 10, NORTH + 10), box(EAST + 10.003, NORTH, EAST + 20, NORTH + 10)]
    base = box(EAST, NORTH - 10, EAST + 20, NORTH)
    frame = gpd.GeoDataFrame({"parcel_no": ["left", "right", "base"]}, geometry=[*strips, base], crs=25832)
    for width in (1.0, 5.0):
        mended = gv.mend(gv.prepare(frame), width)
        assert mended.closed == [] and mended.verdict == "open" and "1 gap open to the outside" in mended.summary()
        assert (
            gv.report(gv.prepare(mended.frame)).open_gaps.area2_mm2.tolist()
            == mended.report.open_gaps.area2_mm2.tolist()
        )


def test_steps_are_found():
    corners = np.arange(200, dtype=float).reshape(-1, 2) * 10 + 10**9

    def step_of(some, noise=1e-6):
        return grids_of(some, 1000.0, noise).main

    assert step_of(corners) == 10 and step_of(corners + 0.5) == 0.5 and step_of(corners + 0.3) == pytest.approx(0.1)
    assert step_of(corners * 10) == 100 and step_of(corners[:9] * 10) == 10
    assert step_of(corners * np.pi, 1e-4) is None
