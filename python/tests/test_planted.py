"""Random registers with planted faults, kept in each way that registers are: what is found, what is missed, what is
false.

100 layers, and with GANDOVEL_FULL=1 a thousand. Each test prints its row of the table: `pytest -s -k planted`.
"""
from __future__ import annotations

import os
import sqlite3
from contextlib import closing

import numpy as np
import pytest

import gandovel as gv
from gandovel.exact.noding import noise_of, points_of
from gandovel.reading.loops import loops_of
from gandovel.reading.near_pairs import noise_of_pairs
from gandovel.reading.precision import grids_of
from planted import CASES, Counts, case, drawn, projected, reshaped, rounded, with_a_finer_corner

LAYERS = 1000 if os.environ.get("GANDOVEL_FULL") else 100
EACH = -(-LAYERS // len(CASES))
FILES = ("File Geodatabase", "degrees", "feet", "hundredths of feet", "a curve", "arcs between neighbours")


@pytest.mark.parametrize("name", CASES)
def test_what_is_planted_is_found_and_nothing_else(name, tmp_path):
    """0 missed of what is wider than twice the distance at which corners touch; 0 false."""
    if name in FILES:
        pytest.importorskip("osgeo")
    total, undecided = Counts(), []
    for seed in range(1000, 1000 + EACH):
        made = case(name, seed, tmp_path / str(seed))
        report = gv.report(gv.prepare(made.source, **made.options))
        assert report.basis.touch_mm <= made.distance * 1.15
        if report.verdict == "undecided":
            undecided.append(seed)
            report = gv.report(gv.prepare(made.source, touch=made.distance, **made.options))
        found = report.faults()
        counts = made.judged((one.kind, one.numbers.split(","), one.geometry) for one in found.itertuples())
        assert (counts.missed, counts.false) == (0, 0), f"{name}, seed {seed}: {counts}"
        assert report.verdict == ("does not tile" if made.planted else "tiles")
        total += counts
    print(f"\n{name:22} {EACH:5} layers: {total.found:5} found, {total.missed} missed, {total.false} false", end="")
    print(f", {len(undecided)} left open" if undecided else "")
    assert len(undecided) <= max(1, EACH // 10), f"{name}: what is noise was not decided for {undecided}"


def points_in(frame):
    """The loops of a frame in metres, by points in mm, and what floating point may have moved these by."""
    loops = loops_of(frame.geometry.to_numpy(), 1000.0, 0)
    noise = noise_of(loops.corners)
    points, loops.corners = points_of(loops.corners)
    return loops, points, noise


@pytest.mark.parametrize("step", [0.1, 0.5, 1, 2.5, 5, 10, 25, 50, 100, 62.5])
def test_the_grid_of_a_layer(step):
    for seed in range(5):
        _, points, noise = points_in(rounded(drawn(seed, 10.0, 0)[0], step / 1000))
        grids = grids_of(points, 1000.0, noise)
        assert grids.main == pytest.approx(step) and dict(grids.counts())[grids.main] == len(points)


def test_each_corner_has_its_grid():
    """Half a register in centimetres, half in millimetres, and one corner finer than both."""
    frame, _ = drawn(3, 10.0, 0)
    half = len(frame) // 2
    coarse, fine = rounded(frame.iloc[:half], 0.01), rounded(frame.iloc[half:], 0.001)
    _, points, noise = points_in(coarse)
    _, others, _ = points_in(fine)
    grids = grids_of(np.concatenate([points, others, points[:1] + 0.25]), 1000.0, noise)
    counts = dict(grids.counts())
    assert grids.main in (1.0, 10.0) and counts[10.0] >= len(points) and counts[1.0] > 0.9 * len(others)
    _, points, noise = points_in(with_a_finer_corner(coarse, 1))
    assert grids_of(points, 1000.0, noise).main == 10.0


def test_a_register_drawn_on_whole_metres_has_the_grid_of_its_finest_corner():
    """Nothing says that such corners were rounded: a millimetre is a fault there, as ever."""
    x, y = np.meshgrid(np.arange(20.0), np.arange(20.0))
    points = np.column_stack([x.ravel(), y.ravel()]) * 10_000 + 5e8
    points[7] += 3
    assert grids_of(points, 1000.0, 1e-6).main == 1.0


def test_floats_have_no_grid():
    for seed in range(5):
        _, points, noise = points_in(drawn(seed, 10.0, 0)[0])
        assert grids_of(points, 1000.0, noise).main is None


@pytest.mark.parametrize("seed", range(40 if LAYERS > 100 else 15))
def test_noise_is_never_taken_to_be_as_wide_as_a_fault(seed):
    """Whatever the rounding was before a layer was reprojected: less than the narrowest planted fault, or left open."""
    for step in (1, 3, 10, 30, 100):
        frame, planted = drawn(seed, 1.42 * step)
        loops, points, noise = points_in(projected(rounded(frame, step / 1000), 25833))
        found = noise_of_pairs(loops, points, noise)
        narrowest = min((2000 * one.area / one.around for one in planted), default=np.inf)
        assert found.distance is None or found.distance <= min(1.5 * step, narrowest / 2)
        assert found.distance is not None or found.proposed


def test_what_can_not_be_decided_is_said_with_what_may_be_told(tmp_path):
    """Distances without any edge: corners off their borders by up to 15 cm, all alike."""
    pick = np.random.default_rng(1)
    frame, _ = drawn(5, 10.0, 0)
    moved = {}

    def shaken(corners):
        for corner in map(tuple, corners):
            moved.setdefault(corner, corner + pick.uniform(-0.25, 0.25, 2) * pick.uniform(0, 1) ** 3)
        return np.array([moved[tuple(corner)] for corner in corners])

    frame = reshaped(frame, shaken)
    report = gv.report(gv.prepare(frame))
    basis = report.basis
    assert report.verdict == "undecided" and basis.precision["how"] == "undecided" and basis.touch_mm < 1e-3
    assert "it can't be decided" in basis.advice() and "--touch 0 (" in basis.advice()
    assert sum(one["pairs"] for one in basis.precision["near_pairs"]) > 100
    report.save(tmp_path / "r.gpkg")
    with closing(sqlite3.connect(tmp_path / "r.gpkg")) as file:
        ((note,),) = file.execute("SELECT description FROM gpkg_contents WHERE table_name = 'touched'").fetchall()
    assert basis.histogram() in note and len(basis.histogram().splitlines()) == 18 and "#" * 30 in note
    proposed = basis.precision["proposed"]
    assert {0.0, 1.42, 14.2, 142.0} <= {one["touch_mm"] for one in proposed}
    for one in proposed[-2:]:
        told = gv.report(gv.prepare(frame, touch=one["touch_mm"]))
        assert (len(told.gaps), len(told.overlaps)) == (one["gaps"], one["overlaps"])
        assert told.verdict == "does not tile" and told.basis.advice() is None
        assert f"--touch {one['touch_mm']:g} ({one['gaps']} gaps, {one['overlaps']} overlaps; " in basis.advice()
