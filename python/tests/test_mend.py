"""Narrow faults closed: what comes of it tiles, nothing else moves, and what is left is reported."""
from __future__ import annotations

import json
import os
import math
import random
import subprocess
import sys
from pathlib import Path

import geopandas as gpd
import numpy as np
import pytest
from hypothesis import HealthCheck, given, settings, strategies as st
from shapely.geometry import Polygon, box
from shapely.ops import transform

import gandovel as gv
from slanted import slanted

EAST, NORTH = 561_000, 5_934_000
FEW = settings(max_examples=6, deadline=None, suppress_health_check=list(HealthCheck))


def here(*corners):
    """A polygon in metres, where registers are."""
    return Polygon([(EAST + x, NORTH + y) for x, y in corners])


def torn(seed, columns, rows, apart, decimals=3):
    """Parcels whose neighbours each have corners of their own, at most `apart` (m) off in each direction."""
    numbers, turn = random.Random(seed), 0.3
    base = {
        (i, j): (i * 20 + numbers.uniform(-4, 4), j * 30 + numbers.uniform(-4, 4))
        for i in range(columns + 1)
        for j in range(rows + 1)
    }
    shapes = []
    for i in range(columns):
        for j in range(rows):
            ring = []
            for a, b in ((i, j), (i + 1, j), (i + 1, j + 1), (i, j + 1)):
                x, y = base[a, b]
                if 0 < a < columns and 0 < b < rows:
                    x, y = x + numbers.uniform(-apart, apart), y + numbers.uniform(-apart, apart)
                east, north = math.cos(turn) * x - math.sin(turn) * y, math.sin(turn) * x + math.cos(turn) * y
                ring.append((round(EAST + east, decimals), round(NORTH + north, decimals)))
            shapes.append(Polygon(ring))
    names = [f"p{at}" for at in range(len(shapes))]
    return gpd.GeoDataFrame({"parcel_no": names, "use": "plot"}, geometry=shapes, crs=25832)


@FEW
@given(
    st.integers(0, 10**6),
    st.sampled_from([0.001, 0.004, 0.012]),
    st.sampled_from(["border", "larger", "older", "none"]),
)
def test_torn_registers_tile_once_they_are_mended(seed, apart, to):
    frame = torn(seed, 4, 4, apart)
    before = gv.report(gv.prepare(frame, touch=0))
    mended = gv.mend(gv.prepare(frame, touch=0), 60, to)
    assert mended.left == [] and mended.verdict == "tiles"
    assert gv.report(gv.prepare(mended.frame, touch=0)).verdict == "tiles"
    kept = mended.frame[mended.frame.parcel_no.isin(frame.parcel_no)]
    assert kept.parcel_no.tolist() == frame.parcel_no.tolist()
    assert to == "none" or len(mended.frame) == len(frame)
    faults = before.faults()
    concerned = set(",".join(faults.numbers).split(","))
    for number, was, now in zip(kept.parcel_no, frame.geometry, kept.geometry):
        if number not in concerned:
            assert was.symmetric_difference(now).area < 1e-3 * was.length, "what has no fault moves by less than 1 mm"
        assert was.symmetric_difference(now).area <= faults.area_m2.sum() + 1e-3 * was.length


def pair(gap):
    """Two parcels, 100 m2 and 200 m2, with a lens between them of so many metres: a gap, or where negative an
    overlap."""
    left = here((0, 0), (10, 0), (11, 5), (10, 10), (0, 10))
    right = here((10, 0), (30, 0), (30, 10), (10, 10), (11 + gap, 5))
    return gpd.GeoDataFrame({"parcel_no": ["left", "right"]}, geometry=[left, right], crs=25832)


@pytest.mark.parametrize("gap", [0.004, -0.004])
@pytest.mark.parametrize("to, owner", [("larger", "right"), ("older", "left"), ("none", "MENDED-1")])
def test_to_whom_a_piece_goes(gap, to, owner):
    mended = gv.mend(gv.prepare(pair(gap), touch=0), 5, to)
    assert mended.verdict == "tiles" and mended.frame.parcel_no.tolist()[2:] == ["MENDED-1"] * (to == "none")
    (change,) = mended.closed
    lost = [] if gap > 0 else [name for name in ("left", "right") if name != owner]
    assert (change["number"], change["lost_by"]) == (owner, ",".join(lost))
    assert change["area2_mm2"] == change["area2_most_mm2"] == "40000"


def test_a_piece_goes_to_the_longest_border():
    """A gap beside a long parcel and two short ones."""
    low = here((0, 0), (30, 0), (30, 10), (0, 10))
    high = [here((0, 10.002), (15, 10.002), (15, 20), (0, 20)), here((15, 10.002), (30, 10), (30, 20), (15, 20))]
    frame = gpd.GeoDataFrame({"parcel_no": ["a", "b", "long"]}, geometry=[*high, low], crs=25832)
    around = gpd.GeoDataFrame(geometry=[box(EAST, NORTH, EAST + 30, NORTH + 20)], crs=25832)
    mended = gv.mend(gv.prepare(frame, city=around, touch=0), 5)
    assert mended.verdict == "tiles" and [one["number"] for one in mended.closed] == ["long"]
    for before, after in zip(high, mended.frame.geometry):
        assert before.equals(after), "neighbours that get nothing do not move"


def test_what_reaches_out_of_the_city_is_cut_off():
    frame = gpd.GeoDataFrame({"parcel_no": ["a"]}, geometry=[box(EAST, NORTH, EAST + 10.003, NORTH + 10)], crs=25832)
    city = gpd.GeoDataFrame(geometry=[box(EAST, NORTH, EAST + 10, NORTH + 10)], crs=25832)
    mended = gv.mend(gv.prepare(frame, city=city, touch=0), 5)
    assert mended.verdict == "tiles" and [(one["kind"], one["number"]) for one in mended.closed] == [("beyond", None)]
    assert mended.frame.geometry[0].equals(city.geometry[0])


def test_no_parcel_is_mended_away():
    thin = [box(EAST, NORTH, EAST + 10, NORTH + 10), box(EAST + 9.997, NORTH, EAST + 10, NORTH + 10)]
    frame = gpd.GeoDataFrame({"parcel_no": ["a", "thin"]}, geometry=thin, crs=25832)
    mended = gv.mend(gv.prepare(frame, touch=0), 5)
    assert mended.verdict == "tiles" and [one["number"] for one in mended.closed] == ["thin"]
    mended = gv.mend(gv.prepare(gpd.GeoDataFrame({"parcel_no": ["a", "b"]}, geometry=[thin[1]] * 2, crs=25832)), 5)
    assert mended.verdict == "does not tile" and [one["why"] for one in mended.left] == [
        "nothing would be left of a parcel"
    ]


def test_choices_that_are_none():
    prepared = gv.prepare(pair(0.004), touch=0)
    for words in ({"to": "me"}, {"width": 0}, {"width": 1001}):
        with pytest.raises(gv.Refused, match="P8"):
            gv.mend(prepared, **words)


def command(folder, *words):
    """Runs `gandovel` of this tree in a folder."""
    sources = {**os.environ, "PYTHONPATH": str(Path(__file__).resolve().parents[1] / "src")}
    words = [sys.executable, "-m", "gandovel", *words]
    return subprocess.run(words, cwd=folder, capture_output=True, text=True, env=sources)


def test_the_command_ends_by_the_verdict_and_its_layer_opens_at_once(tmp_path):
    torn(3, 3, 3, 0.004).to_file(tmp_path / "torn.gpkg")
    mend = ("mend", "torn.gpkg", "--touch", "0", "--out", "mended.gpkg")
    told = command(tmp_path, *mend, "--width", "0.5")
    assert told.returncode == 1 and "now " in told.stdout, told.stderr
    told = command(tmp_path, *mend, "--width", "30", "--json")
    answer = json.loads(told.stdout)
    assert told.returncode == 0 and answer["verdict"] == "tiles" and answer["closed"] and not answer["left"]
    again = command(tmp_path, "check", "mended.gpkg", "--touch", "0")
    assert again.returncode == 0 and "no gaps, no overlaps" in again.stdout, again.stderr
    assert len(gpd.read_file(tmp_path / "mended.gpkg", layer="changes")) == len(answer["closed"])
    command(tmp_path, "mend", "mended.gpkg", "--touch", "0", "--out", "twice.gpkg")
    assert command(tmp_path, "check", "twice.gpkg", "--touch", "0").returncode == 0, "with no change, too"


def rounded(frame, step):
    """A layer whose coordinates are rounded to a step."""

    def whole(x, y):
        return np.round(np.asarray(x) / step) * step, np.round(np.asarray(y) / step) * step

    return frame.set_geometry([transform(whole, shape) for shape in frame.geometry], crs=frame.crs)


def one_corner_finer(frame):
    """A layer of which one corner lies at the millimetre."""
    shapes = list(frame.geometry)
    (x, y), *others = shapes[10].exterior.coords[:-1]
    shapes[10] = Polygon([(x + 0.001, y + 0.002), *others])
    return frame.set_geometry(shapes, crs=frame.crs)


MIXED = {
    "one corner at the millimetre": one_corner_finer,
    "degrees of seven decimals": lambda frame: rounded(frame.to_crs(4326), 1e-7).to_crs(frame.crs),
    "another zone's centimetres": lambda frame: rounded(frame.to_crs(25833), 0.01).to_crs(frame.crs),
    "some from degrees": lambda frame: frame.set_geometry(
        [
            other if at % 3 == 0 else own
            for at, (own, other) in enumerate(
                zip(frame.geometry, rounded(frame.to_crs(4326), 1e-7).to_crs(frame.crs).geometry)
            )
        ],
        crs=frame.crs,
    ),
}


@pytest.mark.parametrize("name", MIXED)
@pytest.mark.parametrize("touch", [None, 0])
def test_registers_of_mixed_precision_are_mended_but_for_what_is_wide(name, touch):
    """Of a gap and an overlap of 200 mm, which are wider than is asked for, both are left, and nothing else."""
    frame, planted = slanted(7, 8, 8, 2, {20: 0.2, 33: -0.2})
    mended = gv.mend(gv.prepare(MIXED[name](frame), touch=touch), 150)
    assert len(planted) == 2 and mended.left == [] and mended.verdict == "does not tile"
    assert (len(mended.report.gaps), len(mended.report.overlaps), len(mended.report.slivers)) == (1, 1, 0)
    assert sorted(mended.report.faults().kind[:2]) == ["gap", "overlap"]
