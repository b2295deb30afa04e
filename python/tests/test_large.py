"""Layers that are cut into districts say what one run of the whole layer does: verdict, faults, areas, numbers, pairs.

GANDOVEL_LONG=1 takes 20,000 parcels in 9 districts, else a tenth of them, and more random layers.
"""
from __future__ import annotations

import os
import random
import signal
from pathlib import Path
from typing import Any, List, Tuple

import geopandas as gpd
import numpy as np
import pytest
from hypothesis import HealthCheck, given, settings
from hypothesis import strategies as st
from shapely.affinity import affine_transform, translate
from shapely.geometry import Point, Polygon

import gandovel
from gandovel import Refused
from gandovel.cli import main
from gandovel.exact.rings import twice_area
from gandovel.large import Cutting, cut_by, is_large
from gandovel.large import compose, cutting, frames, pieces, runs, tiles, verdict
from gandovel.large.cutting import cut, partition_faults
from gandovel.large.pieces import Open, districts_of
from gandovel.large.verdict import check_island
from gandovel.exact.noding import touches
from gandovel.out.report import report
from gandovel.program.untiled_overlays import filled
from registers import register

LONG = bool(os.environ.get("GANDOVEL_LONG"))
SIDE = 10.0
"""A parcel's side, in metres."""


def grid(columns: int, rows: int, seed: int = 1, bend: float = 0.8) -> List[Polygon]:
    """Bent parcels side by side that tile a rectangle, on whole millimetres."""
    pick = np.random.default_rng(seed)
    x, y = np.meshgrid(np.arange(columns + 1) * SIDE, np.arange(rows + 1) * SIDE)
    nodes = np.round(np.stack([x, y], axis=2), 3)
    nodes[1:-1, 1:-1] += np.round(pick.uniform(-bend, bend, (rows - 1, columns - 1, 2)), 3)
    nodes = np.round(nodes, 3)
    return [
        Polygon([nodes[j, i], nodes[j, i + 1], nodes[j + 1, i + 1], nodes[j + 1, i]])
        for j in range(rows)
        for i in range(columns)
    ]


def frame(shapes: List[Polygon], column: str = "parcel_no", first: str = "P") -> gpd.GeoDataFrame:
    """A layer of shapes, numbered `P1`, `P2` .."""
    return gpd.GeoDataFrame({column: [f"{first}{at}" for at in range(1, len(shapes) + 1)]}, geometry=shapes, crs=25832)


def turned(layer: gpd.GeoDataFrame) -> gpd.GeoDataFrame:
    """The layer turned by 17 degrees, far from the origin."""
    c, s = np.cos(np.radians(17)), np.sin(np.radians(17))
    return layer.set_geometry(
        [affine_transform(it, [c, -s, s, c, 561_234.567, 5_934_567.891]) for it in layer.geometry]
    )


def said(answer: Any) -> Tuple[Any, ...]:
    """What a report says, in an order of its own."""

    def faults(of: gpd.GeoDataFrame) -> List[Any]:
        return sorted((it.layer, it.area2_mm2, it.depth, it.numbers) for it in of.itertuples())

    parcels = sorted(zip(answer.parcels.parcel_no, answer.parcels.status))
    pairs = sorted(zip(answer.split.parcel_no, answer.split.zones))
    return faults(answer.gaps), faults(answer.overlaps), pairs, parcels, sorted(answer.beyond)


def same(prepared: Any, most: int) -> Any:
    """The report on a register that is cut, after it was compared with that on the whole; how many districts."""
    whole = report(prepared)
    with cut_by(Cutting(most, jobs=2)):
        answer = report(prepared)
        assert is_large(prepared.islands[0].parcels.rings)
        count = sum(len(districts_of(island, "parcels")) for island in prepared.islands)
    assert said(answer) == said(whole) and count > 1
    return answer, count


@pytest.mark.parametrize("faults", [False, True])
def test_a_register_with_holes_enclaves_and_faults(faults):
    prepared = gandovel.prepare(*register(faults))
    answer, count = same(prepared, 40)
    assert count >= 6 and bool(len(answer.gaps)) == faults


PLANTED = (
    "gap",
    "overlap",
    "a parcel across a border",
    "a sliver along a border",
    "a doubled parcel",
    "a moved parcel",
)


def planted(shapes: List[Polygon], columns: int, kind: str) -> List[Polygon]:
    """The shapes with a fault of a kind, over the middle, where borders of districts are."""
    middle, shapes = (len(shapes) // columns // 2) * columns + columns // 2, list(shapes)
    here = shapes[middle]
    if kind == "gap":
        del shapes[middle]
    elif kind == "overlap":
        shapes[middle] = here.union(shapes[middle - 1].intersection(here.buffer(1))).buffer(0)
        shapes[middle] = Polygon(np.round(np.asarray(shapes[middle].exterior.coords), 3))
    elif kind == "a parcel across a border":
        shapes[middle] = here.union(shapes[middle - 1]).union(shapes[middle - columns])
        for at in sorted((middle - 1, middle - columns), reverse=True):
            del shapes[at]
    elif kind == "a sliver along a border":
        corners = np.asarray(here.exterior.coords)[:-1]
        corners[0] += 0.01
        shapes[middle] = Polygon(corners)
    elif kind == "a doubled parcel":
        shapes.append(here)
    else:
        shapes[middle] = translate(here, 0.25, 0.125)
    return shapes


@pytest.mark.parametrize("kind", PLANTED)
def test_planted_faults(kind):
    columns, rows, most = (160, 125, 2_600) if LONG else (50, 40, 260)
    shapes = planted(grid(columns, rows), columns, kind)
    zones = frame(grid(3, 3, 2, 0.0), "zone", "Z")
    zones = zones.set_geometry([affine_transform(it, [columns / 3, 0, 0, rows / 3, 0, 0]) for it in zones.geometry])
    prepared = gandovel.prepare(frame(shapes), zones)
    answer, count = same(prepared, most)
    assert count >= 9
    assert (len(answer.gaps) + len(answer.overlaps) == 0) == (kind == "a parcel across a border")


def test_corners_that_only_one_side_of_a_border_has():
    shapes = grid(10, 10)
    many = [Polygon(np.repeat(np.asarray(it.exterior.coords)[:-1], 1, axis=0)) for it in shapes]
    for at, it in enumerate(many):
        if at % 2:
            corners = np.asarray(it.exterior.coords)
            middles = (corners[:-1] + corners[1:]) / 2
            many[at] = Polygon(np.stack([corners[:-1], middles], axis=1).reshape(-1, 2))
    prepared = gandovel.prepare(turned(frame(many)), turned(frame(grid(10, 1), "zone", "Z")), touch=1.0)
    answer, count = same(prepared, 20)
    assert count > 4


@pytest.mark.parametrize("kind", [None, "gap", "a sliver along a border"])
def test_districts_of_districts(monkeypatch, kind):
    """Where the outlines have more corners than a layer may, they are cut in turn, and the law is used twice."""
    columns, rows = 16, 12
    shapes = grid(columns, rows)
    prepared = gandovel.prepare(frame(planted(shapes, columns, kind) if kind else shapes))
    whole = report(prepared)
    monkeypatch.setattr(cutting, "MOST_IN_ALL", 130)
    with cut_by(Cutting(12, jobs=2)):
        assert said(report(prepared)) == said(whole)
        levels = pieces.levels_of_island(prepared.islands[0], "parcels")
    assert len(levels) > 1 and len(levels[-1]) < len(levels[0]) and (kind is None) == (whole.verdict == "tiles")


def test_groups_of_districts_that_are_exchanged(monkeypatch):
    monkeypatch.setattr(cutting, "MOST_IN_ALL", 130)
    made = cutting.levels_of

    def exchanged(rings: Any, most: int) -> Any:
        levels = made(rings, most)
        are_exchanged(levels[1])
        return levels

    monkeypatch.setattr(pieces, "levels_of", exchanged)
    with cut_by(Cutting(12)), pytest.raises(Open):
        check_island(island_of(16, 12))


def test_an_outline_that_is_walked_is_the_one_that_lines_make(monkeypatch):
    rings = [*island_of(9, 7).parcels.rings]
    plain = cut(rings, 9)
    monkeypatch.setattr(cutting, "_one_loop", lambda *_: None)
    assert len(plain) > 6
    for outline, same_outline in zip(plain.outlines, cut(rings, 9).outlines):
        assert Polygon(outline).equals(Polygon(same_outline))


@settings(
    max_examples=60 if LONG else 6,
    deadline=None,
    suppress_health_check=[HealthCheck.too_slow, HealthCheck.filter_too_much],
)
@given(st.integers(0, 10**6), st.integers(3, 8), st.integers(3, 8), st.integers(2, 20))
def test_random_layers_and_cuts(seed, columns, rows, most):
    pick, shapes = random.Random(seed), grid(columns, rows, seed)
    for _ in range(pick.randint(0, 3)):
        at, what = pick.randrange(len(shapes)), pick.randrange(3)
        if what == 0:
            del shapes[at]
        elif what == 1:
            shapes[at] = translate(shapes[at], pick.randint(-900, 900) / 1000, pick.randint(-900, 900) / 1000)
        else:
            shapes.append(shapes[at])
    prepared = gandovel.prepare(frame(shapes), frame(grid(2, 2, seed), "zone", "Z"))
    with cut_by(Cutting(most)):
        if not all(is_large(island.parcels.rings) for island in prepared.islands):
            return
    whole = report(prepared)
    with cut_by(Cutting(most, jobs=1)):
        assert said(report(prepared)) == said(whole)


def test_locating_overlaying_and_checking_a_cut_layer():
    shapes = grid(9, 9)
    parcels, zones = frame(shapes), frame(grid(3, 3, 5), "zone", "Z")
    zones = zones.set_geometry([affine_transform(it, [3, 0, 0, 3, 0, 0]) for it in zones.geometry])
    corners = [Point(it.exterior.coords[2]) for it in shapes[::7]]
    inside = [it.representative_point() for it in shapes[::5]]
    points = gpd.GeoDataFrame(geometry=[*corners, *inside, Point(-5, 5)], crs=25832)
    plain = gandovel.locate(parcels, points), gandovel.overlay(parcels, zones), gandovel.check(parcels)
    with cut_by(Cutting(12)):
        parts = gandovel.locate(parcels, points), gandovel.overlay(parcels, zones), gandovel.check(parcels)
    for one, other in zip(plain, parts):
        assert one.drop(columns="geometry").equals(other.drop(columns="geometry"))
    assert set(plain[0]["where"]) == {"inside", "edge", "outside"} and not len(plain[2])
    with cut_by(Cutting(12)), pytest.raises(Refused, match="H2"):
        gandovel.locate(frame(shapes[:40] + shapes[41:]), points)


@pytest.mark.parametrize("kind", [None, "gap", "a moved parcel"])
@pytest.mark.parametrize("most", [(20, 10**6), (10**6, 150)])
def test_more_zones_than_a_layer_has_are_taken_in_shares(monkeypatch, most, kind):
    """Fine zones under few parcels, and parcels with many corners: no run has more than what one takes."""
    shapes = planted(grid(6, 6), 6, kind) if kind else grid(6, 6)
    zones = frame(grid(20, 20, 2), "zone", "Z")
    zones = zones.set_geometry([affine_transform(it, [0.3, 0, 0, 0.3, 0, 0]) for it in zones.geometry])
    prepared = gandovel.prepare(frame(shapes), zones, touch=1.0)
    whole = report(prepared)
    monkeypatch.setattr(frames, "A_SHARE", most[0])
    monkeypatch.setattr(frames, "CORNERS_OF_A_SHARE", most[1])
    sizes, written = [], frames.write_overlay

    def write(folder: Path, layers: Any, *words: Any) -> Any:
        sizes.extend((len(it), sum(map(len, it))) for it in layers)
        return written(folder, layers, *words)

    monkeypatch.setattr(frames, "write_overlay", write)
    with cut_by(Cutting(12, jobs=2)):
        assert said(report(prepared)) == said(whole)
    assert len(sizes) > 30 and max(rings for rings, _ in sizes) <= most[0] and max(all_ for _, all_ in sizes) <= most[1]


def test_no_district_is_larger_than_a_layer(monkeypatch, capsys):
    assert is_large([np.zeros((4, 2))] * 65_537) and not is_large([np.zeros((4, 2))] * 65_536)
    with cut_by(Cutting(100_000)):
        assert is_large([np.zeros((4, 2))] * 65_537)
    with pytest.raises(SystemExit):
        main(["check", "parcels.gpkg", "--parcels-a-district", "50001"])
    assert "a whole number from 1 to 50000" in capsys.readouterr().err


def island_of(columns: int = 8, rows: int = 8) -> Any:
    """A small register that tiles, as an island."""
    return gandovel.prepare(frame(grid(columns, rows))).islands[0]


def test_every_ring_is_in_one_district_and_the_verdict_counts_them():
    island = island_of()
    districts = cut(island.parcels.rings, 10)
    assert len(districts) >= 7 and not partition_faults(districts, 64)
    assert all(len(rows) <= 10 for rows in districts.rows)
    with cut_by(Cutting(10)):
        answer = check_island(island)
    assert (answer.tiles, answer.count, answer.area2) == (True, 64, 2 * 80_000**2)


def broken_district(monkeypatch, change):
    """Districts that a fault of the cutter's would make."""

    def wrong(rings, most):
        districts = cut(rings, most)
        change(districts)
        return districts

    monkeypatch.setattr(cutting, "cut", wrong)


def lacks_one(districts):
    del districts.rows[2], districts.outlines[2]


def has_one_twice(districts):
    districts.rows.append(districts.rows[0])
    districts.outlines.append(districts.outlines[0])


def are_exchanged(districts):
    districts.outlines[0], districts.outlines[1] = districts.outlines[1], districts.outlines[0]


def is_moved(districts):
    districts.outlines[1] = districts.outlines[1] + 10


@pytest.mark.parametrize("change", [lacks_one, has_one_twice])
def test_districts_that_do_not_have_every_ring_once(monkeypatch, change):
    broken_district(monkeypatch, change)
    with cut_by(Cutting(10)), pytest.raises(Open, match="T11 the verdict is open: row .* is in .* districts"):
        check_island(island_of())


@pytest.mark.parametrize("change", [are_exchanged, is_moved])
def test_outlines_that_are_none_of_their_rings(monkeypatch, change):
    """All parcels tile; in the wrong outlines no run says so, and what the runs say adds up to nothing: open, not
    tiles."""
    broken_district(monkeypatch, change)
    with cut_by(Cutting(10)), pytest.raises(Open, match="T11 .*parcels cross districts") as caught:
        check_island(island_of())
    assert caught.value.status == 3


def test_a_run_in_another_outline_is_found(monkeypatch):
    written = verdict.with_parts

    def write(folder: Path, *words: Any) -> Any:
        sums = written(folder, *words)
        (folder / "d2/city.shp").write_bytes((folder / "d1/city.shp").read_bytes())
        return sums

    monkeypatch.setattr(verdict, "with_parts", write)
    with cut_by(Cutting(10)), pytest.raises(Open, match="district 2 was not judged in the outline"):
        check_island(island_of())


def test_outlines_are_the_programs(monkeypatch):
    """Each district is judged in the outline that `part --all` wrote, where the outlines tile; else in that of its
    record."""
    asked: List[List[str]] = []
    ask = pieces.ask
    monkeypatch.setattr(pieces, "ask", lambda words: (asked.append(words), ask(words))[1])
    tests, outlines = verdict.test_outlines, []

    def kept(folder: Path, plan: Any, sums: Any) -> None:
        outlines.extend((folder / piece.name / "city.shp").read_bytes() for piece in plan.pieces)
        tests(folder, plan, sums)

    monkeypatch.setattr(verdict, "test_outlines", kept)
    island, moved = island_of(), cut(island_of().parcels.rings, 10)
    with cut_by(Cutting(10)):
        assert check_island(island).tiles
    assert [words[0] for words in asked] == ["part"] and asked[0][3] == "--all" and len(outlines) == len(moved) + 1
    for outline, ring in zip(outlines[1:], moved.outlines):
        assert Polygon(read_content(outline)).equals(Polygon(ring))


def read_content(data: bytes) -> Any:
    """The corners of the one ring of a shapefile."""
    return np.frombuffer(data, "<f8", offset=156).reshape(-1, 2)


def test_a_run_without_an_answer_leaves_the_verdict_open(monkeypatch):
    asked = runs.run_tool

    def dies(arguments: List[str]) -> Any:
        if "d3" in arguments[1]:
            raise Refused("T2", "killed")
        return asked(arguments)

    monkeypatch.setattr(runs, "run_tool", dies)
    with cut_by(Cutting(10)), pytest.raises(Open, match=r"not judged: district 3 \(T2 killed\)"):
        check_island(island_of())


def test_an_open_verdict_is_status_3_and_one_line(tmp_path, monkeypatch, capsys):
    frame(grid(8, 8)).to_file(tmp_path / "parcels.gpkg", driver="GPKG")
    asked = runs.run_tool

    def dies(arguments: List[str]) -> Any:
        if "/d3/" in arguments[1]:
            raise Refused("T2", "killed")
        return asked(arguments)

    monkeypatch.setattr(runs, "run_tool", dies)
    words = ["--number", "parcel_no", "--parcels-a-district", "10"]
    assert main(["check", str(tmp_path / "parcels.gpkg"), *words]) == 3
    assert capsys.readouterr().err.splitlines()[-1].startswith("error: parcels: T11 the verdict is open: not judged")


def with_a_slit(shapes: List[Polygon]) -> List[Polygon]:
    """The shapes of 2 by 2, the second one half a metre narrower: a slit that is open to the outside."""
    corners = np.asarray(shapes[1].exterior.coords)[:-1] + np.array([(0.5, 0), (0, 0), (0, 0), (0.5, 0)])
    return [shapes[0], Polygon(corners), *shapes[2:]]


@pytest.mark.parametrize("cut_at", [None, "2"])
@pytest.mark.parametrize("change, status", [(list, 0), (lambda it: it[:4] + it[5:], 1), (with_a_slit, 3)])
def test_a_status_by_the_verdict(tmp_path, capsys, change, status, cut_at):
    shapes = change(grid(2, 2, bend=0.0) if change is with_a_slit else grid(3, 3))
    frame(shapes).to_file(tmp_path / "parcels.gpkg", driver="GPKG")
    more = ["--parcels-a-district", cut_at] if cut_at else []
    words = ["--number", "parcel_no", *more]
    assert main(["check", str(tmp_path / "parcels.gpkg"), *words]) == status
    assert main(["report", str(tmp_path / "parcels.gpkg"), "--out", str(tmp_path / "r.gpkg"), *words]) == status
    assert "error: " not in capsys.readouterr().err and (tmp_path / "r.gpkg").is_file()


@pytest.mark.parametrize("place", ["/d2/", "/all/"])
def test_a_ring_that_is_too_long_is_told_as_the_whole_layers(monkeypatch, place):
    """A record of a district is no record of the layer, and an outline is no parcel."""
    asked, island = runs.run_tool, island_of()
    row = int(cut(island.parcels.rings, 10).rows[1][2])

    def too_long(arguments: List[str]) -> Any:
        return ("", Refused("H3", "3", "parcels", 3)) if place in arguments[1] else asked(arguments)

    monkeypatch.setattr(runs, "run_tool", too_long)
    with cut_by(Cutting(10)), pytest.raises(Refused) as caught:
        check_island(island)
    told = (caught.value.code, caught.value.record, caught.value.text)
    assert told == ("H3", row + 1, f"{row + 1}") if place == "/d2/" else "layer of districts (parcels: H3 3)" in told[2]


def test_counts_that_differ_leave_the_verdict_open(monkeypatch):
    answer_of = verdict.answer_of_check

    def fewer(printed: str, refused: Any, records: int) -> Any:
        answer = answer_of(printed, refused, records)
        answer.area2 -= 2
        return answer

    monkeypatch.setattr(verdict, "answer_of_check", fewer)
    with cut_by(Cutting(10)), pytest.raises(Open, match="the districts have"):
        check_island(island_of())


def test_a_full_disk(monkeypatch):
    def full(path: Path, rings: Any) -> None:
        if "d2" in str(path):
            raise OSError(28, "No space left on device")
        written(path, rings)

    written = pieces.write_rings
    monkeypatch.setattr(pieces, "write_rings", full)
    with cut_by(Cutting(10)), pytest.raises(Refused, match="P14 .*No space left on device: set TMPDIR"):
        check_island(island_of())


@pytest.mark.parametrize("jobs", [1, 2])
def test_processes_that_write_districts(monkeypatch, jobs):
    monkeypatch.setattr(pieces, "FORKED", 0)
    with cut_by(Cutting(20, jobs=jobs)):
        assert check_island(island_of()).tiles


def test_a_process_that_writes_districts_is_killed(monkeypatch):
    parent = os.getpid()

    def dies(path: Path, rings: Any) -> None:
        if os.getpid() != parent:
            os.kill(os.getpid(), signal.SIGKILL)

    monkeypatch.setattr(pieces, "FORKED", 0)
    written = pieces.write_rings
    monkeypatch.setattr(pieces, "write_rings", lambda path, rings: (dies(path, rings), written(path, rings)))
    with cut_by(Cutting(20, jobs=2)), pytest.raises(Open, match="a process that wrote districts was killed"):
        check_island(island_of())


@pytest.mark.parametrize("engine", ["parallel", "dask"])
def test_engines_judge_districts(engine):
    island = island_of()
    with cut_by(Cutting(20, engine, 2)):
        answer = check_island(island)
    assert (answer.tiles, answer.count) == (True, 64)


def test_noding_in_tiles_is_noding(monkeypatch):
    pick = np.random.default_rng(3)
    points = np.round(pick.uniform(0, 1000, (400, 2)), 0)
    start, end = pick.integers(0, 400, 900), pick.integers(0, 400, 900)
    wanted = np.arange(400)
    plain = touches(points, start, end, wanted, 0.4, 0.3)
    monkeypatch.setattr(tiles, "A_TILE", 60)
    parts = tiles.touches_in_tiles(touches, points, start, end, wanted, 0.4, 0.3)
    assert len(plain) > 100 and np.array_equal(plain, parts)


def test_edges_that_cancel_in_parts():
    long_side = np.array([[0, 0, 100, 0, 1]])
    parts = np.array([[60, 0, 0, 0, 1], [100, 0, 60, 0, 1], [7, 7, 9, 9, 2]])
    ring = np.array([(7, 7), (8, 8), (9, 9)])
    assert compose.added_up([long_side, parts], [ring]).tolist() == [[7, 7, 8, 8, 2], [8, 8, 9, 9, 2]]
    assert not len(compose.added_up([], [ring]))


def test_a_large_geopackage_is_read_as_fiona_reads_it(tmp_path, monkeypatch):
    from gandovel.large import reading
    from gandovel.reading.sources import frame_of

    layer = frame(grid(6, 6)).assign(value=np.arange(36) / 7, count=range(36), text=[None, *"ab" * 17, "ä"])
    layer.to_file(tmp_path / "layer.gpkg", layer="layer", driver="GPKG")
    plain = frame_of(str(tmp_path / "layer.gpkg"), "parcels")
    monkeypatch.setattr(reading, "MANY", 10)
    fast = frame_of(str(tmp_path / "layer.gpkg"), "parcels")
    assert list(plain.columns) == list(fast.columns) and plain.crs == fast.crs
    assert plain.geometry.geom_equals_exact(fast.geometry, 0).all()
    for column in plain.columns.drop("geometry"):
        assert (
            plain[column].where(plain[column].notna(), "-").tolist()
            == fast[column].where(fast[column].notna(), "-").tolist()
        )


def test_what_fills_an_area_has_room_for_its_neighbours_corners():
    """Of a parcel of 4,000 corners, the area around it is cut into rings of half as many as the program takes."""
    angles = np.linspace(0, 2 * np.pi, 4000, endpoint=False)
    ring = np.rint(np.column_stack([np.cos(angles), np.sin(angles)]) * 10**7).astype(np.int64)
    frame = np.array([(-2, -2), (2, -2), (2, 2), (-2, 2)], dtype=np.int64) * 10**7
    rings = filled(frame, [ring])
    assert len(rings) > 2 and max(map(len, rings[1:])) <= 2048
    assert sum(map(twice_area, rings)) == twice_area(frame)
