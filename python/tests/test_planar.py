"""The planar graph against counted cells and points: covers and areas, exactly."""
from __future__ import annotations

from collections import Counter
from fractions import Fraction

import numpy as np
import pytest
from hypothesis import HealthCheck, given, settings, strategies as st

from gandovel.exact.planar import edges_of, graph_of, regions_of
from gandovel.exact.rings import contains, length, point_inside, twice_area

SIDE = 7
MANY = settings(max_examples=60, deadline=None, suppress_health_check=list(HealthCheck))
FAR = st.sampled_from([0, 567_123_456, 99_000_000_000])


def rings_graph(rings):
    """The graph of rings, of which each is an owner."""
    sizes = [len(ring) for ring in rings]
    return graph_of(edges_of([np.array(ring) for ring in rings]), np.repeat(np.arange(len(rings)), sizes).tolist())


def boxes(low):
    """Boxes in whole numbers, from a corner on."""
    side = st.tuples(st.integers(0, SIDE - 1), st.integers(1, SIDE)).filter(lambda it: it[0] < it[1])
    return st.tuples(side, side).map(
        lambda xy: [
            (low + x, low + y)
            for x, y in ((xy[0][0], xy[1][0]), (xy[0][1], xy[1][0]), (xy[0][1], xy[1][1]), (xy[0][0], xy[1][1]))
        ]
    )


@MANY
@given(st.data(), FAR)
def test_boxes_cover_as_counted_cells_say(data, low):
    rings = data.draw(st.lists(boxes(low), min_size=1, max_size=7))
    cells = Counter()
    for x in range(SIDE):
        for y in range(SIDE):
            here = (low + x + Fraction(1, 2), low + y + Fraction(1, 2))
            cover = tuple(
                at
                for at, ring in enumerate(rings)
                if ring[0][0] < here[0] < ring[2][0] and ring[0][1] < here[1] < ring[2][1]
            )
            cells[cover] += 2
    del cells[()]
    graph = rings_graph(rings)
    areas = Counter()
    for region in regions_of(graph, lambda face: tuple(sorted(graph.covers[face])) or None):
        assert all(set(graph.covers[face].values()) == {1} for face in region.faces)
        areas[region.label] += region.area2
    assert areas == cells


TRIANGLES = st.lists(st.tuples(st.integers(0, 40), st.integers(0, 40)), min_size=3, max_size=3).filter(
    lambda it: twice_area(it) != 0
)


@MANY
@given(
    st.lists(TRIANGLES, min_size=1, max_size=6),
    st.lists(st.tuples(st.integers(1, 4000), st.integers(1, 4000)), max_size=20),
)
def test_triangles_cover_as_points_say(triangles, points):
    """Areas by cover sum to the triangles' own, and a point lies in the one region that says who covers it."""
    rings = [ring if twice_area(ring) > 0 else ring[::-1] for ring in triangles]
    graph = rings_graph(rings)
    regions = regions_of(graph, lambda face: tuple(sorted(graph.covers[face].items())) or None)
    sums = Counter()
    for region in regions:
        assert region.area2 > 0 and region.area2 == twice_area(region.outer) + sum(map(twice_area, region.holes))
        for owner, count in region.label:
            sums[owner] += count * region.area2
        inside = point_inside(region.outer, region.holes)
        assert dict(region.label) == {at: 1 for at, ring in enumerate(rings) if contains(ring, inside)}
    assert sums == {at: twice_area(ring) for at, ring in enumerate(rings)}
    for x, y in points:
        here = (Fraction(x, 97), Fraction(y, 101))
        found = [
            it for it in regions if contains(it.outer, here) and not any(contains(hole, here) for hole in it.holes)
        ]
        cover = {at: 1 for at, ring in enumerate(rings) if contains(ring, here)}
        assert [dict(it.label) for it in found] == ([cover] if cover else [])


def test_edges_that_lie_on_one_another_and_cancel():
    graph = rings_graph([[(0, 0), (10, 0), (10, 10), (0, 10)], [(10, 2), (20, 2), (20, 8), (10, 8)]])
    side = graph.corners.index((10, 2)), graph.corners.index((10, 8))
    assert graph.nets[side] == {0: 1, 1: -1} and len(graph.covers) == 3
    whole = regions_of(graph, lambda face: "covered" if graph.covers[face] else None)
    assert [region.area2 for region in whole] == [2 * 160] and not whole[0].holes


def test_a_region_within_the_hole_of_another():
    rings = [
        [(0, 0), (30, 0), (30, 30), (0, 30)],
        [(5, 25), (25, 25), (25, 5), (5, 5)],
        [(10, 10), (20, 10), (20, 20), (10, 20)],
    ]
    graph = graph_of(edges_of([np.array(ring) for ring in rings]), [7] * 12)
    found = regions_of(graph, lambda face: 1 if graph.covers[face].get(7) else None)
    assert [(region.area2, len(region.holes)) for region in found] == [(1000, 1), (200, 0)]
    filled = regions_of(graph, lambda face: 1)
    assert [(region.area2, region.holes) for region in filled] == [(1800, [])]


@pytest.mark.parametrize("far", [0, 2**31, 10**11])
def test_crossings_are_exact_however_long_the_edges(far):
    rings = [[(-far, 0), (far + 7, 1), (0, 3 + far)], [(-far, 2), (far + 5, -1), (1, 5 + far)]]
    graph = rings_graph(rings)
    sums = Counter()
    for region in regions_of(graph, lambda face: tuple(graph.covers[face]) or None):
        for owner in region.label:
            sums[owner] += region.area2
    assert sums == {0: twice_area(rings[0]), 1: twice_area(rings[1])}


def test_lengths_are_rounded_down_to_a_part_of_a_millimetre():
    assert length((0, 0), (3, 4)) == 5 << 32
    assert length((0, 0), (1, 1)) == 6074000999  # 2**32 * sqrt 2 is 6074000999.9..
    assert length((Fraction(1, 3), 0), (Fraction(4, 3), 0)) == 1 << 32
