"""Properties: what tiles is accepted and what does not is not, whatever the floats; preparing twice changes nothing."""
from __future__ import annotations

from fractions import Fraction

import geopandas as gpd
import numpy as np
import pytest
from hypothesis import HealthCheck, given, settings, strategies as st
from shapely.errors import ShapelyError
from shapely.geometry import MultiPoint, Polygon

import gandovel as gv
from gandovel.exact.rings import twice_area
from gandovel.faults.polygons import faults_of
from gandovel.exact.grid import twice_area as ring_area
from gandovel.exact.holes import cut_holes
from gandovel.exact.noding import points_of
from gandovel.shapes import bounds_of, box_of, common_parts, shapes_of

FEW = settings(max_examples=12, deadline=None, suppress_health_check=list(HealthCheck))
MANY = settings(max_examples=60, deadline=None, suppress_health_check=list(HealthCheck))
STEPS = st.lists(st.integers(2, 40), min_size=2, max_size=4)


def tiling(columns, rows, slant, third):
    """Strips of rational cells, each row's cuts moved by a part of its height: T junctions on slanting rows.

    Cells are lists of corners (metres, Fractions): rows of height rows[j] whose lines rise by `slant` a metre.
    """
    width, cells, low = sum(columns), [], Fraction(0)
    for at, height in enumerate(rows):
        cuts, x = [Fraction(0)], Fraction(0)
        for step in columns[:-1]:
            x += step
            cuts.append(x + Fraction(at, third))
        cuts.append(Fraction(width))
        for left, right in zip(cuts, cuts[1:]):
            cells.append(
                [
                    (left, low + left * slant),
                    (right, low + right * slant),
                    (right, low + height + right * slant),
                    (left, low + height + left * slant),
                ]
            )
        low += height
    return cells


def layer(cells):
    """Cells as parcels, coordinates as the nearest floats, far from the origin."""
    shapes = [Polygon([(float(x + 561234), float(y + 5934567)) for x, y in cell]) for cell in cells]
    return gpd.GeoDataFrame({"parcel_no": [str(at) for at in range(len(cells))]}, geometry=shapes, crs=25832)


SLANTS = st.fractions(Fraction(-1, 2), Fraction(1, 2), max_denominator=97)


@FEW
@given(STEPS, STEPS, SLANTS, st.integers(3, 7))
def test_a_rational_tiling_is_accepted(columns, rows, slant, third):
    prepared = gv.prepare(layer(tiling(columns, rows, slant, third)))
    assert len(gv.check(prepared)) == 0


@FEW
@given(STEPS, STEPS, st.integers(3, 7), st.integers(0, 99), st.sampled_from([-1, 1]))
def test_a_square_millimetre_is_found_and_nothing_else(columns, rows, third, which, way):
    cells = tiling(columns, rows, Fraction(0), 1)
    inner = [at for at in range(len(cells)) if (at + 1) % len(columns)]
    cell = cells[inner[which % len(inner)]]
    x1, y1 = cell[1]
    middle = [
        (x1, y1 + Fraction(1, 1)),
        (x1 + way * Fraction(1, 1000), y1 + Fraction(1001, 1000)),
        (x1, y1 + Fraction(1002, 1000)),
    ]
    cells[cells.index(cell)] = [cell[0], cell[1], *middle, cell[2], cell[3]]
    found = gv.check(gv.prepare(layer(cells), touch=0))
    assert list(zip(found.kind, found.area2_mm2)) == [("gap" if way < 0 else "overlap", 2)]


@FEW
@given(STEPS, STEPS, SLANTS, st.integers(3, 7))
def test_preparing_what_is_prepared_changes_nothing(columns, rows, slant, third):
    once = gv.prepare(layer(tiling(columns, rows, slant, third)))
    again = gv.prepare(once.frame()[["number", "geometry"]], number="number", touch=0)
    assert again.told["put_in"] == 0 and again.told["moved"] == 0
    assert len(once.islands) == len(again.islands) == 1
    assert len(once.islands[0].parcels.rings) == len(again.islands[0].parcels.rings) == len(columns) * len(rows)
    for one, other in zip(once.islands[0].parcels.rings, again.islands[0].parcels.rings):
        assert {tuple(corner) for corner in one} == {tuple(corner) for corner in other} and len(one) == len(other)


HOLES = st.sets(st.tuples(st.integers(0, 5), st.integers(0, 5)), min_size=1, max_size=18)


@MANY
@given(HOLES, st.integers(1, 10))
def test_holes_are_cut_into_simple_rings_of_the_same_area(places, size):
    outer = np.array([(-1, -3), (70, 0), (66, 71), (2, 63)])
    corners = [(0, 0), (0, size), (1 + size // 2, size - 1)]
    holes = [np.array([(10 * x + 3 + dx, 10 * y + 3 + dy) for dx, dy in corners]) for x, y in places]
    holes = [hole if ring_area(hole) < 0 else hole[::-1] for hole in holes if ring_area(hole) != 0]
    pieces = cut_holes(outer, holes)
    assert pieces is not None
    assert all(Polygon(piece).is_valid and Polygon(piece).exterior.is_simple for piece in pieces)
    assert sum(map(ring_area, pieces)) == ring_area(outer) + sum(map(ring_area, holes))
    corners = {tuple(corner) for ring in (outer, *holes) for corner in ring.tolist()}
    assert all(tuple(corner) in corners for piece in pieces for corner in piece.tolist())


def test_holes_that_touch_the_border_and_one_another():
    outer = np.array([(0, 0), (10, 0), (10, 10), (0, 10)])
    triangles = [(0, 0), (2, 4), (4, 2)], [(4, 2), (4, 6), (8, 4)], [(8, 4), (8, 8), (10, 10)]
    holes = [np.array(triangle) for triangle in triangles]
    pieces = cut_holes(outer, [hole if ring_area(hole) < 0 else hole[::-1] for hole in holes])
    assert all(Polygon(piece).exterior.is_simple for piece in pieces)
    assert sum(map(ring_area, pieces)) == 200 - sum(abs(ring_area(hole)) for hole in holes)


HALF_LEFT = [(0, 0), (Fraction(7, 6), 0), (Fraction(5, 3), 3), (0, 3)]
COMMON = [(Fraction(7, 6), 0), (3, 0), (3, 3), (Fraction(5, 3), 3)]
BELOW = [(Fraction(7, 6), 0), (1, -1), (3, 0)]
BEYOND = [(3, 0), (5, 1), (2, 5), (Fraction(5, 3), 3), (3, 3)]


def test_crossing_edges_give_exact_fractions():
    """A square and a triangle, whose lower side goes through the square's corner (3, 0), as the program's edges do."""
    square, triangle = [(0, 0), (3, 0), (3, 3), (0, 3)], [(1, -1), (3, 0), (5, 1), (2, 5)]
    edges = np.array([(*a, *b, 1) for ring in (square, triangle) for a, b in zip(ring, ring[1:] + ring[:1])])
    faults = [(fault.depth, fault.area2, from_least(fault.outer), fault.holes) for fault in faults_of(edges)]
    expected = [
        (1, Fraction(17, 2), HALF_LEFT),
        (1, Fraction(11, 6), BELOW),
        (2, Fraction(19, 2), COMMON),
        (1, Fraction(32, 3), BEYOND),
    ]
    assert faults == [(depth, area2, from_least(outer), []) for depth, area2, outer in expected]
    assert sum(fault[0] * fault[1] for fault in faults) == twice_area(square) + twice_area(triangle) == 18 + 22


def from_least(ring):
    """The ring from its least corner on."""
    at = ring.index(min(ring))
    return ring[at:] + ring[:at]


@MANY
@given(
    st.lists(
        st.lists(st.tuples(st.integers(0, 40), st.integers(0, 40)), min_size=3, max_size=7), min_size=2, max_size=5
    )
)
def test_common_parts_are_those_of_shapely(corners):
    """Lines and points and nothing in common too; and so the box around."""
    shapes = [MultiPoint(some).convex_hull for some in corners]
    blobs = [shape.wkb for shape in shapes]
    pairs = [(i, j) for i in range(len(shapes)) for j in range(len(shapes))]
    parts, areas = common_parts(blobs, blobs, pairs)
    cuts = [shapes[i].intersection(shapes[j]) for i, j in pairs]
    assert parts == [cut.wkb for cut in cuts] and areas.tolist() == [cut.area for cut in cuts]
    assert [shape.area for shape in shapes_of(parts)] == areas.tolist()
    polygons = [shape for shape in shapes if shape.geom_type == "Polygon"]
    assert not polygons or box_of(shape.wkb for shape in polygons) == bounds_of(polygons)


def test_a_shape_that_can_not_be_cut_is_told_by_shapely():
    bowtie = Polygon([(0, 0), (2, 2), (2, 0), (0, 2)]).wkb
    with pytest.raises(ShapelyError):
        common_parts([bowtie], [Polygon([(0, 1), (3, 1), (3, 3)]).wkb], [(0, 0)])


@MANY
@given(st.lists(st.tuples(st.integers(-5, 5), st.integers(-5, 5)), min_size=1, max_size=40), st.booleans())
def test_places_are_sorted_whether_they_are_whole_or_not(corners, far):
    """Whole coordinates are sorted at once where their box is small; the answer is as that of any coordinates."""
    spread = np.array(corners, dtype=float) * (10.0**10 if far else 1.0)
    whole, index = points_of(spread)
    halves, other = points_of(spread + 0.5)
    assert (whole + 0.5).tolist() == halves.tolist() and index.tolist() == other.tolist()
    assert whole[index].tolist() == spread.tolist() and whole.tolist() == sorted(
        map(list, {tuple(it) for it in spread})
    )
