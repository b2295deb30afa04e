"""Shapes and their bytes, by whichever Shapely is here, and by the calls of the other one.

Where this is Shapely 1.8, `CALLS` stands in for the calls of Shapely 2, as its manual has them: so it is tried which
are made, with what, and what becomes of their answers. Shapely 2 itself is tried by scripts/try_shapely2.
"""
from __future__ import annotations

from types import SimpleNamespace

import numpy as np
import pytest
import shapely
import shapely.wkb
from shapely.geometry import LineString, MultiPolygon, Point, Polygon, box

from gandovel import shapes

SQUARE = np.array([(0, 0), (4, 0), (4, 4), (0, 4)], dtype=float)
HOLE = np.array([(1, 1), (1, 2), (2, 2), (2, 1)], dtype=float)
BOWTIE = np.array([(0, 0), (2, 2), (2, 0), (0, 2)], dtype=float)
KINDS = [
    box(0, 0, 2, 1),
    None,
    Point(3, 4),
    LineString([(0, 0), (1, 5)]),
    Polygon(),
    Polygon([(0, 0, 7), (1, 0, 8), (0, 1, 9)]),
]


def objects(items):
    """An array of objects, of which none is taken apart."""
    found = np.empty(len(items), dtype=object)
    for at, it in enumerate(items):
        found[at] = it
    return found


def of_arrays(call):
    """A call of Shapely 2: it takes arrays of objects, and nothing else."""

    def called(*arrays, **words):
        assert all(isinstance(it, np.ndarray) and it.dtype == object for it in arrays), arrays
        return call(*arrays, **words)

    return called


def to_wkb(some, output_dimension, byte_order):
    assert (output_dimension, byte_order) == (3, 1)
    return objects([None if it is None else it.wkb for it in some])


def from_ragged_array(kind, corners, offsets):
    assert kind == 3 and len(offsets) == 2 and len(corners) == offsets[0][-1]
    ends, owned = (it.tolist() for it in offsets)
    rings = [corners[begin:end].tolist() for begin, end in zip(ends, ends[1:])]
    assert all(ring[0] == ring[-1] for ring in rings)
    return objects([Polygon(rings[begin], rings[begin + 1 : end]) for begin, end in zip(owned, owned[1:])])


def total_bounds(some):
    boxes = [it.bounds for it in some if it is not None and not it.is_empty]
    ends = np.array(boxes or [[np.nan] * 4])
    return np.concatenate([ends[:, :2].min(axis=0), ends[:, 2:].max(axis=0)])


CALLS = SimpleNamespace(
    GeometryType=SimpleNamespace(POLYGON=3),
    from_ragged_array=from_ragged_array,
    to_wkb=of_arrays(to_wkb),
    from_wkb=of_arrays(lambda some: objects([None if it is None else shapely.wkb.loads(it) for it in some])),
    is_valid=of_arrays(lambda some: np.array([it.is_valid for it in some], dtype=bool)),
    area=of_arrays(lambda some: np.array([it.area for it in some], dtype=float)),
    intersection=of_arrays(lambda ones, others: objects([a.intersection(b) for a, b in zip(ones, others)])),
    total_bounds=of_arrays(total_bounds),
)
"""What this package calls of Shapely 2."""


@pytest.fixture(params=["as it is", "arrays"])
def either(request, monkeypatch):
    """Both ways: one shape at a time, and arrays."""
    if request.param == "arrays" and not shapes.TAKES_ARRAYS:
        monkeypatch.setattr(shapes, "TAKES_ARRAYS", True)
        for name, call in vars(CALLS).items():
            monkeypatch.setattr(shapely, name, call, raising=False)


def test_bytes_of_shapes_and_back(either):
    blobs = shapes.wkb_of(KINDS)
    assert blobs == [None if it is None else it.wkb for it in KINDS]
    again = shapes.shapes_of(iter(blobs))
    expected = [None if it is None else shapely.wkb.loads(it.wkb).wkt for it in KINDS]
    assert isinstance(again, list) and [None if it is None else it.wkt for it in again] == expected
    assert shapes.wkb_of(iter(KINDS)) == shapes.wkb_of(objects(KINDS)) == blobs
    assert shapes.wkb_of([]) == [] == shapes.shapes_of([])
    with pytest.raises(shapely.errors.ShapelyError):
        shapes.shapes_of([b"no shape"])


def test_polygons_of_rings(either):
    square, triangle = shapes.polygons_of([SQUARE, SQUARE[:3]])
    assert square.equals(Polygon(SQUARE)) and triangle.equals(Polygon(SQUARE[:3])) and shapes.polygons_of([]) == []
    assert shapes.rings_wkb([SQUARE, SQUARE[:3]]) == [square.wkb, triangle.wkb] and shapes.rings_wkb([]) == []


def test_which_polygons_are_valid(either):
    polygons = [[SQUARE], [SQUARE, HOLE], [BOWTIE], [SQUARE, HOLE + 10], [SQUARE.astype(np.int64)]]
    assert shapes.valid_of(iter(polygons)) == [True, True, False, False, True] and shapes.valid_of([]) == []


def test_what_two_shapes_have_in_common(either):
    blobs = shapes.rings_wkb([SQUARE, SQUARE + 2, SQUARE + 4, SQUARE + 9])
    parts, areas = shapes.common_parts(blobs, blobs[1:], iter([(0, 0), (0, 1), (0, 2), (1, 0)]))
    found = shapes.shapes_of(parts)
    assert areas.tolist() == [4.0, 0.0, 0.0, 16.0] and areas.dtype == float
    assert found[0].equals(box(2, 2, 4, 4)) and found[1].equals(Point(4, 4)) and found[2].is_empty
    parts, areas = shapes.common_parts(blobs, blobs, [])
    assert parts == [] and areas.tolist() == []


def test_the_box_around_shapes(either):
    assert shapes.bounds_of(KINDS) == (0, 0, 3, 5)
    assert shapes.bounds_of(iter([box(-1, 2, 3, 4), None, MultiPolygon([box(5, 6, 7, 8)])])) == (-1, 2, 7, 8)
    for nothing in ([], [None], [Polygon()]):
        assert np.isnan(shapes.bounds_of(nothing)).all() and len(shapes.bounds_of(nothing)) == 4


def test_a_column_of_shapes_is_not_taken_apart(either):
    array = shapes.array_of([Point(1, 2), Point(3, 4)], "EPSG:25832")
    assert len(array) == 2 and array[1].equals(Point(3, 4)) and array.crs.to_epsg() == 25832
