"""Shapes by the ten thousand: between Shapely and WKB, the bytes in which GeoPackages have them.

This module alone knows which Shapely there is: the calls of Shapely 2 take arrays, those of 1.8 a shape each. All are
public. (Shapely 1.8 takes 20 to 50 us for a polygon of coordinates, and as much for its bounds; by WKB it is 10.)
"""
from __future__ import annotations

import math
import struct
from itertools import chain
from typing import Any, Iterable, Iterator, List, Optional, Sequence, Set, Tuple

import numpy as np
import shapely
import shapely.wkb
from geopandas.array import GeometryArray
from shapely.geometry import GeometryCollection, Polygon

from .arrays import Array
from .large.shares import in_shares

TAKES_ARRAYS = hasattr(shapely, "from_ragged_array")
"""Whether this is Shapely 2."""
POINT, POLYGON, MULTIPOLYGON = 1, 3, 6
PLAIN = struct.pack("<BII", 1, POLYGON, 1)
"""How the WKB of a polygon without holes begins; its corners are behind `PLAIN_HEAD` bytes."""
PLAIN_HEAD = len(PLAIN) + 4
HEAD, BOXES = 8, (0, 32, 48, 48, 64)
"""How many bytes a GeoPackage has in front of a WKB: a head, and a box, by the box's kind."""
PLACE = np.dtype([("order", "u1"), ("kind", "<u4"), ("place", "<f8", 2)])
"""The WKB of a point."""


def wkb_of(shapes: Iterable[Any]) -> List[Optional[bytes]]:
    """The WKB of each shape; None of None."""
    every = _objects(shapes)
    shares = in_shares(lambda begin, end: _written(every[begin:end]), len(every), len(every))
    return list(chain.from_iterable(shares))


def _written(shapes: Array) -> List[Optional[bytes]]:
    if TAKES_ARRAYS:
        written: List[Optional[bytes]] = shapely.to_wkb(shapes, output_dimension=3, byte_order=1).tolist()
        return written
    return [None if shape is None else shape.wkb for shape in shapes]


def shapes_of(blobs: Iterable[Optional[bytes]]) -> List[Any]:
    """The shape of each WKB; None of None. Raises `ShapelyError` of what is none."""
    if TAKES_ARRAYS:
        made: List[Any] = shapely.from_wkb(_objects(blobs)).tolist()
        return made
    return [None if blob is None else shapely.wkb.loads(blob) for blob in blobs]


def wkb_in(blob: bytes) -> bytes:
    """The WKB in a GeoPackage's shape. IndexError where there is none."""
    return blob[HEAD + BOXES[(blob[3] >> 1) & 7] :]


def _objects(items: Iterable[Any]) -> Array:
    """An array of these, one by one: NumPy would take some of them apart."""
    every = items if isinstance(items, (list, np.ndarray)) else list(items)
    return np.fromiter(every, dtype=object, count=len(every))


def common_parts(
    first: Sequence[bytes], second: Sequence[bytes], pairs: Iterable[Tuple[int, int]]
) -> Tuple[List[bytes], Array]:
    """For each pair (i, j) what `first[i]` and `second[j]`, WKB both, have in common, as WKB, and its area: by GEOS.

    Raises `ShapelyError` where GEOS can't cut one.
    """
    ones, others, at = shapes_of(first), shapes_of(second), list(pairs)
    if TAKES_ARRAYS:
        cuts = shapely.intersection(_objects(ones[i] for i, _ in at), _objects(others[j] for _, j in at))
        return [blob for blob in _written(cuts) if blob is not None], shapely.area(cuts)
    parts, areas = [], []
    for i, j in at:
        cut = ones[i].intersection(others[j])
        parts.append(cut.wkb)
        areas.append(cut.area)
    return parts, np.array(areas, dtype=float)


def array_of(shapes: Sequence[Any], crs: Any) -> GeometryArray:
    """Shapes as a column of a frame. (GeoPandas 0.12 takes 0.2 ms for a point, since NumPy takes it for an array.)"""
    return GeometryArray(_objects(shapes), crs=crs)


def point_wkb(places: Array) -> List[bytes]:
    """The WKB of a point at each place (n, 2)."""
    rows = np.zeros(len(places), dtype=PLACE)
    rows["order"], rows["kind"], rows["place"] = 1, POINT, places
    packed = rows.tobytes()
    return [packed[at : at + PLACE.itemsize] for at in range(0, len(packed), PLACE.itemsize)]


def polygons_of(rings: Sequence[Array]) -> List[Polygon]:
    """A polygon of each ring (k, 2), which is without its first corner again."""
    return _polygons([[ring] for ring in rings]) if TAKES_ARRAYS else shapes_of(rings_wkb(rings))


def rings_wkb(rings: Sequence[Array]) -> List[bytes]:
    """The WKB of a polygon of each ring (k, 2), which is without its first corner again."""
    return plain_wkb(*_closed(rings))


def _closed(rings: Sequence[Array]) -> Tuple[Array, Array]:
    """The corners of rings, each with its first one again, and where each ring begins and the last one ends."""
    closed = [part for ring in rings for part in (ring, ring[:1])]
    return np.concatenate([*closed, np.zeros((0, 2))]), np.cumsum([0, *(len(ring) + 1 for ring in rings)])


def _polygons(polygons: Sequence[Sequence[Array]]) -> List[Polygon]:
    """Polygons, each of an outer ring and holes (k, 2) without the first corner again."""
    if TAKES_ARRAYS:
        corners, ends = _closed([ring for rings in polygons for ring in rings])
        owned = np.cumsum([0, *map(len, polygons)])
        made: List[Polygon] = shapely.from_ragged_array(shapely.GeometryType.POLYGON, corners, (ends, owned)).tolist()
        return made
    closed = ([np.concatenate([ring, ring[:1]]) for ring in rings] for rings in polygons)
    return shapes_of(map(polygon_wkb, closed))


def plain_wkb(corners: Array, ends: Array) -> List[bytes]:
    """The WKB of polygons without holes: the closed ring of the i-th is `corners[ends[i]:ends[i + 1]]`."""
    packed, counts = corners.astype("<f8").tobytes(), np.diff(ends).astype("<u4").tobytes()
    at = (16 * np.asarray(ends)).tolist()
    return [
        PLAIN + counts[4 * i : 4 * i + 4] + packed[begin:end] for i, (begin, end) in enumerate(zip(at[:-1], at[1:]))
    ]


def valid_of(polygons: Iterable[Sequence[Array]]) -> List[bool]:
    """Of polygons, each an outer ring and holes (k, 2) without the first corner again, whether GEOS says it is
    valid."""
    made = _polygons(list(polygons))
    if TAKES_ARRAYS:
        found: List[bool] = shapely.is_valid(_objects(made)).tolist()
        return found
    return [bool(shape.is_valid) for shape in made]


def polygon_wkb(rings: Sequence[Array]) -> bytes:
    """The WKB of a polygon: its outer ring and its holes, closed, each (k, 2)."""
    parts = [struct.pack("<BII", 1, POLYGON, len(rings))]
    for ring in rings:
        parts += [struct.pack("<I", len(ring)), ring.astype("<f8").tobytes()]
    return b"".join(parts)


def multipolygon_wkb(polygons: Sequence[bytes]) -> bytes:
    """The WKB of a multipolygon of the polygons of these WKB."""
    kind = MULTIPOLYGON - POLYGON + kind_of(polygons[0]) if polygons else MULTIPOLYGON
    return struct.pack("<BII", 1, kind, len(polygons)) + b"".join(polygons)


def kind_of(blob: bytes) -> int:
    """The kind of shape that a WKB says, with its marks for heights."""
    return int(struct.unpack_from("<I", blob, 1)[0])


def rings_of(blob: bytes) -> Iterator[List[Array]]:
    """The polygons of a WKB of a polygon or several, each the list of its closed rings (k, 2); heights are dropped."""
    kind, at = kind_of(blob), 5
    count = 1
    if (kind & 0xFF) % 1000 == MULTIPOLYGON or kind % 1000 == MULTIPOLYGON:
        count, at = struct.unpack_from("<I", blob, 5)[0], 9
    for _ in range(count):
        if at > 5:
            kind, at = struct.unpack_from("<I", blob, at + 1)[0], at + 5
        width = 3 if kind & 0x80000000 or 1000 <= (kind & 0xFFFF) < 2000 else 2
        rings, at = _rings_at(blob, at, width)
        yield rings


def _rings_at(blob: bytes, at: int, width: int) -> Tuple[List[Array], int]:
    count, at = struct.unpack_from("<I", blob, at)[0], at + 4
    rings = []
    for _ in range(count):
        size, at = struct.unpack_from("<I", blob, at)[0], at + 4
        values = np.frombuffer(blob, "<f8", size * width, at).reshape(-1, width)
        rings.append(values[:, :2])
        at += 8 * size * width
    return rings, at


def heads_of(blobs: Iterable[Optional[bytes]]) -> Set[bytes]:
    """The first bytes of these WKB, byte order and kind, each once."""
    return {blob[:5] for blob in blobs if blob is not None}


def box_of(blobs: Iterable[Optional[bytes]]) -> Tuple[float, ...]:
    """The box around the polygons of these WKB (x, y, x, y), as `bounds_of` says it."""
    known = [blob for blob in blobs if blob is not None]
    bodies = [blob[PLAIN_HEAD:] for blob in known if blob.startswith(PLAIN)]
    corners = [np.frombuffer(b"".join(bodies), "<f8").reshape(-1, 2)]
    corners += [rings[0] for blob in known if not blob.startswith(PLAIN) for rings in rings_of(blob) if rings]
    xy = np.concatenate(corners)
    if not len(xy):
        return (math.nan,) * 4
    return tuple(map(float, (*np.fmin.reduce(xy), *np.fmax.reduce(xy))))


def bounds_of(shapes: Iterable[Any]) -> Tuple[float, ...]:
    """The box around shapes (x, y, x, y); no numbers (NaN) where all are None or empty."""
    every = [shape for shape in shapes if shape is not None]
    if TAKES_ARRAYS:
        return tuple(shapely.total_bounds(_objects(every)).tolist())
    boxes = in_shares(lambda begin, end: GeometryCollection(every[begin:end]).bounds, len(every), len(every))
    known = np.array([box for box in boxes if box]).reshape(-1, 4)
    if len(boxes) > 1 and not np.isfinite(known).all():  # what GEOS makes of them depends on their order
        known = np.array(GeometryCollection(every).bounds).reshape(-1, 4)
    if not len(known):
        return (math.nan,) * 4
    return tuple(map(float, (*known[:, :2].min(axis=0), *known[:, 2:].max(axis=0))))
