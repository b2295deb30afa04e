"""The layer on the grid of whole millimetres: clipped zones, cleaned loops, simple rings."""
from __future__ import annotations

from typing import Dict, Iterator, List, Optional, Sequence, Tuple

import numpy as np
from shapely.geometry import LinearRing, Polygon
from shapely.prepared import prep

from ..arrays import Array
from ..large.tiles import plain_loops
from ..reading.loops import ZONES, Loops, loops_from
from .holes import cut_holes

Row = Tuple[int, int]


def edges_left(start: Array, end: Array) -> Tuple[Array, Array, Array]:
    """Directed edges (indices of points) that do not cancel with opposite ones: (low, high, net from low to high)."""
    low, high = np.minimum(start, end), np.maximum(start, end)
    sign = np.where(start < end, 1, -1)
    order = np.argsort(low.astype(np.int64) * (int(high.max(initial=0)) + 1) + high, kind="stable")
    low, high, sign = low[order], high[order], sign[order]
    fresh = np.flatnonzero(np.concatenate([[True], (np.diff(low) != 0) | (np.diff(high) != 0)]))
    net = np.add.reduceat(sign, fresh)
    kept = fresh[net != 0]
    return low[kept], high[kept], net[net != 0]


def clipped(zones: Loops, points: Array, city: Sequence[Polygon]) -> Tuple[Loops, Dict[int, int]]:
    """Zones (loops of point indices) as loops of coordinates, each cut to every part of the city.

    The second answer says of a part of a zone, as numbered in the loops, in which part of the city it lies.
    """
    arrays: List[Array] = []
    tags: List[Tuple[int, int, bool]] = []
    islands: Dict[int, int] = {}
    ready = [prep(part) for part in city]
    for row, shape in _polygons(zones, points):
        for island, (part, fast) in enumerate(zip(city, ready)):
            if fast.contains(shape):
                pieces = [shape]
            elif fast.intersects(shape):
                cut = shape.intersection(part)
                pieces = [
                    piece for piece in getattr(cut, "geoms", [cut]) if piece.geom_type == "Polygon" and piece.area > 0
                ]
            else:
                continue
            for piece in pieces:
                number = len(islands)
                islands[number] = island
                arrays += [np.asarray(ring.coords)[:-1, :2] for ring in (piece.exterior, *piece.interiors)]
                tags += [(row, number, position > 0) for position in range(1 + len(piece.interiors))]
    return loops_from(arrays, tags, 1.0, ZONES), islands


def _polygons(loops: Loops, points: Array) -> Iterator[Tuple[int, Polygon]]:
    """Yields (row, polygon) of loops of point indices, an outer loop and the holes behind it."""
    shell: Optional[Array] = None
    inner: List[Array] = []
    row = 0
    for i in range(len(loops)):
        ring = points[loops.corners[loops.starts[i] : loops.starts[i + 1]]]
        if loops.hole[i]:
            inner.append(ring)
            continue
        if shell is not None:
            yield row, Polygon(shell, inner)
        shell, inner, row = ring, [], int(loops.row[i])
    if shell is not None:
        yield row, Polygon(shell, inner)


def rings_of(loops: Loops, points: Array) -> Tuple[List[Array], List[Row], List[Tuple[Row, str]]]:
    """The simple rings of loops on the grid (point indices; points int64), the (row, part) of each, and what fails.

    Corners twice in a row and spikes without area are dropped. What fails is a part with no area left (`thin`), or
    one whose holes can't be cut (`holes`). A hole with no area left is no hole.
    """
    dirty = _dirty(loops)
    plain, corners = plain_loops(loops, points, dirty), points[loops.corners]
    rings, tags, fails = [], [], []
    i = 0
    while i < len(loops):
        stop = i + 1
        while stop < len(loops) and loops.hole[stop]:
            stop += 1
        tag = (int(loops.row[i]), int(loops.part[i]))
        if plain[i]:
            rings.append(corners[loops.starts[i] : loops.starts[i + 1]])
            tags.append(tag)
            i = stop
            continue
        parts = [_ring(loops, points, it, dirty[it]) for it in range(i, stop)]
        if parts[0] is None:
            fails.append((tag, "thin"))
        else:
            pieces = cut_holes(parts[0], [part for part in parts[1:] if part is not None])
            if pieces is None:
                fails.append((tag, "holes"))
            else:
                rings += pieces
                tags += [tag] * len(pieces)
        i = stop
    return rings, tags, fails


def _dirty(loops: Loops) -> Array:
    after = loops.nexts()
    twice = loops.corners == loops.corners[after]
    spike = loops.corners == loops.corners[after[after]]
    return np.add.reduceat((twice | spike).astype(np.int64), loops.starts[:-1]) > 0 if len(loops) else np.zeros(0, bool)


def _ring(loops: Loops, points: Array, i: int, dirty: bool) -> Optional[Array]:
    index = loops.corners[loops.starts[i] : loops.starts[i + 1]]
    if dirty:
        index = np.array(without_spikes(index.tolist()), dtype=np.int64)
    if len(index) < 3:
        return None
    ring = points[index]
    return ring if twice_area(ring) != 0 else None


def without_spikes(index: List[int]) -> List[int]:
    """A loop without corners twice in a row, and without ways to a corner and straight back."""
    kept: List[int] = []
    for corner in index:
        if kept and kept[-1] == corner:
            continue
        if len(kept) > 1 and kept[-2] == corner:
            kept.pop()
        else:
            kept.append(corner)
    while len(kept) > 2:
        if kept[0] == kept[-1] or kept[0] == kept[-2]:
            kept.pop()
        elif kept[1] == kept[-1]:
            kept.pop(0)
        else:
            return kept
    return []


def without_straight(ring: Array) -> Array:
    """A ring (k, 2) int64 without the corners that lie straight between their neighbours: exact."""
    before, after = ring - np.roll(ring, 1, axis=0), np.roll(ring, -1, axis=0) - ring
    if np.abs(before).max() >= 2**30:
        before, after = before.astype(object), after.astype(object)
    turns = before[:, 0] * after[:, 1] != before[:, 1] * after[:, 0]
    return np.asarray(ring[turns.astype(bool)])


def twice_area(ring: Array) -> int:
    """Twice the signed area of a ring (k, 2) int64 in mm: exact."""
    near = ring - ring[0]
    kind = np.int64 if len(ring) * float(np.abs(near).max()) ** 2 < 2**61 else object
    x, y = near[:, 0].astype(kind), near[:, 1].astype(kind)
    return int((x * np.roll(y, -1) - y * np.roll(x, -1)).sum())


def frame_around(corners: Array, margin: int) -> LinearRing:
    """The rectangle on the grid around corners (n, 2), with a margin in mm."""
    low, high = np.floor(corners.min(axis=0)) - margin, np.ceil(corners.max(axis=0)) + margin
    return LinearRing([(low[0], low[1]), (high[0], low[1]), (high[0], high[1]), (low[0], high[1])])
