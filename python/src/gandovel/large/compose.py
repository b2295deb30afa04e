"""What the runs of districts add up to: the unbalanced edges of the whole layer.

An edge's net says how many rings more, less the city, run along it one way than the other. The whole layer's nets, less
the city's, are the districts' rings less their outlines, and the outlines less the city: the sum of what the runs told.
So a gap, an overlap, or a parcel across a border is the same here as in one run of the whole layer. It is Python's sum,
in whole numbers: that all tiles is said by the law alone, where every run said so.
"""
from __future__ import annotations

from typing import List, Sequence

import numpy as np

from ..arrays import Array
from ..exact.noding import points_of, touches


def added_up(several: Sequence[Array], rings: Sequence[Array]) -> Array:
    """Rows (ax, ay, bx, by, net) int64 of several runs as one, without what cancels; cut at the rings' corners.

    By a, then b; a is the lesser end.
    """
    edges = [rows for rows in several if len(rows)]
    if not edges:
        return np.zeros((0, 5), dtype=np.int64)
    rows = np.concatenate(edges)
    ends = np.concatenate([rows[:, :2], rows[:, 2:4]])
    points, index = points_of(np.concatenate([ends, _corners_near(ends, rings)]))
    start, end = index[: len(rows)], index[len(rows) : 2 * len(rows)]
    found = touches(points.astype(float), start, end, np.unique(index), 0.0, 0.0)
    return _summed(points, *_cut(start, end, rows[:, 4], found))


def _corners_near(ends: Array, rings: Sequence[Array]) -> Array:
    """The rings' corners in the box around ends of edges."""
    corners = np.concatenate([*rings, np.zeros((0, 2), dtype=np.int64)])
    low, high = ends.min(axis=0), ends.max(axis=0)
    return np.asarray(corners[((corners >= low) & (corners <= high)).all(axis=1)])


def _cut(start: Array, end: Array, net: Array, found: Array) -> List[Array]:
    """Edges (start, end, net) cut at points: `found` has rows (edge, point), by edge and then along it."""
    times = np.bincount(found[:, 0], minlength=len(start)) + 1
    stops = np.cumsum(times)
    owner = np.repeat(np.arange(len(start)), times)
    first = np.zeros(int(times.sum()), dtype=bool)
    first[stops - times] = True
    begins = np.empty(len(owner), dtype=np.int64)
    begins[first], begins[~first] = start, found[:, 1]
    last = np.zeros(len(owner), dtype=bool)
    last[stops - 1] = True
    finals = np.empty(len(owner), dtype=np.int64)
    finals[last], finals[~last] = end, found[:, 1]
    return [begins, finals, net[owner]]


def _summed(points: Array, start: Array, end: Array, net: Array) -> Array:
    low, high = np.minimum(start, end), np.maximum(start, end)
    signed = np.where(start < end, net, -net)
    order = np.lexsort((high, low))
    low, high, signed = low[order], high[order], signed[order]
    fresh = np.flatnonzero(np.concatenate([[True], (np.diff(low) != 0) | (np.diff(high) != 0)]))
    total = np.add.reduceat(signed, fresh)
    kept = fresh[total != 0]
    return np.column_stack([points[low[kept]], points[high[kept]], total[total != 0]]).astype(np.int64)
