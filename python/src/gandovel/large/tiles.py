"""Noding of very many sides: tile by tile, by processes forked from this one, so that the work's memory does not
grow."""
from __future__ import annotations

from typing import Callable, Union

import numpy as np

from ..arrays import Array
from ..reading.loops import Loops, signed_areas
from . import how_cut
from .runs import forked, jobs_of

MANY = 1_500_000
"""From so many sides on they are taken tile by tile."""

A_TILE = 400_000
NEAR = float(2**21)
"""In mm: twice the area of a ring no wider than this, of 4,096 corners at most, is exact in floating point."""

Reach = Union[float, Array]
Touches = Callable[[Array, Array, Array, Array, Reach, Reach], Array]


def touches_in_tiles(
    touches: Touches,
    points: Array,
    start: Array,
    end: Array,
    wanted: Array,
    side_reach: Reach,
    point_reach: Reach,
) -> Array:
    """What `touches` answers (rows (side, point), by side and then along it), of the same arguments."""
    order, bounds = _tiles(points, start, end)
    places = points[wanted]
    of_sides, of_points = np.broadcast_to(side_reach, len(start)), np.broadcast_to(point_reach, len(points))
    reach = float(max(of_sides.max(), of_points.max())) + 1.0
    by_x = np.argsort(places[:, 0], kind="stable")
    xs = places[by_x, 0]

    def found_in(tile: int) -> Array:
        sides = order[bounds[tile] : bounds[tile + 1]]
        ends = np.concatenate([points[start[sides]], points[end[sides]]])
        low, high = ends.min(axis=0) - reach, ends.max(axis=0) + reach
        strip = by_x[np.searchsorted(xs, low[0], side="left") : np.searchsorted(xs, high[0], side="right")]
        near = np.sort(wanted[strip[(places[strip, 1] >= low[1]) & (places[strip, 1] <= high[1])]])
        used = np.unique(np.concatenate([start[sides], end[sides], near]))
        at = [np.searchsorted(used, it) for it in (start[sides], end[sides], near)]
        rows = touches(points[used], at[0], at[1], at[2], of_sides[sides], of_points[used])
        return np.column_stack([sides[rows[:, 0]], used[rows[:, 1]]])

    found = forked(found_in, len(bounds) - 1, jobs_of(how_cut()))
    rows = np.concatenate([*found, np.zeros((0, 2), dtype=np.int64)])
    return np.asarray(rows[np.argsort(rows[:, 0], kind="stable")])


def _tiles(points: Array, start: Array, end: Array) -> "tuple[Array, Array]":
    """The sides by tiles, as an order and where each tile begins in it: strips of equal number, cut across."""
    side = max(1, int(np.ceil(np.sqrt(len(start) / A_TILE))))
    middle = (points[start] + points[end]) / 2
    by_x = np.argsort(middle[:, 0], kind="stable")
    pieces = []
    for strip in np.array_split(by_x, side):
        pieces += np.array_split(strip[np.argsort(middle[strip, 1], kind="stable")], side)
    sizes = [len(piece) for piece in pieces if len(piece)]
    return np.concatenate(pieces), np.concatenate([[0], np.cumsum(sizes)])


def plain_loops(loops: Loops, points: Array, dirty: Array) -> Array:
    """Which loops on the grid (point indices) are rings as they are: clean, without holes, and surely of some area."""
    if not len(loops):
        return np.zeros(0, dtype=bool)
    corners = points[loops.corners].astype(float)
    begins, sizes = loops.starts[:-1], np.diff(loops.starts)
    width = np.maximum.reduceat(corners, begins, axis=0) - np.minimum.reduceat(corners, begins, axis=0)
    small = (width.max(axis=1) < NEAR) & (sizes <= 4_096) & (sizes > 2)
    has_holes = np.concatenate([loops.hole[1:], [False]])
    sure = np.abs(signed_areas(corners, loops)) > 0.5
    return np.asarray(small & sure & ~dirty & ~loops.hole & ~has_holes)
