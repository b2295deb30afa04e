"""Which corners touch which sides.

Coordinates are in millimetres. Two of them that differ by no more than the noise of floating point are one value. A
corner touches a side where it is off it by no more than the greater of their reaches: how far off the rounding of
the corner, or of the side's ends, may have moved it. Where that is nothing and all three corners lie on the grid, the
test is exact.
"""
from __future__ import annotations

from dataclasses import dataclass
from typing import Iterator, Optional, Tuple, Union

import numpy as np

from ..arrays import Array
from ..large.tiles import MANY, touches_in_tiles

Reach = Union[float, Array]
"""How far, in mm, corners or sides may be off where they belong: one number for all, or one for each."""
LEAST = 1e-3
"""A reach of less, in mm, is none for corners on the grid: they are compared exactly."""

MOST_PIECES = 4_000_000
PIECES_AT_ONCE = 400_000


def noise_of(coordinates: Array) -> float:
    """What floating point may have moved a coordinate by: some units in the last place of the largest."""
    return 8.0 * float(np.spacing(np.abs(coordinates).max())) if coordinates.size else 0.0


def values_gathered(values: Array, noise: float) -> Tuple[Array, Array]:
    """Values with those that differ by noise made one, and put on the grid where they are off it by noise alone.

    The second answer says of each value whether it was made one with another that differs from it.
    """
    order = np.argsort(values, kind="stable")
    ordered = values[order]
    fresh = np.concatenate([[True], np.diff(ordered) > noise])
    group = np.cumsum(fresh) - 1
    chosen = ordered[fresh]
    several = chosen != np.concatenate([ordered[:-1][fresh[1:]], ordered[-1:]])
    whole = np.rint(chosen)
    chosen = np.where(np.abs(chosen - whole) <= noise, whole, chosen)
    gathered, made_one = np.empty_like(values), np.empty(len(values), dtype=bool)
    gathered[order], made_one[order] = chosen[group], several[group]
    return gathered, made_one


def points_of(corners: Array) -> Tuple[Array, Array]:
    """The distinct points (p, 2) of corners (n, 2), and for each corner its point's index."""
    found = _whole_points_of(corners)
    if found is not None:
        return found
    xs, x_index = np.unique(corners[:, 0], return_inverse=True)
    ys, y_index = np.unique(corners[:, 1], return_inverse=True)
    keys, index = np.unique(x_index.astype(np.int64) * len(ys) + y_index, return_inverse=True)
    return np.column_stack([xs[keys // len(ys)], ys[keys % len(ys)]]), index.reshape(-1).astype(np.int64)


def _whole_points_of(corners: Array) -> Optional[Tuple[Array, Array]]:
    """As `points_of`, sorted once, where all coordinates are whole and their box has less than 2^62 places; else
    None."""
    if not len(corners) or not (np.abs(corners) < 2.0**52).all() or not (corners == np.rint(corners)).all():
        return None
    whole = corners.astype(np.int64)
    low, high = whole.min(axis=0), whole.max(axis=0)
    wide, tall = (int(extent) + 1 for extent in high - low)
    if wide * tall >= 2**62:
        return None
    keys, index = np.unique((whole[:, 0] - low[0]) * tall + (whole[:, 1] - low[1]), return_inverse=True)
    points = np.column_stack([keys // tall + low[0], keys % tall + low[1]]).astype(corners.dtype)
    return points, index.reshape(-1).astype(np.int64)


@dataclass
class _Cells:
    """Points in the square cells of a grid: those of cell k are `order[begins[k]:begins[k + 1]]`."""

    low: Array
    size: float
    columns: int
    rows: int
    begins: Array
    order: Array

    def cell(self, xy: Array) -> Tuple[Array, Array]:
        x, y = np.floor((xy - self.low) / self.size).astype(np.int64).T
        return np.clip(x, 0, self.columns - 1), np.clip(y, 0, self.rows - 1)


def _cells_of(points: Array, lengths: float, sides: int, tolerance: float) -> _Cells:
    low, high = points.min(axis=0), points.max(axis=0)
    span = np.maximum(high - low, 1.0)
    size = max(float(np.sqrt(span[0] * span[1] / len(points))), float(span.max()) / 30_000, 4 * tolerance, 1e-3)
    size = max(size, lengths / max(MOST_PIECES - sides, 1))
    columns, rows = (int(extent // size) + 1 for extent in span)
    x, y = np.floor((points - low) / size).astype(np.int64).T
    key = np.clip(y, 0, rows - 1) * columns + np.clip(x, 0, columns - 1)
    order = np.argsort(key, kind="stable")
    begins = np.searchsorted(key[order], np.arange(columns * rows + 1))
    return _Cells(low, size, columns, rows, begins, order)


def touches(points: Array, start: Array, end: Array, wanted: Array, side_reach: Reach, point_reach: Reach) -> Array:
    """Which of the points `wanted` (indices) touch which sides: rows (side, point), by side and then along it.

    Side i runs from `points[start[i]]` to `points[end[i]]`. Points are float64 (p, 2), mm; those on the grid are whole.
    `side_reach` is of the sides, and `point_reach` of all points. A point at a side's end does not touch it.
    """
    if not len(wanted) or not len(start):
        return np.zeros((0, 2), dtype=np.int64)
    if len(start) > MANY:
        return touches_in_tiles(touches, points, start, end, wanted, side_reach, point_reach)
    reaches = np.broadcast_to(side_reach, len(start)), np.broadcast_to(point_reach, len(points))
    farthest = float(max(reaches[0].max(), reaches[1].max()))
    length = np.abs(points[end] - points[start]).max(axis=1)
    cells = _cells_of(points[wanted], float(length.sum()), len(start), farthest)
    pieces = (length // cells.size).astype(np.int64) + 1
    ends = np.cumsum(pieces)
    whole = (points == np.rint(points)).all(axis=1)
    found, begin = [], 0
    while begin < len(start):
        done = ends[begin - 1] if begin else 0
        stop = max(int(np.searchsorted(ends, done + PIECES_AT_ONCE, side="right")), begin + 1)
        sides = np.arange(begin, stop)
        for side, point in _candidates(points, start, end, sides, pieces[begin:stop], cells, farthest):
            found.append(_tested(points, whole, start, end, side, wanted[point], reaches))
        begin = stop
    return _in_order(np.concatenate(found) if found else np.zeros((0, 3)))


def _candidates(
    points: Array,
    start: Array,
    end: Array,
    sides: Array,
    pieces: Array,
    cells: _Cells,
    tolerance: float,
) -> Iterator[Tuple[Array, Array]]:
    """Yields arrays (side, position in wanted) of points in the cells that a side's pieces lie in."""
    side = np.repeat(sides, pieces)
    part = np.arange(len(side)) - np.repeat(np.cumsum(pieces) - pieces, pieces)
    count = np.repeat(pieces, pieces)[:, None].astype(float)
    a, d = points[start[side]], points[end[side]] - points[start[side]]
    first, last = a + d * (part[:, None] / count), a + d * ((part[:, None] + 1) / count)
    x0, y0 = cells.cell(np.minimum(first, last) - tolerance)
    x1, y1 = cells.cell(np.maximum(first, last) + tolerance)
    for dy in range(int((y1 - y0).max()) + 1):
        for dx in range(int((x1 - x0).max()) + 1):
            kept = np.flatnonzero((x0 + dx <= x1) & (y0 + dy <= y1))
            key = (y0[kept] + dy) * cells.columns + x0[kept] + dx
            begins, sizes = cells.begins[key], cells.begins[key + 1] - cells.begins[key]
            total = int(sizes.sum())
            if total:
                at = np.arange(total) - np.repeat(np.cumsum(sizes) - sizes, sizes) + np.repeat(begins, sizes)
                yield np.repeat(side[kept], sizes), cells.order[at]


def _tested(
    points: Array,
    whole: Array,
    start: Array,
    end: Array,
    side: Array,
    point: Array,
    reaches: Tuple[Array, Array],
) -> Array:
    """The rows (side, point, how far along) of candidates that touch their side."""
    a, b = start[side], end[side]
    kept = (point != a) & (point != b)
    side, point, a, b = side[kept], point[kept], a[kept], b[kept]
    d, v = points[b] - points[a], points[point] - points[a]
    square = (d * d).sum(axis=1)
    along = (d * v).sum(axis=1)
    tolerance = np.maximum(reaches[0][side], reaches[1][point])
    with np.errstate(divide="ignore", invalid="ignore"):
        off = np.abs(d[:, 0] * v[:, 1] - d[:, 1] * v[:, 0]) / np.sqrt(square)
        exact = whole[a] & whole[b] & whole[point] & (tolerance < LEAST)
        near = (along > 0) & (along < square) & (off <= np.where(exact, LEAST, tolerance * (1 + 1e-9)))
    chosen = np.flatnonzero(near)
    on_grid = chosen[exact[chosen]]
    if len(on_grid):
        chosen = np.setdiff1d(chosen, on_grid[_off_exactly(d[on_grid], v[on_grid])], assume_unique=True)
    return np.column_stack([side[chosen], point[chosen], along[chosen] / square[chosen]])


def _off_exactly(d: Array, v: Array) -> Array:
    """Of whole vectors, whether v is off d's line: exact."""
    kind = np.int64 if max(np.abs(d).max(), np.abs(v).max()) < 2**31 else object
    d, v = d.astype(np.int64).astype(kind), v.astype(np.int64).astype(kind)
    return np.asarray(d[:, 0] * v[:, 1] != d[:, 1] * v[:, 0], dtype=bool)


def _in_order(rows: Array) -> Array:
    pairs = rows[:, :2].astype(np.int64)
    order = np.lexsort((pairs[:, 1], rows[:, 2], pairs[:, 0]))
    pairs = pairs[order]
    if not len(pairs):
        return pairs
    fresh = np.concatenate([[True], (pairs[1:] != pairs[:-1]).any(axis=1)])
    return np.asarray(pairs[fresh])
