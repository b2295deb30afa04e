"""Corners put into the sides of their neighbours that they touch."""
from __future__ import annotations

from dataclasses import dataclass
from typing import List, Tuple

import numpy as np

from ..arrays import Array
from ..shapes import valid_of
from ..reading.loops import Loops
from .noding import Reach, touches


@dataclass
class PutIn:
    """Corners put into loops: the point, the loop, how far off the loop's side it was (mm), and the area (mm2).

    The area is the corner's part of what lies between the side as it was and as it is; both are measured. `twin` says
    that the same side is bent on both sides of it, so that no gap and no overlap is closed. `tangled` are loops that
    others would have been put into, had a polygon not become invalid by them.
    """

    point: Array
    loop: Array
    off: Array
    area: Array
    twin: Array
    tangled: Array


def put_in(
    loops: Loops, points: Array, wanted: Array, side_reach: Reach, point_reach: Reach, noise: float
) -> Tuple[Loops, PutIn]:
    """Loops (of point indices) with each wanted point put into the sides that it touches, and which these are.

    A point that is off a side by more than noise is not put into a polygon of its own, nor into one that it would make
    invalid, nor into two sides of one; and then into no polygon with the same side, so that none is bent away from its
    neighbour.
    """
    ends = loops.corners[loops.nexts()]
    found = touches(points, loops.corners, ends, wanted, side_reach, point_reach)
    loop = np.searchsorted(loops.starts, found[:, 0], side="right") - 1
    off = _off(points, loops.corners[found[:, 0]], ends[found[:, 0]], found[:, 1])
    owners = np.cumsum(~loops.hole) - 1
    far, same = off > noise, _same_sides(loops, ends, found)
    reach = np.maximum(
        np.broadcast_to(side_reach, len(ends))[found[:, 0]], np.broadcast_to(point_reach, len(points))[found[:, 1]]
    )
    own = ~_among_own(loops, owners, len(points), loop, found[:, 1])
    choices = [own & chosen for chosen in _choices(loops, points, ends, found, owners[loop], off, reach)]
    result, kept = _unbroken(loops, points, found, owners, loop, far, same, choices)
    wished = _all_or_none(same, ~far | choices[0])
    counts = [np.bincount(loop[some], minlength=len(loops)) for some in (wished, kept)]
    told = _told(points, loops, ends, found[kept], loop[kept], off[kept], np.flatnonzero(counts[0] != counts[1]))
    return result, told


def near_pairs(loops: Loops, points: Array, farthest: float, wanted: Array) -> Array:
    """How far off (mm, measured) wanted points lie from sides that they are beside, up to `farthest`: each pair once.

    A side of a polygon of its own is none, nor one that runs where such a side does.
    """
    ends = loops.corners[loops.nexts()]
    found = touches(points, loops.corners, ends, wanted, farthest, farthest)
    loop = np.searchsorted(loops.starts, found[:, 0], side="right") - 1
    same = _same_sides(loops, ends, found)
    owners = np.cumsum(~loops.hole) - 1
    kept = np.flatnonzero(_all_or_none(same, ~_among_own(loops, owners, len(points), loop, found[:, 1])))
    found = found[kept[np.unique(same[kept], return_index=True)[1]]]
    return _off(points, loops.corners[found[:, 0]], ends[found[:, 0]], found[:, 1])


def _same_sides(loops: Loops, ends: Array, found: Array) -> Array:
    """A number for each point that touches a side: the same for the same point at the same side, whichever way it
    runs."""
    a, b = loops.corners[found[:, 0]], ends[found[:, 0]]
    keys = np.column_stack([found[:, 1], np.minimum(a, b), np.maximum(a, b)])
    return np.asarray(np.unique(keys, axis=0, return_inverse=True)[1]).reshape(-1)


def _unbroken(
    loops: Loops,
    points: Array,
    found: Array,
    owners: Array,
    loop: Array,
    far: Array,
    same: Array,
    choices: List[Array],
) -> Tuple[Loops, Array]:
    """Loops with points put in by the first of the choices that leaves each polygon valid, or else those alone that are
    not far; and which were put in."""
    chosen = choices[0]
    for other in (*choices[1:], np.zeros(len(found), dtype=bool)):
        kept = _all_or_none(same, ~far | chosen)
        result = _inserted(loops, found[kept])
        broken = _broken(result, points, owners, np.unique(owners[loop[kept & far]]))
        if not len(broken):
            return result, kept
        chosen = np.where(np.isin(owners[loop], broken), other, chosen)
    kept = _all_or_none(same, ~far | chosen)
    return _inserted(loops, found[kept]), kept


def _choices(
    loops: Loops, points: Array, ends: Array, found: Array, owner: Array, off: Array, reach: Array
) -> List[Array]:
    """Two ways to choose into which of the sides of a polygon a point is put that touches several, beside a corner.

    First into the one that a side of its own runs along, else into one that is open, else into the nearest; or at once
    into the nearest.
    """
    _, pair, counts = np.unique(owner * len(points) + found[:, 1], return_inverse=True, return_counts=True)
    several = np.flatnonzero((counts > 1)[pair])
    if not len(several):
        return [np.ones(len(found), dtype=bool)]
    apart, is_shared = np.zeros((2, len(found)), dtype=bool)
    apart[several] = ~_run_along(loops, points, ends, found[several], reach[several])
    is_shared[several] = _are_shared(loops, ends)[found[several, 0]]
    choices = []
    for order in (np.lexsort((off, is_shared, apart, pair)), np.lexsort((off, pair))):
        fresh = np.concatenate([[True], np.diff(pair[order]) != 0])
        chosen = np.zeros(len(order), dtype=bool)
        chosen[order[fresh]] = True
        choices.append(chosen)
    return choices


def _are_shared(loops: Loops, ends: Array) -> Array:
    """Whether each side is one of another polygon of its layer, too, so that nothing is open at it."""
    layer = np.repeat(loops.layer, np.diff(loops.starts))
    count = int(max(loops.corners.max(), ends.max())) + 1
    keys = (layer * count + np.minimum(loops.corners, ends)) * count + np.maximum(loops.corners, ends)
    _, index, counts = np.unique(keys, return_inverse=True, return_counts=True)
    return np.asarray(counts[index] > 1)


def _run_along(loops: Loops, points: Array, ends: Array, found: Array, reach: Array) -> Array:
    """Whether the point of each row (side, point) has a side of its own that runs along this one, but for `reach`."""
    starts = np.concatenate([loops.corners, ends])
    own = np.flatnonzero(np.isin(starts, found[:, 1]))
    own = own[np.argsort(starts[own], kind="stable")]
    begin = np.searchsorted(starts[own], found[:, 1], side="left")
    stop = np.searchsorted(starts[own], found[:, 1], side="right")
    row = np.repeat(np.arange(len(found)), stop - begin)
    at = np.arange(len(row)) - np.repeat(np.cumsum(stop - begin) - (stop - begin), stop - begin) + begin[row]
    there = np.concatenate([ends, loops.corners])[own[at]]
    v = points[there] - points[found[row, 1]]
    result = np.zeros(len(found), dtype=bool)
    for end in (loops.corners, ends):
        w = points[end[found[row, 0]]] - points[found[row, 1]]
        long, short = np.hypot(*v.T), np.hypot(*w.T)
        across, dot = v[:, 0] * w[:, 1] - v[:, 1] * w[:, 0], (v * w).sum(axis=1)
        is_far = (short > reach[row]) & (long > reach[row]) & (dot > 0)
        result[row[is_far & (np.abs(across) <= reach[row] * np.maximum(long, short))]] = True
    return result


def _all_or_none(same: Array, kept: Array) -> Array:
    """What is kept, where all with the same number are."""
    return np.asarray(kept & ~np.isin(same, same[~kept]))


def _among_own(loops: Loops, owners: Array, count: int, loop: Array, point: Array) -> Array:
    """Whether each point is a corner of the polygon that its loop is of."""
    own = np.unique(np.repeat(owners, np.diff(loops.starts)) * count + loops.corners)
    return np.isin(owners[loop] * count + point, own)


def _inserted(loops: Loops, found: Array) -> Loops:
    side, point = found[:, 0], found[:, 1]
    corners = np.insert(loops.corners, side + 1, point)
    before = np.concatenate([[0], np.cumsum(np.bincount(side, minlength=len(loops.corners)))])
    starts = loops.starts + before[loops.starts]
    return Loops(corners, starts, loops.layer, loops.row, loops.part, loops.hole)


def _broken(loops: Loops, points: Array, owners: Array, changed: Array) -> Array:
    """Of the polygons (numbers of owners) that were changed, those that GEOS calls invalid, now or on the grid."""
    first = np.searchsorted(owners, changed)
    last = np.searchsorted(owners, changed, side="right")
    broken = np.zeros(len(changed), dtype=bool)
    for places in (points, np.floor(points + 0.5)):
        polygons = []
        for begin, end in zip(first.tolist(), last.tolist()):
            rings = [places[loops.corners[loops.starts[at] : loops.starts[at + 1]]] for at in range(begin, end)]
            origin = np.floor(rings[0][0])
            polygons.append([ring - origin for ring in rings])
        broken |= ~np.array(valid_of(polygons), dtype=bool)
    return np.asarray(changed[broken])


def _told(points: Array, loops: Loops, ends: Array, found: Array, loop: Array, off: Array, tangled: Array) -> PutIn:
    """What was put in, with its areas."""
    side, point = found[:, 0], found[:, 1]
    a, b = loops.corners[side], ends[side]
    d = points[b] - points[a]
    length = np.hypot(d[:, 0], d[:, 1])
    along = ((points[point] - points[a]) * d).sum(axis=1) / length
    same_before = np.concatenate([[False], side[1:] == side[:-1]])[: len(side)]
    same_after = np.concatenate([side[1:] == side[:-1], [False]])[: len(side)]
    before = np.where(same_before, np.roll(along, 1), 0.0)
    after = np.where(same_after, np.roll(along, -1), length)
    low, high = np.minimum(a, b), np.maximum(a, b)
    keys = np.column_stack([loops.layer[loop], point, low, high])
    _, index, counts = np.unique(keys, axis=0, return_inverse=True, return_counts=True)
    twin = (counts > 1)[index.reshape(-1)]
    return PutIn(point, loop, off, off * (after - before) / 2, twin, tangled)


def _off(points: Array, start: Array, end: Array, point: Array) -> Array:
    d, v = points[end] - points[start], points[point] - points[start]
    return np.asarray(np.abs(d[:, 0] * v[:, 1] - d[:, 1] * v[:, 0]) / np.hypot(d[:, 0], d[:, 1]))
