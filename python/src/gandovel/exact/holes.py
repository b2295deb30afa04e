"""Polygons with holes cut into simple rings along existing corners, in whole millimetres, exactly.

From the least corner of each hole (by x, then y) a cut goes to a corner further left, from its greatest to one further
right. Cuts cross nothing. So each hole hangs on the outer ring on either side, and every piece is a simple ring: with
any one corner taken away, one of the two ways to the outer ring is left. A polygon with h holes gives h + 1 rings or,
where holes touch other rings, so many that none meets itself.
"""
from __future__ import annotations

from typing import Any, Dict, List, Optional, Sequence, Tuple

import numpy as np

from ..arrays import Array

Corner = Tuple[Any, Any]
"""A corner of whole numbers or fractions."""
FEW = 24


def cut_holes(outer: Array, holes: Sequence[Array]) -> Optional[List[Array]]:
    """The simple rings, each (k, 2) int64 counterclockwise, of a polygon; None where no cut is found.

    `outer` runs counterclockwise and `holes` clockwise, (k, 2) int64, each without its first corner again.
    """
    if not len(holes):
        return [outer]
    low = outer.min(axis=0)
    wide = int((outer.max(axis=0) - low).max()) >= 2**30
    rings = [(ring - low).astype(object if wide else np.int64) for ring in (outer, *holes)]
    cuts: List[Tuple[Array, Array]] = []
    for sign in (1, -1):
        if not _cuts_to_the_left([ring * sign for ring in rings], cuts, sign):
            return None
    pieces = _traced(rings, cuts)
    return None if pieces is None else [piece + low for piece in pieces]


def _least(ring: Array) -> int:
    return int(np.lexsort((ring[:, 1].astype(float), ring[:, 0].astype(float)))[0])


def _cuts_to_the_left(rings: List[Array], cuts: List[Tuple[Array, Array]], sign: int) -> bool:
    """Adds, for each hole, the cut from its least corner, all being mirrored by `sign`; false where there is none."""
    corners = np.concatenate(rings)
    owner = np.repeat(np.arange(len(rings)), [len(ring) for ring in rings])
    last = np.concatenate([np.roll(ring, -1, axis=0) for ring in rings])
    heads = [ring[_least(ring)] for ring in rings]
    done = {0}
    for hole in sorted(range(1, len(rings)), key=lambda it: tuple(heads[it])):
        head = heads[hole]
        here = owner[(corners == head).all(axis=1)]
        if not any(other in done or tuple(heads[other]) < tuple(head) for other in here if other != hole):
            extra = [np.array([end * sign for end in cut]) for cut in cuts]
            starts = np.concatenate([corners, *(cut[:1] for cut in extra)])
            ends = np.concatenate([last, *(cut[1:] for cut in extra)])
            target = _visible(head, corners, starts, ends)
            if target is None:
                return False
            cuts.append((head * sign, target * sign))
        done.add(hole)
    return True


def _visible(head: Array, corners: Array, starts: Array, ends: Array) -> Optional[Array]:
    """The nearest corner to the left of `head` that is seen from it, past all sides; None where there is none."""
    left = corners[(corners[:, 0] < head[0]) | ((corners[:, 0] == head[0]) & (corners[:, 1] < head[1]))]
    distance = ((left - head).astype(float) ** 2).sum(axis=1)
    near = np.argpartition(distance, FEW)[:FEW] if len(left) > FEW else np.arange(len(left))
    near = near[np.argsort(distance[near], kind="stable")]
    for at in near:
        if is_free(head, left[at], starts, ends):
            return np.asarray(left[at])
    for at in np.argsort(distance, kind="stable")[len(near) :]:
        if is_free(head, left[at], starts, ends):
            return np.asarray(left[at])
    return None


def _cross(a: Array, b: Array) -> Array:
    return np.asarray(a[..., 0] * b[..., 1] - a[..., 1] * b[..., 0])


def is_free(p: Array, q: Array, starts: Array, ends: Array) -> bool:
    """Whether the open cut from p to q meets no side, and no side's inside has p or q."""
    low, high = np.minimum(p, q), np.maximum(p, q)
    close = ((np.minimum(starts, ends) <= high) & (np.maximum(starts, ends) >= low)).all(axis=1)
    a, b = starts[close], ends[close]
    d, side = q - p, b - a
    a_side, b_side = _cross(d, a - p), _cross(d, b - p)
    p_side, q_side = _cross(side, p - a), _cross(side, q - a)
    if (_opposite(a_side, b_side) & _opposite(p_side, q_side)).any():
        return False
    inside = [
        (on == 0) & _between(first, last, it)
        for on, first, last, it in ((a_side, p, q, a), (b_side, p, q, b), (p_side, a, b, p), (q_side, a, b, q))
    ]
    same = ((a == p) & (b == q)).all(axis=1) | ((a == q) & (b == p)).all(axis=1)
    return not (np.logical_or.reduce(inside) | same).any()


def _opposite(a: Array, b: Array) -> Array:
    return ((a > 0) & (b < 0)) | ((a < 0) & (b > 0))


def _between(first: Array, last: Array, it: Array) -> Array:
    """Of a corner on the line of first and last: whether it is strictly between them."""
    along = ((it - first) * (last - first)).sum(axis=-1)
    return np.asarray((along > 0) & (along < ((last - first) ** 2).sum(axis=-1)))


def _traced(rings: List[Array], cuts: List[Tuple[Array, Array]]) -> Optional[List[Array]]:
    edges = [(_corner(a), _corner(b)) for ring in rings for a, b in zip(ring, np.roll(ring, -1, axis=0))]
    for a, b in cuts:
        edges += [(_corner(a), _corner(b)), (_corner(b), _corner(a))]
    cycles = traced(edges)
    if cycles is None:
        return None
    return [np.array(cycle, dtype=np.int64) for cycle in cycles]


def _corner(place: Array) -> Corner:
    return int(place[0]), int(place[1])


def traced(edges: Sequence[Tuple[Corner, Corner]]) -> Optional[List[List[Corner]]]:
    """The cycles of directed edges, no two the same, that bound the areas on their left; None where they do not close.

    Corners may be whole numbers or fractions.
    """
    out: Dict[Corner, List[Corner]] = {}
    for a, b in edges:
        out.setdefault(a, []).append(b)
    used, cycles = set(), []
    for start in edges:
        if start in used:
            continue
        edge, cycle = start, []
        while True:
            used.add(edge)
            cycle.append(edge[0])
            onward = out.get(edge[1])
            if not onward:
                return None
            edge = (edge[1], onward[0] if len(onward) == 1 else _turn(*edge, onward))
            if edge == start:
                break
            if edge in used:
                return None
        cycles.append(cycle)
    return cycles


def _turn(before: Corner, here: Corner, onward: Sequence[Corner]) -> Corner:
    """Of the corners behind `here` the one first met when turning clockwise from the way back."""
    back = (before[0] - here[0], before[1] - here[1])
    best = onward[0]
    for corner in onward:
        way = (corner[0] - here[0], corner[1] - here[1])
        if sooner(back, way, (best[0] - here[0], best[1] - here[1])):
            best = corner
    return best


def _quarter(back: Corner, way: Corner) -> int:
    """Where `way` lies clockwise from `back`: 0 right of it, 1 behind, 2 left of it, 3 along it."""
    cross = back[0] * way[1] - back[1] * way[0]
    if cross:
        return 0 if cross < 0 else 2
    return 3 if back[0] * way[0] + back[1] * way[1] > 0 else 1


def sooner(back: Corner, one: Corner, other: Corner) -> bool:
    """Whether one way comes before another when turning clockwise from the way back: exact."""
    first, second = _quarter(back, one), _quarter(back, other)
    if first != second:
        return first < second
    return bool(one[0] * other[1] - one[1] * other[0] < 0)
