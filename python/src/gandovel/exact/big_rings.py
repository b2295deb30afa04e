"""Rings of more corners than the program takes, cut into several along lines between corners that are there."""
from __future__ import annotations

from typing import Iterator, List, Optional, Tuple

import numpy as np
from shapely.geometry import MultiPoint
from shapely.ops import triangulate

from ..arrays import Array
from .holes import is_free

TRIED = 4_000
"""How many lines are looked at for a cut."""


def cut_ring(ring: Array, most: int) -> Optional[List[Array]]:
    """Simple rings of at most `most` corners that together cover what a simple ring (k, 2) int64 does.

    No corner is added, so neighbours stay as they are. None where no cut is found.
    """
    done, waiting = [], [ring]
    while waiting:
        here = waiting.pop()
        if len(here) <= most:
            done.append(here)
            continue
        cut = _cut(here)
        if cut is None:
            return None
        first, last = cut
        waiting += [here[first : last + 1], np.concatenate([here[last:], here[: first + 1]])]
    return done


def _cut(ring: Array) -> Optional[Tuple[int, int]]:
    """Two corners of a ring (counterclockwise) that see one another inside it, of the cuts the most even one."""
    low = ring.min(axis=0)
    wide = int((ring.max(axis=0) - low).max()) >= 2**30
    corners = (ring - low).astype(object if wide else np.int64)
    ends = np.roll(corners, -1, axis=0)
    for first, last in _lines(corners):
        p, q = corners[first], corners[last]
        if _is_inward(corners, first, q) and is_free(p, q, corners, ends):
            return first, last
    return None


def _lines(corners: Array) -> Iterator[Tuple[int, int]]:
    """Pairs of positions of corners that Delaunay's triangles join, those that cut most evenly first."""
    count = len(corners)
    at = {(float(x), float(y)): position for position, (x, y) in enumerate(corners.tolist())}
    pairs = set()
    for line in triangulate(MultiPoint([(float(x), float(y)) for x, y in corners.tolist()]), edges=True):
        one, other = (at.get(place) for place in line.coords)
        if one is not None and other is not None and 1 < abs(one - other) < count - 1:
            pairs.add((min(one, other), max(one, other)))
    even = sorted(pairs, key=lambda pair: -min(pair[1] - pair[0], count - pair[1] + pair[0]))
    return iter(even[:TRIED])


def _is_inward(corners: Array, at: int, towards: Array) -> bool:
    """Whether the way from a corner of a counterclockwise ring begins inside the ring."""
    here, before, after = corners[at], corners[at - 1], corners[(at + 1) % len(corners)]

    def side(a: Array, b: Array, c: Array) -> int:
        return int((b[0] - a[0]) * (c[1] - a[1]) - (b[1] - a[1]) * (c[0] - a[0]))

    if side(before, here, after) >= 0:
        return side(here, towards, before) > 0 and side(towards, here, after) > 0
    return not (side(here, towards, after) >= 0 and side(towards, here, before) >= 0)
