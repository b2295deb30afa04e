"""Borders of districts: who neighbours whom, and the outline of rings, in whole numbers."""
from __future__ import annotations

from typing import List, Optional, Sequence, Set

import numpy as np

from ..arrays import Array
from ..exact.grid import twice_area
from ..exact.noding import points_of, touches
from ..program.untiled_overlays import area_polygons


def neighbours_of(outlines: Sequence[Array]) -> List[Set[int]]:
    """For each outline, by its place from 0, those that it has a piece of border with."""
    sizes = [len(ring) for ring in outlines]
    points, start = points_of(np.concatenate(outlines))
    stops = np.cumsum(sizes)
    after = np.arange(1, len(start) + 1)
    after[stops - 1] = stops - sizes
    low, high, owner = _noded(points, start, start[after], np.repeat(np.arange(len(outlines)), sizes))
    order = np.lexsort((high, low))
    low, high, owner = low[order], high[order], owner[order]
    alike = np.flatnonzero((low[1:] == low[:-1]) & (high[1:] == high[:-1]))
    found: List[Set[int]] = [set() for _ in outlines]
    for one, other in zip(owner[alike].tolist(), owner[alike + 1].tolist()):
        if one != other:
            found[one].add(other)
            found[other].add(one)
    return found


def _noded(points: Array, start: Array, end: Array, owner: Array) -> "tuple[Array, Array, Array]":
    """Sides cut at all points that lie on them: least point, greatest point, and whose it is."""
    found = touches(points.astype(float), start, end, np.arange(len(points)), 0.0, 0.0)
    by_side = found[:, 0].astype(np.int64)
    times = np.bincount(by_side, minlength=len(start)) + 1
    sides = np.repeat(np.arange(len(start)), times)
    firsts = np.cumsum(times) - times
    begins = np.empty(len(sides), dtype=np.int64)
    is_first = np.zeros(len(sides), dtype=bool)
    is_first[firsts] = True
    begins[is_first], begins[~is_first] = start, found[:, 1]
    ends = np.append(begins[1:], 0)
    ends[np.append(firsts[1:], len(sides)) - 1] = end
    return np.minimum(begins, ends), np.maximum(begins, ends), owner[sides]


def outline_of(rings: Sequence[Array]) -> Optional[Array]:
    """The one simple outline, counterclockwise, that rings without gaps and overlaps fill; None where there is none."""
    polygons = area_polygons(rings)
    if len(polygons) != 1 or polygons[0][1]:
        return None
    outline = polygons[0][0]
    return outline if twice_area(outline) == sum(map(twice_area, rings)) else None


def common_edge(one: Array, other: Array) -> bool:
    """Whether two rings have an edge in common, which runs one way in the one and the other way in the other."""
    edges = {(*a, *b) for a, b in zip(one.tolist(), np.roll(one, -1, axis=0).tolist())}
    return any((*b, *a) in edges for a, b in zip(other.tolist(), np.roll(other, -1, axis=0).tolist()))
