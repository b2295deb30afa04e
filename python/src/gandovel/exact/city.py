"""The city that parcels make: notches and channels in it that are open to the outside.

An open gap lies between two sides of the outline that face each other and are less than some width apart, or is
enclosed by such places. All is in whole numbers and fractions: its corners are those of the outline. Where its mouth is
at no corner of the outline, it is put where the gap is as wide as is asked for, but for 2 mm.
"""
from __future__ import annotations

from dataclasses import dataclass
from fractions import Fraction
from math import isqrt
from typing import Any, Dict, Iterator, List, Optional, Sequence, Set, Tuple

import numpy as np

from ..arrays import Array
from .planar import Graph, Region, edges_of, graph_of, near_pairs, regions_of
from .rings import Corner, Number, is_narrow, plain, twice_area

LEAST_OPEN = 1.0
"""An open gap that is narrower, in mm, is none."""
BLUNT = 5
"""Walls that open by more than 1 in so many bound a gap only where its mouth between their ends is narrow."""
CITY, STRIP = 0, 1


@dataclass
class OpenGap:
    """What the parcels leave open to the outside: rings of corners (x, y) in mm, whole numbers or fractions.

    The outer ring is counterclockwise, its holes are clockwise.
    """

    outer: List[Corner]
    holes: List[List[Corner]]

    @property
    def area2(self) -> Number:
        """Twice the area in mm2: exact."""
        return plain(sum(map(twice_area, (self.outer, *self.holes))))

    def told(self) -> Dict[str, Any]:
        """It as lists, for `prepared.json`; fractions as text."""
        rings = [[[_told(value) for value in corner] for corner in ring] for ring in (self.outer, *self.holes)]
        return {"outer": rings[0], "holes": rings[1:]}

    @classmethod
    def of(cls, told: Dict[str, Any]) -> "OpenGap":
        """What `told` gave."""
        rings = [
            [(plain(Fraction(x)), plain(Fraction(y))) for x, y in ring] for ring in (told["outer"], *told["holes"])
        ]
        return cls(rings[0], rings[1:])


def _told(value: Number) -> Any:
    return value if isinstance(value, int) else str(value)


def open_gaps(outlines: Sequence[Array], narrow: float, least: float) -> List[OpenGap]:
    """The open gaps of the city's outlines, rings (k, 2) int64 in mm with the city on the left; the largest first.

    They are narrower than `narrow` (mm), longer than wide, and somewhere wider than `least` (mm; measured by GEOS).
    """
    width = int(narrow)
    edges = edges_of(outlines)
    if not len(edges) or width < 1:
        return []
    found = (_strip(edges[i].tolist(), edges[j].tolist(), width) for i, j in _facing(edges, width))
    strips = edges_of([np.array(strip, dtype=np.int64) for strip in found if strip is not None])
    if not len(strips):
        return []
    graph = graph_of(np.concatenate([edges, strips]), [CITY] * len(edges) + [STRIP] * len(strips))
    free = _free(graph)
    regions = regions_of(graph, lambda face: None if CITY in graph.covers[face] or face in free else 1)
    gaps = [OpenGap(region.outer, region.holes) for region in regions if _is_slit(graph, region, least)]
    return sorted(gaps, key=lambda gap: -gap.area2)


def _free(graph: Graph) -> Set[int]:
    """The faces that are reached from outside without a way through the city or a strip."""
    beside: Dict[int, Set[int]] = {}
    for edge, face in graph.face_of.items():
        beside.setdefault(face, set()).add(graph.right_of(edge))
    reached, waiting = {0}, [0]
    while waiting:
        for face in beside.get(waiting.pop(), ()):
            if face not in reached and not graph.covers[face]:
                reached.add(face)
                waiting.append(face)
    return reached


def _is_slit(graph: Graph, region: Region, least: float) -> bool:
    """Whether a region is longer than its mouths are wide, and somewhere wider than `least`."""
    mouths = (graph.places(edge) for edge in region.border if CITY not in graph.nets[edge])
    widest = max((_square(a, b) for a, b in mouths), default=0)
    return region.area2 >= 2 * widest and not is_narrow(region.outer, region.holes, least)


def _facing(edges: Array, width: int) -> Iterator[Tuple[int, int]]:
    """Pairs of edges at most `width` apart, by their boxes, that run against each other."""
    ways = (edges[:, 2:] - edges[:, :2]).astype(float)
    for i, j in near_pairs(edges, width):
        against = (ways[i] * ways[j]).sum(axis=1) < 0
        yield from zip(i[against].tolist(), j[against].tolist())


def _cross(u: Corner, v: Corner) -> Number:
    return u[0] * v[1] - u[1] * v[0]


Place = Tuple[int, int]


@dataclass
class _Walls:
    """Two edges, a to b and c to d, that run against each other.

    A place along the first is its distance from a times the edge's length; so is how far the second lies on its right.
    """

    a: Place
    b: Place
    c: Place
    d: Place

    def __post_init__(self) -> None:
        (ax, ay), (bx, by), (cx, cy), (dx, dy) = self.a, self.b, self.c, self.d
        self.way, self.back = (bx - ax, by - ay), (dx - cx, dy - cy)
        self.square, self.begin, self.end = (self._along(place) for place in (self.b, self.d, self.c))

    def _along(self, place: Place) -> int:
        return (place[0] - self.a[0]) * self.way[0] + (place[1] - self.a[1]) * self.way[1]

    def here(self, at: Number) -> Corner:
        """The point of the first edge at a place."""
        share = Fraction(at) / self.square
        return self.a[0] + share * self.way[0], self.a[1] + share * self.way[1]

    def there(self, at: Number) -> Corner:
        """The point of the second edge that is seen from there at a right angle."""
        share = Fraction(self.end - at) / (self.end - self.begin)
        return self.c[0] + share * self.back[0], self.c[1] + share * self.back[1]

    def apart(self, at: Number) -> Number:
        """How far the second edge lies on the right there."""
        x, y = self.there(at)
        return _cross((x - self.a[0], y - self.a[1]), self.way)

    @property
    def is_blunt(self) -> bool:
        """Whether they open by more than 1 in `BLUNT`."""
        along = self.way[0] * self.back[0] + self.way[1] * self.back[1]
        across = abs(self.way[0] * self.back[1] - self.way[1] * self.back[0])
        return BLUNT * across > -along


def _strip(one: Sequence[int], other: Sequence[int], width: int) -> Optional[List[Corner]]:
    """What lies between two edges that face each other, up to where they are `width` apart.

    Its ring is counterclockwise; where it ends at no corner it reaches a little into the city. None where they do not
    face each other, or nowhere so near.
    """
    walls = _Walls((one[0], one[1]), (one[2], one[3]), (other[0], other[1]), (other[2], other[3]))
    ends: List[Number] = [max(0, walls.begin), min(walls.square, walls.end)]
    if ends[0] >= ends[1]:
        return None
    limit, widths = isqrt(width * width * walls.square), [walls.apart(at) for at in ends]
    if min(widths) < 0 or min(widths) > limit or max(widths) == 0:
        return None
    wide = [it > limit for it in widths]
    if any(wide):
        if walls.is_blunt:
            return None
        share = Fraction(limit - widths[0]) / (widths[1] - widths[0])
        ends[wide.index(True)] = ends[0] + (ends[1] - ends[0]) * share
    offsets, corners = (walls.begin, walls.end - walls.square), ((walls.a, walls.d), (walls.b, walls.c))
    mouths = []
    for at, is_wide, apart, offset, pair in zip(ends, wide, widths, offsets, corners):
        is_mouth = not is_wide and abs(offset) <= apart and _square(*pair) <= width**2
        mouths.append(pair if is_mouth else _beside(walls, at))
    return [mouths[1][0], mouths[0][0], mouths[0][1], mouths[1][1]]


def _square(a: Corner, b: Corner) -> Number:
    return (b[0] - a[0]) ** 2 + (b[1] - a[1]) ** 2


def _beside(walls: _Walls, at: Number) -> Tuple[Place, Place]:
    """The points of both edges at a place, each whole or a little in the city."""
    return _within(walls.here(at), walls.a, walls.way), _within(walls.there(at), walls.c, walls.back)


def _within(place: Corner, begin: Place, way: Place) -> Place:
    """A place on an edge where it is whole, else one near it on the edge's left."""
    x, y = (plain(value) for value in place)
    if isinstance(x, int) and isinstance(y, int):
        return x, y
    reach = isqrt(way[0] ** 2 + way[1] ** 2)
    for far in range(4):
        u, v = round(x - Fraction(far * way[1], reach)), round(y + Fraction(far * way[0], reach))
        if _cross(way, (u - begin[0], v - begin[1])) >= 0:
            return u, v
    raise AssertionError("a place is at most 3 mm beside an edge's left")
