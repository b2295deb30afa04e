"""Rings of corners in whole numbers and fractions: areas, points inside, lengths. Nothing is measured, but widths."""
from __future__ import annotations

from fractions import Fraction
from math import isqrt
from typing import Dict, Hashable, List, Sequence, Tuple, TypeVar, Union

from shapely.geometry import Polygon

Number = Union[int, Fraction]
Corner = Tuple[Number, Number]
FINE = 32
"""Lengths are whole numbers of 2^-32 mm, rounded down."""


def plain(value: Number) -> Number:
    """A fraction that is whole as an integer."""
    return int(value) if value == int(value) else value


def twice_area(ring: Sequence[Corner]) -> Number:
    """Twice the signed area of a ring of whole or rational corners: exact."""
    x0, y0 = ring[0]
    return sum((a[0] - x0) * (b[1] - y0) - (b[0] - x0) * (a[1] - y0) for a, b in zip(ring, [*ring[1:], ring[0]]))


def whole_bounds(value: Number) -> Tuple[int, int]:
    """The whole numbers that a number lies between: both the same where it is whole."""
    return value.__floor__(), value.__ceil__()


def contains(ring: Sequence[Corner], point: Corner) -> bool:
    """Whether a point that is on no edge of the ring lies inside: exact."""
    x, y = point
    inside = False
    for (ax, ay), (bx, by) in zip(ring, [*ring[1:], ring[0]]):
        if (ay > y) != (by > y):
            cross = (bx - ax) * (y - ay) - (by - ay) * (x - ax)
            if (cross > 0) == (by > ay):
                inside = not inside
    return inside


def point_inside(outer: Sequence[Corner], holes: Sequence[Sequence[Corner]]) -> Corner:
    """A point inside a simple ring and in none of the holes: exact."""
    at = min(range(len(outer)), key=lambda i: outer[i])
    a, v, b = outer[at - 1], outer[at], outer[(at + 1) % len(outer)]

    def side(p: Corner, q: Corner, r: Corner) -> Number:
        return (q[0] - p[0]) * (r[1] - p[1]) - (q[1] - p[1]) * (r[0] - p[0])

    within = [
        p
        for ring in (outer, *holes)
        for p in ring
        if p not in (a, v, b) and side(a, v, p) >= 0 and side(v, b, p) >= 0 and side(b, a, p) > 0
    ]
    if not within:
        return (Fraction(a[0] + v[0] + b[0], 3), Fraction(a[1] + v[1] + b[1], 3))
    nearest = max(within, key=lambda p: side(b, a, p))
    return (Fraction(nearest[0] + v[0]) / 2, Fraction(nearest[1] + v[1]) / 2)


Named = TypeVar("Named", bound=Hashable)
"""A corner, or what stands for one."""


def simple_loops(walk: Sequence[Named]) -> List[List[Named]]:
    """A closed walk that meets itself in corners, as loops that do not."""
    loops: List[List[Named]] = []
    stack: List[Named] = []
    where: Dict[Named, int] = {}
    for corner in walk:
        if corner in where:
            begin = where[corner]
            loop = stack[begin:]
            del stack[begin + 1 :]
            for gone in loop[1:]:
                del where[gone]
            if len(loop) > 2:
                loops.append(loop)
        else:
            where[corner] = len(stack)
            stack.append(corner)
    return loops + ([stack] if len(stack) > 2 else [])


def length(a: Corner, b: Corner) -> int:
    """The length of an edge in 2^-32 mm, rounded down: exact."""
    square = Fraction((b[0] - a[0]) ** 2 + (b[1] - a[1]) ** 2)
    return isqrt((square.numerator << 2 * FINE) // square.denominator)


def is_narrow(outer: Sequence[Corner], holes: Sequence[Sequence[Corner]], width: float) -> bool:
    """Whether a polygon is nowhere wider than `width` (mm): measured by GEOS, from a corner of it."""
    x0, y0 = outer[0]
    loops = [[(float(x - x0), float(y - y0)) for x, y in loop] for loop in (outer, *holes)]
    return bool(Polygon(loops[0], loops[1:]).buffer(-width / 2 * (1 + 1e-9)).is_empty)
