"""Points, edges, rings, areas and interiors, after OGC 06-103r4.

All numbers are `int` or `Fraction`. A ring is a list of corners; its edges join each corner to the next, and the last
to the first. A corner is a pair of whole millimetres.
"""

from __future__ import annotations

from fractions import Fraction
from itertools import chain
from typing import Dict, Iterable, Iterator, List, Optional, Sequence, Tuple

Corner = Tuple[int, int]
Ring = List[Corner]
Edge = Tuple[Corner, Corner]


def edges(ring: Sequence[Corner]) -> Iterator[Edge]:
    """The directed edges of a ring, from its first corner on."""
    return zip(ring, chain(ring[1:], ring[:1]))


def turn(a: Corner, b: Corner, c: Corner) -> int:
    """Twice the signed area of the triangle: positive where c lies left of the way from a to b.

    Definition: geo_exact `turn`.
    """
    return (b[0] - a[0]) * (c[1] - a[1]) - (b[1] - a[1]) * (c[0] - a[0])


def area2(ring: Sequence[Corner]) -> int:
    """Twice the signed area that a ring encloses: positive where it runs counterclockwise.

    Definition: geo_exact `area2`.
    """
    return sum(a[0] * b[1] - b[0] * a[1] for a, b in edges(ring))


def is_on(p: Corner, a: Corner, b: Corner) -> bool:
    """Whether a point lies on the segment between two corners, the ends included.

    Definition: geo_exact `IsOnEdge`.
    """
    return (
        turn(a, b, p) == 0 and min(a[0], b[0]) <= p[0] <= max(a[0], b[0]) and min(a[1], b[1]) <= p[1] <= max(a[1], b[1])
    )


def is_strictly_between(p: Corner, a: Corner, b: Corner) -> bool:
    """Whether a point lies on the segment, and is none of its ends."""
    return p not in (a, b) and is_on(p, a, b)


def is_on_ring(p: Corner, ring: Sequence[Corner]) -> bool:
    """Whether a point lies on the boundary.

    Definition: geo_exact `IsOnRing`.
    """
    return any(is_on(p, a, b) for a, b in edges(ring))


def winding(p: Corner, ring: Sequence[Corner]) -> int:
    """How often a ring goes round a point that is not on it: its crossings of the ray to the right, with their signs.

    Definition: geo_exact `winding`.
    """
    count = 0
    for a, b in edges(ring):
        if a[1] <= p[1] < b[1] and turn(a, b, p) > 0:
            count += 1
        elif b[1] <= p[1] < a[1] and turn(a, b, p) < 0:
            count -= 1
    return count


def from_least(ring: Sequence[Corner]) -> Ring:
    """The same ring, begun at its least corner by x and then y, at the first place where that stands."""
    at = list(ring).index(min(ring))
    return list(ring[at:]) + list(ring[:at])


def has_edge(ring: Sequence[Corner], a: Corner, b: Corner) -> bool:
    """Whether the ring has the edge, in this direction."""
    return (a, b) in edges(ring)


def meeting(one: Edge, other: Edge) -> bool:
    """Whether two segments have a point in common."""
    (a, b), (c, d) = one, other
    if any((is_on(a, c, d), is_on(b, c, d), is_on(c, a, b), is_on(d, a, b))):
        return True
    return turn(a, b, c) * turn(a, b, d) < 0 and turn(c, d, a) * turn(c, d, b) < 0


def overlap_behind(a: Corner, shared: Corner, d: Corner) -> bool:
    """Whether the edges a to shared and shared to d have more in common than their shared corner."""
    ahead = (a[0] - shared[0]) * (d[0] - shared[0]) + (a[1] - shared[1]) * (d[1] - shared[1])
    return turn(a, shared, d) == 0 and ahead > 0


def may_not_meet(i: int, j: int, sides: Sequence[Edge]) -> bool:
    """Whether edges i < j meet elsewhere than neighbours may: in their shared corner alone."""
    one, other = sides[i], sides[j]
    if j == i + 1:
        return overlap_behind(one[0], one[1], other[1])
    if i == 0 and j == len(sides) - 1:
        return overlap_behind(other[0], other[1], one[1])
    return meeting(one, other)


def ring_fault(ring: Sequence[Corner]) -> Optional[str]:
    """Why a list of corners is no simple, counterclockwise ring of positive area, or None where it is one.

    OGC: a linear ring is closed and simple. G1: no area. G3: clockwise. G2 I J: the first two edges, from 0, that meet
    and may not.

    Definition: ring_core `IsRingFault`, `IsFirstMeeting`.
    """
    twice = area2(ring)
    if twice == 0:
        return "G1"
    if twice < 0:
        return "G3"
    sides = list(edges(ring))
    for i in range(len(sides)):
        for j in range(i + 1, len(sides)):
            if may_not_meet(i, j, sides):
                return f"G2 {i} {j}"
    return None


def net(rings: Iterable[Sequence[Corner]], against: Iterable[Sequence[Corner]] = ()) -> Dict[Edge, int]:
    """For each edge a to b, a before b, how many run that way less how many run back; the second rings are taken off.

    Definition: edge_chains `net_count`.
    """
    counts: Dict[Edge, int] = {}
    for sign, each in ((1, rings), (-1, against)):
        for ring in each:
            for a, b in edges(ring):
                key, way = ((a, b), sign) if a < b else ((b, a), -sign)
                counts[key] = counts.get(key, 0) + way
    return {key: count for key, count in counts.items() if count}


def noded(ring: Sequence[Corner], corners: Iterable[Corner]) -> Ring:
    """The ring with each of these corners put into the edge that it lies strictly inside of, in order along it.

    Definition: edge_chains `IsNoded`.
    """
    known = sorted(set(corners))
    result: Ring = []
    for a, b in edges(ring):
        inside = [p for p in known if is_strictly_between(p, a, b)]
        result.append(a)
        result.extend(sorted(inside, key=lambda p, a=a: abs(p[0] - a[0]) + abs(p[1] - a[1])))  # type: ignore[misc]
    return result


def levels_of(rings: Sequence[Sequence[Corner]]) -> List[Fraction]:
    """All heights at which a corner lies or two edges cross, ascending: between two of them no edges cross."""
    sides = [side for ring in rings for side in edges(ring)]
    heights = {Fraction(p[1]) for ring in rings for p in ring}
    for n, (a, b) in enumerate(sides):
        for c, d in sides[n + 1 :]:
            across = (b[0] - a[0]) * (d[1] - c[1]) - (b[1] - a[1]) * (d[0] - c[0])
            if across == 0 or max(a[1], b[1]) < min(c[1], d[1]) or max(c[1], d[1]) < min(a[1], b[1]):
                continue
            share = Fraction((c[0] - a[0]) * (d[1] - c[1]) - (c[1] - a[1]) * (d[0] - c[0]), across)
            heights.add(a[1] + share * (b[1] - a[1]))
    return sorted(heights)


def spans_at(ring: Sequence[Corner], height: Fraction) -> List[Tuple[Fraction, Fraction]]:
    """The intervals of x in which a simple ring lies at a height at which none of its corners lies."""
    at = sorted(
        a[0] + (height - a[1]) * Fraction(b[0] - a[0], b[1] - a[1])
        for a, b in edges(ring)
        if min(a[1], b[1]) < height < max(a[1], b[1])
    )
    return list(zip(at[::2], at[1::2]))


def common_area2(one: Sequence[Corner], other: Sequence[Corner]) -> Fraction:
    """Twice the area that two simple rings have in common: in each band between two levels it is height times width.

    Definition: common_areas, and geo_exact `InteriorsMeet` where it is positive.
    """
    for axis in (0, 1):
        if max(p[axis] for p in one) <= min(p[axis] for p in other):
            return Fraction(0)
        if max(p[axis] for p in other) <= min(p[axis] for p in one):
            return Fraction(0)
    heights, total = levels_of([one, other]), Fraction(0)
    for low, high in zip(heights, heights[1:]):
        middle = (low + high) / 2
        theirs = spans_at(other, middle)
        width = sum(
            (max(Fraction(0), min(b, d) - max(a, c)) for a, b in spans_at(one, middle) for c, d in theirs), Fraction(0)
        )
        total += 2 * width * (high - low)
    return total
