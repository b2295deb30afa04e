"""What can be said of an edit before it is sent, in words; coordinates are whole millimetres, and all is exact.

A ring is a list of corners (x, y), counterclockwise. Each check answers "" or the reason why the program would refuse.
The program has the last word: it knows edits that this window has not heard of.
"""
from __future__ import annotations

from math import gcd
from typing import Iterable, List, Optional, Sequence, Tuple

from ..words import tr

Corner = Tuple[int, int]
Ring = Sequence[Corner]
Edge = Tuple[Corner, Corner]


def turn(a: Corner, b: Corner, c: Corner) -> int:
    """Above 0 where a, b, c turn left, 0 where they are on a line."""
    return (b[0] - a[0]) * (c[1] - a[1]) - (b[1] - a[1]) * (c[0] - a[0])


def is_on(place: Corner, a: Corner, b: Corner) -> bool:
    """Whether a place lies on the segment from a to b, its ends included."""
    within = all(min(a[side], b[side]) <= place[side] <= max(a[side], b[side]) for side in (0, 1))
    return within and turn(a, b, place) == 0


def meet(a: Corner, b: Corner, c: Corner, d: Corner) -> bool:
    """Whether two segments have a common point."""
    one, two, three, four = turn(a, b, c), turn(a, b, d), turn(c, d, a), turn(c, d, b)
    if (one > 0 > two or one < 0 < two) and (three > 0 > four or three < 0 < four):
        return True
    return is_on(c, a, b) or is_on(d, a, b) or is_on(a, c, d) or is_on(b, c, d)


def edges(ring: Ring) -> List[Edge]:
    """The sides of a ring."""
    return list(zip(ring, [*ring[1:], ring[0]]))


def area2(ring: Ring) -> int:
    """Twice the area; below 0 for a ring that runs clockwise."""
    return sum(a[0] * b[1] - b[0] * a[1] for a, b in edges(ring))


def simple(ring: Ring) -> str:
    """Why a ring is not simple; "" where it is."""
    if len(ring) < 3 or area2(ring) <= 0:
        return tr("A part would have no area, or the path leaves the parcel.")
    sides, count = edges(ring), len(ring)
    for i in range(count):
        for j in range(i + 1, count):
            (a, b), (c, d) = sides[i], sides[j]
            if j == i + 1:
                wrong = is_on(a, c, d) or is_on(d, a, b)
            elif i == 0 and j == count - 1:
                wrong = is_on(c, a, b) or is_on(b, c, d)
            else:
                wrong = meet(a, b, c, d)
            if wrong:
                return tr("The path crosses itself, touches the border, or leaves the parcel.")
    return ""


def run(ring: Ring, first: Corner, last: Corner) -> List[Corner]:
    """The corners of a ring from one corner on to another, both included."""
    at = list(ring).index(first)
    turned = [*ring[at:], *ring[:at]]
    return turned if first == last else turned[: turned.index(last) + 1]


def split(ring: Ring, path: Ring) -> str:
    """Why a parcel can't be cut along a path."""
    if len(path) < 2:
        return tr("The path needs a corner to begin in, and another to end in.")
    first, last = path[0], path[-1]
    if first not in ring:
        return tr("The path does not begin in a corner of the parcel. Put a corner in first.")
    if last not in ring:
        return tr("The path does not end in a corner of the parcel. Put a corner in first.")
    if first == last:
        return tr("The path ends where it begins.")
    back = list(reversed(path))
    return simple([*path, *run(ring, last, first)[1:-1]]) or simple([*back, *run(ring, first, last)[1:-1]])


def border(ring: Ring, other: Ring) -> Tuple[List[Corner], str]:
    """The run of corners that two rings share, in the first one's direction; or why there is none."""
    theirs = {(b, a) for a, b in edges(other)}
    shared = [edge in theirs for edge in edges(ring)]
    count = len(shared)
    if not any(shared):
        return [], tr("The two parcels have no border in common.")
    begins = [at for at in range(count) if shared[at] and not shared[at - 1]]
    if len(begins) != 1:
        return [], tr("Their common border is not one unbroken run.")
    return [ring[(begins[0] + at) % count] for at in range(sum(shared) + 1)], ""


def merge(ring: Ring, other: Ring) -> str:
    """Why two parcels can't become one."""
    shared, reason = border(ring, other)
    if reason:
        return reason
    first, last = shared[0], shared[-1]
    whole = [*run(ring, last, first), *run(other, first, last)[1:-1]]
    return tr("The parcel would touch itself.") if simple(whole) else ""


def move(ring: Ring, other: Ring, path: Ring) -> str:
    """Why the border of two parcels can't become a path."""
    shared, reason = border(ring, other)
    if reason:
        return reason
    first, last = shared[0], shared[-1]
    if len(path) < 2 or path[0] != first or path[-1] != last:
        return tr("The new border has to begin and end where the old one does.")
    back = list(reversed(path))
    return simple([*path, *run(ring, last, first)[1:-1]]) or simple([*back, *run(other, first, last)[1:-1]])


def between(edge: Edge, place: Corner) -> Optional[Corner]:
    """The whole place on an edge that is nearest to a place, strictly between its ends; None where there is none."""
    a, b = edge
    wide, high = b[0] - a[0], b[1] - a[1]
    pieces = gcd(wide, high)
    if pieces < 2:
        return None
    along, length = (place[0] - a[0]) * wide + (place[1] - a[1]) * high, wide * wide + high * high
    piece = max(1, min(pieces - 1, (2 * along * pieces + length) // (2 * length)))
    return a[0] + wide // pieces * piece, a[1] + high // pieces * piece


def nearest(ring: Ring, place: Corner) -> Edge:
    """The side of a ring that is nearest to a place; measured."""

    def off(edge: Edge) -> float:
        (ax, ay), (bx, by) = edge
        wide, high = bx - ax, by - ay
        along = ((place[0] - ax) * wide + (place[1] - ay) * high) / (wide * wide + high * high)
        along = max(0.0, min(1.0, along))
        return float((ax + along * wide - place[0]) ** 2 + (ay + along * high - place[1]) ** 2)

    return min(edges(ring), key=off)


def straighten(rings: Iterable[Ring], corner: Corner) -> str:
    """Why a corner can't be taken out of the rings that have it."""
    having = [list(ring) for ring in rings if corner in ring]
    if not having:
        return tr("No parcel has this corner.")
    for ring in having:
        at = ring.index(corner)
        if len(ring) < 4 or not is_on(corner, ring[at - 1], ring[(at + 1) % len(ring)]):
            return tr("A border bends at this corner, or a third one ends there.")
    return ""
