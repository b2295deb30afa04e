"""Draws cities, layers, damages, edits and points. Coordinates are small, so that corners meet and edges touch
often."""

from __future__ import annotations

import random
import struct
from typing import Dict, List, NamedTuple, Optional, Sequence, Tuple

from reference.edits import Edit, Fabric, Insert, Merge, Move, Split, Straighten
from reference.layer import Layer, Refused
from reference.plane import Corner, Ring, edges, from_least, ring_fault, turn

Rows = Dict[int, Ring]
KINDS = ("split", "split", "split", "insert", "insert", "merge", "move", "straighten")


def point(draw: random.Random, side: int) -> Corner:
    """A whole point of a square, or a little beside it."""
    return draw.randint(-1, side + 1), draw.randint(-1, side + 1)


def city(draw: random.Random, side: int) -> Ring:
    """A simple ring: a rectangle, or through some points of the square."""
    if draw.random() < 0.4:
        return [(0, 0), (side, 0), (side, draw.randint(1, side)), (0, draw.randint(1, side))]
    while True:
        ring = from_least(draw.sample([(x, y) for x in range(0, side + 1, 2) for y in range(0, side + 1, 2)], 6))
        if ring_fault(ring) is None:
            return ring


def inner_path(draw: random.Random, side: int, ring: Ring) -> List[Corner]:
    """A way from one corner of a ring to another, straight or through a point or two."""
    start, end = draw.choice(ring), draw.choice(ring)
    return [start, *(point(draw, side) for _ in range(draw.choice((0, 0, 1, 1, 2)))), end]


def some_edge(draw: random.Random, rows: Rows) -> Tuple[Corner, Corner]:
    """An edge of some parcel, in either direction."""
    a, b = draw.choice(list(edges(draw.choice(list(rows.values())))))
    return (a, b) if draw.random() < 0.5 else (b, a)


def point_on(draw: random.Random, a: Corner, b: Corner) -> Corner:
    """A whole point of an edge, where there is one strictly inside; else one of its ends."""
    steps = [
        (a[0] + k * (b[0] - a[0]) // n, a[1] + k * (b[1] - a[1]) // n)
        for n in range(2, 8)
        for k in range(1, n)
        if k * (b[0] - a[0]) % n == 0 and k * (b[1] - a[1]) % n == 0
    ]
    return draw.choice(steps) if steps else a


def neighbours(draw: random.Random, rows: Rows) -> Tuple[int, int]:
    """Two parcels with an edge in common, where there are some; else any."""
    of = {side: n for n, ring in rows.items() for side in edges(ring)}
    found = [(n, of[b, a]) for (a, b), n in of.items() if (b, a) in of]
    return draw.choice(found) if found else (draw.choice(list(rows)), draw.choice(list(rows)))


def edit(draw: random.Random, fabric: Fabric, side: int, kinds: Sequence[str] = KINDS) -> Edit:
    """An edit, mostly one that may be accepted, at times one of parcels that are gone or never were."""
    rows = fabric.rows
    if draw.random() < 0.04:
        return Merge(draw.randint(0, fabric.next + 1), draw.choice(list(rows)))
    kind = draw.choice(kinds)
    if kind == "split":
        n = draw.choice(list(rows))
        return Split(n, inner_path(draw, side, rows[n]))
    if kind == "insert":
        a, b = some_edge(draw, rows)
        return Insert(a, b, point_on(draw, a, b) if draw.random() < 0.9 else point(draw, side))
    if kind == "straighten":
        return Straighten(draw.choice(draw.choice(list(rows.values()))) if draw.random() < 0.9 else point(draw, side))
    a_id, b_id = neighbours(draw, rows)
    if kind == "merge":
        return Merge(a_id, b_id)
    try:
        u, v = fabric.shared_run(a_id, b_id)
    except Refused:
        u, v = point(draw, side), point(draw, side)
    middle = [point(draw, side) for _ in range(draw.choice((0, 1, 2)))]
    return Move(a_id, b_id, [u, *middle, v] if draw.random() < 0.9 else [v, *middle, u])


def tiling(draw: random.Random, outline: Ring, side: int, parcels: int) -> Rows:
    """Parcels that tile a city, by edits of the whole; under ids from 1."""
    start = from_least(outline)
    fabric = Fabric(Layer(start, {1: start}, start))
    for _ in range(60 * parcels):
        if len(fabric.rows) >= parcels:
            break
        try:
            fabric.edit(edit(draw, fabric, side, ("split", "split", "insert", "move")))
        except Refused:
            continue
    return {n: ring for n, (_, ring) in enumerate(sorted(fabric.rows.items()), 1)}


class Place(NamedTuple):
    """Where a drawing lies: each coordinate times a factor, and moved. So numbers come up to the limit of a file."""

    factor: int
    x: int
    y: int

    def at(self, p: Corner) -> Corner:
        """Where a point of the drawing lies."""
        return self.factor * p[0] + self.x, self.factor * p[1] + self.y

    def ring(self, ring: Sequence[Corner]) -> Ring:
        """Where a ring of the drawing lies."""
        return [self.at(p) for p in ring]


def place(draw: random.Random, side: int, limit: int) -> Place:
    """Mostly the drawing as it is, at times far away, stretched, or filling all that a file may have."""
    if draw.random() < 0.5:
        return Place(1, 0, 0)
    factor = draw.choice((1, 3, 10_007, limit // side, 2 * limit // (side + 1)))
    room = limit - factor * (side + 1)
    low = factor - limit
    return Place(factor, draw.choice((room, low, 0)) if room >= low else low, draw.choice((room, low)))


def as_filed(draw: random.Random, rows: Sequence[Ring]) -> List[Optional[Ring]]:
    """Rings as a file has them: begun anywhere, mostly without what neighbours put into their sides, in any order."""
    filed: List[Optional[Ring]] = []
    for ring in rows:
        kept = [p for n, p in enumerate(ring) if turn(ring[n - 1], p, ring[(n + 1) % len(ring)]) or draw.random() < 0.3]
        at = draw.randrange(len(kept))
        filed.append(kept[at:] + kept[:at])
    draw.shuffle(filed)
    if draw.random() < 0.2:
        filed.insert(draw.randint(0, len(filed)), None)
    return filed


def with_fault(draw: random.Random, filed: List[Optional[Ring]], side: int) -> List[Optional[Ring]]:
    """The same with something wrong: a corner moved, a ring dropped, doubled, or with two corners exchanged."""
    result = [None if ring is None else list(ring) for ring in filed]
    at = draw.randrange(len(result))
    ring, kind = result[at], draw.choice(("move", "move", "drop", "double", "exchange"))
    if ring is None or kind == "drop":
        del result[at]
    elif kind == "double":
        result.append(list(ring))
    elif kind == "move":
        ring[draw.randrange(len(ring))] = point(draw, side)
    else:
        i, j = draw.randrange(len(ring)), draw.randrange(len(ring))
        ring[i], ring[j] = ring[j], ring[i]
    return result


def damaged(draw: random.Random, data: bytes) -> bytes:
    """A file with a byte changed, a part cut off or repeated, or a number of 32 bits exchanged for another."""
    kind = draw.choice(("byte", "byte", "cut", "more", "number", "number", "double"))
    at = draw.randrange(len(data))
    if kind == "byte":
        return data[:at] + bytes([draw.choice((0, 1, 5, 255, data[at] ^ 1 << draw.randrange(8)))]) + data[at + 1 :]
    if kind == "cut":
        return data[:at]
    if kind == "more":
        return data + data[at : at + 60]
    at -= at % 4
    if kind == "number":
        value = draw.choice((-1, 0, 1, 2, 3, 4, 5, 50, 64, 4097, 4098, 2**31 - 1, -(2**31)))
        return data[:at] + struct.pack(draw.choice("<>") + "i", value) + data[at + 4 :]
    return data[:at] + odd_double(draw) + data[at + 8 :]


def odd_double(draw: random.Random) -> bytes:
    """A double at the edge of a rule: near a whole number, near the limits, subnormal, infinite, or any."""
    near = draw.choice((0, 1, 5, 12.34, 100, 1e8, 1e10, 1e11)) * draw.choice((1, -1, 0.1, 0.001))
    bits = struct.unpack("<Q", struct.pack("<d", near + draw.choice((0, 1, -1)) / draw.choice((1, 1024, 2048, 10240))))[
        0
    ]
    special = (0x8000000000000000, 1, 0x7FF0000000000000, 0xFFF0000000000000, 0x7FF8000000000000)
    bits = draw.choice((bits + draw.choice((-2, -1, 0, 1, 2)), bits, draw.choice(special), draw.getrandbits(64)))
    return struct.pack("<Q", bits % 2**64)


def clerk_line(draw: random.Random, words: str) -> bytes:
    """A line of a clerk's file, mostly as it should be, else a little wrong in its form."""
    line = words.encode()
    if draw.random() < 0.9:
        return line
    wrong = (
        line + b" ",
        b" " + line,
        line.replace(b" ", b"  ", 1),
        line.upper(),
        line + b"\r",
        line + b" 1",
        b"#" + line,
    )
    others = (b"", b"grid cm", b"merge 1", line.replace(b" ", b"\t", 1), line.replace(b" ", b" +", 1), line + b"\x00")
    numbers = (line.replace(b" ", b" 000", 1), line.replace(b" ", b" -", 1), line + b" 100000000001 0", line + b" -0 0")
    return draw.choice(wrong + others + numbers)
