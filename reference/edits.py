"""The five edits: when each is refused, in the order of the documents, and which parcels it brings."""

from __future__ import annotations

from typing import Dict, List, NamedTuple, Optional, Sequence, Set, Tuple, Union

from reference.files import MOST_CORNERS, MOST_OF_A_RING, MOST_RECORDS
from reference.layer import Layer, Refused
from reference.plane import Corner, Ring, edges, from_least, has_edge, is_on, is_strictly_between, ring_fault

MOST_ENTRIES = 1_048_576


class Split(NamedTuple):
    """A parcel is cut in two along a path from corner to corner of its ring."""

    parcel: int
    path: List[Corner]


class Merge(NamedTuple):
    """Two neighbours become one parcel."""

    a: int
    b: int


class Move(NamedTuple):
    """The border between two neighbours becomes the path, in the direction of the first one's ring."""

    a: int
    b: int
    path: List[Corner]


class Insert(NamedTuple):
    """A corner is put into the edge between two others."""

    start: Corner
    end: Corner
    at: Corner


class Straighten(NamedTuple):
    """A corner in which no ring bends is taken out."""

    at: Corner


Edit = Union[Split, Merge, Move, Insert, Straighten]


class Entry(NamedTuple):
    """What an accepted edit changed: its number, the ids that went, the parcels that came."""

    number: int
    out: List[int]
    rows: List[Tuple[int, Ring]]


def joined(*parts: Sequence[Corner]) -> Ring:
    """Parts of a ring one after the other: where two meet, and where the last meets the first, the corner stands
    once."""
    result: Ring = list(parts[0])
    for part in parts[1:]:
        result.extend(part[1:])
    return from_least(result[:-1])


def run(ring: Ring, start: Corner, end: Corner) -> Ring:
    """The ring's way from one of its corners on to another, both included."""
    at = ring.index(start)
    turned = ring[at:] + ring[:at]
    return turned[: turned.index(end) + 1]


def flat_at(ring: Ring, corner: Corner) -> bool:
    """Whether the ring goes straight on in a corner: it lies on the edge between its two neighbours.

    Definition: ring_core `IsFlat`.
    """
    at = ring.index(corner)
    return is_on(corner, ring[at - 1], ring[(at + 1) % len(ring)])


def with_corner(ring: Ring, edit: Insert) -> Ring:
    """The ring with the corner in the edge between the two others, in whichever direction it has that edge."""
    result: Ring = []
    for a, b in edges(ring):
        result.append(a)
        if (a, b) in ((edit.start, edit.end), (edit.end, edit.start)):
            result.append(edit.at)
    return from_least(result)


class Fabric:
    """Parcels that are edited: the rows, the city's refined ring, the next id, and which entry retired which parcel."""

    def __init__(self, layer: Layer) -> None:
        self.rows: Dict[int, Ring] = dict(layer.rows)
        self.city, self.refined = layer.city, layer.refined
        self.next = max(layer.rows, default=0) + 1
        self.known: Set[int] = set(layer.rows)
        self.retired_by: Dict[int, int] = {}
        self.entries = 0

    def edit(self, edit: Edit) -> Entry:
        """Makes an edit, or refuses it and changes nothing.

        Definition: fabric_core `after_entry`.
        """
        if self.entries >= MOST_ENTRIES:
            raise Refused("E9")
        rows, refined = self.result(edit)
        out = [n for n in self.named(edit)] or [n for n, _ in rows]
        self.test_limits(out, rows)
        for which, (_, ring) in enumerate(rows, 1):
            fault = ring_fault(ring)
            if fault is not None:
                raise Refused(f"E6 {which} {fault}")
        self.entries += 1
        for n in out:
            del self.rows[n]
        self.rows.update(rows)
        self.known.update(n for n, _ in rows)
        self.retired_by.update({n: self.entries for n in out if n not in self.rows})
        self.refined, self.next = refined, max(self.next, max(n for n, _ in rows) + 1)
        return Entry(self.entries, out, rows)

    @staticmethod
    def named(edit: Edit) -> List[int]:
        """The ids that an edit names, in its order."""
        if isinstance(edit, Split):
            return [edit.parcel]
        return [edit.a, edit.b] if isinstance(edit, (Merge, Move)) else []

    def result(self, edit: Edit) -> Tuple[List[Tuple[int, Ring]], Ring]:
        """The parcels that an edit brings, and the city's refined ring after it; or why it is refused.

        Definition: fabric_core `IsRefusal`, `IsChange`.
        """
        for n in self.named(edit):
            if n not in self.known:
                raise Refused(f"E1 {n}")
            if n in self.retired_by:
                raise Refused(f"E2 {n} {self.retired_by[n]}")
        if isinstance(edit, Split):
            return self.split(edit), self.refined
        if isinstance(edit, Merge):
            u, v = self.shared_run(edit.a, edit.b)
            a, b = self.rows[edit.a], self.rows[edit.b]
            return [(self.next, joined(run(a, v, u), run(b, u, v)))], self.refined
        if isinstance(edit, Move):
            return self.move(edit), self.refined
        return self.insert(edit) if isinstance(edit, Insert) else self.straighten(edit)

    def split(self, edit: Split) -> List[Tuple[int, Ring]]:
        """The part left of the path, and the part right of it.

        Definition: ring_edits `IsSplit`.
        """
        ring, path = self.rows[edit.parcel], edit.path
        if not 2 <= len(path) <= 4096 or path[0] == path[-1] or path[0] not in ring or path[-1] not in ring:
            raise Refused("E3")
        left = joined(path, run(ring, path[-1], path[0]))
        return [(self.next, left), (self.next + 1, joined(run(ring, path[0], path[-1]), path[::-1]))]

    def shared_run(self, a: int, b: int) -> Tuple[Corner, Corner]:
        """Where the border of two parcels begins and ends, in the first one's direction, if it is one unbroken run.

        Definition: ring_edits `IsSharedRun`.
        """
        ring, theirs = self.rows[a], set(edges(self.rows[b]))
        shared = [(q, p) in theirs for p, q in edges(ring)]
        if not any(shared):
            raise Refused("E4")
        begins = [n for n, here in enumerate(shared) if here and not shared[n - 1]]
        if len(begins) != 1:
            raise Refused("E5")
        end = next(n % len(ring) for n in range(begins[0], 2 * len(ring)) if not shared[n % len(ring)])
        return ring[begins[0]], ring[end]

    def move(self, edit: Move) -> List[Tuple[int, Ring]]:
        """Both parcels with their border exchanged for the path.

        Definition: ring_edits `IsMove`.
        """
        (u, v), path = self.shared_run(edit.a, edit.b), edit.path
        if not 2 <= len(path) <= 4096 or path[0] != u or path[-1] != v:
            raise Refused("E3")
        first = joined(path, run(self.rows[edit.a], v, u))
        return [(self.next, first), (self.next + 1, joined(path[::-1], run(self.rows[edit.b], u, v)))]

    def insert(self, edit: Insert) -> Tuple[List[Tuple[int, Ring]], Ring]:
        """Every parcel with the edge, and the city's refined ring where it has it, with the corner in it.

        Definition: ring_edits `with_corner`, fabric_core `IsInsertOf`.
        """
        both = ((edit.start, edit.end), (edit.end, edit.start))
        having = [n for n, ring in sorted(self.rows.items()) if any(has_edge(ring, a, b) for a, b in both)]
        if edit.start == edit.end or not having:
            raise Refused("E7")
        if not is_strictly_between(edit.at, edit.start, edit.end):
            raise Refused("E8")
        return [(n, with_corner(self.rows[n], edit)) for n in having], with_corner(self.refined, edit)

    def straighten(self, edit: Straighten) -> Tuple[List[Tuple[int, Ring]], Ring]:
        """Every parcel with the corner, and the city's refined ring, without it.

        Definition: ring_edits `straightened`, fabric_core `IsStraightenOf`.
        """
        having = [n for n, ring in sorted(self.rows.items()) if edit.at in ring]
        if not having:
            raise Refused("E11")
        bent = next((n for n in having if not flat_at(self.rows[n], edit.at)), None)
        if bent is not None:
            raise Refused(f"E12 {bent}")
        rows = [(n, from_least([p for p in self.rows[n] if p != edit.at])) for n in having]
        return rows, from_least([p for p in self.refined if p != edit.at])

    def test_limits(self, out: List[int], rows: List[Tuple[int, Ring]]) -> None:
        """E10 where a new ring, the layer's corners or its parcels would pass a limit."""
        corners = sum(len(ring) for n, ring in self.rows.items() if n not in out)
        corners += sum(len(ring) for _, ring in rows)
        parcels = len(self.rows) - len(out) + len(rows)
        if any(len(ring) > MOST_OF_A_RING for _, ring in rows) or corners > MOST_CORNERS or parcels > MOST_RECORDS:
            raise Refused("E10")


def words_of(edit: Edit) -> str:
    """The edit as a line of a clerk's file."""

    def spaced(points: Sequence[Corner]) -> str:
        return " ".join(f"{x} {y}" for x, y in points)

    if isinstance(edit, Split):
        return f"split {edit.parcel} {spaced(edit.path)}"
    if isinstance(edit, Merge):
        return f"merge {edit.a} {edit.b}"
    if isinstance(edit, Move):
        return f"move {edit.a} {edit.b} {spaced(edit.path)}"
    if isinstance(edit, Insert):
        return f"insert {spaced([edit.start, edit.end, edit.at])}"
    return f"straighten {edit.at[0]} {edit.at[1]}"


def edit_of(line: bytes, grid: int = 1) -> Optional[Edit]:
    """The edit that a line of a clerk's file asks for, without its line end; None where it asks for none.

    Coordinates are whole, at most 100,000,000,000 mm from 0, or with a grid of 10 a tenth of that.

    Definition: line_files `IsEditOf`.
    """
    words = line.split(b" ")
    kind, rest = words[0], words[1:]
    ids = {b"split": 1, b"merge": 2, b"move": 2, b"insert": 0, b"straighten": 0}.get(kind)
    if ids is None or any(not is_whole(word, n >= ids) for n, word in enumerate(rest)) or len(rest) < ids:
        return None
    named, numbers = [int(it) for it in rest[:ids]], [int(it) for it in rest[ids:]]
    if len(numbers) % 2 or any(abs(it) > 100_000_000_000 // grid for it in numbers):
        return None
    points = [(grid * x, grid * y) for x, y in zip(numbers[::2], numbers[1::2])]
    if kind == b"merge":
        return Merge(*named) if not points else None
    if kind == b"insert":
        return Insert(*points) if len(points) == 3 else None
    if kind == b"straighten":
        return Straighten(*points) if len(points) == 1 else None
    if not points:
        return None
    return Split(named[0], points) if kind == b"split" else Move(named[0], named[1], points)


def is_whole(word: bytes, may_be_negative: bool) -> bool:
    """Whether a word is 1 to 19 digits, behind a minus where that may stand."""
    digits = word[1:] if may_be_negative and word[:1] == b"-" else word
    return 1 <= len(digits) <= 19 and all(48 <= byte <= 57 for byte in digits)


def clerk_file(data: bytes) -> Union[int, List[Tuple[int, Edit]]]:
    """The edits of a clerk's file with their line numbers; or the number of its first bad line.

    Definition: line_files `IsClerkFile`, `IsFirstBadLine`.
    """
    *ended, last = data.split(b"\n")
    lines = [it[:-1] if it.endswith(b"\r") else it for it in ended] + ([last] if last else [])
    found: List[Tuple[int, Edit]] = []
    grid = 10 if lines[:1] == [b"grid cm"] else 1
    for number, line in enumerate(lines, 1):
        if not line or line.startswith(b"#") or (number == 1 and grid == 10):
            continue
        edit = edit_of(line, grid)
        if edit is None:
            return number
        found.append((number, edit))
    return found
