"""An independent reader of a session's journal: parcels as plain lists of corners, edited by rules of its own.

It follows `docs/edits.md` and shares no code with the program: whole numbers and dictionaries. What an edit takes out
and brings, and why one is refused, is said in the words of the session's answers. Cities of a grid are made here, too.
"""
from __future__ import annotations

import random
from fractions import Fraction
from typing import Dict, Iterator, List, Optional, Sequence, Set, Tuple

Corner = Tuple[int, int]
Ring = List[Corner]
MOST_IN_RING, MOST_IN_LAYER, MOST_PARCELS, MOST_ENTRIES = 4_096, 1_000_000, 65_536, 1_048_576
CELL = 10_000
"""The side of a cell of the index, in mm."""


class Refusal(Exception):
    """Why an edit changes nothing: the text behind `refused `."""


def turn(a: Corner, b: Corner, c: Corner) -> int:
    """Positive where a, b, c turn left, 0 where they are on a line."""
    return (b[0] - a[0]) * (c[1] - a[1]) - (b[1] - a[1]) * (c[0] - a[0])


def area2(ring: Sequence[Corner]) -> int:
    """Twice the area; negative where the ring runs clockwise."""
    return sum(ring[k - 1][0] * ring[k][1] - ring[k][0] * ring[k - 1][1] for k in range(len(ring)))


def area2_west_of(border: int, ring: Ring) -> Fraction:
    """Twice the area of a ring's part west of a border, exact."""
    west = []
    for (x, y), (u, v) in zip(ring, ring[1:] + ring[:1]):
        if x <= border:
            west.append((x, y))
        if min(x, u) < border < max(x, u):
            west.append((border, y + Fraction((border - x) * (v - y), u - x)))
    return Fraction(area2(west))


def is_on(p: Corner, a: Corner, b: Corner) -> bool:
    """Whether p lies on the segment from a to b, its ends included."""
    return (
        turn(a, b, p) == 0 and min(a[0], b[0]) <= p[0] <= max(a[0], b[0]) and min(a[1], b[1]) <= p[1] <= max(a[1], b[1])
    )


def is_strictly_on(p: Corner, a: Corner, b: Corner) -> bool:
    """Whether p lies on the segment and is none of its ends."""
    return p not in (a, b) and is_on(p, a, b)


def segments_meet(a: Corner, b: Corner, c: Corner, d: Corner) -> bool:
    """Whether two closed segments have a common point."""
    if max(a[0], b[0]) < min(c[0], d[0]) or max(c[0], d[0]) < min(a[0], b[0]):
        return False
    if max(a[1], b[1]) < min(c[1], d[1]) or max(c[1], d[1]) < min(a[1], b[1]):
        return False
    one, two, three, four = turn(a, b, c), turn(a, b, d), turn(c, d, a), turn(c, d, b)
    if ((one > 0) != (two > 0)) and ((three > 0) != (four > 0)) and 0 not in (one, two, three, four):
        return True
    return is_on(c, a, b) or is_on(d, a, b) or is_on(a, c, d) or is_on(b, c, d)


def meet_otherwise(ring: Ring, i: int, j: int) -> bool:
    """Whether edges i < j meet otherwise than neighbours do in their common corner."""
    n = len(ring)
    a, b, c, d = ring[i], ring[(i + 1) % n], ring[j], ring[(j + 1) % n]
    if j == i + 1:  # b is c
        return (a != b and is_on(a, c, d)) or (d != c and is_on(d, a, b))
    if i == 0 and j == n - 1:  # d is a
        return (c != d and is_on(c, a, b)) or (b != a and is_on(b, c, d))
    return segments_meet(a, b, c, d)


def ring_fault(ring: Ring) -> Optional[str]:
    """`G1`, `G3` or `G2 I J`, or None for a simple ring."""
    doubled = area2(ring)
    if doubled <= 0:
        return "G3" if doubled else "G1"
    for i in range(len(ring)):
        for j in range(i + 1, len(ring)):
            if meet_otherwise(ring, i, j):
                return f"G2 {i} {j}"
    return None


def from_least(ring: Ring) -> Ring:
    """The ring, begun at its least corner."""
    at = ring.index(min(ring))
    return ring[at:] + ring[:at]


def bends(before: Corner, at: Corner, behind: Corner) -> bool:
    """Whether a ring that goes by these three corners bends in the middle one."""
    return not is_strictly_on(at, before, behind)


def run_between(ring: Ring, u: Corner, v: Corner) -> Ring:
    """The corners that the ring goes by from u on to v, without these two."""
    at = ring.index(u)
    turned = ring[at:] + ring[:at]
    return turned[1 : turned.index(v)] if u != v else turned[1:]


class Register:
    """Parcels of a city, by their ids from 1, and what became of them."""

    def __init__(self, city: Ring, rings: Sequence[Ring]) -> None:
        """Takes rings that are refined: each has all corners that its neighbours have on its edges."""
        self.rings: Dict[int, Ring] = {}
        self.ids: Dict[Tuple[Corner, Corner], int] = {}
        self.at: Dict[Corner, Set[int]] = {}
        self.cells: Dict[Tuple[int, int], Set[int]] = {}
        self.corners = 0
        self.retired: Dict[int, int] = {}
        self.next, self.entries = len(rings) + 1, 0
        self.around = {corner: [city[k - 1], city[(k + 1) % len(city)]] for k, corner in enumerate(city)}
        for number, ring in enumerate(rings, 1):
            self._put(number, from_least(list(ring)))

    def apply(self, line: str) -> Tuple[int, List[int], List[int]]:
        """Makes the edit of a line: the entry's number, the ids that go and those of the rows. Raises `Refusal`."""
        out, rows = self.change(line)
        self.entries += 1
        words = line.split()
        for number in out:
            self._take(number)
        for number, ring in rows:
            self._put(number, ring)
        kept = {number for number, _ in rows}
        self.retired.update({number: self.entries for number in out if number not in kept})
        self.next = max([self.next, *(number + 1 for number in kept)])
        if words[0] == "insert":
            first, last, new = corners_of(words[1:])
            self._refine(first, last, new)
        elif words[0] == "straighten":
            self._smooth(corners_of(words[1:])[0])
        return self.entries, out, [number for number, _ in rows]

    def change(self, line: str) -> Tuple[List[int], List[Tuple[int, Ring]]]:
        """The ids that the edit of a line takes out now, and the rows that it brings. Raises `Refusal`."""
        if self.entries >= MOST_ENTRIES:
            raise Refusal("E9")
        word, *words = line.split()
        out, rows = getattr(self, f"_{word}")(words)
        self._test_limits(out, rows)
        for which, (_, ring) in enumerate(rows, 1):
            fault = ring_fault(ring) if word in ("split", "merge", "move") else None
            if fault:
                raise Refusal(f"E6 {which} {fault}")
        return out, rows

    def locate(self, x: int, y: int) -> str:
        """`inside ID`, `edge ID ..` or `outside`."""
        on, inside = [], []
        for number in sorted(self.cells.get((x // CELL, y // CELL), ())):
            side = side_of((x, y), self.rings[number])
            (on if side == 0 else inside if side > 0 else []).append(number)
        if on:
            return " ".join(map(str, ["edge", *on]))
        assert len(inside) < 2, f"({x}, {y}) is inside of {inside}"
        return f"inside {inside[0]}" if inside else "outside"

    def parcel(self, number: int) -> str:
        """`AREA2 X Y ..`, or `none`."""
        ring = self.rings.get(number)
        return "none" if ring is None else " ".join(map(str, [area2(ring), *(z for corner in ring for z in corner)]))

    def _ring(self, word: str) -> Tuple[int, Ring]:
        number = int(word)
        if number in self.rings:
            return number, self.rings[number]
        raise Refusal(f"E2 {number} {self.retired[number]}" if number in self.retired else f"E1 {number}")

    def _split(self, words: List[str]) -> Tuple[List[int], List[Tuple[int, Ring]]]:
        number, ring = self._ring(words[0])
        path = corners_of(words[1:])
        if not 2 <= len(path) <= MOST_IN_RING or path[0] == path[-1] or path[0] not in ring or path[-1] not in ring:
            raise Refusal("E3")
        left = path + run_between(ring, path[-1], path[0])
        right = path[:1] + run_between(ring, path[0], path[-1]) + path[:0:-1]
        return [number], [(self.next, from_least(left)), (self.next + 1, from_least(right))]

    def _merge(self, words: List[str]) -> Tuple[List[int], List[Tuple[int, Ring]]]:
        (one, ring), (other, ring2) = self._ring(words[0]), self._ring(words[1])
        u, v = self._border(one, other)
        joined = [v, *run_between(ring, v, u), u, *run_between(ring2, u, v)]
        return [one, other], [(self.next, from_least(joined))]

    def _move(self, words: List[str]) -> Tuple[List[int], List[Tuple[int, Ring]]]:
        (one, ring), (other, ring2) = self._ring(words[0]), self._ring(words[1])
        u, v = self._border(one, other)
        path = corners_of(words[2:])
        if not 2 <= len(path) <= MOST_IN_RING or (path[0], path[-1]) != (u, v):
            raise Refusal("E3")
        new, new2 = path + run_between(ring, v, u), path[::-1] + run_between(ring2, u, v)
        return [one, other], [(self.next, from_least(new)), (self.next + 1, from_least(new2))]

    def _insert(self, words: List[str]) -> Tuple[List[int], List[Tuple[int, Ring]]]:
        first, last, new = corners_of(words)
        found = sorted(self.ids[edge] for edge in ((first, last), (last, first)) if edge in self.ids)
        if first == last or not found:
            raise Refusal("E7")
        if not is_strictly_on(new, first, last):
            raise Refusal("E8")
        rows = []
        for number in found:
            ring = list(self.rings[number])
            ends = {ring.index(first), ring.index(last)}
            ring.insert(max(ends) if max(ends) - min(ends) == 1 else len(ring), new)
            rows.append((number, from_least(ring)))
        return found, rows

    def _straighten(self, words: List[str]) -> Tuple[List[int], List[Tuple[int, Ring]]]:
        (corner,) = corners_of(words)
        found = sorted(self.at.get(corner, ()))
        if not found:
            raise Refusal("E11")
        for number in found:
            ring = self.rings[number]
            k = ring.index(corner)
            if bends(ring[k - 1], corner, ring[(k + 1) % len(ring)]):
                raise Refusal(f"E12 {number}")
        if corner in self.around and bends(self.around[corner][0], corner, self.around[corner][1]):
            raise Refusal("E12 0")
        return found, [(number, from_least([it for it in self.rings[number] if it != corner])) for number in found]

    def _border(self, one: int, other: int) -> Tuple[Corner, Corner]:
        """Where the border of two parcels begins and ends, in the direction of the first one's ring."""
        ring = self.rings[one]
        edges = list(zip(ring, ring[1:] + ring[:1]))
        common = [self.ids.get((b, a)) == other for a, b in edges]
        begins = [k for k in range(len(ring)) if common[k] and not common[k - 1]]
        if one == other or not any(common):
            raise Refusal("E4")
        if len(begins) != 1:
            raise Refusal("E5")
        k = begins[0]
        return edges[k][0], edges[(k + sum(common) - 1) % len(ring)][1]

    def _test_limits(self, out: List[int], rows: List[Tuple[int, Ring]]) -> None:
        fewer = sum(len(self.rings[number]) for number in out)
        corners = self.corners - fewer + sum(len(ring) for _, ring in rows)
        count = len(self.rings) - len(out) + len(rows)
        if any(len(ring) > MOST_IN_RING for _, ring in rows) or corners > MOST_IN_LAYER or count > MOST_PARCELS:
            raise Refusal("E10")

    def _put(self, number: int, ring: Ring) -> None:
        self.rings[number] = ring
        self.corners += len(ring)
        self.ids.update({edge: number for edge in zip(ring, ring[1:] + ring[:1])})
        for corner in ring:
            self.at.setdefault(corner, set()).add(number)
        for cell in cells_of(ring):
            self.cells.setdefault(cell, set()).add(number)

    def _take(self, number: int) -> None:
        ring = self.rings.pop(number)
        self.corners -= len(ring)
        for edge in zip(ring, ring[1:] + ring[:1]):
            del self.ids[edge]
        for corner in ring:
            self.at[corner].discard(number)
        for cell in cells_of(ring):
            self.cells[cell].discard(number)

    def _refine(self, first: Corner, last: Corner, new: Corner) -> None:
        for a, b in ((first, last), (last, first)):
            if a in self.around and self.around[a][1] == b:
                self.around[a][1] = self.around[b][0] = new
                self.around[new] = [a, b]

    def _smooth(self, corner: Corner) -> None:
        if corner in self.around:
            before, behind = self.around.pop(corner)
            self.around[before][1], self.around[behind][0] = behind, before


def corners_of(words: Sequence[str]) -> Ring:
    """The corners that words `X Y X Y ..` name."""
    numbers = [int(word) for word in words]
    return list(zip(numbers[::2], numbers[1::2]))


def cells_of(ring: Ring) -> Iterator[Tuple[int, int]]:
    """The cells that the ring's box reaches."""
    xs, ys = [x for x, _ in ring], [y for _, y in ring]
    for column in range(min(xs) // CELL, max(xs) // CELL + 1):
        for row in range(min(ys) // CELL, max(ys) // CELL + 1):
            yield column, row


def side_of(p: Corner, ring: Ring) -> int:
    """1 where p lies inside a simple ring, 0 on an edge, -1 outside."""
    odd, a = False, ring[-1]
    for b in ring:
        if is_on(p, a, b):
            return 0
        if (a[1] > p[1]) != (b[1] > p[1]) and (turn(a, b, p) > 0) == (b[1] > a[1]):
            odd = not odd
        a = b
    return 1 if odd else -1


def grid_city(columns: int, rows: int, seed: int, side: int = CELL) -> Tuple[Ring, List[Ring]]:
    """A city's ring and its parcels', counterclockwise: a grid whose inner corners are moved at random, in mm."""
    draw = random.Random(seed)
    places = {}
    for i in range(columns + 1):
        for j in range(rows + 1):
            dx = draw.randrange(-side // 320, side // 320 + 1) * 64 if 0 < i < columns else 0
            dy = draw.randrange(-side // 320, side // 320 + 1) * 64 if 0 < j < rows else 0
            places[i, j] = (i * side + dx, j * side + dy)
    rings = [
        [places[i, j], places[i + 1, j], places[i + 1, j + 1], places[i, j + 1]]
        for j in range(rows)
        for i in range(columns)
    ]
    low = [places[i, 0] for i in range(columns)] + [places[columns, j] for j in range(rows)]
    high = [places[i, rows] for i in range(columns, 0, -1)] + [places[0, j] for j in range(rows, 0, -1)]
    return low + high, rings
