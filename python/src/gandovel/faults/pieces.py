"""One pass over the planar graph of an island: each narrow fault goes to one neighbour, and nothing else moves.

A piece of a fault is a face, or several, that the same parcels cover: two or more (an overlap), none (a gap), or one
beyond the city. Borders are edges of the graph, so what one parcel gives up another has, exactly. A border that ends
now at a crossing, whose coordinates are fractions, ends at the whole millimetre next to it, for all who share it.
"""
from __future__ import annotations

from collections import Counter, defaultdict
from dataclasses import dataclass, field
from fractions import Fraction
from typing import Callable, Dict, Hashable, List, Mapping, Optional, Sequence, Set, Tuple

import numpy as np
from shapely.geometry import Polygon
from shapely.validation import explain_validity

from ..arrays import Array
from ..errors import Refused
from ..exact.big_rings import cut_ring
from ..exact.grid import twice_area as ring_area
from ..exact.grid import without_spikes
from ..exact.holes import cut_holes
from ..exact.planar import Graph, HalfEdge, Region, edges_of, graph_of, regions_of
from ..exact.rings import Corner, Number, point_inside, simple_loops
from ..large.cutting import boxes_of
from ..program.limits import MOST_CORNERS
from ..program.untiled_overlays import nested
from ..reading.prepared import OUT_ROW, Island, Rows
from ..shapes import valid_of
from .polygons import CITY, Coverage, Fault, box_of, boxes_touching

OUTSIDE = -2
"""The owner of what lies outside the city in a graph whose owners are the layer's rows."""
CHOICES = ("border", "larger", "older", "none")
"""To whom a piece goes: who has the longest border with it, or the largest area, or stands first in the layer; no
one."""

Nets = Dict[HalfEdge, int]


@dataclass
class Piece:
    """A piece of a fault: what kind, twice its area in mm2, a point in it, the row that has it now, and who had it.

    `why` says why it is left, `face` is a face of it, `beside` who was beside it, `corners` are those of its ring.
    """

    kind: str
    area2: Number
    inside: Corner
    to: Optional[int] = None
    former: Tuple[int, ...] = ()
    why: str = ""
    face: int = 0
    beside: Set[int] = field(default_factory=set)
    corners: List[Corner] = field(default_factory=list)


@dataclass
class MendedRows:
    """What comes of an island: its rows, the polygons of those rows that changed, and the pieces closed and left.

    `is_last` says that no other pass came after it.
    """

    rows: Rows
    polygons: Dict[int, List[Tuple[Array, List[Array]]]] = field(default_factory=dict)
    closed: List[Piece] = field(default_factory=list)
    left: List[Piece] = field(default_factory=list)
    is_last: bool = False


def mended_rows(island: Island, faults: Sequence[Fault], to: str, first_new: int) -> MendedRows:
    """An island whose faults, which are narrow, are closed as `to` says; rows from `first_new` on have what no one
    has."""
    if not faults:
        return MendedRows(island.parcels)
    coverage = _coverage(island, faults)
    pieces, tries = _pieces(coverage, faults), Counter[int]()
    while True:
        pass_over = _Pass(coverage, island.parcels, to, first_new, tries)
        for piece in pieces:
            pass_over.close(piece)
        borders, crossings = pass_over.borders()
        own = _own_corners(island.parcels, set(borders))
        polygons = {row: _polygons(coverage.graph, border, crossings, own[row]) for row, border in borders.items()}
        broken = _broken(polygons)
        if not broken:
            return MendedRows(_replaced(island.parcels, polygons), polygons, pass_over.closed, pass_over.left)
        tries.update(pass_over.blamed(broken))


def _broken(polygons: Dict[int, List[Tuple[Array, List[Array]]]]) -> Dict[int, Optional[Corner]]:
    """The rows of which nothing is left on the grid, and those whose polygons are invalid there: GEOS says where."""
    found: Dict[int, Optional[Corner]] = {row: None for row, several in polygons.items() if not several}
    every = [(row, [outer, *holes]) for row, several in polygons.items() for outer, holes in several]
    valid = valid_of([[ring - rings[0][0] for ring in rings] for _, rings in every])
    for (row, (outer, *holes)), is_valid in zip(every, valid):
        if not is_valid:
            reason = explain_validity(Polygon(outer - outer[0], [hole - outer[0] for hole in holes]))
            words = reason.partition("[")[2].rstrip("]").split()
            found[row] = int(outer[0][0]) + round(float(words[0])), int(outer[0][1]) + round(float(words[1]))
    return found


def _coverage(island: Island, faults: Sequence[Fault]) -> Coverage:
    """The coverage by all rows at some faults; owners are the layer's rows."""
    rows, around = island.parcels, np.array([box_of(fault) for fault in faults], dtype=float)
    sources = np.array(rows.source)
    near = np.unique(sources[boxes_touching(boxes_of(rows.rings), around)])
    is_near = np.isin(sources, near)
    some = [rows.rings[at] for at in np.flatnonzero(is_near).tolist()]
    others = [rows.rings[at] for at in np.flatnonzero(~is_near).tolist()]
    owners = np.repeat(np.where(sources == OUT_ROW, OUTSIDE, sources)[is_near], [len(ring) for ring in some])
    edges = np.concatenate([edges_of([island.city]), edges_of(some)])
    points = _corners_on(edges, around, others)
    owners = np.concatenate([np.full(len(island.city), CITY), owners, np.full(len(points), CITY)])
    graph = graph_of(np.concatenate([edges, np.column_stack([points, points])]), owners.tolist())
    return Coverage(graph, frozenset({OUTSIDE}))


def _corners_on(edges: Array, around: Array, others: Sequence[Array]) -> Array:
    """The corners of other rings in the boxes of those edges that come near faults: some lie on them."""
    if not others:
        return np.zeros((0, 2), dtype=np.int64)
    low, high = np.minimum(edges[:, :2], edges[:, 2:]), np.maximum(edges[:, :2], edges[:, 2:])
    corners = np.concatenate(others)
    corners = corners[np.argsort(corners[:, 0], kind="stable")]
    found = []
    for at in boxes_touching(np.column_stack([low, high]), around).tolist():
        begin = np.searchsorted(corners[:, 0], low[at, 0], side="left")
        some = corners[begin : np.searchsorted(corners[:, 0], high[at, 0], side="right")]
        found.append(some[(some[:, 1] >= low[at, 1]) & (some[:, 1] <= high[at, 1])])
    return np.asarray(np.unique(np.concatenate([*found, corners[:0]]), axis=0))


def _pieces(coverage: Coverage, faults: Sequence[Fault]) -> List[Tuple[str, Region]]:
    """The pieces of faults: what is covered too often first, then the gaps; the largest of each first."""
    graph, wanted = coverage.graph, {(fault.kind, *fault.key) for fault in faults}
    kinds = {face: coverage.kind(face) for face in range(1, len(graph.covers))}
    labels: Dict[int, Hashable] = {}
    for region in regions_of(graph, kinds.get):
        kind = kinds[region.faces[0]]
        if kind is not None and (kind[0], min(region.outer), region.area2) in wanted:
            labels.update({face: (kind[0], tuple(coverage.rows(face))) for face in region.faces})
    found = [(labels[region.faces[0]][0], region) for region in regions_of(graph, labels.get)]  # type: ignore[index]
    return sorted(found, key=lambda it: (it[0] == "gap", -it[1].area2))


class _Pass:
    """The pass: who covers each face now, what each row's border gained, and what came of each piece."""

    def __init__(self, coverage: Coverage, rows: Rows, to: str, first_new: int, tries: Mapping[int, int]) -> None:
        self.graph, self.new, self.tries = coverage.graph, first_new, tries
        self.choices = [to, "border"] if to != "border" else [to]
        self.covers: List[Set[int]] = [set(coverage.rows(face)) for face in range(len(self.graph.covers))]
        self.in_city = [coverage.is_in_city(face) for face in range(len(self.graph.covers))]
        self.area2: Dict[int, Number] = defaultdict(int)
        for ring, row in zip(rows.rings, rows.source):
            self.area2[row] += ring_area(ring)
        self.gained: Dict[int, Nets] = defaultdict(dict)
        self.closed: List[Piece] = []
        self.left: List[Piece] = []

    def close(self, found: Tuple[str, Region]) -> None:
        """Gives a piece to one row, and takes it from the others."""
        kind, region = found
        former = self.covers[region.faces[0]]
        piece = Piece(kind, region.area2, point_inside(region.outer, region.holes), None, tuple(sorted(former)))
        piece.beside = {row for edge in region.border for row in self.covers[self.graph.right_of(edge)]}
        piece.face, piece.corners = region.faces[0], region.outer
        if self.tries.get(piece.face, 0) >= len(self.choices):
            piece.why = "a border would cross another one on the grid of millimetres"
            self.left.append(piece)
            return
        candidates: List[Optional[int]] = [None] if kind == "beyond" else self._candidates(region, former)
        fitting = [to for to in candidates if all(self.area2[row] > region.area2 for row in former if row != to)]
        if not fitting:
            piece.why = "no parcel borders on it" if not candidates else "nothing would be left of a parcel"
            self.left.append(piece)
            return
        piece.to = fitting[0]
        self._give(region, former, piece.to)
        self.closed.append(piece)

    def blamed(self, broken: Dict[int, Optional[Corner]]) -> Set[int]:
        """For each row that is broken, at a place, the piece (by a face of it) next to this that went to it, was its
        own, or is beside it."""
        found = set()
        for row, place in broken.items():
            several = [it for it in self.closed if row == it.to or row in it.former]
            several = several or [it for it in self.closed if row in it.beside]
            x, y = place or (several[0].inside if several else (0, 0))
            found.add(min(several, key=lambda it: min((a - x) ** 2 + (b - y) ** 2 for a, b in it.corners)).face)
        return found

    def _candidates(self, region: Region, former: Set[int]) -> List[Optional[int]]:
        """The rows that may have a piece, the best first. What could not be done as it was told goes by its border."""
        choice = self.choices[self.tries.get(region.faces[0], 0)]
        if choice == "none":
            self.new += 1
            return [self.new - 1]
        borders: Dict[int, int] = dict.fromkeys(sorted(former), 0)
        for edge in region.border:
            for row in self.covers[self.graph.right_of(edge)]:
                if not former or row in former:
                    borders[row] = borders.get(row, 0) + self.graph.length(edge)
        ranks: Dict[str, Callable[[int], Tuple[Number, int]]] = {
            "border": lambda row: (-borders[row], row),
            "larger": lambda row: (-self.area2[row], row),
            "older": lambda row: (0, row),
        }
        return [*sorted(borders, key=ranks[choice])]

    def _give(self, region: Region, former: Set[int], to: Optional[int]) -> None:
        changing = [(row, -1) for row in former if row != to]
        changing += [(to, 1)] if to is not None and to not in former else []
        for row, times in changing:
            self.area2[row] += times * region.area2
            nets = self.gained[row]
            for a, b in region.border:
                key, signed = ((a, b), times) if a < b else ((b, a), -times)
                nets[key] = nets.get(key, 0) + signed
        for face in region.faces:
            self.covers[face] = set() if to is None else {to}

    def borders(self) -> Tuple[Dict[int, List[HalfEdge]], Set[int]]:
        """The borders of all rows that change, as pieces with the row on the left, and the crossings that are corners
        now: rows that only pass one of these change, too."""
        nets: Dict[int, Nets] = {row: dict(gained) for row, gained in self.gained.items()}
        for (a, b), counts in self.graph.nets.items():
            if a < b:
                for row in counts.keys() & nets.keys():
                    nets[row][a, b] = nets[row].get((a, b), 0) + counts[row]
        borders = {row: _directed(of_row) for row, of_row in nets.items()}
        crossings = {corner for border in borders.values() for corner in _turning_crossings(self.graph, border)}
        passing: Dict[int, List[HalfEdge]] = {
            row: []
            for (a, _), counts in self.graph.nets.items()
            if a in crossings
            for row in counts
            if row not in (CITY, OUTSIDE) and row not in borders
        }
        for edge, counts in self.graph.nets.items():
            for row in counts.keys() & passing.keys():
                passing[row] += [edge] if counts[row] > 0 else []
        return {**borders, **passing}, crossings


def _directed(nets: Nets) -> List[HalfEdge]:
    """The pieces that are left, each the way it runs."""
    return [edge if net > 0 else (edge[1], edge[0]) for edge, net in nets.items() if net]


def _is_crossing(corner: Corner) -> bool:
    return isinstance(corner[0], Fraction) or isinstance(corner[1], Fraction)


def _is_straight(a: Corner, b: Corner, c: Corner) -> bool:
    return (b[0] - a[0]) * (c[1] - b[1]) == (b[1] - a[1]) * (c[0] - b[0])


def _turning_crossings(graph: Graph, border: List[HalfEdge]) -> Set[int]:
    """The crossings at which a border has a corner."""
    before: Dict[int, List[int]] = defaultdict(list)
    after: Dict[int, List[int]] = defaultdict(list)
    for a, b in border:
        if _is_crossing(graph.corners[a]):
            after[a].append(b)
        if _is_crossing(graph.corners[b]):
            before[b].append(a)
    return {
        corner
        for corner, ends in after.items()
        if len(ends) > 1 or not _is_straight(*graph.places((before[corner][0], corner, ends[0])))
    }


def _own_corners(rows: Rows, wanted: Set[int]) -> Dict[int, Set[Corner]]:
    """The corners that rows have."""
    own: Dict[int, Set[Corner]] = {row: set() for row in wanted}
    for ring, row in zip(rows.rings, rows.source):
        if row in wanted:
            own[row].update((x, y) for x, y in ring.tolist())
    return own


def _polygons(
    graph: Graph, border: List[HalfEdge], crossings: Set[int], own: Set[Corner]
) -> List[Tuple[Array, List[Array]]]:
    """The polygons, on the grid, of a border whose crossings that are corners go to the whole millimetre next to
    them."""
    walks = [loop for walk in graph.walks(border) for loop in simple_loops(walk)]
    loops = [_on_grid(graph, loop, crossings, own) for loop in walks]
    return nested([part for loop in loops for part in simple_loops(loop) if ring_area(np.array(part)) != 0])


def _on_grid(graph: Graph, loop: List[int], crossings: Set[int], own: Set[Corner]) -> List[Corner]:
    """A loop on the grid, without the corners that lie straight on it and are none of its own.

    One beside a crossing stays: the side is bent there.
    """
    places = ((at, graph.corners[at]) for at in loop)
    kept = [corner for at, corner in places if not _is_crossing(corner) or at in crossings]
    count, rounded = len(kept), []
    for at, corner in enumerate(kept):
        before, after = kept[at - 1], kept[(at + 1) % count]
        is_plain = not any(map(_is_crossing, (before, corner, after)))
        if corner in own or not is_plain or not _is_straight(before, corner, after):
            rounded.append((_nearest(corner[0]), _nearest(corner[1])))
    corners = list(dict.fromkeys(rounded))
    index = {corner: at for at, corner in enumerate(corners)}
    return [corners[at] for at in without_spikes([index[corner] for corner in rounded])]


def _nearest(value: Number) -> int:
    return (value + Fraction(1, 2)).__floor__()


def _replaced(rows: Rows, polygons: Dict[int, List[Tuple[Array, List[Array]]]]) -> Rows:
    """The rows with those that changed cut into simple rings anew, each in its place; new ones behind the others."""
    result, done = Rows(), set()
    for ring, row, part in zip(rows.rings, rows.source, rows.part):
        if row not in polygons:
            _add(result, ring, row, part)
        elif row not in done:
            done.add(row)
            _add_polygons(result, row, polygons[row])
    for row in sorted(set(polygons) - done):
        _add_polygons(result, row, polygons[row])
    return result


def _add(rows: Rows, ring: Array, row: int, part: int) -> None:
    rows.rings.append(ring)
    rows.source.append(row)
    rows.part.append(part)


def _add_polygons(rows: Rows, row: int, polygons: List[Tuple[Array, List[Array]]]) -> None:
    pieces: List[Array] = []
    for outer, holes in polygons:
        rings = cut_holes(outer, holes)
        if rings is None:
            raise Refused("P12", "no cut is found for a hole that mending leaves", "parcels")
        for ring in rings:
            pieces += (cut_ring(ring, MOST_CORNERS // 2) or [ring]) if len(ring) > MOST_CORNERS else [ring]
    for part, piece in enumerate(pieces, 1):
        _add(rows, piece, row, part)
