"""A planar graph of edges in whole numbers: its faces, and how often each polygon covers each of them.

Edges run between corners of whole millimetres. Where one meets another it is cut: at a corner that lies on it, and at a
crossing, whose coordinates are whole numbers or fractions. So faces and areas are exact; nothing here is measured.
"""
from __future__ import annotations

from collections import defaultdict
from dataclasses import dataclass, field
from fractions import Fraction
from typing import Callable, Dict, Hashable, Iterator, List, Optional, Sequence, Set, Tuple

import numpy as np

from ..arrays import Array
from .holes import sooner
from .rings import Corner, Number, contains, length, plain, simple_loops, twice_area

HalfEdge = Tuple[int, int]
"""A piece of an edge, the way it runs: the numbers of its corners."""
Counts = Dict[int, int]
"""How often each of several owners does something; who never does is not in it."""

PAIRS_AT_ONCE = 2_000_000
SAFE = 2**29
"""Coordinates below this, from a corner nearby, have products that fit 63 bits."""


def edges_of(rings: Sequence[Array]) -> Array:
    """The edges, rows (ax, ay, bx, by) int64, of rings (k, 2), one ring after the other."""
    if not len(rings):
        return np.zeros((0, 4), dtype=np.int64)
    sides = [np.column_stack([ring, np.roll(ring, -1, axis=0)]) for ring in rings]
    return np.asarray(np.concatenate(sides), dtype=np.int64)


# Where edges meet


def cut_edges(edges: Array) -> List[List[Corner]]:
    """Each edge, a row (ax, ay, bx, by) int64, as the corners along it: its ends, and where others meet it."""
    cuts: Dict[int, Set[Corner]] = defaultdict(set)
    for i, j in near_pairs(edges):
        crossing, touching = _meetings(edges, i, j)
        for one, other in crossing:
            point = _crossing_of(*(tuple(map(int, edges[at, :4])) for at in (one, other)))
            cuts[one].add(point)
            cuts[other].add(point)
        for one, x, y in touching:
            cuts[one].add((x, y))
    chains: List[List[Corner]] = []
    for at, (ax, ay, bx, by) in enumerate(edges[:, :4].tolist()):
        dx, dy = bx - ax, by - ay
        inner = sorted(cuts.get(at, ()), key=lambda p: (p[0] - ax) * dx + (p[1] - ay) * dy)
        chains.append([(ax, ay), *inner, (bx, by)])
    return chains


def near_pairs(edges: Array, reach: int = 0) -> Iterator[Tuple[Array, Array]]:
    """Yields arrays of pairs of edges whose boxes meet, or are at most `reach` (mm) apart."""
    low, high = np.minimum(edges[:, :2], edges[:, 2:4]) - reach, np.maximum(edges[:, :2], edges[:, 2:4])
    axis = int(np.argmax(np.ptp(low, axis=0))) if len(edges) else 0
    order = np.argsort(low[:, axis], kind="stable")
    stop = np.searchsorted(low[order, axis], high[order, axis], side="right")
    counts = stop - np.arange(len(order)) - 1
    ends, begin = np.cumsum(counts), 0
    while begin < len(order):
        done = ends[begin - 1] if begin else 0
        last = max(int(np.searchsorted(ends, done + PAIRS_AT_ONCE, side="right")), begin + 1)
        size = counts[begin:last]
        first = np.repeat(np.arange(begin, last), size)
        second = first + 1 + np.arange(len(first)) - np.repeat(np.cumsum(size) - size, size)
        i, j = order[first], order[second]
        near = (low[i, 1 - axis] <= high[j, 1 - axis]) & (low[j, 1 - axis] <= high[i, 1 - axis])
        yield i[near], j[near]
        begin = last


def _meetings(edges: Array, i: Array, j: Array) -> Tuple[List[Tuple[int, int]], List[Tuple[int, int, int]]]:
    """Of pairs of edges those that cross inside both; and edges with a corner (x, y) of another strictly on them."""
    if not len(i):
        return [], []
    base = edges[i, :2]
    a, b, c, d = (edges[i, :2] - base, edges[i, 2:4] - base, edges[j, :2] - base, edges[j, 2:4] - base)
    if max(int(np.abs(it).max()) for it in (b, c, d)) >= SAFE:
        a, b, c, d = (it.astype(object) for it in (a, b, c, d))
    of_c, of_d, of_a, of_b = _side(a, b, c), _side(a, b, d), _side(c, d, a), _side(c, d, b)
    crosses = (of_c * of_d < 0) & (of_a * of_b < 0)
    crossing = list(zip(i[crosses].tolist(), j[crosses].tolist()))
    touching: List[Tuple[int, int, int]] = []
    ends = ((of_c, i, c, a, b, j, 0), (of_d, i, d, a, b, j, 2), (of_a, j, a, c, d, i, 0), (of_b, j, b, c, d, i, 2))
    for side, edge, point, first, last, other, column in ends:
        on = (side == 0) & _strictly_between(point, first, last)
        places = edges[other[on], column : column + 2]
        touching += list(zip(edge[on].tolist(), places[:, 0].tolist(), places[:, 1].tolist()))
    return crossing, touching


def _side(p: Array, q: Array, r: Array) -> Array:
    """On which side of the line from p to q each r lies: 1 left, -1 right, 0 on it."""
    cross = (q[:, 0] - p[:, 0]) * (r[:, 1] - p[:, 1]) - (q[:, 1] - p[:, 1]) * (r[:, 0] - p[:, 0])
    return np.asarray((cross > 0).astype(int) - (cross < 0).astype(int))


def _strictly_between(point: Array, first: Array, last: Array) -> Array:
    """Of points on the line of first and last: whether they are between them and neither."""
    along = ((point - first) * (last - first)).sum(axis=1)
    return np.asarray((along > 0) & (along < ((last - first) ** 2).sum(axis=1)), dtype=bool)


def _crossing_of(one: Sequence[int], other: Sequence[int]) -> Corner:
    """The common point of two edges that cross."""
    ax, ay, bx, by = one
    cx, cy, dx, dy = other
    ux, uy, vx, vy = bx - ax, by - ay, dx - cx, dy - cy
    along = Fraction((cx - ax) * vy - (cy - ay) * vx, ux * vy - uy * vx)
    return plain(ax + along * ux), plain(ay + along * uy)


# Faces


@dataclass
class Graph:
    """Pieces of edges with the faces beside them. Corners are named by their numbers, and `corners` has their places.

    `nets` has each piece in both directions: how many times more each owner runs this way than the other, with its
    inside on the left. `face_of` is the face on the left, `covers` how often each owner covers a face; face 0 is what
    lies outside all. `parents` are the edges, by their rows, that a piece is of, and `ways` has the direction of one.
    """

    corners: List[Corner] = field(default_factory=list)
    nets: Dict[HalfEdge, Counts] = field(default_factory=dict)
    parents: Dict[HalfEdge, List[int]] = field(default_factory=dict)
    ways: Dict[HalfEdge, Tuple[int, int]] = field(default_factory=dict)
    face_of: Dict[HalfEdge, int] = field(default_factory=dict)
    covers: List[Counts] = field(default_factory=list)

    def right_of(self, edge: HalfEdge) -> int:
        """The face on the right of a piece."""
        return self.face_of[edge[1], edge[0]]

    def places(self, walk: Sequence[int]) -> List[Corner]:
        """The places of corners."""
        return [self.corners[corner] for corner in walk]

    def length(self, edge: HalfEdge) -> int:
        """The length of a piece in 2^-32 mm, rounded down."""
        return length(self.corners[edge[0]], self.corners[edge[1]])

    def walks(self, edges: Sequence[HalfEdge]) -> List[List[int]]:
        """The closed walks of pieces that bound what lies on their left, as numbers of corners."""
        onward: Dict[int, List[int]] = {}
        for a, b in edges:
            onward.setdefault(a, []).append(b)
        used, found = set(), []
        for first in edges:
            walk, edge = [], first
            while edge not in used:
                used.add(edge)
                walk.append(edge[0])
                ends = onward[edge[1]]
                edge = (edge[1], ends[0] if len(ends) == 1 else self._turn(edge, ends))
            if walk:
                found.append(walk)
        return found

    def _turn(self, edge: HalfEdge, ends: Sequence[int]) -> int:
        """Of the pieces from an edge's end on the one first met when turning clockwise from the way back."""
        here, back = edge[1], self.ways[edge[1], edge[0]]
        best = ends[0]
        for end in ends[1:]:
            if sooner(back, self.ways[here, end], self.ways[here, best]):
                best = end
        return best


def graph_of(edges: Array, owners: Sequence[int], times: Optional[Sequence[int]] = None) -> Graph:
    """The graph of edges, rows (ax, ay, bx, by) int64, that run round their owners' insides, each so many times (1).

    An edge without length is a corner at which others are cut.
    """
    graph = _pieces(edges, owners, [1] * len(edges) if times is None else times)
    cycles = graph.walks(list(graph.nets))
    of_edge = {edge: at for at, cycle in enumerate(cycles) for edge in zip(cycle, cycle[1:] + cycle[:1])}
    _number_faces(graph, cycles, of_edge)
    return graph


def _pieces(edges: Array, owners: Sequence[int], times: Sequence[int]) -> Graph:
    """A graph without faces: the pieces that are a border of someone."""
    graph = Graph()
    numbers: Dict[Corner, int] = {}
    nets: Dict[HalfEdge, Counts] = {}
    rows = edges[:, :4].tolist()
    for at, (chain, owner, count) in enumerate(zip(cut_edges(edges), owners, times)):
        walk = [numbers.setdefault(corner, len(numbers)) for corner in chain]
        for a, b in zip(walk, walk[1:]):
            if a != b:
                key, signed = ((a, b), count) if a < b else ((b, a), -count)
                here = nets.setdefault(key, {})
                here[owner] = here.get(owner, 0) + signed
                graph.parents.setdefault(key, []).append(at)
                ax, ay, bx, by = rows[at]
                graph.ways[a, b], graph.ways[b, a] = (bx - ax, by - ay), (ax - bx, ay - by)
    graph.corners = list(numbers)
    for (a, b), counts in nets.items():
        kept = {owner: count for owner, count in counts.items() if count}
        if kept:
            graph.nets[a, b], graph.nets[b, a] = kept, {owner: -count for owner, count in kept.items()}
            graph.parents[b, a] = graph.parents[a, b]
    return graph


def _number_faces(graph: Graph, cycles: List[List[int]], of_edge: Dict[HalfEdge, int]) -> None:
    """Gives each piece the face on its left, and each face its cover."""
    doubled = [twice_area(graph.places(cycle)) for cycle in cycles]
    group = _groups(cycles, of_edge)
    inner = [at for at in range(len(cycles)) if doubled[at] > 0]
    number = {at: face for face, at in enumerate(inner, 1)}
    covers: List[Optional[Counts]] = [{}, *([None] * len(inner))]
    boxes = np.array([_box(graph.places(cycles[at])) for at in inner], dtype=float).reshape(-1, 4)
    outside = [at for at in range(len(cycles)) if doubled[at] <= 0]
    for at in sorted(outside, key=lambda it: doubled[it]):
        around = _face_around(graph, cycles, doubled, group, inner, boxes, at)
        number[at] = 0 if around is None else number[around]
        _spread(graph, cycles, of_edge, number, covers, at)
    for at, cycle in enumerate(cycles):
        graph.face_of.update(dict.fromkeys(zip(cycle, cycle[1:] + cycle[:1]), number[at]))
    graph.covers = [cover or {} for cover in covers]


def _spread(
    graph: Graph,
    cycles: List[List[int]],
    of_edge: Dict[HalfEdge, int],
    number: Dict[int, int],
    covers: List[Optional[Counts]],
    begin: int,
) -> None:
    """Says of all faces of a group how they are covered, from its outer cycle on, whose face is known."""
    waiting = [begin]
    while waiting:
        here = waiting.pop()
        known = covers[number[here]]
        assert known is not None
        cycle = cycles[here]
        for a, b in zip(cycle, cycle[1:] + cycle[:1]):
            there = of_edge[b, a]
            if there in number and covers[number[there]] is None:
                covers[number[there]] = _less(known, graph.nets[a, b])
                waiting.append(there)


def _less(cover: Counts, net: Counts) -> Counts:
    """The cover beyond a piece that runs with the first one on its left."""
    result = dict(cover)
    for owner, count in net.items():
        result[owner] = result.get(owner, 0) - count
        if not result[owner]:
            del result[owner]
    return result


def _groups(cycles: List[List[int]], of_edge: Dict[HalfEdge, int]) -> List[int]:
    """For each cycle the first one of those that hang together with it."""
    group = [-1] * len(cycles)
    for begin in range(len(cycles)):
        waiting = [begin] if group[begin] < 0 else []
        while waiting:
            here = waiting.pop()
            group[here] = begin
            cycle = cycles[here]
            twins = {of_edge[b, a] for a, b in zip(cycle, cycle[1:] + cycle[:1])}
            fresh = [it for it in twins if group[it] < 0]
            for it in fresh:
                group[it] = begin
            waiting += fresh
    return group


def _box(cycle: Sequence[Corner]) -> Tuple[Number, ...]:
    xs, ys = zip(*cycle)
    return min(xs), min(ys), max(xs), max(ys)


def _face_around(
    graph: Graph,
    cycles: List[List[int]],
    doubled: List[Number],
    group: List[int],
    inner: List[int],
    boxes: Array,
    at: int,
) -> Optional[int]:
    """The least face of another group that has cycle `at` inside; None where there is none."""
    x0, y0, x1, y1 = (float(value) for value in _box(graph.places(cycles[at])))
    close = (boxes[:, 0] <= x0) & (boxes[:, 1] <= y0) & (boxes[:, 2] >= x1) & (boxes[:, 3] >= y1)
    around = [inner[k] for k in np.flatnonzero(close) if group[inner[k]] != group[at]]
    corner = graph.corners[cycles[at][0]]
    around = [face for face in around if contains(graph.places(cycles[face]), corner)]
    least: Callable[[int], Number] = doubled.__getitem__
    return sorted(around, key=least)[0] if around else None


# Regions


@dataclass
class Region:
    """Faces with the same label that hang together: their outer ring, its holes, and twice their area, exact.

    `border` are the pieces around them, with them on the left; `faces` their numbers.
    """

    label: Hashable
    outer: List[Corner]
    holes: List[List[Corner]]
    area2: Number
    border: List[HalfEdge]
    faces: List[int]


def regions_of(graph: Graph, labels: Callable[[int], Optional[Hashable]]) -> List[Region]:
    """The regions of faces by their labels; faces with None are in none, nor is face 0. By their least corner."""
    label = [None, *(labels(face) for face in range(1, len(graph.covers)))]
    root = list(range(len(label)))

    def found(face: int) -> int:
        while root[face] != face:
            root[face] = root[root[face]]
            face = root[face]
        return face

    for edge, face in graph.face_of.items():
        other = graph.right_of(edge)
        if label[face] is not None and label[face] == label[other]:
            root[found(face)] = found(other)
    borders: Dict[int, List[HalfEdge]] = defaultdict(list)
    for edge, face in graph.face_of.items():
        if label[face] is not None and found(face) != found(graph.right_of(edge)):
            borders[found(face)].append(edge)
    members: Dict[int, List[int]] = defaultdict(list)
    for face in range(1, len(label)):
        members[found(face)].append(face)
    regions = [_region(graph, label[at], border, members[at]) for at, border in borders.items()]
    return sorted(regions, key=lambda region: (min(region.outer), region.area2))


def _region(graph: Graph, label: Hashable, border: List[HalfEdge], faces: List[int]) -> Region:
    walks = [loop for walk in graph.walks(border) for loop in simple_loops(walk)]
    loops = [_without_straight(graph.places(walk)) for walk in walks]
    doubled = [twice_area(loop) for loop in loops]
    at = max(range(len(loops)), key=lambda it: doubled[it])
    return Region(label, loops[at], loops[:at] + loops[at + 1 :], plain(sum(doubled)), border, faces)


def _without_straight(loop: List[Corner]) -> List[Corner]:
    """A loop without those crossings that lie straight between their neighbours."""
    kept = []
    for at, (x, y) in enumerate(loop):
        (ax, ay), (bx, by) = loop[at - 1], loop[(at + 1) % len(loop)]
        is_whole = isinstance(x, int) and isinstance(y, int)
        if is_whole or (x - ax) * (by - y) != (y - ay) * (bx - x):
            kept.append((x, y))
    return kept
