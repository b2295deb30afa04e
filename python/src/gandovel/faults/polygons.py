"""Gaps, overlaps and what lies beyond the city, as polygons with exact areas, and who covers or borders each.

The proved program says which edges are not balanced: an edge (ax, ay) to (bx, by) with `net` n says that on its left
the
layer covers n times more, less the city, than on its right. So each face that the edges bound is covered too often by a
whole number, or too seldom (a gap). Where it is too often, the planar graph of the rings there says which do so, and
whether that is in the city. All is in whole numbers and fractions.
"""
from __future__ import annotations

from dataclasses import dataclass, field
from typing import Any, Callable, Dict, FrozenSet, Hashable, Iterable, List, Optional, Sequence, Set, Tuple

import numpy as np

from ..arrays import Array
from ..exact.planar import Counts, Graph, Region, edges_of, graph_of, regions_of
from ..exact.rings import Corner, Number, is_narrow, point_inside, whole_bounds

Edge = Tuple[int, int, int, int]
SQUARE_METRE = 1_000_000
CITY = -1
"""The owner of the city's ring in a graph; other owners are rows from 0."""


@dataclass
class Fault:
    """A polygon with holes in mm that is covered too often (`depth` > 0) or too seldom; `area2` twice its area, exact.

    `edges` are the program's edges on its border. `beyond` says that it lies outside the city.
    """

    depth: int
    outer: List[Corner]
    holes: List[List[Corner]] = field(default_factory=list)
    area2: Number = 0
    edges: Set[Edge] = field(default_factory=set)
    beyond: bool = False

    @property
    def kind(self) -> str:
        """`gap`, `overlap` or `beyond`."""
        return "beyond" if self.beyond else "gap" if self.depth < 0 else "overlap"

    def is_narrow(self, width: float) -> bool:
        """Whether it is nowhere wider than `width` (mm): measured by GEOS, from a corner of it."""
        return is_narrow(self.outer, self.holes, width)

    def inside(self) -> Corner:
        """A point inside the fault's outer ring and in none of its holes."""
        return point_inside(self.outer, self.holes)

    @property
    def key(self) -> Tuple[Corner, Number]:
        """What tells it from other faults of its kind: its least corner and its area."""
        return min(self.outer), self.area2


def faults_of(edges: Array) -> List[Fault]:
    """The faults that unbalanced edges, rows (ax, ay, bx, by, net) int64, bound; by their least corner."""
    if not len(edges):
        return []
    graph = graph_of(edges, [0] * len(edges), edges[:, 4].tolist())
    rows: List[Edge] = [(ax, ay, bx, by) for ax, ay, bx, by, _ in edges.tolist()]
    faults = []
    for region in regions_of(graph, lambda face: graph.covers[face].get(0)):
        bounds = {rows[at] for edge in region.border for at in graph.parents[edge]}
        faults.append(_fault(region, region.label, bounds))
    return faults


def _fault(region: Region, depth: Hashable, edges: Set[Edge], beyond: bool = False) -> Fault:
    assert isinstance(depth, int)
    return Fault(depth, region.outer, region.holes, region.area2, edges, beyond)


def fault_area(area2: Number) -> Dict[str, Any]:
    """Twice an area in mm2 as a fault's columns have it: a whole number, or the two that it lies between."""
    least, most = whole_bounds(area2)
    return {
        "area2_mm2": str(least),
        "area2_most_mm2": str(most),
        "area_m2": float(area2) / 2 / SQUARE_METRE,
        "area_how": "exact" if least == most else "within 1",
    }


@dataclass
class Coverage:
    """The graph of some rings of a layer, each an owner by its row, and of the city's outer ring (`CITY`).

    `outside` are the rows that fill what the city leaves out within its outer ring: its holes, or a frame.
    """

    graph: Graph
    outside: FrozenSet[int]

    def rows(self, face: int) -> List[int]:
        """The rows that cover a face, but for those outside the city."""
        return sorted(row for row in self.graph.covers[face] if row != CITY and row not in self.outside)

    def kind(self, face: int) -> Optional[Tuple[str, int]]:
        """What is wrong with a face, and how often it is covered too much or too little; None of a sound one."""
        cover = self.graph.covers[face]
        times = sum(cover[row] for row in self.rows(face))
        if not self.is_in_city(face):
            return ("beyond", times) if times else None
        return None if times == 1 else ("overlap", times - 1) if times else ("gap", -1)

    def is_in_city(self, face: int) -> bool:
        """Whether a face lies in the city."""
        return within_city(self.graph.covers[face], self.outside)


def within_city(cover: Counts, outside: Iterable[int]) -> bool:
    """Whether what is covered so lies in the city's outer ring and in none of the rows outside the city."""
    return cover.get(CITY, 0) > 0 and not any(cover.get(row) for row in outside)


def coverage_of(
    city: Array, rings: Sequence[Array], rows: Sequence[int], outside: FrozenSet[int], corners: Optional[Array] = None
) -> Coverage:
    """The coverage by some rows of a layer; where `corners` (k, 2) lie on an edge it is cut, too."""
    some = [city, *(rings[row] for row in rows)]
    owners = np.repeat([CITY, *rows], [len(ring) for ring in some])
    edges = edges_of(some)
    if corners is not None and len(corners):
        edges = np.concatenate([edges, np.column_stack([corners, corners])])
        owners = np.concatenate([owners, np.full(len(corners), CITY)])
    return Coverage(graph_of(edges, owners.tolist()), outside)


def boxes_touching(boxes: Array, around: Array) -> Array:
    """The rows of boxes (x, y, x, y) that touch or overlap one of those in `around`."""
    found = np.zeros(len(boxes), dtype=bool)
    for x0, y0, x1, y1 in around.tolist():
        found |= (boxes[:, 0] <= x1) & (boxes[:, 1] <= y1) & (boxes[:, 2] >= x0) & (boxes[:, 3] >= y0)
    return np.flatnonzero(found)


def box_of(fault: Fault) -> Tuple[float, float, float, float]:
    """The box around a fault, rounded outwards to whole numbers."""
    xs, ys = zip(*fault.outer)
    low, high = (int(min(xs) // 1), int(min(ys) // 1)), (-int(-max(xs) // 1), -int(-max(ys) // 1))
    return low[0], low[1], high[0], high[1]


def covered_too_often(coverage: Coverage) -> Tuple[List[Fault], List[List[int]]]:
    """The overlaps, and what lies beyond the city, of a coverage; and for each the rows that cover a part of it."""
    graph = coverage.graph
    kinds: Callable[[int], Optional[Tuple[str, int]]] = coverage.kind
    labels = {face: kinds(face) for face in range(1, len(graph.covers))}
    wrong = {face: label for face, label in labels.items() if label is not None and label[0] != "gap"}
    faults, rows = [], []
    for region in regions_of(graph, wrong.get):
        kind, depth = wrong[region.faces[0]]
        faults.append(_fault(region, depth, set(), kind == "beyond"))
        rows.append(sorted({row for face in region.faces for row in coverage.rows(face)}))
    return faults, rows


def conflicts_of(coverage: Coverage) -> List[Set[int]]:
    """The pairs of rows, those outside the city among them, that cover a face both."""
    pairs: Dict[Tuple[int, int], None] = {}
    for cover in coverage.graph.covers:
        rows = sorted(row for row in cover if row != CITY)
        pairs.update(dict.fromkeys((one, other) for at, one in enumerate(rows) for other in rows[at + 1 :]))
    return [set(pair) for pair in pairs]
