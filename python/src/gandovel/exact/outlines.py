"""The parts of the area that a layer covers, and what a city's holes leave out: by the planar graph, in whole
numbers."""
from __future__ import annotations

from dataclasses import dataclass
from fractions import Fraction
from typing import Dict, List, Sequence, Tuple

import numpy as np
from shapely.geometry import Polygon

from ..arrays import Array
from ..reading.loops import CITY, Loops, loops_from
from .grid import edges_left
from .planar import Graph, Region, graph_of, regions_of
from .rings import Corner


Places = Dict[Corner, Tuple[float, float]]
"""Where corners on the grid were, in mm."""


@dataclass
class Outlines:
    """The connected parts of an area in mm: their rings on the grid, counterclockwise, and polygons of the layer's
    points.

    `left_out` are, for each part, what its holes leave out, with other parts that lie in them.
    """

    rings: List[Array]
    parts: List[Polygon]
    left_out: List[List[Polygon]]

    def loops(self) -> Loops:
        """The outer rings as loops of coordinates, of part 0 of row i, and what is left out, as its parts from 1 on."""
        arrays: List[Array] = []
        tags: List[Tuple[int, int, bool]] = []
        for row, (part, others) in enumerate(zip(self.parts, self.left_out)):
            for number, polygon in enumerate((Polygon(part.exterior), *others)):
                for at, ring in enumerate((polygon.exterior, *polygon.interiors)):
                    arrays.append(np.asarray(ring.coords)[:-1, :2])
                    tags.append((row, number, at > 0))
        return loops_from(arrays, tags, 1.0, CITY)


def outlines(loops: Loops, points: Array, with_holes: bool = False) -> Outlines:
    """The parts of the area that loops (of point indices) cover, by the places of their points on the grid.

    Gaps and overlaps inside do not show in them, but for the holes of a city.
    """
    low, high, net = edges_left(loops.corners, loops.corners[loops.nexts()])
    used = np.unique(np.concatenate([low, high]))
    whole = np.floor(points + 0.5).astype(np.int64)
    edges = np.column_stack([whole[low], whole[high]])
    kept = (edges[:, :2] != edges[:, 2:]).any(axis=1)
    graph = graph_of(edges[kept], [0] * int(kept.sum()), net[kept].tolist())
    covered = regions_of(graph, lambda face: 1 if not with_holes or graph.covers[face].get(0, 0) > 0 else None)
    pairs = zip(whole[used].tolist(), points[used].tolist())
    places: Places = {(x, y): (east, north) for (x, y), (east, north) in pairs}
    sides = np.column_stack([points[low], points[high]])[kept]
    for region in covered:
        places.update(_crossings(graph, region, sides))
    parts = [_polygon(region.outer, region.holes, places) for region in covered]
    rings = [np.array([[round(x), round(y)] for x, y in region.outer], dtype=np.int64) for region in covered]
    return Outlines(rings, parts, [[_polygon(hole[::-1], (), places) for hole in region.holes] for region in covered])


def _crossings(graph: Graph, region: Region, sides: Array) -> Places:
    """Where the sides, as they are off the grid, cross that cross on a region's border on the grid."""
    parents: Dict[Corner, List[int]] = {}
    for edge in region.border:
        for corner in graph.places(edge):
            if any(isinstance(value, Fraction) for value in corner):
                parents.setdefault(corner, []).extend(graph.parents[edge])
    found: Places = {}
    for corner, several in parents.items():
        one, *others = dict.fromkeys(several)
        ax, ay, bx, by = (Fraction(value) for value in sides[one].tolist())
        for other in others:
            cx, cy, dx, dy = (Fraction(value) for value in sides[other].tolist())
            below = (bx - ax) * (dy - cy) - (by - ay) * (dx - cx)
            along = ((cx - ax) * (dy - cy) - (cy - ay) * (dx - cx)) / below if below else Fraction(-1)
            if 0 <= along <= 1:
                found[corner] = float(ax + along * (bx - ax)), float(ay + along * (by - ay))
    return found


def _polygon(outer: Sequence[Corner], holes: Sequence[Sequence[Corner]], places: Places) -> Polygon:
    """A polygon of the points that lie at corners of the grid; of a crossing that is none, as it is."""
    loops = [[places.get(corner, (float(corner[0]), float(corner[1]))) for corner in loop] for loop in (outer, *holes)]
    return Polygon(loops[0], loops[1:])
