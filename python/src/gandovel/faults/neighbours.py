"""What parcels cover of neighbouring cities: by the planar graph of both, in whole numbers.

The program is not asked: no neighbour is a part of the layer that it judges. A neighbour's corners are rounded to the
grid of whole millimetres, and nothing is made to touch it.
"""
from __future__ import annotations

from dataclasses import dataclass
from typing import Any, Dict, List, Sequence, Tuple

import geopandas as gpd
import numpy as np
from shapely.geometry import Polygon
from shapely.prepared import prep

from ..arrays import Array
from ..exact.planar import edges_of, graph_of, regions_of
from ..large.cutting import boxes_of
from ..reading.loops import bad_geometries, numbers_of
from ..shapes import rings_of, wkb_of
from .polygons import CITY, Fault

NAMES = ("name", "city")
"""The columns that have the neighbours' names where there is one."""


@dataclass
class Neighbour:
    """A neighbouring city: its name, and its polygons, each an outer ring and its holes, (k, 2) int64 in mm."""

    name: str
    polygons: List[List[Array]]

    def told(self) -> Dict[str, Any]:
        """It as lists, for `prepared.json`."""
        return {"name": self.name, "polygons": [[ring.tolist() for ring in rings] for rings in self.polygons]}

    @classmethod
    def of(cls, told: Dict[str, Any]) -> "Neighbour":
        """What `told` gave."""
        return cls(told["name"], [[np.array(ring, dtype=np.int64) for ring in rings] for rings in told["polygons"]])


def neighbours_of(frame: gpd.GeoDataFrame, scale: float) -> List[Neighbour]:
    """The rows of a layer as neighbours; `scale` is how many mm its unit has. Refused as parcels are, if invalid."""
    column = next((name for name in NAMES if name in frame.columns), "ROW")
    names = numbers_of(frame, column, "neighbours", unique=False)
    bad = list(bad_geometries(frame, names, "neighbours").values())
    if bad:
        raise bad[0]
    found = []
    for name, blob in zip(names, wkb_of(frame.geometry.to_numpy())):
        polygons = [[_on_grid(ring, scale) for ring in rings] for rings in rings_of(blob)] if blob is not None else []
        found.append(Neighbour(name, polygons))
    return found


def _on_grid(ring: Array, scale: float) -> Array:
    """A closed ring of a layer on the grid, without its first corner again."""
    whole = np.floor(ring[:-1, :2] * scale + 0.5).astype(np.int64)
    return np.asarray(whole[(whole != np.roll(whole, 1, axis=0)).any(axis=1)])


def overlaps_with(neighbour: Neighbour, rings: Sequence[Array]) -> List[Tuple[Fault, List[int]]]:
    """What rings (from 0, counterclockwise) cover of a neighbour: each connected part, and the rings that cover some
    of it."""
    found: List[Tuple[Fault, List[int]]] = []
    boxes = boxes_of(rings)
    for polygon in neighbour.polygons:
        turned = [_turned(ring, at == 0) for at, ring in enumerate(polygon)]
        rows = _rows_near(turned, rings, boxes)
        some = [rings[row] for row in rows]
        owners = np.repeat([CITY, *rows], [sum(map(len, turned)), *map(len, some)])
        graph = graph_of(np.concatenate([edges_of(turned), edges_of(some)]), owners.tolist())
        covered = {
            face: sum(times for row, times in cover.items() if row != CITY)
            for face, cover in enumerate(graph.covers)
            if cover.get(CITY, 0) > 0 and len(cover) > 1
        }
        for region in regions_of(graph, lambda face: 1 if face in covered else None):
            concerned = sorted({row for face in region.faces for row in graph.covers[face] if row != CITY})
            depth = max(covered[face] for face in region.faces)
            found.append((Fault(depth, region.outer, region.holes, region.area2), concerned))
    return found


def _turned(ring: Array, outer: bool) -> Array:
    """A ring with the polygon that it bounds on its left."""
    near = (ring - ring[0]).astype(object)
    after = np.roll(near, -1, axis=0)
    doubled = (near[:, 0] * after[:, 1] - near[:, 1] * after[:, 0]).sum()
    return ring if (doubled > 0) == outer else ring[::-1]


def _rows_near(polygon: Sequence[Array], rings: Sequence[Array], boxes: Array) -> List[int]:
    """The rings that meet a polygon, as GEOS says it of both widened by some millimetres: none is left out."""
    origin = polygon[0][0]
    around = prep(Polygon(polygon[0] - origin, [hole - origin for hole in polygon[1:]]).buffer(10))
    low, high = polygon[0].min(axis=0), polygon[0].max(axis=0)
    near = np.flatnonzero((boxes[:, :2] <= high).all(axis=1) & (boxes[:, 2:] >= low).all(axis=1))
    return [row for row in near.tolist() if around.intersects(Polygon(rings[row] - origin))]
