"""Layers of a GIS: tested, and taken apart into loops of corners."""
from __future__ import annotations

from dataclasses import dataclass
from itertools import chain
from typing import Any, Dict, List, Optional, Sequence, Tuple

import geopandas as gpd
import numpy as np
import pandas as pd
from pyproj import CRS
from shapely.geometry import Point
from shapely.validation import explain_validity

from ..arrays import Array
from ..errors import Refused, place, raise_all
from ..large.shares import in_shares
from ..shapes import rings_of, wkb_of

PARCELS, ZONES, CITY = 0, 1, 2
ROLES = ("parcels", "zones", "city")
AREAS = ("Polygon", "MultiPolygon")
ROW = "ROW"
"""In place of a column's name: rows are numbered, from 1."""


def same_projection(first: Any, second: Any) -> bool:
    """Whether two layers' projections are one, the order of axes aside."""
    if first is None or second is None:
        return first is None and second is None
    first, second = CRS.from_user_input(first), CRS.from_user_input(second)
    return bool(first == second or first.is_exact_same(second) or first.equals(second, ignore_axis_order=True))


def numbers_of(frame: gpd.GeoDataFrame, column: str, role: str, unique: bool) -> List[str]:
    """A layer's own numbers as text; from 1 for the column `ROW`, unless there is one of that name.

    Refused: no such column (P2), all numbers that are missing or stand twice (P3).
    """
    if column not in frame.columns and column == ROW:
        return [str(row + 1) for row in range(len(frame))]
    if column not in frame.columns or column == frame.geometry.name:
        names = ", ".join(str(name) for name in frame.columns if name != frame.geometry.name) or "none"
        option = "zone" if role == "zones" else "number"
        what = f"there is no column {column}; there are {names}: name one by --{option}, or say --{option} {ROW}"
        raise Refused("P2", what, role=role)
    texts = list(map(as_text, frame[column].tolist()))
    seen: Dict[str, int] = {}
    problems = []
    for row, text in enumerate(texts):
        if text is None:
            problems.append(_at_row(frame, row, f"row {row + 1} has no {column}", role, None))
        elif unique and text in seen:
            twice = f"rows {seen[text] + 1} and {row + 1} have the same {column}"
            problems.append(_at_row(frame, row, twice, role, text))
        else:
            seen[text] = row
    raise_all(problems, f"give each row a {column} of its own, or say --number {ROW}")
    return [text for text in texts if text is not None]


def as_text(value: Any) -> Optional[str]:
    """A number as its layer has it, as text: `3` of 3 and 3.0; None of what is missing."""
    if pd.isna(value):
        return None
    if isinstance(value, float) and value.is_integer():
        return str(int(value))
    return str(value).strip() or None


def _at_row(frame: gpd.GeoDataFrame, row: int, text: str, role: str, number: Optional[str]) -> Refused:
    geometry = frame.geometry.iloc[row]
    if geometry is None or geometry.is_empty:
        return Refused("P3", text, role=role, number=number)
    point = Point(geometry.centroid if not geometry.is_valid else geometry.representative_point())
    return Refused("P3", f"{text} {place(point.x, point.y)} (measured)", role=role, number=number, geometry=point)


def bad_geometries(frame: gpd.GeoDataFrame, numbers: Sequence[str], role: str) -> Dict[int, Refused]:
    """By row what is no polygon (P5), is empty (P4) or crosses itself (P6), each with its number and place."""
    shapes = frame.geometry.to_numpy()

    def unsound(begin: int, end: int) -> List[int]:
        return [row for row in range(begin, end) if not _is_sound(shapes[row])]

    found: Dict[int, Refused] = {}
    for row in chain.from_iterable(in_shares(unsound, len(shapes), len(shapes))):
        number, geometry = numbers[row], shapes[row]
        if geometry is None or geometry.is_empty:
            found[row] = Refused("P4", "it has no geometry", role=role, number=number)
        elif geometry.geom_type not in AREAS:
            point = geometry.representative_point()
            text = f"it is a {geometry.geom_type} and no polygon {place(point.x, point.y)} (measured)"
            found[row] = Refused("P5", text, role=role, number=number, geometry=point)
        else:
            found[row] = _invalid(geometry, number, role)
    return found


def _is_sound(geometry: Any) -> bool:
    """Whether it is a polygon, or several, with some corners, and GEOS says that it is valid."""
    return bool(geometry is not None and not geometry.is_empty and geometry.geom_type in AREAS and geometry.is_valid)


def _invalid(geometry: Any, number: str, role: str) -> Refused:
    reason = explain_validity(geometry)
    text, _, rest = reason.partition("[")
    point = None
    try:
        x, y = (float(word) for word in rest.rstrip("]").split()[:2])
        if np.isfinite([x, y]).all():
            point, reason = Point(x, y), f"{text.strip()} {place(x, y)} (measured)"
    except ValueError:
        pass
    return Refused("P6", f"its geometry is invalid: {reason}", role=role, number=number, geometry=point)


@dataclass
class Loops:
    """Closed loops of corners, without their first corner again: `starts[i]:starts[i + 1]` are loop i's.

    `corners` is (n, 2) float64 in mm, or (n,) int64 indices of points. `layer`, `row`, `part` and `hole` are of a
    loop: its layer, the row in it, the polygon of the row, and whether it bounds a hole. Outer loops run
    counterclockwise and holes clockwise, so that the polygon is on the left.
    """

    corners: Array
    starts: Array
    layer: Array
    row: Array
    part: Array
    hole: Array

    def __len__(self) -> int:
        return len(self.starts) - 1

    def nexts(self) -> Array:
        """For each corner the position of the next one round its loop."""
        after = np.arange(1, len(self.corners) + 1)
        after[self.starts[1:] - 1] = self.starts[:-1]
        return after

    def take(self, kept: Array) -> "Loops":
        """The loops for which `kept` (a mask of loops) is true."""
        sizes = np.diff(self.starts)
        corners = self.corners[np.repeat(kept, sizes)]
        starts = np.concatenate([[0], np.cumsum(sizes[kept])])
        return Loops(corners, starts, self.layer[kept], self.row[kept], self.part[kept], self.hole[kept])


def joined(several: List[Loops]) -> Loops:
    """Loops of several layers, one behind the other."""
    sizes = np.concatenate([np.diff(loops.starts) for loops in several])
    fields = [np.concatenate([getattr(loops, name) for loops in several]) for name in ("layer", "row", "part", "hole")]
    return Loops(np.concatenate([loops.corners for loops in several]), np.concatenate([[0], np.cumsum(sizes)]), *fields)


def loops_of(geometries: Sequence[Any], scale: float, layer: int) -> Loops:
    """The loops of polygons and multipolygons, scaled to millimetres and turned so that the polygon is on the left."""

    def loops_in(begin: int, end: int) -> Loops:
        arrays: List[Array] = []
        tags: List[Tuple[int, int, bool]] = []
        for row, blob in enumerate(wkb_of(geometries[begin:end]), begin):
            if blob is None:
                continue
            for part, rings in enumerate(rings_of(blob)):
                for position, ring in enumerate(rings):
                    arrays.append(ring[:-1])
                    tags.append((row, part, position > 0))
        return loops_from(arrays, tags, scale, layer)

    shares: List[Loops] = in_shares(loops_in, len(geometries), len(geometries))
    return joined(shares) if len(shares) > 1 else shares[0]


def loops_from(arrays: List[Array], tags: List[Tuple[int, int, bool]], scale: float, layer: int) -> Loops:
    """Loops of arrays of corners (k, 2) with tags (row, part, hole)."""
    sizes = np.array([len(array) for array in arrays], dtype=np.int64)
    starts = np.concatenate([[0], np.cumsum(sizes)]).astype(np.int64)
    corners = (np.concatenate(arrays) if arrays else np.zeros((0, 2))) * scale
    row, part, hole = (np.array([tag[i] for tag in tags], dtype=np.int64) for i in range(3))
    loops = Loops(corners, starts, np.full(len(sizes), layer), row, part, hole.astype(bool))
    return _turned(loops)


def signed_areas(corners: Array, loops: Loops) -> Array:
    """Twice the signed area of each loop, as floats, of its corners (n, 2): good for the sign of what is not thin."""
    if not len(loops):
        return np.zeros(0)
    first = np.repeat(corners[loops.starts[:-1]], np.diff(loops.starts), axis=0)
    near = corners - first
    after = near[loops.nexts()]
    return np.add.reduceat(near[:, 0] * after[:, 1] - near[:, 1] * after[:, 0], loops.starts[:-1])


def _turned(loops: Loops) -> Loops:
    wrong = (signed_areas(loops.corners, loops) < 0) != loops.hole
    sizes = np.diff(loops.starts)
    first = np.repeat(loops.starts[:-1], sizes)
    last = np.repeat(loops.starts[1:] - 1, sizes)
    here = np.arange(len(loops.corners))
    order = np.where(np.repeat(wrong, sizes), first + last - here, here)
    loops.corners = loops.corners[order]
    return loops
