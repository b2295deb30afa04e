"""How far off a border a corner may lie where it belongs on it: by the grids of a register, its noise, or as told."""
from __future__ import annotations

from dataclasses import dataclass, field
from typing import Any, Dict, List, Optional

import numpy as np

from ..arrays import Array
from ..errors import Refused
from .loops import PARCELS, ROLES, Loops
from .near_pairs import Noise, noise_of_pairs
from .precision import NONE, Grids, grids_of, steps_of_rows

DIAGONAL = 1.42
"""A corner and the ends of a border are each rounded by half a step in x and y: together by the square's diagonal."""
FARTHEST_TOLD = 100_000


@dataclass
class LayerPrecision:
    """How finely a layer is kept: `how` is `grid`, `noise` (measured), `exact`, `told`, `undecided` or `none`.

    `grid` is the step (mm) that most corners fit, `steps` how many corners have which, and `touch` the greatest
    distance (mm) at which its corners touch.
    """

    how: str = "none"
    grid: Optional[float] = None
    steps: "list[tuple[float, int]]" = field(default_factory=list)
    noise: Optional[Noise] = None
    touch: float = 0.0

    def told(self) -> Dict[str, Any]:
        """It as a dictionary that JSON can write."""
        noise = self.noise
        return {
            "how": self.how,
            "grid_mm": self.grid,
            "corners_by_grid": [{"grid_mm": step, "corners": count} for step, count in self.steps if count],
            "noise_mm": None if noise is None else noise.distance,
            "near_pairs": [] if noise is None else noise.histogram(),
            "proposed": [] if noise is None else noise.proposed,
            "measured": ["noise_mm", "near_pairs", "proposed"],
        }


@dataclass
class Reaches:
    """How far off, in mm, a corner touches a side: the greater of the corner's distance and the side's.

    `of_points` has a distance for each point, and `of_sides` for each corner's side of the loops; `layers` says how
    finely parcels, zones and city are kept. `noise` is what floating point may have moved a coordinate by.
    """

    of_points: Array
    of_sides: Array
    layers: List[LayerPrecision]
    noise: float

    @property
    def touch(self) -> float:
        """How far off a border, in mm, a corner of the parcels touches it at most."""
        return self.touch_of("parcels")

    def touch_of(self, role: str) -> float:
        """As `touch`, of a layer."""
        return max(self.layers[ROLES.index(role)].touch, self.noise)


def reaches_of(
    loops: Loops,
    points: Array,
    scale: float,
    noise: float,
    grid: Optional[float],
    touch: Optional[float],
    made: Optional[Array] = None,
) -> Reaches:
    """The reaches of layers, whose loops are of indices of points in mm, `scale` mm a unit; `grid` and `touch` if told,
    in mm. `made` marks the points that are ends of chords: they say nothing of how finely a layer is kept."""
    made = np.zeros(len(points), dtype=bool) if made is None else made
    reaches = Reaches(np.full(len(points), noise), np.full(len(loops.corners), noise), [], noise)
    layer = np.repeat(loops.layer, np.diff(loops.starts))
    for at in range(len(ROLES)):
        here = np.flatnonzero(layer == at)
        some = loops.take(loops.layer == at)
        if not len(here):
            reaches.layers.append(LayerPrecision())
            continue
        precision, of_corners, of_sides = _layer(some, points, scale, noise, grid, touch, at, made)
        np.maximum.at(reaches.of_points, some.corners, of_corners)
        reaches.of_sides[here] = np.maximum(of_sides, noise)
        precision.touch = float(max(of_corners.max(), of_sides.max()))
        reaches.layers.append(precision)
    return reaches


def _layer(
    loops: Loops,
    points: Array,
    scale: float,
    noise: float,
    grid: Optional[float],
    touch: Optional[float],
    at: int,
    made: Array,
) -> "tuple[LayerPrecision, Array, Array]":
    """A layer's precision, and the distances of its corners and of their sides."""
    used, corners = np.unique(loops.corners, return_inverse=True)
    grids = _grids(points[used], made[used], scale, noise)
    precision = LayerPrecision("grid", grids.main, grids.counts())
    everywhere = np.ones(len(loops.corners))
    if touch is not None or grid is not None:
        precision.how, precision.grid = "told", grid or grids.main
        distance = touch if touch is not None else DIAGONAL * (grid or 0.0)
        return precision, everywhere * distance, everywhere * distance
    of_loops, of_corners = steps_of_rows(loops, grids, corners.reshape(-1))
    of_sides = np.maximum(np.repeat(of_loops, np.diff(loops.starts)), 0.0)
    if grids.main is None:
        least = _noise(precision, loops, points, noise, made) if at == PARCELS else 0.0
        precision.how = precision.how if at == PARCELS else "none"
        return precision, np.maximum(DIAGONAL * of_corners, least), np.maximum(DIAGONAL * of_sides, least)
    return precision, DIAGONAL * of_corners, DIAGONAL * of_sides


def _grids(points: Array, made: Array, scale: float, noise: float) -> Grids:
    """The grids of points; those that are ends of chords have the layer's."""
    drawn = ~made
    if drawn.all() or made.all():
        return grids_of(points, scale, noise)
    grids = grids_of(points[drawn], scale, noise)
    of_points = np.full(len(points), NONE if grids.main is None else grids.steps.index(grids.main))
    of_points[drawn] = grids.of_points
    return Grids(grids.steps, of_points, grids.main)


def _noise(precision: LayerPrecision, loops: Loops, points: Array, noise: float, made: Array) -> float:
    """What near pairs say of a layer without a grid: the distance within which its corners touch."""
    precision.noise = found = noise_of_pairs(loops, points, noise, made)
    if found.distance is None:
        precision.how = "undecided"
        return 0.0
    precision.how = "noise" if found.distance > 0 else "exact"
    return found.distance * (1 + 1e-9) + noise if found.distance > 0 else 0.0


def test_distances(**told: Optional[float]) -> None:
    """Refuses (P8) what is told and is no distance in mm."""
    for name, distance in told.items():
        if distance is not None and not (0 <= distance <= FARTHEST_TOLD and (distance > 0 or name != "grid")):
            what, least = name.replace("_", "-"), "above 0 and" if name == "grid" else "from 0"
            raise Refused("P8", f"a {what} of {distance} mm is none: give millimetres, {least} up to {FARTHEST_TOLD:,}")
