"""A register on its way to the grid: its corners put into the borders that they touch, then moved."""
from __future__ import annotations

from dataclasses import dataclass, field
from typing import Any, Dict, List, Optional, Tuple

import numpy as np
from shapely.geometry import Point, Polygon

from ..arrays import Array
from ..errors import Refused, place
from ..exact import grid as on_grid
from ..exact.city import LEAST_OPEN, OpenGap, open_gaps
from ..exact.junctions import put_in
from ..exact.noding import noise_of, points_of, values_gathered
from ..exact.outlines import Outlines, outlines
from ..program.limits import FARTHEST
from .layers import Labels, Layers
from .loops import CITY, PARCELS, ROLES, ZONES, Loops, joined, loops_of
from .prepared import GATHERED, MOVED, PUT_IN, TOUCHED, Changes
from .touching import Reaches, reaches_of

FRAME_MARGIN = 1_000
"""How far, in mm, a frame is from what it is around."""


@dataclass
class Work:
    """The register on its way: loops of point indices, the points in mm, and what was changed so far."""

    loops: Loops
    points: Array
    reaches: Reaches
    scale: float
    changes: List[Changes] = field(default_factory=list)

    @property
    def noise(self) -> float:
        """What floating point may have moved a coordinate by, in mm."""
        return self.reaches.noise

    def tell(
        self,
        change: int,
        corners: Array,
        distance: Array,
        loop: Array,
        area: Optional[Array] = None,
    ) -> Changes:
        """Notes corners (n, 2) in mm that are changed, how far each, the loops that have them, the areas that
        change."""
        to = np.floor(corners + 0.5).astype(np.int64)
        areas = np.zeros(len(corners)) if area is None else area
        told = Changes(
            np.full(len(corners), change),
            corners / self.scale,
            to,
            distance,
            self.loops.layer[loop],
            self.loops.row[loop],
            areas,
        )
        self.changes.append(told)
        return told

    def put_in(self, wanted: Array, side_reach: Any, point_reach: Any) -> None:
        """Puts wanted points (indices) into the sides that they touch, and notes them."""
        loops, found = put_in(self.loops, self.points, wanted, side_reach, point_reach, self.noise)
        far = found.off > self.noise
        for change, kept in ((PUT_IN, ~far), (TOUCHED, far)):
            area = np.where(found.twin, 0.0, found.area)[kept]
            self.tell(change, self.points[found.point[kept]], found.off[kept], found.loop[kept], area)
        self.loops = loops


def taken_apart(layers: Layers, grid: Optional[float], touch: Optional[float]) -> Work:
    shapes = ((tag, layers.shapes(tag)) for tag in (PARCELS, ZONES, CITY))
    loops = joined([loops_of(some, layers.scale, tag) for tag, some in shapes if some is not None])
    corners = loops.corners
    if np.abs(corners).max() > FARTHEST:
        raise Refused("P9", "the layer lies more than 100,000 km from the origin", role="parcels")
    noise = noise_of(corners)
    (xs, x_made_one), (ys, y_made_one) = (values_gathered(corners[:, axis], noise) for axis in (0, 1))
    points, loops.corners = points_of(np.column_stack([xs, ys]))
    made = np.zeros(len(points), dtype=bool)
    made[loops.corners[_are_made(corners, layers)]] = True
    reaches = reaches_of(loops, points, layers.scale, noise, grid, touch, made)
    work = Work(loops, points, reaches, layers.scale)
    distance = np.hypot(xs - corners[:, 0], ys - corners[:, 1])
    at = np.flatnonzero((x_made_one & (xs != corners[:, 0])) | (y_made_one & (ys != corners[:, 1])))
    work.tell(GATHERED, corners[at], distance[at], np.searchsorted(loops.starts, at, side="right") - 1)
    return work


def _are_made(corners: Array, layers: Layers) -> Array:
    """Which of the corners (n, 2) in mm are ends of chords, that their layers have not."""
    made = [it.corners * layers.scale for it in layers.chords.values()]
    if not made:
        return np.zeros(len(corners), dtype=bool)
    places = np.concatenate(made)
    return np.isin(corners[:, 0] + 1j * corners[:, 1], places[:, 0] + 1j * places[:, 1])


def outlines_and_zones(
    work: Work, layers: Layers, frame: bool, narrow: float
) -> Tuple[List[Polygon], Dict[int, int], List[OpenGap]]:
    """The city's parts, put among the loops; where zones were cut to them, in which of them a zone's part lies;
    gaps."""
    layer = work.loops.layer
    role = PARCELS if layers.city is None else CITY
    found = outlines(work.loops.take(layer == role), work.points, role == CITY)
    gaps = [] if role == CITY else open_gaps(found.rings, narrow, max(LEAST_OPEN, work.reaches.touch))
    if frame:
        found = Outlines([], [Polygon(on_grid.frame_around(work.points, FRAME_MARGIN))], [[]])
    parts = found.parts
    several = [work.loops.take(layer == PARCELS)]
    coordinates = [Loops(work.points[several[0].corners], *_tags(several[0])), found.loops()]
    islands: Dict[int, int] = {}
    if layers.zones is not None:
        kept = work.loops.take(layer == ZONES)
        if frame:
            coordinates.append(Loops(work.points[kept.corners], *_tags(kept)))
        else:
            cut, islands = on_grid.clipped(kept, work.points, parts)
            coordinates.append(cut)
    loops = joined(coordinates)
    known, noise = work.points, work.noise
    own = len(coordinates[0].corners)  # the parcels' corners are points that are known, as they are
    moved = [_near_known(loops.corners[own:, axis], known[:, axis], noise) for axis in (0, 1)]
    work.points, loops.corners = points_of(np.concatenate([loops.corners[:own], np.column_stack(moved)]))
    work.loops = loops
    if not frame:
        of_parcels = np.zeros(len(work.points), dtype=bool)
        of_parcels[loops.corners[:own]] = True
        others = np.flatnonzero(~of_parcels)
        beside = known[np.isin(known[:, 0], work.points[others, 0])]
        work.put_in(others[~_among(work.points[others], beside)], noise, noise)
    return parts, islands, gaps


def _tags(loops: Loops) -> Tuple[Array, ...]:
    return loops.starts, loops.layer, loops.row, loops.part, loops.hole


def _near_known(values: Array, known: Array, noise: float) -> Array:
    """Values with those that are known but for noise put there, and the others gathered."""
    known = np.unique(known)
    at = np.clip(np.searchsorted(known, values), 1, max(len(known) - 1, 1))
    low, high = known[np.minimum(at, len(known)) - 1], known[np.minimum(at, len(known) - 1)]
    nearest = np.where(np.abs(values - low) <= np.abs(values - high), low, high)
    close = np.abs(values - nearest) <= noise
    result = np.where(close, nearest, values)
    if not close.all():
        result[~close], _ = values_gathered(values[~close], noise)
    return result


def _among(points: Array, known: Array) -> Array:
    both = np.concatenate([known, points])
    _, index = points_of(both)
    return np.isin(index[len(known) :], index[: len(known)])


def tell_moves(work: Work, max_move: float, labels: Labels) -> None:
    """Notes each point that goes to the grid from more than noise off it. Refused P8 where one goes too far."""
    used, position = np.unique(work.loops.corners, return_index=True)
    points = work.points[used]
    distance = np.hypot(*(np.floor(points + 0.5) - points).T)
    far = distance > work.noise
    loop = np.searchsorted(work.loops.starts, position[far], side="right") - 1
    moved = work.tell(MOVED, points[far], distance[far], loop)
    if moved.distance.max(initial=0.0) > max_move:
        at = int(moved.distance.argmax())
        (x, y), layer, row = moved.places[at], moved.layer[at], moved.row[at]
        text = f"a corner would move {moved.distance[at]:.2f} mm (measured), more than {max_move} mm, {place(x, y)}"
        raise Refused("P8", text, role=ROLES[layer], number=label_of(labels, layer, row), geometry=Point(x, y))


def label_of(labels: Labels, layer: int, row: int) -> Optional[str]:
    return labels[layer][row] if layer < len(labels) and row >= 0 else None


def to_grid(work: Work) -> None:
    """Rounds all points, and puts in the corners that lie on a side only now."""
    whole = np.floor(work.points + 0.5)
    as_they_were = bool((whole == work.points).all())
    work.points, index = points_of(whole)
    work.loops.corners = index[work.loops.corners]
    if not as_they_were:
        work.put_in(np.unique(work.loops.corners), 0.0, 0.0)
