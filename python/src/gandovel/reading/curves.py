"""Curves of a layer as chords: the same for each parcel beside an arc, however each has it digitised.

An arc has three points. Two neighbours may have another one in its middle, run the other way, or have it in pieces. So
arcs that lie on one circle, as far as the layer's grid tells, are one curve: that of the longest. Its chords end at the
arcs' own ends, and at fixed angles round the circle, so that none is off it by more than a tenth of the grid.
"""
from __future__ import annotations

import math
from dataclasses import dataclass, field
from typing import Any, Dict, Iterable, Iterator, List, Optional, Sequence, Tuple, Union

import numpy as np
from shapely.geometry import MultiPolygon, Polygon

from ..arrays import Array
from .precision import grids_of

SAGITTA = 0.1
"""How far a chord may be off its arc, in steps of the layer's grid; of a millimetre where there is none."""
REACH = 1.42
"""How far points of one curve may be off its circle, in steps of the grid: each is rounded in x and y."""
NEAR = 0.4
"""No chord ends nearer to an arc's end than this part of a chord: the next would be of no use."""
MOST_CHORDS = 1 << 24
"""The most chords of a whole circle: no arc on the earth asks for more."""
Piece = Union[Array, "Arc"]
"""A part of a ring: corners (n, 2) of straight sides, or an arc."""


@dataclass(eq=False)
class Arc:
    """An arc from `start` by `middle` to `end`; one that ends where it starts is a circle."""

    start: Array
    middle: Array
    end: Array
    curve: Optional["Curve"] = None

    @property
    def is_closed(self) -> bool:
        """Whether it is a whole circle."""
        return bool((self.start == self.end).all())

    def length(self) -> float:
        """About how long it is: by its two halves."""
        return float(math.dist(self.start, self.middle) + math.dist(self.middle, self.end))

    def points(self) -> Array:
        """Its three points (3, 2)."""
        return np.array([self.start, self.middle, self.end])


@dataclass(eq=False)
class Curve:
    """A part of a circle, counterclockwise from `first` (radians) over `sweep`; `arcs` lie on it."""

    centre: Array
    radius: float
    first: float
    sweep: float
    arcs: List[Arc] = field(default_factory=list)

    @classmethod
    def of(cls, arc: Arc) -> "Optional[Curve]":
        """The curve of an arc; None where its three points lie on a straight line."""
        b, c = arc.middle - arc.start, arc.end - arc.start
        if arc.is_closed:
            offset = b / 2
        else:
            twice = 2 * (b[0] * c[1] - b[1] * c[0])
            if abs(twice) <= 1e-12 * float(b @ b + c @ c):
                return None
            offset = np.array([c[1] * (b @ b) - b[1] * (c @ c), b[0] * (c @ c) - c[0] * (b @ b)]) / twice
        radius = float(np.hypot(*offset))
        if not 0 < radius < 1e12:
            return None
        start, end = (float(math.atan2(v[1], v[0])) for v in (-offset, c - offset))
        sweep = 2 * math.pi if arc.is_closed else (end - start) % (2 * math.pi)
        if arc.is_closed or b[0] * c[1] - b[1] * c[0] > 0:
            return cls(arc.start + offset, radius, start, sweep)
        return cls(arc.start + offset, radius, end, 2 * math.pi - sweep)

    def angles(self, points: Array) -> Array:
        """How far round the curve points lie, from 0 at its first, counterclockwise."""
        x, y = (points - self.centre).T
        return np.asarray((np.arctan2(y, x) - self.first) % (2 * np.pi))

    def has(self, points: Array, reach: float) -> bool:
        """Whether all points lie on it, but for `reach`."""
        off = np.abs(np.hypot(*(points - self.centre).T) - self.radius)
        over = reach / self.radius
        angles = (self.angles(points) + over) % (2 * np.pi)
        return bool((off <= reach).all() and (angles <= self.sweep + 2 * over).all())

    def corners(self, sagitta: float, reach: float) -> Tuple[Array, Array]:
        """Where its chords end, by their angles: at the ends of its arcs, and at fixed angles between them."""
        ends = np.unique(np.array([point for arc in self.arcs for point in (arc.start, arc.end)]), axis=0)
        angles = self.angles(ends)
        order = np.argsort(angles, kind="stable")
        ends, angles = ends[order], angles[order]
        fresh = np.concatenate([[True], np.diff(angles) * self.radius > reach])
        ends, angles = ends[fresh], angles[fresh]
        count = _chords(self.radius, sagitta)
        step = 2 * np.pi / count
        numbers = np.arange(math.ceil(self.first / step), math.floor((self.first + self.sweep) / step) + 1)
        fixed = self.centre + self.radius * np.column_stack([np.cos(numbers * step), np.sin(numbers * step)])
        of_fixed = np.clip(numbers * step - self.first, 0, self.sweep)
        apart = np.abs((of_fixed[:, None] - angles[None, :] + np.pi) % (2 * np.pi) - np.pi).min(axis=1)
        kept = apart > NEAR * step
        every, places = np.concatenate([angles, of_fixed[kept]]), np.concatenate([ends, fixed[kept]])
        order = np.argsort(every, kind="stable")
        return every[order], places[order]


def _chords(radius: float, sagitta: float) -> int:
    """How many chords a whole circle has: a power of two, so that of two that are nearly one the chords are, too.

    The sagitta is halved, since a chord at an arc's end may be longer than the others by `NEAR`.
    """
    if sagitta >= radius:
        return 8
    wanted = math.pi / math.acos(1 - sagitta / 2 / radius)
    return int(min(MOST_CHORDS, max(8, 2 ** math.ceil(math.log2(wanted)))))


@dataclass(eq=False)
class Chords:
    """What arcs were made: how many `arcs` became how many `chords`, how far these are off them at most (`sagitta`,
    mm), and the `corners` (n, 2), in the layer's unit, that no arc had."""

    arcs: int
    chords: int
    sagitta: float
    corners: Array

    def told(self) -> Dict[str, Any]:
        """It as a dictionary that JSON can write."""
        return {"arcs": self.arcs, "chords": self.chords, "sagitta_mm": self.sagitta}

    def text(self) -> str:
        """It in one sentence."""
        several = "" if self.arcs == 1 else "s"
        were = "was" if self.arcs == 1 else "were"
        return (
            f"{self.arcs} arc{several} {were} read as {self.chords} chords, off by {self.sagitta:g} mm at most "
            "(a tenth of the grid)"
        )


@dataclass(eq=False)
class Drawn:
    """The rows of a layer that have arcs, each as its polygons, these as rings, these as pieces; the step of its grid,
    and `scale` mm a unit."""

    rows: Dict[int, List[List[List[Piece]]]]
    step: float
    scale: float

    @classmethod
    def of(cls, geometries: Sequence[Any], scale: float) -> "Drawn":
        """That of a layer's geometries of OGR, None for a row without one."""
        rows = {at: _polygons(it) for at, it in enumerate(geometries) if it is not None and it.HasCurveGeometry(True)}
        drawn = cls(rows, 0.0, scale)
        drawn.step = _step([*drawn.pieces(), *_straight(geometries, rows)], scale)
        return drawn

    def pieces(self) -> List[Piece]:
        """All its pieces."""
        return [piece for polygons in self.rows.values() for rings in polygons for ring in rings for piece in ring]

    def arcs(self) -> List[Arc]:
        """All its arcs."""
        return [piece for piece in self.pieces() if isinstance(piece, Arc)]


def straightened(layers: Sequence[Drawn]) -> List[Tuple[Dict[int, Any], Chords]]:
    """Of each layer the polygons of its rows with arcs, and what became of these: arcs of several layers have the same
    chords where they lie on one curve."""
    arcs = [arc for layer in layers for arc in layer.arcs()]
    sagitta, reach = SAGITTA * min(it.step for it in layers), REACH * max(it.step for it in layers)
    corners = {id(curve): curve.corners(sagitta, reach) for curve in _curves(arcs, reach)}
    between = {id(arc): _between(arc, corners, reach) for arc in arcs}
    return [_made(layer, between, sagitta) for layer in layers]


def _made(layer: Drawn, between: Dict[int, Array], sagitta: float) -> Tuple[Dict[int, Any], Chords]:
    """A layer's shapes, and what became of its arcs, which have these corners between their ends."""
    own = {
        tuple(point)
        for piece in layer.pieces()
        for point in (piece.points() if isinstance(piece, Arc) else piece).tolist()
    }
    arcs = layer.arcs()
    made = {tuple(point) for arc in arcs for point in between[id(arc)].tolist()} - own
    chords = sum(len(between[id(arc)]) + 1 for arc in arcs)
    shapes = {at: _shape(polygons, between) for at, polygons in layer.rows.items()}
    shapes = {at: shape for at, shape in shapes.items() if shape is not None}
    corners = np.array(sorted(made), dtype=float).reshape(-1, 2)
    return shapes, Chords(len(arcs), chords, sagitta * layer.scale, corners)


def _step(pieces: Iterable[Piece], scale: float) -> float:
    """The grid of a layer's corners and of its arcs' ends, in its unit; a millimetre where there is none."""
    ends = [np.array([it.start, it.end]) if isinstance(it, Arc) else it for it in pieces]
    points = np.unique(np.concatenate([*ends, np.zeros((0, 2))]), axis=0) * scale
    noise = 8.0 * float(np.spacing(np.abs(points).max(initial=1.0)))
    return (grids_of(points, scale, noise).main or 1.0) / scale if len(points) else 1.0 / scale


def _straight(geometries: Sequence[Any], rows: Dict[int, Any]) -> Iterator[Array]:
    """The corners of the rows without curves."""
    for at, geometry in enumerate(geometries):
        if geometry is not None and at not in rows:
            for rings in _polygons(geometry):
                for ring in rings:
                    yield from (piece for piece in ring if not isinstance(piece, Arc))


def _polygons(geometry: Any) -> List[List[List[Piece]]]:
    """The polygons of a geometry of OGR, each a list of rings, each a list of pieces; none of what has no area."""
    name = geometry.GetGeometryName()
    parts = [geometry.GetGeometryRef(at) for at in range(geometry.GetGeometryCount())]
    if name in ("POLYGON", "CURVEPOLYGON"):
        return [[list(_pieces(ring)) for ring in parts]]
    if name in ("MULTIPOLYGON", "MULTISURFACE", "GEOMETRYCOLLECTION"):
        return [polygon for part in parts for polygon in _polygons(part)]
    return []


def _pieces(ring: Any) -> Iterator[Piece]:
    """The pieces of a ring of OGR, one behind the other."""
    if ring.GetGeometryName() == "COMPOUNDCURVE":
        for at in range(ring.GetGeometryCount()):
            yield from _pieces(ring.GetGeometryRef(at))
        return
    points = np.array([point[:2] for point in ring.GetPoints() or []], dtype=float).reshape(-1, 2)
    if ring.GetGeometryName() != "CIRCULARSTRING":
        yield points
        return
    for at in range(0, len(points) - 2, 2):
        yield Arc(*points[at : at + 3])


def _curves(arcs: List[Arc], reach: float) -> List[Curve]:
    """The curves on which arcs lie, the longest arcs first; an arc on a straight line is on none."""
    curves: List[Curve] = []
    boxes = np.zeros((len(arcs), 4))
    for arc in sorted(arcs, key=lambda it: (-it.length(), *it.points().ravel().tolist())):
        points = arc.points()
        low, high = points.min(axis=0) - reach, points.max(axis=0) + reach
        known = boxes[: len(curves)]
        near = np.flatnonzero((known[:, :2] <= low).all(axis=1) & (known[:, 2:] >= high).all(axis=1))
        found = next((curves[at] for at in near.tolist() if curves[at].has(points, reach)), None)
        if found is None:
            found = Curve.of(arc)
            if found is None:
                continue
            boxes[len(curves)] = np.concatenate([low, high]) + np.array([-1, -1, 1, 1]) * (arc.length() + reach)
            curves.append(found)
        arc.curve = found
        found.arcs.append(arc)
    return curves


def _between(arc: Arc, corners: Dict[int, Tuple[Array, Array]], reach: float) -> Array:
    """The corners (n, 2) of an arc between its ends, in order."""
    curve = arc.curve
    if curve is None:
        return np.zeros((0, 2))
    angles, places = corners[id(curve)]
    start, middle, end = curve.angles(arc.points()).tolist()
    runs_back = not arc.is_closed and (middle - start) % (2 * math.pi) > (end - start) % (2 * math.pi)
    if runs_back:
        start, end = end, start
    sweep = 2 * math.pi if arc.is_closed else (end - start) % (2 * math.pi)
    beyond = (angles - start) % (2 * math.pi)
    margin = reach / curve.radius
    kept = np.flatnonzero((beyond > margin) & (beyond < sweep - margin))
    chosen = places[kept[np.argsort(beyond[kept], kind="stable")]]
    return np.asarray(chosen[::-1] if runs_back else chosen)


def _shape(polygons: List[List[List[Piece]]], between: Dict[int, Array]) -> Optional[Union[Polygon, MultiPolygon]]:
    """Polygons as a shape, their arcs as chords; None of what is none, which stays as GDAL has it."""
    rings = [[_ring(ring, between) for ring in some if ring] for some in polygons]
    if not all(some and min(map(len, some)) > 3 for some in rings):
        return None
    made = [Polygon(outer, holes) for outer, *holes in rings]
    return made[0] if len(made) == 1 else MultiPolygon(made)


def _ring(pieces: List[Piece], between: Dict[int, Array]) -> Array:
    """A closed ring's corners: an end that two pieces share is one."""
    corners = np.concatenate(
        [np.concatenate([[it.start], between[id(it)], [it.end]]) if isinstance(it, Arc) else it for it in pieces]
    )
    fresh = np.concatenate([[True], (corners[1:] != corners[:-1]).any(axis=1)])
    return np.asarray(corners[fresh])
