"""A layer cut into districts along its rings' own borders: balanced, compact, each with one simple outline.

Rings are assigned by recursive bisection of their boxes' middles, at a right angle to the longer extent. What is not
connected with the rest of its district, or lies enclosed in another, goes to a neighbour. Any simple outline gives
right answers, since what the districts' runs and that of the layer of outlines tell adds up to what the whole layer's
would (`compose`); outlines of the rings' own edges are those with which each district of a layer without faults tiles.

Where the outlines are more than a layer has, they are cut in turn, into districts of districts (`levels_of`).
"""
from __future__ import annotations

from dataclasses import dataclass
from typing import Any, Dict, List, Optional, Sequence, Set, Tuple

import numpy as np
from shapely.geometry import MultiLineString, MultiPoint, Point, Polygon
from shapely.ops import polygonize, unary_union
from shapely.prepared import prep

from ..arrays import Array
from ..exact.grid import edges_left, twice_area, without_straight
from ..exact.noding import points_of
from ..shapes import polygons_of
from . import MOST_IN_ALL, MOST_RINGS

ENDS: Tuple[Any, ...] = (np.minimum, np.maximum)
"""What gives the two ends of boxes."""
FILLED = 0.9
"""So full a district is made at first: what is not connected may still be added to it."""

MOST_CORNERS = 4_096
ROUNDS = 12


@dataclass
class Districts:
    """The rows of each district, ascending, and its outline, (k, 2) int64 in mm, counterclockwise."""

    rows: List[Array]
    outlines: List[Array]

    def __len__(self) -> int:
        return len(self.rows)


@dataclass
class _Edges:
    """The sides of all rings: points' indices, the ring on the left, and the side that runs the other way (or -1).

    Ring i has the sides `begins[i]:begins[i + 1]`.
    """

    points: Array
    start: Array
    end: Array
    ring: Array
    partner: Array
    begins: Array

    @classmethod
    def of(cls, rings: Sequence[Array]) -> "_Edges":
        sizes = np.array([len(ring) for ring in rings], dtype=np.int64)
        points, start = points_of(np.concatenate(rings))
        stops = np.cumsum(sizes)
        after = np.arange(1, len(start) + 1)
        after[stops - 1] = stops - sizes
        end, ring = start[after], np.repeat(np.arange(len(rings)), sizes)
        begins = np.concatenate([[0], stops])
        return cls(points, start, end, ring, _partners(start, end, len(points)), begins)

    def border(self, label: Array, of: Optional[Set[int]]) -> Array:
        """The sides, of districts or of all, that do not run along another ring of the same district."""
        of_side = label[self.ring]
        kept = (self.partner < 0) | (of_side[self.partner] != of_side)
        if of is not None:
            wanted = np.zeros(int(label.max()) + 1, dtype=bool)
            wanted[[at for at in of if at < len(wanted)]] = True
            kept &= wanted[of_side]
        return np.flatnonzero(kept)

    def sides_of(self, rows: Array) -> Array:
        """The sides of some rings."""
        begins, sizes = self.begins[rows], self.begins[rows + 1] - self.begins[rows]
        rows_of: Array = np.arange(int(sizes.sum())) + np.repeat(begins - (np.cumsum(sizes) - sizes), sizes)
        return rows_of


def _partners(start: Array, end: Array, points: int) -> Array:
    """For each side the only other one between the same points, where it runs the other way; else -1."""
    low, high = np.minimum(start, end), np.maximum(start, end)
    key = low * np.int64(points) + high
    order = np.argsort(key, kind="stable")
    ordered = key[order]
    fresh = np.flatnonzero(np.concatenate([[True], ordered[1:] != ordered[:-1]]))
    sizes = np.diff(np.concatenate([fresh, [len(ordered)]]))
    first = fresh[sizes == 2]
    one, other = order[first], order[first + 1]
    opposite = start[one] == end[other]
    one, other = one[opposite], other[opposite]
    partner = np.full(len(start), -1, dtype=np.int64)
    partner[one], partner[other] = other, one
    return partner


def levels_of(rings: Sequence[Array], most: int) -> List[Districts]:
    """The districts of a layer; then, where their outlines are more than a layer has, districts of these; and so on."""
    levels = [cut(rings, most)]
    while _is_beyond(levels[-1].outlines):
        above = cut(levels[-1].outlines, MOST_RINGS)
        if len(above) >= len(levels[-1]):
            break
        levels.append(above)
    return levels


def _is_beyond(rings: Sequence[Array]) -> bool:
    """Whether rings are more than a layer has."""
    return len(rings) > MOST_RINGS or sum(map(len, rings)) > MOST_IN_ALL


def cut(rings: Sequence[Array], most: int) -> Districts:
    """Cuts a layer, (k, 2) int64 rings in mm, into districts of at most `most` rings as far as they are connected
    so."""
    edges = _Edges.of(rings)
    sizes = np.diff(edges.begins)
    corners = edges.points[edges.start]
    low, high = (ends.reduceat(corners, edges.begins[:-1], axis=0) for ends in ENDS)
    middles = (low + high) / 2.0
    count = max(_parts(len(rings), most * FILLED), _parts(int(sizes.sum()), MOST_IN_ALL * FILLED))
    label = np.zeros(len(rings), dtype=np.int64)
    _bisect(middles, np.arange(len(rings)), count, 0, label)
    parts: Dict[int, List[Polygon]] = {}
    outlines: Dict[int, Array] = {}
    changed: Optional[Set[int]] = None
    for left in reversed(range(count.bit_length() + ROUNDS)):
        for at in _connected(edges, label, middles, parts, changed):
            outlines[at] = _outline(parts[at][0], edges.points[0])
        outlines = {at: outline for at, outline in outlines.items() if at in parts}
        large = _too_large(label, outlines, most, sizes)
        if not large or not left:
            break
        rows, first = _rows_of(label), int(label.max()) + 1
        for fresh, at in enumerate(large, first):
            _bisect(middles, rows[at], 2, fresh, label, keep=at)
        changed = {*large, *range(first, first + len(large))}
    present = sorted(outlines)
    rows = _rows_of(label)
    return Districts([rows[at] for at in present], [outlines[at] for at in present])


def _rows_of(label: Array) -> Dict[int, Array]:
    """The rows of each label, ascending."""
    order = np.argsort(label, kind="stable")
    ordered = label[order]
    begins = np.flatnonzero(np.concatenate([[True], ordered[1:] != ordered[:-1]]))
    return dict(zip(ordered[begins].tolist(), np.split(order, begins[1:])))


def _parts(count: int, most: float) -> int:
    return max(1, -int(-count // max(most, 1.0)))


def _bisect(middles: Array, rows: Array, parts: int, first: int, label: Array, keep: Optional[int] = None) -> None:
    """Labels rows `first`, `first` + 1 .. by so many parts; with `keep`, the first part keeps that label."""
    waiting, at = [(rows, parts)], first
    while waiting:
        these, count = waiting.pop()
        if count == 1 or len(these) < 2:
            if keep is not None:
                label[these], keep = keep, None
            else:
                label[these], at = at, at + 1
            continue
        extent = np.ptp(middles[these], axis=0)
        axis, less = int(extent[1] > extent[0]), count // 2
        stop = min(max(len(these) * less // count, 1), len(these) - 1)
        order = np.lexsort((middles[these, 1 - axis], middles[these, axis]))
        waiting += [(these[order[:stop]], less), (these[order[stop:]], count - less)]


def _too_large(label: Array, outlines: Dict[int, Array], most: int, sizes: Array) -> List[int]:
    """The districts with too many rings, corners, or corners in their outline."""
    rings = np.bincount(label)
    corners = np.bincount(label, weights=sizes)
    return [
        at
        for at, outline in outlines.items()
        if rings[at] > 1 and (rings[at] > most or corners[at] > MOST_IN_ALL or len(outline) > MOST_CORNERS)
    ]


def _connected(
    edges: _Edges, label: Array, middles: Array, parts: Dict[int, List[Polygon]], changed: Optional[Set[int]]
) -> Set[int]:
    """Brings `parts` up to date for districts that changed (None: for all), and answers which districts these are.

    Rows that are not connected with their district change theirs, so that others change, too.
    """
    found: Set[int] = set()
    not_compared: Set[int] = set()
    for left in reversed(range(ROUNDS)):
        now = _parts_of(edges, label, changed)
        for at in changed or ():
            parts.pop(at, None)
        parts.update(now)
        found, not_compared = (found | set(now)) & set(parts), (not_compared | set(now)) & set(parts)
        if not left:
            break
        changed = _lesser_moved(edges, label, middles, parts, set(now))
        if not changed:
            changed, not_compared = _enclosed_moved(label, parts, not_compared), set()
        if not changed:
            break
    return found


def _parts_of(edges: _Edges, label: Array, of: Optional[Set[int]]) -> Dict[int, List[Polygon]]:
    """The connected parts of districts without their holes, largest first, measured from the first point."""
    found: Dict[int, List[Polygon]] = {}
    border = edges.border(label, of)
    if not len(border):
        return found
    of_side = label[edges.ring[border]]
    order = np.argsort(of_side, kind="stable")
    border, of_side = border[order], of_side[order]
    bounds = np.flatnonzero(np.concatenate([[True], of_side[1:] != of_side[:-1], [True]]))
    points = edges.points
    for begin, end in zip(bounds[:-1], bounds[1:]):
        side = border[begin:end]
        start, stop, net = edges_left(edges.start[side], edges.end[side])
        if not len(start):
            start, stop = edges.start[side], edges.end[side]
        around = _one_loop(points, np.where(net > 0, start, stop), np.where(net > 0, stop, start)) if len(net) else None
        found[int(of_side[begin])] = [around] if around is not None else _parts_by_lines(points, start, stop)
    return found


def _one_loop(points: Array, start: Array, end: Array) -> Optional[Polygon]:
    """The outer loop of edges with the district on their left, where there is only one, and it is simple; else None."""
    if len(np.unique(start)) < len(start) or len(np.unique(end)) < len(end):
        return None
    following: Dict[int, int] = dict(zip(start.tolist(), end.tolist()))
    outer: List[Array] = []
    while following:
        first, at = following.popitem()
        loop = [first]
        while at != first:
            loop.append(at)
            if at not in following:
                return None
            at = following.pop(at)
        ring = points[loop] - points[0]
        if twice_area(ring) > 0:
            outer.append(ring)
    polygon = polygons_of([outer[0].astype(float)])[0] if len(outer) == 1 else None
    return polygon if polygon is not None and polygon.is_valid else None


def _parts_by_lines(points: Array, low: Array, high: Array) -> List[Polygon]:
    """The same of any edges, as GEOS nodes them."""
    near = [(points[it] - points[0]).astype(float) for it in (low, high)]
    lines = MultiLineString(list(np.stack(near, axis=1)))
    whole = unary_union([Polygon(face.exterior) for face in polygonize(unary_union(lines))])
    parts = [Polygon(part.exterior) for part in getattr(whole, "geoms", [whole]) if not part.is_empty]
    return sorted(parts, key=lambda part: -float(part.area)) or [_hull(near[0])]


def _lesser_moved(
    edges: _Edges, label: Array, middles: Array, parts: Dict[int, List[Polygon]], changed: Set[int]
) -> Set[int]:
    """Gives rows of the lesser parts of districts to neighbours; which districts change so."""
    moved: Set[int] = set()
    several = [at for at in changed if len(parts[at]) > 1]
    rows_of = _rows_of(label) if several else {}
    for at in several:
        for shape in parts[at][1:]:
            rows = _rows_in(edges, rows_of[at], middles, shape)
            rows = rows[label[rows] == at]
            to = _neighbour(edges, label, rows, at)
            if len(rows) and to is not None:
                label[rows] = to
                moved |= {at, to}
    return moved


def _enclosed_moved(label: Array, parts: Dict[int, List[Polygon]], changed: Set[int]) -> Set[int]:
    """Gives districts that lie within another one's outline, where one of both changed, to that one; which change
    so."""
    names = sorted(parts, key=lambda at: float(parts[at][0].bounds[0]))
    boxes = np.array([parts[at][0].bounds for at in names]).reshape(-1, 4)
    moved: Set[int] = set()
    for box, at in zip(boxes, names):
        around = parts[at][0]
        fast: Any = None
        begin, end = np.searchsorted(boxes[:, 0], [box[0], box[2]], side="left")
        some = boxes[begin:end]
        within = (some[:, 1] >= box[1]) & (some[:, 2] <= box[2]) & (some[:, 3] <= box[3])
        for other in (names[begin + place] for place in np.flatnonzero(within).tolist()):
            inner = parts[other][0]
            if other == at or not {at, other} & changed or inner.area >= around.area:
                continue
            fast = fast or prep(around)
            if fast.covers(inner):
                label[label == other] = at
                moved |= {at, other}
    return moved


def _rows_in(edges: _Edges, rows: Array, middles: Array, shape: Polygon) -> Array:
    """Those of a district's rows that have a corner strictly in a part of it, or all corners on its border."""
    x0, y0, x1, y1 = shape.bounds
    near = middles[rows] - edges.points[0]
    rows = rows[(near[:, 0] >= x0) & (near[:, 0] <= x1) & (near[:, 1] >= y0) & (near[:, 1] <= y1)]
    fast, kept = prep(shape.buffer(0.25)), []
    for row in rows.tolist():
        corners = edges.points[edges.start[edges.begins[row] : edges.begins[row + 1]]] - edges.points[0]
        if fast.contains(MultiPoint(corners.astype(float))):
            kept.append(row)
    return np.array(kept, dtype=np.int64)


def _neighbour(edges: _Edges, label: Array, rows: Array, at: int) -> Optional[int]:
    """The other district that rows have the most sides in common with; None where there is none."""
    partner = edges.partner[edges.sides_of(rows)]
    others = label[edges.ring[partner[partner >= 0]]]
    others = others[others != at]
    return int(np.bincount(others).argmax()) if len(others) else None


def _hull(points: Array) -> Polygon:
    """A simple outline where nothing better is found: the hull of points, or a square millimetre where it has no
    area."""
    hull = MultiPoint([tuple(it) for it in points.tolist()]).convex_hull
    return hull if hull.geom_type == "Polygon" else Point(points[0]).buffer(1.0, cap_style=3)


def _outline(shape: Polygon, origin: Array) -> Array:
    """A part's border on the grid, counterclockwise; its hull where it is not simple there."""
    for it in (shape, shape.convex_hull):
        ring = np.floor(np.asarray(it.exterior.coords)[:-1, :2] + 0.5).astype(np.int64)
        kept = np.concatenate([[True], (ring[1:] != ring[:-1]).any(axis=1)])
        ring = ring[kept]
        if len(ring) > 2 and Polygon(ring).is_valid and twice_area(ring):
            break
    ring = ring if twice_area(ring) > 0 else ring[::-1]
    if len(ring) > MOST_CORNERS:
        ring = without_straight(ring)
    moved: Array = ring + origin
    return moved


def boxes_of(rings: Sequence[Array]) -> Array:
    """The boxes (n, 4) of rings: least x and y, greatest x and y."""
    if not len(rings):
        return np.zeros((0, 4), dtype=np.int64)
    sizes = np.array([len(ring) for ring in rings], dtype=np.int64)
    corners, begins = np.concatenate(rings), np.cumsum(sizes) - sizes
    return np.hstack([ends.reduceat(corners, begins, axis=0) for ends in ENDS])


def partition_faults(districts: Districts, count: int) -> List[Tuple[int, int]]:
    """The rows, from 0, that are not in exactly one district, each with how many have it."""
    times = np.bincount(np.concatenate(districts.rows), minlength=count) if len(districts) else np.zeros(count, int)
    return [(int(row), int(times[row])) for row in np.flatnonzero(times != 1)]
