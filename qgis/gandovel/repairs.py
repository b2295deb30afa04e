"""What can be done about a fault: each candidate with what it changes, areas before and after, and how far a corner
moves.

A candidate changes nothing by itself. Shapes are made of the corners that the parcels have, so that what is mended
meets its neighbours exactly; where a border crosses another one, the crossing is computed in floating point.
"""
from __future__ import annotations

from dataclasses import dataclass, field
from math import sqrt
from typing import Any, Callable, Dict, List, Optional, Sequence, Tuple

from qgis.core import QgsGeometry, QgsPoint, QgsPointXY, QgsVectorLayer, QgsWkbTypes

from .check_task import Fault
from .missing_corner import count_with, missing_corners, with_corners
from .words import counted, tr

OF_MEASURED = 4
"""How many times as far off the corners of an open gap may be."""
LEAST_SHARE = 0.1
"""A neighbour whose border with a gap is shorter than this share of the longest is not proposed."""
MOST_OF_FAULT, LEAST_OF_FAULT = 3.0, 0.05
"""How many times a fault's area moving one corner may change at most: a corner that is off leaves a gap on one side,
and overlaps on the other. And how much of the fault's area any repair changes at least."""
Shapes = Dict[int, QgsGeometry]
ODD, MISSING, LONGEST, GIVE, KEEP = "odd", "missing", "longest", "give", "keep"
"""The rules of candidates: what "all of this kind" repeats."""


@dataclass
class Candidate:
    """A repair: its rule, what it is, the features with their new shapes, and how far the farthest corner moves."""

    rule: str
    title: str
    changes: Shapes
    moves: float = 0.0
    areas: List[Tuple[int, float, float]] = field(default_factory=list)


def candidates(fault: Fault, shapes: Shapes, names: Callable[[int], str], near: float) -> List[Candidate]:
    """The repairs of a fault between shapes (by feature), the surest first. `near` is a distance in the layer's unit.

    Each leaves every shape that it changes valid and in as many parts as before.
    """
    found: List[Candidate] = []
    if fault.kind == "beyond":  # whether the parcel or the city is wrong, its corners do not say
        return found
    odd = _odd_corner(fault, shapes, names, near)
    found += [odd] if odd is not None else []
    missing = missing_corners(fault.shape, shapes, near)
    if missing is not None and (missing.agreed or odd is None):
        count = counted(len(missing.corners), tr("1 corner"), tr("{count} corners"))
        title = tr("Put {corners} into parcel {parcel}", corners=count, parcel=names(missing.feature))
        changed = {missing.feature: with_corners(shapes[missing.feature], missing.corners)}
        entry = Candidate(MISSING, title, changed, sqrt(missing.farthest))
        found.insert(0 if missing.agreed else len(found), entry)
    found += (
        _keeping(fault, shapes, names, near) if _covered_twice(fault, shapes) else _giving(fault, shapes, names, near)
    )
    return [one for one in found if _is_sound(one, shapes, LEAST_OF_FAULT * fault.shape.area())]


def _is_sound(one: Candidate, shapes: Shapes, least: float) -> bool:
    """Whether a candidate changes at least so much, and leaves shapes valid; notes the areas."""
    one.changes = {at: shape for at, shape in one.changes.items() if not shape.equals(shapes[at])}
    for feature, shape in one.changes.items():
        before = shapes[feature]
        if shape.isEmpty() or not shape.isGeosValid() or _parts(shape) != _parts(before):
            return False
        one.areas.append((feature, before.area(), shape.area()))
    return sum(_changed_area(shape, shapes[at]) for at, shape in one.changes.items()) >= least and bool(one.changes)


def _changed_area(one: QgsGeometry, other: QgsGeometry) -> float:
    """How much is in one of two shapes alone."""
    return float(one.symDifference(other).area())


def _parts(shape: QgsGeometry) -> int:
    return len(shape.asGeometryCollection()) if shape.isMultipart() else 1


def _covered_twice(fault: Fault, shapes: Shapes) -> bool:
    """Whether a fault is an overlap: a sliver may be either."""
    if fault.kind != "sliver":
        return fault.kind == "overlap"
    inside = fault.shape.pointOnSurface()
    return sum(shape.intersects(inside) for shape in shapes.values()) > 1


def _odd_corner(fault: Fault, shapes: Shapes, names: Callable[[int], str], near: float) -> Optional[Candidate]:
    """The corner of one parcel alone, moved to where two others or more agree; the nearest of such moves."""
    corners = [QgsPointXY(vertex) for vertex in fault.shape.vertices()]
    best: Optional[Candidate] = None
    for feature, shape in shapes.items():
        others = [other for at, other in shapes.items() if at != feature]
        own = [it for it in corners if count_with([shape], it, near) and not count_with(others, it, near)]
        agreed = [it for it in corners if count_with(others, it, near) > 1 and not count_with([shape], it, near)]
        for corner in own:
            for place in agreed:
                far = sqrt(corner.sqrDist(place))
                if best is not None and far >= best.moves:
                    continue
                changed = _moved(shape, corner, _exact(others, place, near))
                if changed.isGeosValid() and _changed_area(changed, shape) <= MOST_OF_FAULT * fault.shape.area():
                    title = tr(
                        "Move the odd corner of parcel {parcel} to where the others agree", parcel=names(feature)
                    )
                    best = Candidate(ODD, title, {feature: changed}, far)
    return best


def _exact(shapes: Sequence[QgsGeometry], place: QgsPointXY, near: float) -> QgsPoint:
    """The corner that shapes have at a place."""
    for shape in shapes:
        _, at, _, _, square = shape.closestVertex(place)
        if 0 <= square <= near * near:
            return shape.vertexAt(at)
    return QgsPoint(place)


def _moved(shape: QgsGeometry, corner: QgsPointXY, place: QgsPoint) -> QgsGeometry:
    """The shape with its corner nearest to one place at another."""
    changed = QgsGeometry(shape)
    _, at, _, _, _ = changed.closestVertex(corner)
    changed.moveVertex(place, at)
    return changed


def _snapped(fault: Fault, shapes: Shapes, near: float) -> QgsGeometry:
    """The fault with the very corners of the parcels, in place of whole millimetres; an open gap is only measured, and
    taken within more of them."""
    reach = near * (OF_MEASURED if fault.kind == "open_gap" else 1)
    rings = []
    polygon = fault.shape.asMultiPolygon()[0] if fault.shape.isMultipart() else fault.shape.asPolygon()
    for ring in polygon:
        places: List[QgsPointXY] = []
        for corner in ring[:-1]:
            place = QgsPointXY(_exact(list(shapes.values()), corner, reach))
            if place not in places[-1:] and place not in places[:1]:
                places.append(place)
        rings.append(places)
    snapped = QgsGeometry.fromPolygonXY([[*ring, ring[0]] for ring in rings if len(ring) > 2])
    return snapped if snapped.isGeosValid() else _areas_of(snapped.makeValid())


def _areas_of(shape: QgsGeometry) -> QgsGeometry:
    """What of a shape has an area."""
    kept = QgsGeometry(shape)
    kept.convertGeometryCollectionToSubclass(QgsWkbTypes.GeometryType.PolygonGeometry)
    return kept


def _giving(fault: Fault, shapes: Shapes, names: Callable[[int], str], near: float) -> List[Candidate]:
    """A gap to each of its neighbours, the one with the longest border first."""
    hole = _snapped(fault, shapes, near)
    if hole.isEmpty():
        return []
    borders = {at: _border(hole, shape, near) for at, shape in shapes.items()}
    found = []
    least = max(near, max(borders.values(), default=0.0) * LEAST_SHARE)
    for feature in sorted((at for at in borders if borders[at] > least), key=lambda at: -borders[at]):
        corners = list(hole.vertices())
        target = _with_touching(shapes[feature], corners, near)
        title = tr(
            "Give it to parcel {parcel}, whose border there is {length} long",
            parcel=names(feature),
            length=f"{borders[feature]:.2f}",
        )
        rule = GIVE if found else LONGEST
        given = _cleaned(_areas_of(target.combine(hole)), feature, shapes, near)
        found.append(Candidate(rule, title, {feature: _like(shapes[feature], given)}))
    return found


def _cleaned(changed: QgsGeometry, feature: int, shapes: Shapes, near: float) -> QgsGeometry:
    """The changed shape of a feature, whose new corners are the very ones of its neighbours where they are near,
    without needles: a part that is narrower than what touches would be taken for one line, and bend what it touches."""
    kept = QgsGeometry(changed)
    others = [shape for at, shape in shapes.items() if at != feature]
    for at, vertex in enumerate(list(kept.vertices())):
        if _is_new(vertex, shapes[feature]):
            kept.moveVertex(_exact(others, QgsPointXY(vertex), near), at)
    _delete(kept, lambda at: _is_new(kept.vertexAt(at), shapes[feature]) and _is_double(kept, at, near))
    _delete(kept, lambda at: _is_needle(kept, at, near))
    return kept


def _is_new(corner: QgsPoint, shape: QgsGeometry) -> bool:
    """Whether a corner is none of a shape's."""
    _, _, _, _, square = shape.closestVertex(QgsPointXY(corner))
    return bool(square > 0)


def _delete(shape: QgsGeometry, is_amiss: Callable[[int], bool]) -> None:
    """Deletes corners that are amiss, one after the other."""
    at = 0
    while at < shape.constGet().nCoordinates():
        at = 0 if is_amiss(at) and shape.deleteVertex(at) else at + 1


def _is_double(shape: QgsGeometry, at: int, near: float) -> bool:
    """Whether a corner is beside the one before it, or after."""
    beside = [shape.vertexAt(it) for it in shape.adjacentVertices(at) if it >= 0]
    return any(shape.vertexAt(at).distance(it) <= near for it in beside)


def _is_needle(shape: QgsGeometry, at: int, near: float) -> bool:
    """Whether the sides of a corner run back on one another."""
    before, after = shape.adjacentVertices(at)
    if before < 0 or after < 0:
        return False
    tip, one, other = (shape.vertexAt(it) for it in (at, before, after))
    if (one.x() - tip.x()) * (other.x() - tip.x()) + (one.y() - tip.y()) * (other.y() - tip.y()) <= 0:
        return False
    if min(tip.distance(one), tip.distance(other)) <= near:
        return False
    sides = [(one, QgsGeometry.fromPolyline([tip, other])), (other, QgsGeometry.fromPolyline([tip, one]))]
    return any(line.distance(QgsGeometry(end.clone())) <= near for end, line in sides)


def _border(hole: QgsGeometry, shape: QgsGeometry, near: float) -> float:
    """How long the border of a gap with a shape is."""
    line = hole.convertToType(QgsWkbTypes.GeometryType.LineGeometry, True)
    return float(line.intersection(shape.buffer(near, 2)).length())


def _with_touching(shape: QgsGeometry, corners: Sequence[QgsPoint], near: float) -> QgsGeometry:
    """The shape with those corners put in that lie on its border."""
    changed = QgsGeometry(shape)
    for corner in corners:
        square, _, after, _ = changed.closestSegmentWithContext(QgsPointXY(corner))
        _, _, _, _, own = changed.closestVertex(QgsPointXY(corner))
        if 0 <= square <= near * near and own > 0:
            changed.insertVertex(corner.x(), corner.y(), after)
    return changed


def _keeping(fault: Fault, shapes: Shapes, names: Callable[[int], str], near: float) -> List[Candidate]:
    """An overlap to each of the parcels that cover it: the others lose what is that parcel's."""
    found: List[Candidate] = []
    for keeper in sorted(shapes, key=lambda at: -shapes[at].area()):
        others = {at: shape for at, shape in shapes.items() if at != keeper}
        changed = {at: _areas_of(shape.difference(shapes[keeper])) for at, shape in others.items()}
        changed = {at: _like(shapes[at], _cleaned(shape, at, shapes, near)) for at, shape in changed.items()}
        title = tr("Parcel {parcel} keeps it", parcel=names(keeper))
        found.append(Candidate(KEEP, title, changed))
    return found


def _like(shape: QgsGeometry, changed: QgsGeometry) -> QgsGeometry:
    """The changed shape as a multipolygon where the shape is one."""
    if shape.isMultipart():
        changed.convertToMultiType()
    elif changed.isMultipart() and _parts(changed) == 1:
        changed.convertToSingleType()
    return changed


def apply(layer: QgsVectorLayer, title: str, changes: Shapes) -> int:
    """Changes shapes of a layer that is edited: one command, which undo takes back; how many."""
    layer.beginEditCommand(title)
    count = sum(bool(layer.changeGeometry(feature, shape)) for feature, shape in changes.items())
    if count == len(changes) and count:
        layer.endEditCommand()
    else:
        layer.destroyEditCommand()
        count = 0
    layer.triggerRepaint()
    return count


def apply_all(
    layer: QgsVectorLayer, rule: str, title: str, faults: Sequence[Fault], found: Callable[[Fault], Any]
) -> int:
    """Mends faults by the same rule, in one command; how many of them. Each is looked at as the layer is then."""
    layer.beginEditCommand(title)
    count = 0
    for fault in faults:
        one = next((it for it in found(fault) if it.rule == rule), None)
        if one is not None and all([layer.changeGeometry(at, shape) for at, shape in one.changes.items()]):
            count += 1
    if count:
        layer.endEditCommand()
    else:
        layer.destroyEditCommand()
    layer.triggerRepaint()
    return count
