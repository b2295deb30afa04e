"""The missing corner: where parcels agree on a corner beside a fault, and their neighbour goes straight past."""
from __future__ import annotations

from dataclasses import dataclass
from typing import Dict, Iterable, List, Optional, Sequence, Tuple

from qgis.core import QgsGeometry, QgsPoint, QgsPointXY, QgsUnitTypes, QgsVectorLayer

from .words import tr

NEAR_MM = 0.75
"""How far a corner of a fault, which is a whole millimetre, may be from the layer's own corner."""
AGREED = 2
"""How many parcels have to have a corner before a neighbour without one is taken to lack it."""


@dataclass(frozen=True)
class Missing:
    """A feature of the layer, and the corners of its neighbours that it lacks beside a fault, with their heights.

    It is `agreed` where two neighbours or more have each of these corners, and the feature has none of its own there:
    then no sound parcel is bent by putting them in. Else it is a proposal, and the user decides.
    """

    feature: int
    corners: Tuple[QgsPoint, ...]
    farthest: float
    agreed: bool = True


def near_of(layer: QgsVectorLayer, touch: Optional[float] = None) -> float:
    """`NEAR_MM`, or how near (mm) to a border a corner touches it where that is more, in the layer's unit; without a
    projection the unit is taken as a metre."""
    return float(max(NEAR_MM, touch or 0.0) * millimetre_of(layer))


def millimetre_of(layer: QgsVectorLayer) -> float:
    """A millimetre in the layer's unit; without a projection the unit is taken as a metre."""
    metres = QgsUnitTypes.DistanceUnit.DistanceMeters
    unit = layer.crs().mapUnits() if layer.crs().isValid() else metres
    return float(QgsUnitTypes.fromUnitToUnitFactor(QgsUnitTypes.DistanceUnit.DistanceMillimeters, unit))


def missing_corners(fault: QgsGeometry, shapes: Dict[int, QgsGeometry], near: float) -> Optional[Missing]:
    """What one of the shapes (by feature) that border a fault lacks; None where each has corners of its own there.

    A corner of the fault is missing in a shape if it is a corner of another one, the shape's border goes past it inside
    an edge, and the shape changes within the fault alone when it is put in. `near` is a distance in the layer's unit.
    Where several shapes lack corners, one on which the others agree comes first, then the one whose border is nearest.
    """
    corners = [QgsPointXY(vertex) for vertex in fault.vertices()]
    found: List[Missing] = []
    for feature, shape in shapes.items():
        others = [other for at, other in shapes.items() if at != feature]
        one = _missing_in(feature, shape, corners, others, near)
        if one is not None and _changes_within(fault, shape, with_corners(shape, one.corners), near):
            found.append(one)
    return min(found, key=lambda one: (not one.agreed, one.farthest)) if found else None


def _missing_in(
    feature: int, shape: QgsGeometry, corners: Sequence[QgsPointXY], others: Sequence[QgsGeometry], near: float
) -> Optional[Missing]:
    taken: List[QgsPoint] = []
    farthest, agreed = 0.0, True
    for corner in corners:
        square, place, _, _ = shape.closestSegmentWithContext(corner)
        own = _corner_near(others, corner, near)
        has_it = count_with(others, corner, near)
        if square <= near * near:
            # a corner of the shape's own on which nobody agrees: it is this shape that may be wrong, or another
            agreed = agreed and (_corner_near([shape], corner, near) is None or has_it > 0)
            continue
        if own is None or _corner_near([shape], place, near) is not None:
            continue
        farthest, agreed = max(farthest, square), agreed and has_it >= AGREED
        if own not in taken:
            taken.append(own)
    return Missing(feature, tuple(taken), farthest, agreed) if taken else None


def count_with(shapes: Iterable[QgsGeometry], place: QgsPointXY, near: float) -> int:
    """How many of the shapes have a corner at a place."""
    return sum(_corner_near([shape], place, near) is not None for shape in shapes)


def with_corners(shape: QgsGeometry, corners: Sequence[QgsPoint]) -> QgsGeometry:
    """The shape with corners put into its nearest edges, one after the other."""
    changed = QgsGeometry(shape)
    for corner in corners:
        _, _, after, _ = changed.closestSegmentWithContext(QgsPointXY(corner))
        changed.insertVertex(corner, after)
    return changed


def _changes_within(fault: QgsGeometry, shape: QgsGeometry, changed: QgsGeometry, near: float) -> bool:
    """Whether a change of a shape leaves it valid, and touches nothing beyond the fault."""
    if not changed.isGeosValid():
        return False
    difference = changed.symDifference(shape)
    return bool(difference.difference(fault).area() <= near * difference.length())


def _corner_near(shapes: Sequence[QgsGeometry], place: QgsPointXY, near: float) -> Optional[QgsPoint]:
    """The corner of shapes that is nearest to a place, if it is near; of two at one place, one that has a height."""
    best: Tuple[float, Optional[QgsPoint]] = (near * near, None)
    for shape in shapes:
        _, at, _, _, square = shape.closestVertex(place)
        corner = shape.vertexAt(at)
        if 0 <= square < best[0] or square == best[0] and (best[1] is None or corner.is3D()):
            best = square, corner
    return best[1]


def insert(layer: QgsVectorLayer, missing: Missing) -> int:
    """Inserts the missing corners into the feature: one command, which undo takes back; how many."""
    layer.beginEditCommand(tr("Insert missing corners"))
    count = 0
    for corner in missing.corners:
        shape = layer.getGeometry(missing.feature)
        _, _, after, _ = shape.closestSegmentWithContext(QgsPointXY(corner))
        count += int(layer.insertVertex(corner, missing.feature, after))
    if count:
        layer.endEditCommand()
    else:
        layer.destroyEditCommand()
    return count


def shapes_of(layer: QgsVectorLayer, features: Iterable[int]) -> Dict[int, QgsGeometry]:
    """The shapes of these features of the layer, unsaved edits included, without those that are gone."""
    found = {one: layer.getFeature(one) for one in features}
    return {one: QgsGeometry(feature.geometry()) for one, feature in found.items() if feature.hasGeometry()}
