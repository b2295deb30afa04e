"""The parcels of a register as a layer in memory, which follows what is published."""
from __future__ import annotations

from dataclasses import dataclass
from typing import Any, Dict, Iterable, List, Mapping, Optional, Tuple

from qgis.core import (
    QgsFeature,
    QgsFeatureRequest,
    QgsGeometry,
    QgsPalLayerSettings,
    QgsPointXY,
    QgsRectangle,
    QgsVectorLayer,
    QgsVectorLayerSimpleLabeling,
)

from qgis.PyQt.QtGui import QColor

from .checks import Corner

COLOUR = "#ecece8"
"""What parcels are filled with, as in the report's map."""

OWN = {
    "id": "int8(0,0)",
    "number": "string(0,0)",
    "came_from": "string(0,0)",
    "area_m2": "double(0,0)",
    "area2_mm2": "string(0,0)",
    "entry": "integer(0,0)",
}
"""The columns that each register has."""
NO_COLUMNS = ("ring_mm", "entries")


@dataclass(frozen=True)
class Parcel:
    """A parcel of the register: its id, its ring in whole millimetres, and all that is said of it."""

    id: int
    ring: Tuple[Corner, ...]
    told: Dict[str, Any]

    @property
    def name(self) -> str:
        """Its number; where it has none, its id and what it comes from."""
        number = self.told.get("number")
        return str(number) if number is not None else f"[{self.id}: {self.told.get('came_from', '')}]"


def parcel_of(told: Dict[str, Any]) -> Parcel:
    """A parcel as the register tells it."""
    return Parcel(int(told["id"]), tuple((int(x), int(y)) for x, y in told["ring_mm"]), told)


class RegisterLayer:
    """The layer of a register's parcels. Nobody edits it by hand: edits go through the register."""

    def __init__(self, title: str, settings: Dict[str, Any], parcels: Iterable[Parcel]) -> None:
        self.scale, self.entries = float(settings["unit_mm"]), int(settings["entries"])
        self.parcels: Dict[int, Parcel] = {}
        self.features: Dict[int, int] = {}
        several = list(parcels)
        others = sorted({name for one in several for name in one.told} - set(OWN) - set(NO_COLUMNS))
        columns = {**OWN, **{name: "string(0,0)" for name in others}}
        crs = f"crs={settings['epsg']}&" if settings.get("epsg") else ""
        fields = "&".join(f"field={name}:{kind}" for name, kind in columns.items())
        self.layer = QgsVectorLayer(f"Polygon?{crs}{fields}&index=yes", title, "memory")
        self.layer.setReadOnly(True)
        self._label()
        self.exchange([], several)

    def _label(self) -> None:
        labels = QgsPalLayerSettings()
        labels.fieldName = "coalesce(number, '(' || came_from || ')')"
        labels.isExpression = True
        self.layer.renderer().symbol().setColor(QColor(COLOUR))
        self.layer.setLabeling(QgsVectorLayerSimpleLabeling(labels))
        self.layer.setLabelsEnabled(True)

    def exchange(self, out: Iterable[int], new: Iterable[Parcel]) -> None:
        """Takes parcels out by their ids, and puts others in."""
        new = list(new)
        gone = [one for one in {*out, *(it.id for it in new)} if one in self.features]
        provider = self.layer.dataProvider()
        provider.deleteFeatures([self.features.pop(one) for one in gone])
        for one in gone:
            del self.parcels[one]
        _, made = provider.addFeatures([self._feature(it) for it in new])
        for parcel, feature in zip(new, made):
            self.parcels[parcel.id], self.features[parcel.id] = parcel, feature.id()
        self.layer.updateExtents()
        self.layer.triggerRepaint()

    def _feature(self, parcel: Parcel) -> QgsFeature:
        feature = QgsFeature(self.layer.fields())
        values = [parcel.told.get(name) for name in self.layer.fields().names()]
        feature.setAttributes([str(it) if isinstance(it, (list, dict, bool)) else it for it in values])
        feature.setGeometry(self.shape(parcel.ring))
        return feature

    def shape(self, ring: Iterable[Corner]) -> QgsGeometry:
        """A ring as the map has it."""
        return QgsGeometry.fromPolygonXY([[self.point(corner) for corner in ring]])

    def point(self, corner: Corner) -> QgsPointXY:
        """A corner as the map has it."""
        return QgsPointXY(corner[0] / self.scale, corner[1] / self.scale)

    def corner(self, point: QgsPointXY) -> Corner:
        """A place of the map, at the nearest whole millimetre."""
        return round(point.x() * self.scale), round(point.y() * self.scale)

    def at(self, point: QgsPointXY) -> Optional[int]:
        """The id of the parcel at a place of the map."""
        for one in self._near(point, 1e-9):
            if self.layer.getFeature(self.features[one]).geometry().contains(point):
                return one
        return None

    def _near(self, point: QgsPointXY, reach: float) -> List[int]:
        box = QgsRectangle(point.x() - reach, point.y() - reach, point.x() + reach, point.y() + reach)
        found = self.layer.getFeatures(QgsFeatureRequest().setFilterRect(box))
        return [int(feature["id"]) for feature in found]

    def snapped(self, point: QgsPointXY, reach: float, rings: Mapping[int, Iterable[Corner]]) -> Corner:
        """The nearest corner of rings, if it is at most `reach` away; else the place at the nearest millimetre."""
        corners = {corner for one in self._near(point, reach) for corner in rings.get(one, ())}
        best = min(corners, key=lambda it: self.point(it).sqrDist(point), default=None)
        if best is not None and self.point(best).sqrDist(point) <= reach * reach:
            return best
        return self.corner(point)
