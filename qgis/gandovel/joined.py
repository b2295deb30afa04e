"""The joined table of an overlay: a row for each parcel and zone that overlap, with the attributes of both."""
from __future__ import annotations

from collections import defaultdict
from typing import Any, Dict, Iterator, List, Optional, Tuple

from qgis.core import QgsFeature, QgsFeatureRequest, QgsField, QgsFields, QgsGeometry, QgsSpatialIndex, QgsVectorLayer

from .layers import NUMBER, RESERVED, TEXT, WHOLE, add, fields_of

COLUMNS = (
    ("number", TEXT),
    ("zone", TEXT),
    ("zone_how", TEXT),
    ("split", WHOLE),
    ("area2_mm2", TEXT),
    ("area_m2", NUMBER),
    ("share", NUMBER),
    ("area_how", TEXT),
)
OWN = (*RESERVED, "number", "records", "status")
"""Columns of a report that are no attributes of the user's layers."""
Row = Tuple[Dict[str, Any], QgsFeature, Optional[QgsFeature]]


class Joined:
    """The table of a report's layers and its pairs (parcel, zone). `square_metres` has a square of the layers' unit."""

    def __init__(
        self,
        parcels: QgsVectorLayer,
        zones: QgsVectorLayer,
        parts: QgsVectorLayer,
        pairs: List[Dict[str, Any]],
        square_metres: float,
    ) -> None:
        self.parcels, self.square_metres = parcels, square_metres
        self.told = {str(pair["number"]): (str(pair["zone"]), pair["area2_mm2"]) for pair in pairs if not pair["split"]}
        self.zones = {feature.id(): feature for feature in zones.getFeatures()}
        self.by_name = {str(feature["number"]): feature for feature in reversed(list(self.zones.values()))}
        self.index = QgsSpatialIndex(zones.getFeatures())
        self.parts: Dict[str, List[QgsFeature]] = defaultdict(list)
        for part in parts.getFeatures(QgsFeatureRequest().setFlags(QgsFeatureRequest.Flag.NoGeometry)):
            self.parts[str(part["number"])].append(part)
        self.attributes = [_others(parcels, "parcel_"), _others(zones, "zone_")]

    def fields(self) -> QgsFields:
        """The table's own columns, and those of both layers, each under its prefix."""
        fields = fields_of(COLUMNS)
        for others in self.attributes:
            for name, (field, _) in others.items():
                own = QgsField(field)
                own.setName(name)
                fields.append(own)
        return fields

    def fill(self, sink: Any) -> int:
        """Puts all rows into a sink; how many."""
        fields, count = self.fields(), 0
        for values, *owners in self._rows():
            for others, owner in zip(self.attributes, owners):
                if owner is not None:
                    values.update({name: owner[field.name()] for name, (field, _) in others.items()})
            add(sink, fields, values)
            count += 1
        return count

    def _rows(self) -> Iterator[Row]:
        for parcel in self.parcels.getFeatures():
            number = str(parcel["number"])
            parts = self.parts.get(number, [])
            for part in parts:
                values = {
                    "number": number,
                    "zone": part["zone"],
                    "zone_how": "exact",
                    "split": 1,
                    **{name: part[name] for name in ("area2_mm2", "area_m2", "share", "area_how")},
                }
                yield values, parcel, self.by_name.get(part["zone"])
            if not parts:
                yield self._whole(number, parcel)

    def _whole(self, number: str, parcel: QgsFeature) -> Row:
        """The row of a parcel that no two zones share; that of one that the program was not asked of is measured."""
        told, area2 = self.told.get(number, (None, None))
        zone = self.by_name.get(told) if told is not None else self._zone_at(parcel.geometry())
        values = {
            "number": number,
            "zone": told if told is not None or zone is None else zone["number"],
            "zone_how": "measured" if told is None else "exact",
            "split": 0,
            "area2_mm2": area2,
            "area_m2": parcel.geometry().area() * self.square_metres if area2 is None else int(area2) / 2_000_000,
            "share": 1.0,
            "area_how": "measured" if area2 is None else "proved",
        }
        return values, parcel, zone

    def _zone_at(self, shape: QgsGeometry) -> Optional[QgsFeature]:
        """The zone at a point inside a shape; where that lies in a gap of the zones, the one that has most of the
        shape."""
        point = shape.pointOnSurface()
        for feature in self.index.intersects(point.boundingBox()):
            if self.zones[feature].geometry().intersects(point):
                return self.zones[feature]
        areas = {
            feature: self.zones[feature].geometry().intersection(shape).area()
            for feature in self.index.intersects(shape.boundingBox())
        }
        largest = max(areas, key=lambda feature: areas[feature], default=None)
        return self.zones[largest] if largest is not None and areas[largest] > 0.0 else None


def _others(layer: QgsVectorLayer, prefix: str) -> Dict[str, Tuple[QgsField, str]]:
    """The user's attributes of a layer, by their names in the table."""
    own = {name for name, _ in COLUMNS}
    found: Dict[str, Tuple[QgsField, str]] = {}
    for field in layer.fields():
        if field.name().lower() not in OWN:
            name = f"{prefix}{field.name()}"
            while name in own or name in found:
                name += "_"
            found[name] = field, name
    return found
