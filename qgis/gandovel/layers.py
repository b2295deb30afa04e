"""Layers between QGIS and the package: written to a folder as GeoPackages, and read back into sinks."""
from __future__ import annotations

from collections import defaultdict
from dataclasses import dataclass, field
from pathlib import Path
from typing import Any, Callable, Dict, Iterator, List, Optional, Sequence

from qgis.core import (
    QgsCoordinateReferenceSystem,
    QgsCoordinateTransformContext,
    QgsFeature,
    QgsFeatureRequest,
    QgsFeatureSink,
    QgsField,
    QgsFields,
    QgsProcessingFeatureSource,
    QgsUnitTypes,
    QgsVectorFileWriter,
    QgsVectorLayer,
)

from .answers import Refusal
from .program import Cancelled
from .words import tr

ROW = "row"
"""The column of the numbers where rows are numbered, from 1."""
RESERVED = ("fid", "ogc_fid", "geom", "geometry")
"""Columns that a GeoPackage has of its own."""
TEXT, WHOLE, LONG, NUMBER = "string(0,0)", "integer(0,0)", "int8(0,0)", "double(0,0)"
"""The types of columns, as a layer in memory calls them."""
STYLES = Path(__file__).with_name("styles")
LOOK_EVERY = 1000
"""After how many features it is looked whether the user cancelled."""


UNITS = {"mm": ("millimetres", 0.001), "cm": ("centimetres", 0.01), "m": ("metres", 1.0)}
"""The units of layers without a projection, in metres."""
UNDEFINED = "Undefined "
"""So the two entries are called by which a GeoPackage says that a layer has no projection."""


class LayerFault(Exception):
    """A layer that can't be written for the package."""


@dataclass
class Written:
    """A layer that was written: its path, the column of its numbers there, and which features have which number."""

    path: str
    column: str
    features: Dict[str, List[int]] = field(default_factory=dict)
    rows: List[int] = field(default_factory=list)
    """The feature of each row."""
    millimetres: float = 1000.0
    """How many millimetres the unit of the coordinates has."""

    def concerned(self, refusal: Refusal) -> List[int]:
        """The features of the layer that a refusal is about: by their number, without one those that have none."""
        if refusal.number is None:
            return self.features.get("", []) if refusal.code == "P3" else []
        return self.features.get(refusal.number, [])


def write_layer(
    source: Any,
    folder: str,
    name: str,
    number: Optional[str],
    context: QgsCoordinateTransformContext,
    cancelled: Callable[[], bool],
    attributes: bool = True,
    unit: str = "",
) -> Written:
    """Writes the features of a source, invalid ones too, to `folder`/`name`.gpkg.

    `number` is the field of the features' own numbers, "" for their rows, None for none. Without `attributes` it is the
    only column.
    `unit` (mm, cm, m) is that of a source without a projection. Raises `LayerFault`, also where there is no feature,
    and `Cancelled`.
    """
    path = str(Path(folder) / f"{name}.gpkg")
    number = _field_of(source.fields(), number, name)
    kept, fields, column = _columns(source.fields(), number, attributes)
    crs = _projection(source, name, unit)
    writer = _writer(path, name, fields, source.wkbType(), crs, context)
    written = Written(path, column, millimetres=_millimetres(crs, source.sourceCrs() == crs, unit))
    at_number = source.fields().lookupField(number) if number else -1
    found: Dict[str, List[int]] = defaultdict(list)
    for row, feature in enumerate(every_feature(source, cancelled), 1):
        values = feature.attributes()
        copy = QgsFeature(fields)
        copy.setGeometry(feature.geometry())
        copy.setAttributes([values[at] for at in kept] + ([row] if number == "" else []))
        if not writer.addFeature(copy):
            raise LayerFault(_unwritten(name, writer))
        found[str(row) if at_number < 0 else text_of(values[at_number])].append(feature.id())
        written.rows.append(feature.id())
    del writer
    if not found:
        text = "The layer {name} has no feature: choose another, or do not ask for the selected ones alone."
        raise LayerFault(tr(text, name=name))
    written.features = dict(found)
    return written


def _writer(path: str, name: str, fields: QgsFields, kind: Any, crs: Any, context: Any) -> QgsVectorFileWriter:
    """What writes a layer of a GeoPackage, whose own columns have names that no layer has. Raises `LayerFault`."""
    options = QgsVectorFileWriter.SaveVectorOptions()
    options.driverName, options.layerName = "GPKG", name
    options.layerOptions = ["FID=gandovel_fid", "GEOMETRY_NAME=gandovel_geometry", "SPATIAL_INDEX=NO"]
    writer = QgsVectorFileWriter.create(path, fields, kind, crs, context, options)
    if writer.hasError() != QgsVectorFileWriter.WriterError.NoError:
        raise LayerFault(_unwritten(name, writer))
    return writer


def _unwritten(name: str, writer: Any) -> str:
    return tr("The layer {name} can't be written for the check: {reason}", name=name, reason=writer.errorMessage())


def _field_of(fields: QgsFields, number: Optional[str], name: str) -> Optional[str]:
    """The name of the field of the numbers as the layer writes it. Raises `LayerFault` where there is none."""
    if not number:
        return number
    at = fields.lookupField(number)
    if at < 0:
        text = "The layer {name} has no field {field}: choose one of {names}."
        raise LayerFault(tr(text, name=name, field=number, names=", ".join(fields.names())))
    return str(fields[at].name())


def _projection(source: Any, name: str, unit: str) -> QgsCoordinateReferenceSystem:
    """A source's projection; without one a plane in the unit that is named. Raises `LayerFault`."""
    crs = source.sourceCrs()
    if crs.isValid() and not crs.description().startswith(UNDEFINED):
        return crs
    if unit not in UNITS:
        text = "The layer {name} has no projection: give it one, or name the unit of its coordinates."
        raise LayerFault(tr(text, name=name))
    title, metres = UNITS[unit]
    return QgsCoordinateReferenceSystem.fromWkt(
        f'LOCAL_CS["plane in {title}",UNIT["{title}",{metres}],AXIS["Easting",EAST],AXIS["Northing",NORTH]]'
    )


def _millimetres(crs: QgsCoordinateReferenceSystem, is_own: bool, unit: str) -> float:
    """How many millimetres a unit of a projection has; of one that is not the source's own, the unit is told."""
    if not is_own:
        return UNITS[unit][1] * 1000.0
    return float(QgsUnitTypes.fromUnitToUnitFactor(crs.mapUnits(), QgsUnitTypes.DistanceUnit.DistanceMillimeters))


def _columns(fields: QgsFields, number: Optional[str], attributes: bool) -> tuple[List[int], QgsFields, str]:
    """Which fields are written, as which, and the column of the numbers. Names that collide get an underscore."""
    written, kept, used, column = QgsFields(), [], set(RESERVED), ROW
    for at in range(fields.count()):
        one = QgsField(fields[at])
        is_number = one.name() == number
        if not is_number and (not attributes or one.name().lower() in RESERVED):
            continue
        while one.name().lower() in used:
            one.setName(f"{one.name()}_")
        used.add(one.name().lower())
        column = one.name() if is_number else column
        kept.append(at)
        written.append(one)
    if number == "":
        while column.lower() in used:
            column += "_"
        written.append(fields_of([(column, LONG)])[0])
    return kept, written, column


def every_feature(source: Any, cancelled: Callable[[], bool]) -> Iterator[QgsFeature]:
    """The features of a source, invalid ones too: it is the package that names them. Raises `Cancelled`."""
    request = QgsFeatureRequest()
    if isinstance(source, QgsProcessingFeatureSource):
        features = source.getFeatures(request, QgsProcessingFeatureSource.Flag.FlagSkipGeometryValidityChecks)
    else:
        features = source.getFeatures(request)
    for at, feature in enumerate(features):
        if at % LOOK_EVERY == 0 and cancelled():
            raise Cancelled("cancelled")
        yield feature


def text_of(value: Any) -> str:
    """A feature's number as the package writes it; empty where there is none."""
    if value is None or (hasattr(value, "isNull") and value.isNull()):
        return ""
    if isinstance(value, float) and value.is_integer():
        return str(int(value))
    return str(value).strip()


def read_layer(path: str, name: str) -> Optional[QgsVectorLayer]:
    """A layer of a GeoPackage; None where there is no such layer."""
    layer = QgsVectorLayer(f"{path}|layername={name}", name, "ogr")
    return layer if layer.isValid() else None


def layer_of(path: str, name: str) -> QgsVectorLayer:
    """A layer that the package has to have written. Raises `LayerFault`."""
    layer = read_layer(path, name)
    if layer is None:
        text = "The package gandovel wrote no layer {name}: install the version that fits this plugin."
        raise LayerFault(tr(text, name=name))
    return layer


def own_fields(layer: QgsVectorLayer) -> QgsFields:
    """The fields of a layer that was read, without those of the GeoPackage itself."""
    fields = QgsFields()
    for one in layer.fields():
        if one.name().lower() not in RESERVED:
            fields.append(one)
    return fields


def fill(sink: Any, fields: QgsFields, layer: Optional[QgsVectorLayer], more: Optional[Dict[str, Any]] = None) -> int:
    """Puts the features of a layer into a sink, by the names of its fields, with `more` values; how many."""
    count = 0
    for feature in layer.getFeatures() if layer is not None else ():
        names = {one.name() for one in feature.fields()}
        values = {name: feature[name] for name in fields.names() if name in names}
        add(sink, fields, {**values, **(more or {})}, feature.geometry())
        count += 1
    return count


def add(sink: Any, fields: QgsFields, values: Dict[str, Any], geometry: Any = None) -> None:
    """Puts one feature into a sink. Raises `LayerFault` where it does not take it."""
    feature = QgsFeature(fields)
    if geometry is not None:
        feature.setGeometry(geometry)
    feature.setAttributes([values.get(name) for name in fields.names()])
    if not sink.addFeature(feature, QgsFeatureSink.Flag.FastInsert):
        reason = sink.lastError() or tr("is the disk full?")
        raise LayerFault(tr("An output can't be written: {reason}", reason=reason))


def fields_of(columns: Sequence[tuple[str, str]]) -> QgsFields:
    """Fields of these names and types (`TEXT`, ..): those of a layer in memory, as every version of Qt has them."""
    uri = "&".join(f"field={name}:{kind}" for name, kind in columns)
    return QgsVectorLayer(f"None?{uri}", "fields", "memory").fields()
