"""Overlay zones: which parcels lie in which zones, and the parts of those that are split."""
from __future__ import annotations

from typing import Any, Dict, List, Optional

from qgis.core import (
    QgsProcessing,
    QgsProcessingParameterFeatureSink,
    QgsProcessingParameterFeatureSource,
    QgsProcessingParameterField,
    QgsProcessingParameterNumber,
    QgsUnitTypes,
    QgsWkbTypes,
)

from ..faults import fault_fields, fill_faults
from ..joined import Joined
from ..layers import TEXT, WHOLE, add, fields_of, fill, layer_of, own_fields
from ..words import tr
from .base import EXACT, Algorithm, Job, Parameters
from .check_parcels import COUNTS, VERDICT, add_skip_invalid, results_of, skipping

OUTPUTS = (
    ("SPLIT", "Split parcels", "split", QgsProcessing.SourceType.TypeVectorPolygon),
    ("PARTS", "Parts of split parcels", "split_parts", QgsProcessing.SourceType.TypeVectorPolygon),
)


class OverlayZones(Algorithm):
    """Which zones each parcel lies in."""

    NAME, TITLE = "overlayzones", "Overlay zones"
    HELP = (
        "<p>Which parcels lie in which zones, also where the layers do not tile.</p><p><b>Split parcels</b> are those "
        "in two zones or more, with the zones' names. <b>Parts</b> are what each has in each zone, with its area. The "
        "<b>joined table</b> has a row for each parcel and zone that overlap, with the attributes of both. "
        "<b>Pairs</b> are the table without attributes. <b>Faults</b> are those of parcels and zones.</p><p>That a "
        "parcel and a zone overlap is exact; those that only touch are not told. Where both layers tile, areas are "
        "proved: twice the area in mm², <i>area2_mm2</i>, is at most 1 off, and a parcel's areas sum to its own. Else "
        "they are measured (<i>area_how</i>). Where a parcel overlaps no zone, or lies beyond the city, the table has "
        "a zone that is measured at a point inside it, or none (<i>zone_how</i>).</p>" + EXACT
    )
    TAGS = ("zones", "intersection", "split")
    STYLED = {"FAULTS": "faults", "SPLIT": "split", "PARTS": "split_parts"}

    def initAlgorithm(self, configuration: Optional[Parameters] = None) -> None:
        """Its parameters and outputs."""
        self.add_parcels()
        self.addParameter(
            QgsProcessingParameterFeatureSource("OVERLAY", tr("Zones"), [QgsProcessing.SourceType.TypeVectorPolygon])
        )
        names = QgsProcessingParameterField(
            "OVERLAY_FIELD", tr("Field of the zones' names"), None, "OVERLAY", optional=True
        )
        names.setHelp(tr("Several rows may have the same name. Without a field, rows are numbered from 1."))
        self.addParameter(names)
        self.add_city()
        minimum = QgsProcessingParameterNumber(
            "MIN_AREA",
            tr("Parts of less are marked as slivers (m²)"),
            QgsProcessingParameterNumber.Type.Double,
            1.0,
            minValue=0.0,
        )
        self.addParameter(minimum)
        add_skip_invalid(self)
        self._add_outputs()

    def _add_outputs(self) -> None:
        """Its layers, its tables, and its counts."""
        for name, text, _, kind in OUTPUTS:
            self.addParameter(QgsProcessingParameterFeatureSink(name, tr(text), kind))
        self.addParameter(
            QgsProcessingParameterFeatureSink("TABLE", tr("Joined table"), QgsProcessing.SourceType.TypeVector)
        )
        pairs = QgsProcessingParameterFeatureSink(
            "PAIRS",
            tr("Pairs of parcel and zone"),
            QgsProcessing.SourceType.TypeVector,
            optional=True,
            createByDefault=False,
        )
        self.addParameter(pairs)
        faults = QgsProcessingParameterFeatureSink(
            "FAULTS", tr("Faults"), QgsProcessing.SourceType.TypeVectorPolygon, optional=True, createByDefault=False
        )
        self.addParameter(faults)
        more = {
            "SPLIT_COUNT": tr("Number of split parcels"),
            "PAIR_COUNT": tr("Number of parcels and zones that overlap"),
        }
        self.add_results({**more, **COUNTS}, VERDICT)

    def answered(self, job: Job) -> Parameters:
        """The split parcels, their parts, the table, the faults, and how many."""
        minimum = self.parameterAsDouble(job.parameters, "MIN_AREA", job.context)
        answer, path = job.report(True, min_area=minimum, **skipping(job))
        results: Dict[str, Any] = results_of(answer)
        counts = {}
        for name, _, layer, _ in OUTPUTS:
            results[name], counts[name] = _copied(job, name, path, layer)
        results["TABLE"] = self._table(job, path, answer["pairs"])
        results["PAIRS"] = _pairs(job, answer["pairs"])
        sink, results["FAULTS"] = job.sink("FAULTS", fault_fields(), QgsWkbTypes.Type.MultiPolygon)
        if sink is not None:
            fill_faults(sink, path)
        return {**results, "SPLIT_COUNT": counts["SPLIT"], "PAIR_COUNT": len(answer["pairs"])}

    def _table(self, job: Job, path: str, pairs: List[Dict[str, Any]]) -> Any:
        """The joined table."""
        parcels, zones, parts = (layer_of(path, name) for name in ("parcels", "zones", "split_parts"))
        metre = QgsUnitTypes.fromUnitToUnitFactor(parcels.crs().mapUnits(), QgsUnitTypes.DistanceUnit.DistanceMeters)
        joined = Joined(parcels, zones, parts, pairs, metre * metre)
        sink, name = job.sink("TABLE", joined.fields(), QgsWkbTypes.Type.NoGeometry)
        if sink is not None:
            joined.fill(sink)
        return name


def _pairs(job: Job, pairs: List[Dict[str, Any]]) -> Any:
    """The table of pairs, where it is asked for."""
    columns = ("number", TEXT), ("zone", TEXT), ("split", WHOLE)
    fields = fields_of((*columns, ("area2_mm2", TEXT)))
    sink, name = job.sink("PAIRS", fields, QgsWkbTypes.Type.NoGeometry)
    if sink is not None:
        for pair in pairs:
            add(sink, fields, {**pair, "split": int(pair["split"])})
    return name


def _copied(job: Job, output: str, path: str, layer: str) -> Any:
    """Puts a layer of a GeoPackage into an output; its name, and how many features it has."""
    found = layer_of(path, layer)
    fields = own_fields(found)
    sink, name = job.sink(output, fields, QgsWkbTypes.Type.MultiPolygon)
    return name, fill(sink, fields, found) if sink is not None else found.featureCount()
