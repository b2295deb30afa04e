"""Compare with a register's session: what clerks have changed there since the layer was prepared."""
from __future__ import annotations

from typing import Any, Dict, Optional

from qgis.core import (
    QgsProcessing,
    QgsProcessingParameterFeatureSink,
    QgsProcessingParameterFile,
    QgsProcessingParameterNumber,
    QgsProcessingParameterString,
    QgsWkbTypes,
)

from ..layers import fill, layer_of, own_fields
from ..words import tr
from .base import EXACT, Algorithm, Job, Parameters

TIMEOUT = 30.0
"""Seconds that a desk has for an answer, by default."""


class CompareSession(Algorithm):
    """How the parcels of a running session differ from those of a layer."""

    NAME, TITLE = "comparesession", "Compare with a register's session"
    HELP = (
        "<p>Asks a desk of a running session (<i>parcel_tool session .. --desk NAME</i>, where NAME.in and NAME.out "
        "are its pipes) for every parcel of the layer. <b>Compared parcels</b> has each with its <i>state</i>: "
        "<i>same</i>, <i>moved</i> (its border differs) or <i>retired</i> (an edit took it out), and for those as "
        "<i>new</i> the session's parcels that are there now, with their ids.</p><p>The layer has to be the one with "
        "which the session began; name the folder that <b>Prepare</b> wrote for it, if you have it. Areas are compared "
        "exactly, in whole millimetres. Nobody else may sit at that desk meanwhile; nothing is edited.</p>" + EXACT
    )
    TAGS = ("session", "register", "difference")
    STYLED = {"OUTPUT": "compared"}

    def initAlgorithm(self, configuration: Optional[Parameters] = None) -> None:
        """Its parameters and outputs."""
        self.add_parcels()
        self.addParameter(QgsProcessingParameterString("DESK", tr("Desk: the path of its pipes, without .in or .out")))
        rows = QgsProcessingParameterFile(
            "ROWS", tr("Rows of the session's parcels (rows.csv of its folder)"), optional=True, extension="csv"
        )
        rows.setHelp(tr("Without it, records are as Prepare makes them of this layer."))
        self.addParameter(rows)
        limit = QgsProcessingParameterNumber(
            "TIMEOUT",
            tr("Longest wait for an answer (s)"),
            QgsProcessingParameterNumber.Type.Double,
            TIMEOUT,
            minValue=0.1,
        )
        self.addParameter(limit)
        island = QgsProcessingParameterNumber(
            "ISLAND", tr("Part of the city, from 1"), QgsProcessingParameterNumber.Type.Integer, 1, minValue=1
        )
        self.addParameter(island)
        self.add_city()
        self.addParameter(
            QgsProcessingParameterFeatureSink(
                "OUTPUT", tr("Compared parcels"), QgsProcessing.SourceType.TypeVectorPolygon
            )
        )
        self.add_results(
            {
                "SAME_COUNT": "Number of parcels that are the same",
                "MOVED_COUNT": "Number of parcels whose border differs",
                "RETIRED_COUNT": "Number of parcels that edits took out",
                "NEW_COUNT": "Number of parcels that are new in the session",
                "ENTRIES": "Number of edits that the session has made",
            }
        )

    def answered(self, job: Job) -> Parameters:
        """The compared parcels, and how many are in which state."""
        parcels = job.parcels()
        out = f"{job.folder}/compared.gpkg"
        request: Dict[str, Any] = {"do": "compare", "parcels": parcels.path, "number": parcels.column, "out": out}
        request["desk"], request["rows"] = job.text("DESK"), job.text("ROWS")
        request["timeout"] = self.parameterAsDouble(job.parameters, "TIMEOUT", job.context)
        request["island"] = self.parameterAsInt(job.parameters, "ISLAND", job.context)
        answer = job.asked({**request, "options": job.options()})
        found = layer_of(out, "compared")
        fields = own_fields(found)
        sink, name = job.sink("OUTPUT", fields, QgsWkbTypes.Type.MultiPolygon)
        if sink is not None:
            fill(sink, fields, found)
        counts = {f"{state.upper()}_COUNT": count for state, count in answer["counts"].items()}
        return {"OUTPUT": name, **counts, "ENTRIES": answer["entries"]}
