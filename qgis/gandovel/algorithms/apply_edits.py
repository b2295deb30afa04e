"""Apply edits: a clerk's file on parcels that tile their city."""
from __future__ import annotations

from typing import Any, Dict, List, Optional

from qgis.core import (
    QgsProcessing,
    QgsProcessingParameterFeatureSink,
    QgsProcessingParameterFile,
    QgsProcessingParameterNumber,
    QgsWkbTypes,
)

from ..layers import TEXT, WHOLE, add, fields_of, fill, layer_of, own_fields
from ..words import tr
from .base import Algorithm, Job, Parameters

ANSWER_COLUMNS = (
    ("line", WHOLE),
    ("edit", TEXT),
    ("made", WHOLE),
    ("answer", TEXT),
)


class ApplyEdits(Algorithm):
    """The parcels after a clerk's edits."""

    NAME, TITLE = "applyedits", "Apply edits"
    HELP = (
        "<p>Applies a clerk's file of edits (<i>split, merge, move, insert, straighten</i>, one a line, in whole "
        "millimetres) to parcels that tile their city. No edit can leave a gap or an overlap: one that does not fit is "
        "refused with a reason, and changes nothing.</p><p>The edits name records; <b>Prepare</b> shows which parcel "
        "has which. In the output, <i>edited</i> is 1 for parcels that edits made, and <i>came_from</i> has the "
        "numbers of those that they were. <b>Answers</b> has a row for each edit.</p>"
    )
    TAGS = ("split", "merge", "edit")
    STYLED = {"OUTPUT": "edited"}

    def initAlgorithm(self, configuration: Optional[Parameters] = None) -> None:
        """Its parameters and outputs."""
        self.add_parcels()
        self.addParameter(QgsProcessingParameterFile("EDITS", tr("Clerk's file of edits")))
        island = QgsProcessingParameterNumber(
            "ISLAND", tr("Part of the city, from 1"), QgsProcessingParameterNumber.Type.Integer, 1, minValue=1
        )
        island.setHelp(tr("Parts that do not touch have records of their own."))
        self.addParameter(island)
        self.add_city()
        self.addParameter(
            QgsProcessingParameterFeatureSink(
                "OUTPUT", tr("Edited parcels"), QgsProcessing.SourceType.TypeVectorPolygon
            )
        )
        self.addParameter(
            QgsProcessingParameterFeatureSink("ANSWERS", tr("Answers"), QgsProcessing.SourceType.TypeVector)
        )
        self.add_results({"ACCEPTED_COUNT": "Number of edits made", "REFUSED_COUNT": "Number of edits refused"})

    def answered(self, job: Job) -> Parameters:
        """The parcels after the edits, and the answers."""
        parcels = job.parcels()
        out = f"{job.folder}/edited.gpkg"
        request = {"do": "apply", "parcels": parcels.path, "number": parcels.column, "out": out}
        request["edits"] = self.parameterAsFile(job.parameters, "EDITS", job.context)
        island = self.parameterAsInt(job.parameters, "ISLAND", job.context)
        answers = job.asked({**request, "island": island, "options": job.options()})["answers"]
        for row in answers:
            if not row["made"]:
                job.feedback.pushWarning(f"line {row['line']}: {row['edit']}: {row['answer']}")
        results: Dict[str, Any] = {}
        found = layer_of(out, "parcels")
        fields = own_fields(found)
        sink, results["OUTPUT"] = job.sink("OUTPUT", fields, QgsWkbTypes.Type.MultiPolygon)
        if sink is not None:
            fill(sink, fields, found)
        results["ANSWERS"] = _told(job, answers)
        made = sum(row["made"] for row in answers)
        return {**results, "ACCEPTED_COUNT": made, "REFUSED_COUNT": len(answers) - made}


def _told(job: Job, answers: List[Dict[str, Any]]) -> Any:
    """The table of the answers."""
    fields = fields_of(ANSWER_COLUMNS)
    sink, name = job.sink("ANSWERS", fields, QgsWkbTypes.Type.NoGeometry)
    if sink is not None:
        for row in answers:
            add(sink, fields, row)
    return name
