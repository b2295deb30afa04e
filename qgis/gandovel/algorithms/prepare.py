"""Prepare: a layer in whole millimetres, with its neighbours' corners, and what was changed for that."""
from __future__ import annotations

from typing import Any, Dict, Optional

from qgis.core import (
    QgsProcessing,
    QgsProcessingParameterFeatureSink,
    QgsProcessingParameterFolderDestination,
    QgsWkbTypes,
)

from ..layers import fill, layer_of, own_fields
from ..words import tr
from .base import Algorithm, Job, Parameters


class Prepare(Algorithm):
    """The layer as the program reads it."""

    NAME, TITLE = "prepare", "Prepare"
    HELP = (
        "<p>The parcels on the grid of whole millimetres, each with all corners of its neighbours that lie on its "
        "borders. No gap and no overlap is mended.</p><p><b>Prepared parcels</b> have the attributes of the layer, and "
        "in <i>records</i> the records of the program, which clerks' edits name. <b>Changed corners</b> are those "
        "that were moved, put in or made to touch, with the distance in millimetres (measured).</p><p>A <b>folder</b>, "
        "if you name one, is what <i>parcel_tool</i> and its sessions read.</p>"
    )
    TAGS = ("snap", "vertices", "grid")
    STYLED = {"OUTPUT": "prepared", "CHANGES": "changes"}

    def initAlgorithm(self, configuration: Optional[Parameters] = None) -> None:
        """Its parameters and outputs."""
        self.add_parcels()
        self.add_city()
        self.addParameter(
            QgsProcessingParameterFeatureSink(
                "OUTPUT", tr("Prepared parcels"), QgsProcessing.SourceType.TypeVectorPolygon
            )
        )
        self.addParameter(
            QgsProcessingParameterFeatureSink(
                "CHANGES", tr("Changed corners"), QgsProcessing.SourceType.TypeVectorPoint
            )
        )
        folder = QgsProcessingParameterFolderDestination(
            "FOLDER", tr("Folder for the program"), optional=True, createByDefault=False
        )
        self.addParameter(folder)
        numbers = {"CHANGE_COUNT": tr("Number of changed corners"), "ISLAND_COUNT": tr("Number of parts of the city")}
        self.add_results(numbers, {"SUMMARY": "What was done, in one line"})

    def answered(self, job: Job) -> Parameters:
        """The prepared parcels, and the changed corners."""
        parcels = job.parcels()
        folder = job.folder_named("FOLDER")
        out = f"{job.folder}/prepared.gpkg"
        request = {"do": "prepare", "parcels": parcels.path, "number": parcels.column, "out": out, "folder": folder}
        answer = job.asked({**request, "options": job.options()})
        job.feedback.pushInfo(answer["summary"])
        results: Dict[str, Any] = {"SUMMARY": answer["summary"], "ISLAND_COUNT": answer["islands"]}
        if folder:
            results["FOLDER"] = folder
        for name, layer, kind in (
            ("OUTPUT", "parcels", QgsWkbTypes.Type.MultiPolygon),
            ("CHANGES", "changes", QgsWkbTypes.Type.Point),
        ):
            found = layer_of(out, layer)
            fields = own_fields(found)
            sink, results[name] = job.sink(name, fields, kind)
            count = fill(sink, fields, found) if sink is not None else found.featureCount()
        return {**results, "CHANGE_COUNT": count}
