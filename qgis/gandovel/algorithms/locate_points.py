"""Locate points: the parcel in which each lies, or the parcels on whose border."""
from __future__ import annotations

from typing import Optional

from qgis.core import (
    QgsProcessing,
    QgsProcessingParameterFeatureSink,
    QgsProcessingParameterFeatureSource,
)

from ..layers import fill, layer_of, own_fields
from ..words import tr
from .base import EXACT, Algorithm, Job, Parameters


class LocatePoints(Algorithm):
    """Where points lie among parcels that tile their city."""

    NAME, TITLE = "locatepoints", "Locate points"
    HELP = (
        "<p>For each point the parcel that it is <i>inside</i>, or all parcels on whose border it lies (<i>edge</i>); "
        "else it is <i>outside</i>. The parcels have to tile their city.</p><p>A point is looked for at the nearest "
        "whole millimetre, <i>moved_mm</i> away (measured).</p>" + EXACT
    )
    TAGS = ("points", "point in polygon")
    STYLED = {"OUTPUT": "located"}

    def initAlgorithm(self, configuration: Optional[Parameters] = None) -> None:
        """Its parameters and outputs."""
        self.add_parcels()
        self.addParameter(
            QgsProcessingParameterFeatureSource("POINTS", tr("Points"), [QgsProcessing.SourceType.TypeVectorPoint])
        )
        self.add_city()
        self.addParameter(
            QgsProcessingParameterFeatureSink("OUTPUT", tr("Located points"), QgsProcessing.SourceType.TypeVectorPoint)
        )
        self.add_results(
            {
                "INSIDE_COUNT": "Number of points inside a parcel",
                "EDGE_COUNT": "Number of points on a border",
                "OUTSIDE_COUNT": "Number of points outside",
            }
        )

    def answered(self, job: Job) -> Parameters:
        """The points, and how many lie where."""
        parcels, points = job.parcels(), job.write("POINTS", "points")
        assert points is not None
        out = f"{job.folder}/located.gpkg"
        request = {"do": "locate", "parcels": parcels.path, "number": parcels.column, "points": points.path, "out": out}
        counts = job.asked({**request, "options": job.options()})["counts"]
        found = layer_of(out, "points")
        fields = own_fields(found)
        sink, name = job.sink("OUTPUT", fields, job.source("POINTS").wkbType(), job.source("POINTS").sourceCrs())
        if sink is not None:
            fill(sink, fields, found)
        return {"OUTPUT": name, **{f"{where.upper()}_COUNT": count for where, count in counts.items()}}
