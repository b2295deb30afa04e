"""Districts: a layer of any size, judged by parts."""
from __future__ import annotations

from typing import Optional

from qgis.core import (
    QgsProcessing,
    QgsProcessingParameterDefinition,
    QgsProcessingParameterFeatureSink,
    QgsProcessingParameterNumber,
)

from ..words import tr
from .base import EXACT, Algorithm, Job, Parameters
from .check_parcels import COUNTS, VERDICT, add_skip_invalid, checked, skipping


class Districts(Algorithm):
    """The check of a layer that is too large for one run of the program."""

    NAME, TITLE = "districts", "Check a large layer by districts"
    HELP = (
        "<p>Checks a layer of any size. One run of the program takes 65,536 parcels; a larger layer is cut into "
        "districts along the parcels' own borders, each is judged, and so are the districts in the city's outline. "
        "All parcels tile the city if all of these tile: that is proved.</p><p>If a district has no verdict, the "
        "verdict is <b>open</b>. Outputs are those of <b>Check parcels</b>.</p>" + EXACT
    )
    TAGS = ("large", "districts", "many")
    STYLED = {"FAULTS": "faults"}

    def initAlgorithm(self, configuration: Optional[Parameters] = None) -> None:
        """Its parameters and outputs."""
        self.add_parcels()
        self.add_city()
        add_skip_invalid(self)
        most = QgsProcessingParameterNumber(
            "PARCELS_A_DISTRICT",
            tr("Most rings of a district"),
            QgsProcessingParameterNumber.Type.Integer,
            None,
            optional=True,
            minValue=1,
        )
        most.setFlags(most.flags() | QgsProcessingParameterDefinition.Flag.FlagAdvanced)
        most.setHelp(tr("Where it is given, a smaller layer is cut into districts, too."))
        self.addParameter(most)
        self.addParameter(
            QgsProcessingParameterFeatureSink("FAULTS", tr("Faults"), QgsProcessing.SourceType.TypeVectorPolygon)
        )
        self.add_results(COUNTS, VERDICT)

    def answered(self, job: Job) -> Parameters:
        """The faults, and how many."""
        most = job.number("PARCELS_A_DISTRICT")
        more = {} if most is None else {"parcels_a_district": int(most)}
        return checked(job, **more, **skipping(job))
