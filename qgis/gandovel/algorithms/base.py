"""What the algorithms share: their common parameters, the call of the package, refusals as errors of QGIS."""
from __future__ import annotations

import tempfile
from pathlib import Path
from typing import Any, Dict, List, Optional, Sequence

from qgis.core import (
    QgsProcessing,
    QgsProcessingAlgorithm,
    QgsProcessingException,
    QgsProcessingOutputNumber,
    QgsProcessingOutputString,
    QgsProcessingParameterDefinition,
    QgsProcessingParameterEnum,
    QgsProcessingParameterFeatureSource,
    QgsProcessingParameterField,
    QgsProcessingParameterNumber,
    QgsProcessingUtils,
    QgsVectorLayer,
)
from qgis.PyQt.QtGui import QIcon

from .. import answers, selecting
from ..answers import NOT_TILING, Answer, Refused
from ..helping import help_url
from ..layers import STYLES, UNITS, LayerFault, Written, write_layer
from ..program import Cancelled, NotFound
from ..words import tr

ICON = Path(__file__).parents[1] / "icon.svg"
MOST_ERRORS = 20
"""How many refused features are told one by one."""
PARAMETER_OF_ROLE = {"": "INPUT", "parcels": "INPUT", "zones": "OVERLAY", "city": "CITY", "points": "POINTS"}
"""The parameter whose layer a refusal of the package is about."""
STEPS = 12
"""About how many steps the package takes; more do not harm."""
Parameters = Dict[str, Any]
EXACT = (
    "<p>Areas, gaps and overlaps are exact: they come from the formally verified program parcel_tool, in whole "
    "millimetres. What is measured in floating point is marked so in a column that ends in _how.</p>"
)


class Watching:
    """A `Watcher` over the feedback of an algorithm."""

    def __init__(self, feedback: Any) -> None:
        self.feedback, self.steps = feedback, 0

    def is_cancelled(self) -> bool:
        """Whether the user cancelled."""
        return bool(self.feedback.isCanceled())

    def step(self, text: str) -> None:
        """Shows the step."""
        self.steps += 1
        self.feedback.setProgressText(f"{text[:1].upper()}{text[1:]} ..")
        self.feedback.setProgress(100.0 * self.steps / (self.steps + STEPS / 3.0))


class Algorithm(QgsProcessingAlgorithm):
    """An algorithm over the package. A subclass has the texts, `initAlgorithm`, and `answered`."""

    NAME, TITLE, HELP = "", "", ""
    TAGS: Sequence[str] = ()
    STYLED: Dict[str, str] = {}
    """The style (a file of `styles`) of each output."""

    def __init__(self) -> None:
        super().__init__()
        self.outputs: Parameters = {}

    def createInstance(self) -> "Algorithm":
        """A new one."""
        return type(self)()

    def name(self) -> str:
        """Its id, behind `gandovel:`."""
        return self.NAME

    def displayName(self) -> str:
        """Its name in the toolbox."""
        return tr(self.TITLE)

    def shortHelpString(self) -> str:
        """The help beside its parameters."""
        return tr(self.HELP.replace(EXACT, "")) + (tr(EXACT) if EXACT in self.HELP else "")

    def helpUrl(self) -> str:
        """Where its Help button leads."""
        return help_url("the-algorithms")

    def tags(self) -> List[str]:
        """Words by which it is found."""
        return ["cadastre", "parcels", "topology", *self.TAGS]

    def icon(self) -> QIcon:
        """Its icon in the toolbox."""
        return QIcon(str(ICON))

    def processAlgorithm(self, parameters: Parameters, context: Any, feedback: Any) -> Parameters:
        """Runs it, in a folder of its own that is removed at the end."""
        try:
            with tempfile.TemporaryDirectory(prefix="gandovel-") as folder:
                self.outputs = self.answered(Job(self, parameters, context, feedback, folder))
        except Cancelled:
            feedback.pushInfo(tr("Cancelled: the check has ended, and nothing was written."))
            self.outputs = {}
        except (NotFound, LayerFault) as fault:
            raise QgsProcessingException(str(fault)) from fault
        return self.outputs

    def answered(self, job: "Job") -> Parameters:
        """Its outputs."""
        raise NotImplementedError

    def postProcessAlgorithm(self, context: Any, feedback: Any) -> Parameters:
        """Gives the outputs their styles."""
        for name, style in self.STYLED.items():
            if self.outputs.get(name):
                layer = QgsProcessingUtils.mapLayerFromString(self.outputs[name], context)
                if layer is not None:
                    layer.loadNamedStyle(str(STYLES / f"{style}.qml"))
        return self.outputs

    def add_parcels(self, required_number: bool = False) -> None:
        """The parameters INPUT and NUMBER_FIELD."""
        self.addParameter(
            QgsProcessingParameterFeatureSource("INPUT", tr("Parcels"), [QgsProcessing.SourceType.TypeVectorPolygon])
        )
        number = QgsProcessingParameterField(
            "NUMBER_FIELD", tr("Field of the parcels' numbers"), None, "INPUT", optional=not required_number
        )
        number.setHelp(tr("No two parcels may have the same number. Without a field, rows are numbered from 1."))
        self.addParameter(number)

    def add_city(self) -> None:
        """The parameters CITY, and MAX_MOVE and TOUCH among the advanced ones."""
        city = QgsProcessingParameterFeatureSource(
            "CITY", tr("City's outline"), [QgsProcessing.SourceType.TypeVectorPolygon], optional=True
        )
        city.setHelp(tr("Without it the outline is made of the parcels, and a gap along it is an open gap."))
        self.addParameter(city)
        unit = QgsProcessingParameterEnum(
            "UNIT", tr("Unit of layers without a projection"), list(UNITS), optional=True, usesStaticStrings=True
        )
        unit.setFlags(unit.flags() | QgsProcessingParameterDefinition.Flag.FlagAdvanced)
        self.addParameter(unit)
        self.add_distance(
            "TOUCH", tr("A corner this near to a border touches it (mm)"), tr("By default what the layer's grid needs.")
        )
        narrow = "Narrower notches and channels that are open to the outside are open gaps. By default 1 m."
        self.add_distance("NARROW", tr("Greatest width of an open gap (m)"), tr(narrow))
        self.add_distance("MAX_MOVE", tr("Refuse to move a corner farther than (mm)"), tr("By default 1 mm."))

    def add_distance(self, name: str, text: str, more: str) -> None:
        """An optional advanced number, not below 0."""
        distance = QgsProcessingParameterNumber(
            name, text, QgsProcessingParameterNumber.Type.Double, None, optional=True, minValue=0.0
        )
        distance.setFlags(distance.flags() | QgsProcessingParameterDefinition.Flag.FlagAdvanced)
        distance.setHelp(more)
        self.addParameter(distance)

    def add_results(self, numbers: Dict[str, str], texts: Optional[Dict[str, str]] = None) -> None:
        """Outputs that models use: numbers, and texts."""
        for name, text in numbers.items():
            self.addOutput(QgsProcessingOutputNumber(name, tr(text)))
        for name, text in (texts or {}).items():
            self.addOutput(QgsProcessingOutputString(name, tr(text)))


class Job:
    """One run of an algorithm: its parameters as the package takes them, its layers written, its refusals told."""

    def __init__(self, algorithm: Algorithm, parameters: Parameters, context: Any, feedback: Any, folder: str) -> None:
        self.algorithm, self.parameters, self.context, self.feedback = algorithm, parameters, context, feedback
        self.folder = folder
        self.watching = Watching(feedback)
        self.written: Dict[str, Written] = {}

    def source(self, name: str) -> Any:
        """The features of a parameter; None where it is not given."""
        source = self.algorithm.parameterAsSource(self.parameters, name, self.context)
        if source is None and self.parameters.get(name) not in (None, ""):
            raise QgsProcessingException(self.algorithm.invalidSourceError(self.parameters, name))
        return source

    def field(self, name: str) -> str:
        """The field that a parameter names; empty without one."""
        names = self.algorithm.parameterAsFields(self.parameters, name, self.context)
        return str(names[0]) if names else ""

    def write(self, parameter: str, name: str, field: str = "", attributes: bool = True) -> Optional[Written]:
        """Writes the layer of a parameter under a name; None where it is not given."""
        source = self.source(parameter)
        if source is None:
            return None
        number = self.field(field) if field else None
        transform = self.context.transformContext()
        self.feedback.setProgressText(tr("Writing {name} ..", name=name))
        unit = self.algorithm.parameterAsEnumString(self.parameters, "UNIT", self.context)
        cancelled = self.feedback.isCanceled
        written = write_layer(source, self.folder, name, number, transform, cancelled, attributes, unit)
        self.written[parameter] = written
        return written

    def number(self, name: str) -> Optional[float]:
        """The number of an optional parameter."""
        given = self.parameters.get(name) not in (None, "")
        return self.algorithm.parameterAsDouble(self.parameters, name, self.context) if given else None

    def text(self, name: str) -> str:
        """The text of a parameter."""
        return str(self.algorithm.parameterAsString(self.parameters, name, self.context))

    def folder_named(self, name: str) -> str:
        """The folder that a parameter names; empty where it names none."""
        if self.parameters.get(name) in (None, ""):
            return ""
        return str(self.algorithm.parameterAsFileOutput(self.parameters, name, self.context))

    def options(self) -> Dict[str, Any]:
        """The options of `prepare` that are given, by their names; layers are written."""
        found: Dict[str, Any] = {}
        city = self.written.get("CITY") or self.write("CITY", "city", attributes=False)
        if city is not None:
            found["city"] = city.path
        for name, option in (("TOUCH", "touch"), ("NARROW", "narrow"), ("MAX_MOVE", "max_move")):
            value = self.number(name)
            if value is not None:
                found[option] = value
        return found

    def parcels(self, attributes: bool = True) -> Written:
        """The parcels, written."""
        parcels = self.write("INPUT", "parcels", "NUMBER_FIELD", attributes)
        if parcels is None:
            raise QgsProcessingException(self.algorithm.invalidSourceError(self.parameters, "INPUT"))
        return parcels

    def zones(self) -> Optional[Written]:
        """The zones, written."""
        return self.write("OVERLAY", "zones", "OVERLAY_FIELD")

    def report(self, attributes: bool = False, **more: Any) -> tuple[Answer, str]:
        """The answer to `gandovel report` with more options, and the path of its GeoPackage."""
        parcels, zones, path = self.parcels(attributes), self.zones(), str(Path(self.folder) / "report.gpkg")
        options: Dict[str, Any] = {"number": parcels.column, **self.options(), **more}
        if zones is not None:
            options.update(zones=zones.path, zone=zones.column)
        answer = self.told(lambda: answers.report(parcels.path, path, options, self.folder, self.watching))
        self.feedback.pushInfo(answers.verdict_of(answer))
        for note in answers.notes_of(answer):
            self.feedback.pushWarning(note)
        return answer, path

    def asked(self, request: Answer) -> Answer:
        """The answer of the package's side to a request."""
        return self.told(lambda: answers.package_side(request, self.folder, self.watching))

    def told(self, call: Any) -> Answer:
        """What a call answers. A refusal becomes an error of QGIS, and its features are selected."""
        try:
            answer: Answer = call()
            return answer
        except Refused as refused:
            if refused.refusals[0].code == NOT_TILING and "INPUT" in self.written:
                raise QgsProcessingException(self._needs_tiling(refused)) from refused
            self._select(refused)
            for refusal in refused.refusals[:MOST_ERRORS]:
                self.feedback.reportError(str(refusal))
            more = len(refused.refusals) - 1
            tail = " " + tr("(and {count} more: see the log)", count=more) if more else ""
            raise QgsProcessingException(f"{refused.refusals[0]}{tail}") from refused

    def _needs_tiling(self, refused: Refused) -> str:
        """What is said where parcels have to tile and do not: the verdict of Check parcels, and the largest fault."""
        needs = tr(
            "{title} needs parcels that tile: mend the faults that Check parcels lists.",
            title=self.algorithm.displayName(),
        )
        parcels, path = self.written["INPUT"], str(Path(self.folder) / "faults.gpkg")
        options: Dict[str, Any] = {"number": parcels.column, **self.options()}
        try:
            answer = answers.report(parcels.path, path, options, self.folder, self.watching)
        except Refused:
            return f"{refused.refusals[0]} {needs}"
        return " ".join([answers.verdict_of(answer), *answers.largest_of(answer), needs])

    def _select(self, refused: Refused) -> None:
        concerned: Dict[str, List[int]] = {}
        for refusal in refused.refusals:
            name = PARAMETER_OF_ROLE.get(refusal.role, "")
            if name in self.written:
                concerned.setdefault(name, []).extend(self.written[name].concerned(refusal))
        for name, features in concerned.items():
            layer = self.algorithm.parameterAsVectorLayer(self.parameters, name, self.context)
            if isinstance(layer, QgsVectorLayer) and features:
                selecting.select(layer.id(), features)

    def sink(self, name: str, fields: Any, kind: Any, crs: Any = None) -> tuple[Any, Any]:
        """The sink of an output and its name; both None where the output is not asked for."""
        crs = self.source("INPUT").sourceCrs() if crs is None else crs
        sink, made = self.algorithm.parameterAsSink(self.parameters, name, self.context, fields, kind, crs)
        if sink is None and self.parameters.get(name) not in (None, ""):
            raise QgsProcessingException(self.algorithm.invalidSinkError(self.parameters, name))
        return sink, made
