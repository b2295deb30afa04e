"""A check in the background: of a layer as it is in the window, edits that are not saved included."""
from __future__ import annotations

import tempfile
from dataclasses import dataclass, field
from fractions import Fraction
from functools import cached_property
from pathlib import Path
from typing import Any, Callable, Collection, Dict, List, Optional

from qgis.core import QgsGeometry, QgsProject, QgsTask, QgsVectorLayer, QgsVectorLayerFeatureSource

from . import answers
from .answers import KINDS, LAYERS, Answer, Refused
from .identity import identity_of
from .layers import LayerFault, Written, read_layer, write_layer
from .program import Cancelled, NotFound
from .words import tr

STEPS = 12


@dataclass(frozen=True)
class Fault:
    """A fault of a layer: kind, numbers of the parcels there, area (m2; doubled in mm2, exact), shape, and how many
    millimetres the unit of that has."""

    kind: str
    layer: str
    numbers: List[str]
    area_m2: float
    area2_mm2: str
    shape: QgsGeometry
    millimetres: float = 1000.0

    @cached_property
    def exact_area(self) -> Fraction:
        """Twice its area in mm2."""
        return Fraction(self.area2_mm2)

    @cached_property
    def identity(self) -> str:
        """By what it is known again."""
        return identity_of(self.kind, self.layer, self.shape, self.millimetres)


@dataclass(frozen=True)
class Outcome:
    """What a check found; or why there is none.

    `refused_features` are those that are refused, by the role of their layer (parcels, city); `owners` the features of
    the parcels by their numbers. `touch` is how near to a border, in mm, a corner touches it; `at` and `city`
    the layers as they were written.
    """

    faults: List[Fault]
    verdict: str = ""
    notes: tuple[str, ...] = ()
    tiles: bool = False
    refused: str = ""
    refused_features: Dict[str, List[int]] = field(default_factory=dict)
    owners: Dict[str, List[int]] = field(default_factory=dict)
    cancelled: bool = False
    touch: Optional[float] = None
    at: Optional[Written] = None
    city: Optional[Written] = None


class Snapshot:
    """The features of a layer as they are now, to be read in another thread."""

    def __init__(self, layer: QgsVectorLayer) -> None:
        self._source = QgsVectorLayerFeatureSource(layer)
        self._fields, self._kind, self._crs = layer.fields(), layer.wkbType(), layer.crs()

    def fields(self) -> Any:
        """The layer's fields."""
        return self._fields

    def wkbType(self) -> Any:
        """The type of the layer's shapes."""
        return self._kind

    def sourceCrs(self) -> Any:
        """The layer's projection."""
        return self._crs

    def getFeatures(self, request: Any) -> Any:
        """The features."""
        return self._source.getFeatures(request)


class CheckTask(QgsTask):
    """One check of a layer, in its city where one is given. `done` gets the outcome, in the main thread."""

    def __init__(
        self,
        layer: QgsVectorLayer,
        number: str,
        city: Optional[QgsVectorLayer],
        unit: str,
        done: Callable[[Outcome], None],
        touch: Optional[float] = None,
        keep: Optional[str] = None,
    ) -> None:
        """`touch` (mm) is that of an earlier check of the layer; `keep` a folder for what the package reads."""
        self.title = tr("Gandovel: check of {layer}", layer=layer.name())
        super().__init__(self.title, QgsTask.Flag.CanCancel)
        self.parcels, self.number, self.unit, self.done = Snapshot(layer), number, unit, done
        self.touch, self.keep = touch, keep
        self.city = Snapshot(city) if city is not None else None
        self.context = QgsProject.instance().transformContext()
        self.steps, self.told = 0, ""
        self.outcome = Outcome([], cancelled=True)

    def is_cancelled(self) -> bool:
        """Whether the user cancelled."""
        return bool(self.isCanceled())

    def step(self, text: str) -> None:
        """The package begins its next step."""
        self.steps, self.told = self.steps + 1, text
        self.setDescription(f"Gandovel: {text}")
        self.setProgress(100.0 * self.steps / (self.steps + STEPS / 3.0))

    def run(self) -> bool:
        """Writes the layer, asks the package, and reads the faults; in a thread of its own."""
        with tempfile.TemporaryDirectory(prefix="gandovel-") as folder:
            written: Dict[str, Written] = {}
            try:
                self.outcome = self._checked(self.keep or folder, written)
            except Refused as refused:
                self.outcome = Outcome([], refused=_line(refused), refused_features=_concerned(refused, written))
            except Cancelled:
                return False
            except (NotFound, LayerFault) as fault:
                self.outcome = Outcome([], refused=str(fault))
            except Exception as fault:  # pylint: disable=broad-except
                text = tr("The check failed: {reason}", reason=f"{type(fault).__name__}: {fault}")
                self.outcome = Outcome([], refused=text)
        self.setDescription(self.title)
        return True  # a refusal is an outcome, too: QGIS says nothing of its own then

    def _checked(self, folder: str, written: Dict[str, Written]) -> Outcome:
        self.step(tr("writing the layer"))
        written["parcels"] = self._written(self.parcels, folder, "parcels", self.number)
        out = str(Path(folder) / "report.gpkg")
        parcels = written["parcels"]
        options: Dict[str, Any] = {"number": parcels.column}
        if self.city is not None:
            written["city"] = self._written(self.city, folder, "city", None)
            options["city"] = written["city"].path
        if self.touch is not None:
            options["touch"] = repr(self.touch)
        answer: Answer = answers.report(parcels.path, out, options, folder, self)
        owners = parcels.features
        faults = sorted(
            faults_in(out, owners, parcels.millimetres), key=lambda it: (-it.exact_area, it.kind, it.numbers)
        )
        told = answers.verdict_of(answer), tuple(answers.notes_of(answer)), answer.get("verdict") == "tiles"
        touch = answer.get("touch_mm")
        return Outcome(
            faults,
            *told,
            owners=owners,
            touch=None if touch is None else float(touch),
            at=parcels,
            city=written.get("city"),
        )

    def _written(self, source: Snapshot, folder: str, name: str, number: Optional[str]) -> Written:
        return write_layer(source, folder, name, number, self.context, self.is_cancelled, False, self.unit)

    def finished(self, result: bool) -> None:
        """Hands the outcome on, in the main thread."""
        self.done(self.outcome)


def _line(refused: Refused) -> str:
    more = len(refused.refusals) - 1
    tail = " " + tr("(and {count} more)", count=more) if more else ""
    return f"{refused.refusals[0]}{tail}"


def _concerned(refused: Refused, written: Dict[str, Written]) -> Dict[str, List[int]]:
    """The features that are refused, by the role of their layer."""
    found: Dict[str, List[int]] = {}
    for refusal in refused.refusals:
        role = refusal.role or "parcels"
        if role in written:
            found.setdefault(role, []).extend(written[role].concerned(refusal))
    return found


def numbers_of(text: str, known: Collection[str]) -> List[str]:
    """The numbers of a text that separates them by commas, which some of the known ones have themselves."""
    pieces, found, at = text.split(",") if text else [], [], 0
    most = 1 + max((number.count(",") for number in known), default=0)
    while at < len(pieces):
        ends = range(min(len(pieces), at + most), at, -1)
        end = next((end for end in ends if ",".join(pieces[at:end]) in known), at + 1)
        found.append(",".join(pieces[at:end]))
        at = end
    return found


def faults_in(path: str, known: Collection[str], millimetres: float) -> List[Fault]:
    """The faults of a report on parcels of these numbers, in a unit of so many millimetres."""
    found = []
    for kind in KINDS:
        layer = read_layer(path, LAYERS[kind])
        for feature in layer.getFeatures() if layer is not None else ():
            numbers = numbers_of(str(feature["numbers"] or ""), known)
            area, doubled = float(feature["area_m2"]), str(feature["area2_mm2"])
            shape = QgsGeometry(feature.geometry())
            found.append(Fault(kind, str(feature["layer"]), numbers, area, doubled, shape, millimetres))
    return found
