"""Live checking: a process of the package that knows the layer, and is told of each changed parcel."""
from __future__ import annotations

import json
from dataclasses import dataclass, field
from pathlib import Path
from typing import Any, Dict, List, Optional, Set

from qgis.core import QgsGeometry, QgsVectorLayer
from qgis.PyQt.QtCore import QByteArray, QObject, QProcess, QProcessEnvironment, pyqtSignal

from .check_task import Fault
from .layers import text_of
from .program import environment, find_python

SIDE = Path(__file__).with_name("package_side") / "live.py"
PATIENCE = 2000
"""Milliseconds that the process has to end."""


@dataclass(frozen=True)
class Told:
    """What live checking says of a version of the layer: the faults; or what is refused, with the features; or why the
    whole layer has to be checked again. `first` is the answer to the layer as it was read."""

    version: int
    faults: List[Fault] = field(default_factory=list)
    refused: str = ""
    again: str = ""
    seconds: float = 0.0
    first: bool = False


class Live(QObject):
    """One layer that is checked live. `told` is sent with each answer, `ended` where the process is gone."""

    told = pyqtSignal(object)
    ended = pyqtSignal(str)

    def __init__(self, layer: QgsVectorLayer, column: str, folder: str) -> None:
        super().__init__()
        self.layer, self.column, self.folder = layer, column, folder
        self.process: Optional[QProcess] = None
        self.faults: Dict[str, Fault] = {}
        self.features: Set[int] = set()
        self.changed_ever: Set[int] = set()
        self.waiting: Set[int] = set()
        self.asked: Optional[int] = None
        self.ready = False
        self._rest = b""

    def begin(self, request: Dict[str, Any]) -> None:
        """Starts the process; what it loads is in `request`. Raises `NotFound`."""
        self.features = set(request["features"])
        path = Path(self.folder) / "live.json"
        path.write_text(json.dumps(request), encoding="utf-8")
        variables = QProcessEnvironment()
        for name, value in environment(self.folder).items():
            variables.insert(name, value)
        self.process = QProcess(self)
        self.process.setProcessEnvironment(variables)
        self.process.readyReadStandardOutput.connect(self._read)
        self.process.finished.connect(self._finished)
        self.process.start(find_python(), [str(SIDE), str(path)])

    def ask(self, features: Set[int], version: int) -> None:
        """Asks of changes of features; where an answer is still out, once that is there."""
        self.changed_ever |= features
        self.waiting |= features
        if self.ready and self.asked is None and self.process is not None:
            self.asked = version
            changed = [self._change_of(feature) for feature in sorted(self.waiting)]
            self.waiting = set()
            line = json.dumps({"version": version, "changed": changed}) + "\n"
            self.process.write(QByteArray(line.encode()))

    def ids_changed(self) -> Set[int]:
        """The features to ask of after ids were given anew, or edits taken back: all that differ, or may."""
        now = set(self.layer.allFeatureIds())
        return (self.features ^ now) | self.changed_ever

    def _change_of(self, feature: int) -> List[Any]:
        """A feature with its number and its shape as they are now; without a shape where it is gone."""
        found = self.layer.getFeature(feature)
        if not found.isValid():
            self.features.discard(feature)
            return [feature, "", None]
        self.features.add(feature)
        at = self.layer.fields().lookupField(self.column)
        number = text_of(found.attributes()[at]) if at >= 0 else str(feature)
        wkb = bytes(found.geometry().asWkb()).hex() if found.hasGeometry() else "010600000000000000"
        return [feature, number, wkb]

    def _read(self) -> None:
        assert self.process is not None
        *lines, self._rest = (self._rest + bytes(self.process.readAllStandardOutput())).split(b"\n")
        for line in lines:
            self._take(json.loads(line))

    def _take(self, answer: Dict[str, Any]) -> None:
        version, self.asked = int(answer["version"]), None
        first, self.ready = bool(answer.get("ready")), True
        for key in answer.get("gone", []):
            self.faults.pop(key, None)
        for record in answer.get("came", []):
            self.faults[record["key"]] = fault_of(record)
        refused = "; ".join(f"{row.get('number')}: {row.get('text')}" for row in answer.get("refused", []))
        faults = sorted(self.faults.values(), key=lambda it: (-it.exact_area, it.kind, it.numbers))
        seconds = float(answer.get("seconds") or 0.0)
        self.told.emit(Told(version, faults, refused, str(answer.get("again") or ""), seconds, first))

    def _finished(self, *_: Any) -> None:
        if self.process is not None:
            errors = bytes(self.process.readAllStandardError()).decode("utf-8", "replace").strip().splitlines()
            self.ended.emit(errors[-1] if errors else "")

    def end(self) -> None:
        """Ends the process."""
        process, self.process = self.process, None
        if process is not None:
            process.closeWriteChannel()
            process.kill()
            process.waitForFinished(PATIENCE)


def fault_of(record: Dict[str, Any]) -> Fault:
    """A fault as live checking tells it."""
    shape = QgsGeometry()
    shape.fromWkb(QByteArray(bytes.fromhex(record["shape"])))
    facts = record["area_m2"], record["area2_mm2"], shape, record["millimetres"]
    return Fault(record["kind"], "parcels", record["numbers"], *facts)
