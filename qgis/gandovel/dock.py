"""The dock: the faults of a layer, largest first, also of one that is being edited."""
from __future__ import annotations

from pathlib import Path
from typing import Any, Dict, List, Optional, Set

from qgis.core import Qgis, QgsApplication, QgsProject, QgsVectorLayer
from qgis.PyQt.QtWidgets import QDockWidget, QFileDialog

from .assistant import Assistant
from .check_task import CheckTask, Fault, Outcome
from .dock_form import DockForm
from .fault_register import ACCEPTED, MENDED, OPEN, Entry, Register, RegisterFault, path_for
from .helping import show_help
from .layers import text_of
from .live_checks import LiveChecks
from .marks import Marks
from .missing_corner import Missing, insert, missing_corners, near_of, shapes_of
from .state import Basis, Watch
from .words import counted, tr

SHORT = 10
"""Seconds that a message stays."""


class FaultDock(QDockWidget):
    """Checks a layer as it is in the window, lists its faults, and inserts missing corners."""

    def __init__(self, iface: Any) -> None:
        super().__init__(tr("Faults of parcels"))
        self.setObjectName("GandovelFaults")
        self.iface = iface
        self.faults: List[Fault] = []
        self.owners: Dict[str, List[int]] = {}
        self.task: Optional[CheckTask] = None
        self.checked: Optional[QgsVectorLayer] = None
        self.watch: Optional[Watch] = None
        self.city_watch: Optional[Watch] = None
        self.basis: Optional[Basis] = None
        self.verdict, self.live_text = "", ""
        self.touch: Optional[float] = None
        self.entries: Dict[str, Entry] = {}
        self.assistant: Optional[Assistant] = None
        self.marks = Marks(iface.mapCanvas())
        self.form = DockForm()
        for name in ("layers", "numbers", "cities", "units", "table", "said", "bar", "plan", "kinds", "live_box"):
            setattr(self, name, getattr(self.form, name))
        for name in ("check", "cancel", "corner", "repair", "next", "before", "export"):
            setattr(self, f"{name}_button", getattr(self.form, f"{name}_button"))
        self.setWidget(self.form)
        self.live = LiveChecks(self)
        self._connect()

    def _connect(self) -> None:
        form = self.form
        form.check_button.clicked.connect(self.check)
        form.cancel_button.clicked.connect(self.cancel)
        form.corner_button.clicked.connect(self.insert_corner)
        form.repair_button.clicked.connect(self.repair)
        form.export_button.clicked.connect(lambda: self.export_register())
        form.help_button.clicked.connect(lambda: show_help("check-a-layer-while-you-edit-it"))
        form.next_button.clicked.connect(lambda: form.table.step(1))
        form.before_button.clicked.connect(lambda: form.table.step(-1))
        form.kinds.currentIndexChanged.connect(self._filter)
        form.table.itemSelectionChanged.connect(self._chosen)
        form.table.opened.connect(self._open)
        for choice in (form.layers.layerChanged, form.numbers.fieldChanged, form.cities.layerChanged):
            choice.connect(self.look_again)
        form.units.currentIndexChanged.connect(self.look_again)
        QgsProject.instance().layersWillBeRemoved["QStringList"].connect(self._layers_go)

    def check(self) -> None:
        """Begins a check of the chosen layer, as it is in the window."""
        layer, city = self.form.layers.currentLayer(), self.form.cities.currentLayer()
        if self.task is not None:
            return
        if not isinstance(layer, QgsVectorLayer):
            self._say(tr("There is no layer of polygons to check: add one to the project."))
            return
        self._begin(layer, city)
        unit = "" if layer.crs().isValid() else self.form.units.currentText()
        touch = self.touch if city is None else None
        self.task = CheckTask(layer, self.form.numbers.currentField(), city, unit, self._done, touch, self._folder())
        self.task.progressChanged.connect(self._progressed)
        self.form.running(True)
        QgsApplication.taskManager().addTask(self.task)

    def _folder(self) -> Optional[str]:
        """A folder for what the package reads, where it is to be kept."""
        return self.live.new_folder()

    def _begin(self, layer: QgsVectorLayer, city: Optional[QgsVectorLayer]) -> None:
        """Notes of what a check is made, and forgets the one before; of the same layer the list stays till it ends."""
        if layer is not self.checked:
            self.touch = None
            self._show([])
        self._end_watches()
        self.checked = layer
        self.watch = Watch(layer, self.form.numbers.currentField())
        self.watch.changed.connect(self._edited)
        if city is not None:
            self.city_watch = Watch(city)
            self.city_watch.changed.connect(self.look_again)
        self.verdict, self.live_text, self.basis = "", "", self._basis_now()
        self._tell(tr("Checking {layer} ..", layer=layer.name()))

    def _basis_now(self) -> Optional[Basis]:
        """What a verdict on the checked layer would be made of now."""
        if self.checked is None or self.watch is None:
            return None
        chosen, city = self.form.layers.currentLayer(), self.form.cities.currentLayer()
        return Basis(
            chosen.id() if chosen is not None else "",
            self.watch.version,
            self.form.numbers.currentField(),
            city.id() if city is not None else "",
            self.city_watch.version if self.city_watch is not None else 0,
            self.form.units.currentText(),
        )

    def cancel(self) -> None:
        """Ends a check that runs."""
        if self.task is not None:
            self.task.cancel()

    def _progressed(self, percent: float) -> None:
        self.form.progressed(percent, self.task.told if self.task is not None else "")

    def _done(self, outcome: Outcome) -> None:
        self.task = None
        self.form.running(False)
        if self.checked is None:
            self._tell(tr("The layer that was checked is gone."))
        elif outcome.cancelled:
            self._show([])
            self._tell(tr("Cancelled."))
        elif outcome.refused:
            self._show([])
            self._tell(tr("{layer}: {text}", layer=self.checked.name(), text=outcome.refused))
            self.iface.messageBar().pushMessage("Gandovel", outcome.refused, Qgis.MessageLevel.Critical, 0)
            self._select(self.checked, outcome.refused_features.get("parcels", []))
            city = QgsProject.instance().mapLayer(self.basis.city if self.basis is not None else "")
            self._select(city, outcome.refused_features.get("city", []))
        else:
            self.verdict = "\n".join([outcome.verdict, *outcome.notes])
            self.owners, self.touch = outcome.owners, outcome.touch
            self._note(outcome.faults)
            self._show(outcome.faults)
            self._judged(outcome)
            self.look_again()

    def _judged(self, outcome: Outcome) -> None:
        """What follows from a verdict of the program."""
        self.live.judged(outcome)

    def take_live(self, faults: List[Fault], text: str, basis: Basis) -> None:
        """Shows what live checking says of the layer as it is now."""
        self.basis, self.verdict = basis, text
        self._find_owners(faults)
        self._show(faults)
        self.look_again()

    def accepted(self) -> Set[str]:
        """The identities of the faults that somebody accepted."""
        return {fault for fault, entry in self.entries.items() if entry.state == ACCEPTED}

    def _register(self) -> Optional[Register]:
        """The register of the layer that was checked; None where the layer is in no file."""
        path = path_for(self.checked.source()) if self.checked is not None else None
        return Register(path, self.checked.name()) if path is not None and self.checked is not None else None

    def _note(self, faults: List[Fault]) -> None:
        """Notes the faults of a verdict in the register, where the layer has one, and reads it."""
        register = self._register()
        self.entries = {}
        if register is None:
            return
        try:
            self.entries = register.entries()
            if self.form.register_box.isChecked():
                register.seen(faults)
        except RegisterFault as fault:
            self._say(str(fault))

    def accept(self, fault: Fault, reason: str) -> bool:
        """Accepts a fault as an exception; whether the register has it now."""
        register = self._register()
        if register is None:
            self._say(tr("A register of faults needs a layer in a file: save this one as a GeoPackage first."))
            return False
        try:
            register.accept(fault, reason)
            self.entries = register.entries()
        except RegisterFault as amiss:
            self._say(str(amiss))
            return False
        self._show(self.faults)
        return True

    def export_register(self, path: str = "") -> None:
        """Writes the register as CSV, to a file that is asked for."""
        register = self._register()
        if register is None:
            self._say(tr("There is no register: check a layer in a file first."))
            return
        path = path or QFileDialog.getSaveFileName(self, tr("Export the register .."), "", "CSV (*.csv)")[0]
        if path:
            try:
                count = register.export(Path(path))
                self._say(tr("{count} faults written to {path}.", count=count, path=path), Qgis.MessageLevel.Success)
            except RegisterFault as fault:
                self._say(str(fault))

    def repair(self) -> None:
        """Shows the assistant for the fault that is chosen."""
        if self.assistant is None:
            self.assistant = Assistant(self)
        self.assistant.show_fault(self.form.table.chosen())
        self.assistant.show()

    def _find_owners(self, faults: List[Fault]) -> None:
        """Looks for the features of numbers that came with edits."""
        layer, column = self.checked, self.form.numbers.currentField()
        missing = {number for fault in faults for number in fault.numbers} - set(self.owners)
        if layer is None or not missing or layer.fields().lookupField(column) < 0:
            return
        at = layer.fields().lookupField(column)
        for feature in layer.getFeatures():
            number = text_of(feature.attributes()[at])
            if number in missing:
                self.owners.setdefault(number, []).append(feature.id())

    def _edited(self) -> None:
        """The checked layer was changed."""
        self.live.edited()
        self.look_again()

    def stale_reason(self) -> str:
        """Why the verdict that is shown is out of date; empty where it is not."""
        now, then, layer = self._basis_now(), self.basis, self.checked
        if not self.verdict or now is None or then is None or layer is None or now == then:
            return ""
        name = layer.name()
        if now.layer != layer.id():
            return tr("This is of {layer}, not of the layer that is chosen above. Check that one.", layer=name)
        if now.version != then.version:
            return tr("Out of date: {layer} was changed after this verdict. Check it again.", layer=name)
        if now.city != then.city or now.city_version != then.city_version:
            return tr("Out of date: the city is another one now, or was changed. Check {layer} again.", layer=name)
        return tr("Out of date: another number or unit was chosen after this verdict. Check {layer} again.", layer=name)

    def look_again(self, *_: Any) -> None:
        """Shows the verdict, or in grey why it is out of date."""
        if not self.verdict or self.checked is None or self.task is not None:
            return
        reason = self.stale_reason()
        told = tr("{layer}: {text}", layer=self.checked.name(), text=self.verdict)
        self.form.said.setText("\n".join(text for text in (self.live_text, reason, told) if text))
        self.form.mark_stale(bool(reason))
        self._chosen()

    def _tell(self, text: str) -> None:
        """Says something in the dock that is no verdict."""
        self.form.said.setText(text)
        self.form.mark_stale(False)

    def _select(self, layer: Optional[QgsVectorLayer], features: List[int]) -> None:
        """Selects features that were refused, and shows them."""
        if layer is not None and features:
            layer.selectByIds(features)
            self.iface.mapCanvas().zoomToSelected(layer)

    def _show(self, faults: List[Fault]) -> None:
        """Lists faults, and marks them in the map."""
        self.faults = faults
        self.form.table.fill(faults, self._states(faults))
        self.marks.show(faults, self.checked)

    def _states(self, faults: List[Fault]) -> Dict[str, str]:
        """What is said of each fault beside it, by its identity."""
        words = {OPEN: tr("open"), ACCEPTED: tr("accepted"), MENDED: tr("open")}
        found = {}
        for fault in faults:
            entry = self.entries.get(fault.identity)
            state = words[entry.state] if entry is not None else tr("new")
            found[fault.identity] = f"{state}: {entry.reason}" if entry is not None and entry.reason else state
        return found

    def _filter(self, *_: Any) -> None:
        self.form.table.filter(str(self.form.kinds.currentData() or ""))

    def _chosen(self) -> None:
        fault = self.form.table.chosen()
        for button in (self.form.corner_button, self.form.repair_button):
            button.setEnabled(fault is not None)
        self.form.plan.setText(self._plan_text(fault) if fault is not None else "")

    def _open(self, fault: Fault) -> None:
        """Zooms to a fault, and flashes it."""
        if self.checked is not None:
            self.marks.go_to(fault, self.checked)

    def features_at(self, fault: Fault) -> Optional[List[int]]:
        """The features of the parcels at a fault, as the layer is now; None where one is gone."""
        features = [one for number in fault.numbers for one in self.owners.get(number, [])]
        layer = self.checked
        if layer is None or len(features) < len(fault.numbers):
            return None
        return features if len(shapes_of(layer, features)) == len(features) else None

    def _missing(self, fault: Fault) -> Optional[Missing]:
        features, layer = self.features_at(fault), self.checked
        if features is None or layer is None or fault.layer != "parcels":
            return None
        return missing_corners(fault.shape, shapes_of(layer, features), near_of(layer, self.touch))

    def number_of(self, feature: int) -> str:
        """The number of a feature of the checked layer."""
        return next((number for number, ids in self.owners.items() if feature in ids), str(feature))

    def _plan_text(self, fault: Fault) -> str:
        """What inserting would change, before it is done."""
        missing = self._missing(fault)
        if missing is None or self.checked is None:
            return ""
        names = {"layer": self.checked.name(), "parcel": self.number_of(missing.feature)}
        count = len(missing.corners)
        if not missing.agreed:
            return tr("Corners disagree here: Repair shows what can be done. Inserting changes nothing.")
        one = tr("Insert puts 1 corner into parcel {parcel} of {layer}.", **names)
        several = tr("Insert puts {count} corners into parcel {parcel} of {layer}.", count=count, **names)
        return one if count == 1 else several

    def insert_corner(self) -> None:
        """Puts the corner that is missing at the chosen fault into the neighbour: an edit of the layer, not saved."""
        fault, layer = self.form.table.chosen(), self.checked
        if fault is None or layer is None:
            return
        name = layer.name()
        if not layer.isEditable():
            self._say(tr("Start editing {layer} first: the corner is an edit that undo takes back.", layer=name))
            return
        if self.features_at(fault) is None:
            self._say(tr("Parcels of {layer} at this fault are no longer there: check again.", layer=name))
            return
        missing = self._missing(fault)
        if missing is not None and not missing.agreed:
            text = (
                "Corners disagree here, so nothing was changed in {layer}: parcels {numbers}. "
                "Repair shows what can be done."
            )
            self._say(tr(text, layer=name, numbers=", ".join(fault.numbers)))
            return
        count = insert(layer, missing) if missing is not None else 0
        if missing is None or not count:
            text = (
                "No corner is missing here: each parcel of {layer} has corners of its own. "
                "Move them with the vertex tool."
            )
            self._say(tr(text, layer=name))
            return
        layer.triggerRepaint()
        corners = counted(count, tr("1 corner"), tr("{count} corners"))
        names = {"layer": name, "parcel": self.number_of(missing.feature)}
        told = tr("{layer}: {corners} put into parcel {parcel}.", **{**names, "corners": corners})
        if self.live.live is None:
            told += " " + tr("Check again to see what is left.")
        self._say(told, Qgis.MessageLevel.Success)

    def _say(self, text: str, level: Any = Qgis.MessageLevel.Warning) -> None:
        """Says what was done, or what was not, beside the button and in the message bar."""
        self.form.plan.setText(text)
        self.iface.messageBar().pushMessage("Gandovel", text, level, SHORT)

    def _layers_go(self, ids: List[str]) -> None:
        """Forgets the faults of a layer that is taken from the project."""
        if self.checked is not None and self.checked.id() in ids:
            self.cancel()
            self.live.end()
            self._end_watches()
            self.checked, self.verdict = None, ""
            self._show([])
            self._tell(tr("The layer that was checked is gone."))

    def _end_watches(self) -> None:
        for watch in (self.watch, self.city_watch):
            if watch is not None:
                watch.end()
        self.watch = self.city_watch = None

    def forget(self) -> None:
        """Ends what runs, and takes the marks from the map."""
        QgsProject.instance().layersWillBeRemoved["QStringList"].disconnect(self._layers_go)
        self.cancel()
        self.live.end()
        self.live.hold.end()
        self._end_watches()
        self.marks.clear()
        if self.assistant is not None:
            self.assistant.close()
