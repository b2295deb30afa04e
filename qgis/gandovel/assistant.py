"""The repair assistant: for the chosen fault what can be done, shown in the map, and done as one step that undo
knows."""
from __future__ import annotations

from typing import Any, List, Optional

from qgis.core import QgsWkbTypes
from qgis.gui import QgsRubberBand
from qgis.PyQt.QtCore import Qt
from qgis.PyQt.QtGui import QColor
from qgis.PyQt.QtWidgets import QDialog, QHBoxLayout, QLabel, QLineEdit, QListWidget, QPushButton, QVBoxLayout

from .check_task import Fault
from .fault_table import area_text, kind_text
from .missing_corner import near_of, shapes_of
from .repairs import Candidate, apply, apply_all, candidates
from .helping import show_help
from .words import tr

PREVIEW = "#007a3d"


class Assistant(QDialog):
    """Stays beside the map while faults are mended, one after the other."""

    def __init__(self, dock: Any) -> None:
        super().__init__(dock)
        self.dock, self.found = dock, []  # type: ignore[var-annotated]
        self.fault: Optional[Fault] = None
        self.bands: List[QgsRubberBand] = []
        self.setWindowTitle(tr("Repair faults"))
        self.told, self.list, self.effect = QLabel(""), QListWidget(), QLabel("")
        for label in (self.told, self.effect):
            label.setWordWrap(True)
        self.reason = QLineEdit()
        self.reason.setPlaceholderText(tr("Why it is no fault: a reason"))
        self.apply_button = self._button(tr("Apply"), self.apply_chosen)
        self.all_button = self._button(tr("Apply to all of this kind"), self.apply_all_of_kind)
        self.accept_button = self._button(tr("Accept as an exception"), self.accept_fault)
        self.next_button = self._button(tr("Next fault"), self.next_fault)
        self.help_button = self._button(tr("Help"), lambda: show_help("repair-faults"))
        self.list.currentRowChanged.connect(self._preview)
        self._lay_out()

    def _button(self, text: str, slot: Any) -> QPushButton:
        button = QPushButton(text)
        button.setAutoDefault(False)
        button.clicked.connect(slot)
        return button

    def _lay_out(self) -> None:
        all_of_it = QVBoxLayout()
        for widget in (self.told, self.list, self.effect):
            all_of_it.addWidget(widget)
        rows = (
            (self.apply_button, self.all_button, self.next_button),
            (self.reason, self.accept_button, self.help_button),
        )
        for widgets in rows:
            row = QHBoxLayout()
            for widget in widgets:
                row.addWidget(widget)
            all_of_it.addLayout(row)
        self.setLayout(all_of_it)

    def found_for(self, fault: Fault) -> List[Candidate]:
        """The candidates for a fault, as the layer is now."""
        layer, features = self.dock.checked, self.dock.features_at(fault)
        if layer is None or not features or fault.layer != "parcels":
            return []
        return candidates(fault, shapes_of(layer, features), self.dock.number_of, near_of(layer, self.dock.touch))

    def show_fault(self, fault: Optional[Fault]) -> None:
        """Lists what can be done about a fault, and shows the first in the map."""
        self.fault, self.found = fault, self.found_for(fault) if fault is not None else []
        self.list.blockSignals(True)
        self.list.clear()
        self.list.addItems([one.title for one in self.found])
        self.list.blockSignals(False)
        if fault is None:
            self.told.setText(tr("No fault is chosen."))
        else:
            text = "{kind} of {area} m² in {layer}, at the parcels {numbers}"
            names = {"kind": kind_text(fault.kind), "area": area_text(fault), "numbers": ", ".join(fault.numbers)}
            self.told.setText(tr(text, layer=self.dock.checked.name(), **names))
        for button in (self.apply_button, self.all_button):
            button.setEnabled(bool(self.found))
        self.list.setCurrentRow(0 if self.found else -1)
        self._preview(0 if self.found else -1)

    def _preview(self, row: int) -> None:
        """Draws what a candidate would make, and says what it changes."""
        self._clear()
        if not 0 <= row < len(self.found):
            self.effect.setText(tr("There is nothing to propose here: move corners with the vertex tool."))
            return
        one = self.found[row]
        lines = [
            tr(
                "Parcel {parcel}: {before} m², then {after} m²",
                parcel=self.dock.number_of(at),
                before=f"{before:,.3f}",
                after=f"{after:,.3f}",
            )
            for at, before, after in one.areas
        ]
        if one.moves:
            lines.append(tr("A border moves by {far} at most.", far=f"{one.moves:.3f}"))
        self.effect.setText("\n".join(lines))
        band = QgsRubberBand(self.dock.iface.mapCanvas(), QgsWkbTypes.GeometryType.PolygonGeometry)
        colour = QColor(PREVIEW)
        band.setStrokeColor(colour)
        band.setWidth(3)
        band.setLineStyle(Qt.PenStyle.DashLine)
        colour.setAlpha(40)
        band.setFillColor(colour)
        for shape in one.changes.values():
            band.addGeometry(shape, self.dock.checked)
        self.bands.append(band)

    def _clear(self) -> None:
        for band in self.bands:
            band.scene().removeItem(band)
        self.bands = []

    def _may_edit(self) -> bool:
        layer = self.dock.checked
        if layer is None or not layer.isEditable():
            self.effect.setText(tr("Start editing {layer} first.", layer=layer.name() if layer is not None else ""))
            return False
        return True

    def apply_chosen(self) -> None:
        """Does what is chosen: one step that undo takes back."""
        row = self.list.currentRow()
        if not 0 <= row < len(self.found) or self.fault is None or not self._may_edit():
            return
        now = self.found_for(self.fault)
        if [it.title for it in now] != [it.title for it in self.found]:
            self.effect.setText(tr("The parcels here were changed: check again."))
            return
        one = now[row]
        if apply(self.dock.checked, one.title, one.changes):
            self._done(tr("{layer}: {title}.", layer=self.dock.checked.name(), title=one.title))

    def apply_all_of_kind(self) -> None:
        """Mends all faults of this kind that are shown by the rule that is chosen: one step that undo takes back."""
        row = self.list.currentRow()
        if not 0 <= row < len(self.found) or self.fault is None or not self._may_edit():
            return
        kind, accepted = self.fault.kind, self.dock.accepted()
        faults = [it for it in self.dock.form.table.shown() if it.kind == kind and it.identity not in accepted]
        title = tr("Mend all faults of one kind")
        count = apply_all(self.dock.checked, self.found[row].rule, title, faults, self.found_for)
        text = "{layer}: {count} of {all} mended by the same rule."
        self._done(tr(text, layer=self.dock.checked.name(), count=count, all=len(faults)))

    def _done(self, text: str) -> None:
        self._clear()
        self.found, self.fault = [], None
        self.list.clear()
        self.effect.setText(text)
        for button in (self.apply_button, self.all_button):
            button.setEnabled(False)

    def accept_fault(self) -> None:
        """Notes in the register that the fault is none, and why."""
        reason = self.reason.text().strip()
        if self.fault is None or not reason:
            self.effect.setText(tr("Say why: an exception has a reason."))
            return
        if self.dock.accept(self.fault, reason):
            self.reason.clear()
            self._done(tr("Accepted, with your reason, in the register of faults."))

    def next_fault(self) -> None:
        """Goes to the next fault."""
        self.dock.form.table.step(1)
        self.show_fault(self.dock.form.table.chosen())

    def closeEvent(self, event: Any) -> None:
        """Takes the preview from the map."""
        self._clear()
        super().closeEvent(event)
