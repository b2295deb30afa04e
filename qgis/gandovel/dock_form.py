"""What the dock looks like: the choices, the buttons, the list, and what is said."""
from __future__ import annotations

from typing import Any

from qgis.core import QgsMapLayerProxyModel, QgsVectorLayer
from qgis.gui import QgsFieldComboBox, QgsMapLayerComboBox
from qgis.PyQt.QtGui import QKeySequence
from qgis.PyQt.QtWidgets import (
    QCheckBox,
    QComboBox,
    QFormLayout,
    QHBoxLayout,
    QLabel,
    QProgressBar,
    QPushButton,
    QVBoxLayout,
    QWidget,
)

from .answers import KINDS
from .fault_table import FaultTable, kind_text
from .layers import UNITS
from .words import tr

USUAL_FIELDS = ("parcel_no", "number", "parcel")
NEXT_KEY, BEFORE_KEY = "Alt+Down", "Alt+Up"
STALE = "color: gray;"
"""How what is out of date looks."""


class DockForm(QWidget):
    """The widgets of the dock, each with its name."""

    def __init__(self) -> None:
        super().__init__()
        self._make_choices()
        self._make_buttons()
        self.table = FaultTable()
        self.said, self.bar, self.plan = QLabel(tr("Choose a layer, and check it.")), QProgressBar(), QLabel("")
        for label in (self.said, self.plan):
            label.setWordWrap(True)
        self.bar.hide()
        self._lay_out()
        self.layer_chosen(self.layers.currentLayer())

    def _make_choices(self) -> None:
        polygons = QgsMapLayerProxyModel.Filter.PolygonLayer
        self.layers, self.numbers = QgsMapLayerComboBox(), QgsFieldComboBox()
        self.layers.setFilters(polygons)
        self.layers.layerChanged.connect(self.layer_chosen)
        self.numbers.setAllowEmptyFieldName(True)
        self.cities, self.units = QgsMapLayerComboBox(), QComboBox()
        self.cities.setFilters(polygons)
        self.cities.setAllowEmptyLayer(True)
        self.cities.setLayer(None)
        self.units.addItems(list(UNITS))
        self.kinds = QComboBox()
        self.kinds.addItem(tr("All kinds"), "")
        for kind in KINDS:
            self.kinds.addItem(kind_text(kind), kind)

    def _make_buttons(self) -> None:
        self.check_button = _button(
            tr("Check the edited layer"), tr("Checks the layer as it is in the window; edits need not be saved.")
        )
        self.cancel_button = _button(tr("Cancel"), tr("Ends the check."))
        self.cancel_button.hide()
        self.help_button = _button(tr("Help"), tr("Opens the page of this plugin."))
        self.live_box = QCheckBox(tr("Check while I edit"))
        self.live_box.setToolTip(
            tr("After a check, each parcel that you change is checked at once, with its neighbours alone.")
        )
        self.register_box = QCheckBox(tr("Keep a register of faults"))
        self.register_box.setToolTip(
            tr("Notes each verdict's faults in a table beside the layer: when they were seen, and what was decided.")
        )
        self.hold_box = QCheckBox(tr("Do not save new faults"))
        self.hold_box.setToolTip(tr("Saving is held while the layer has faults that the last check had not."))
        self.before_button = _button("▲", tr("The fault before ({key})", key=BEFORE_KEY))
        self.next_button = _button("▼", tr("The next fault ({key})", key=NEXT_KEY))
        self.before_button.setShortcut(QKeySequence(BEFORE_KEY))
        self.next_button.setShortcut(QKeySequence(NEXT_KEY))
        self.corner_button = _button(
            tr("Insert the missing corner"),
            tr("Puts the corner that is missing at the chosen fault into the neighbour; undo takes it back."),
        )
        self.repair_button = _button(
            tr("Repair .."), tr("Shows what can be done about the chosen fault, with areas before and after.")
        )
        self.export_button = _button(
            tr("Export the register .."), tr("Writes the register of faults of this layer as CSV.")
        )
        for button in (self.corner_button, self.repair_button):
            button.setEnabled(False)

    def _lay_out(self) -> None:
        choices, all_of_it = QFormLayout(), QVBoxLayout()
        rows = (
            (tr("Parcels"), self.layers),
            (tr("Number"), self.numbers),
            (tr("City"), self.cities),
            (tr("Unit"), self.units),
        )
        for text, widget in rows:
            choices.addRow(text, widget)
        self.unit_label = choices.labelForField(self.units)
        all_of_it.addLayout(choices)
        all_of_it.addLayout(_row(self.check_button, self.cancel_button, self.help_button))
        all_of_it.addLayout(_row(self.live_box, self.hold_box))
        all_of_it.addWidget(self.register_box)
        for widget in (self.bar, self.said):
            all_of_it.addWidget(widget)
        all_of_it.addLayout(_row(self.kinds, self.before_button, self.next_button))
        all_of_it.addWidget(self.table)
        all_of_it.addWidget(self.plan)
        all_of_it.addLayout(_row(self.corner_button, self.repair_button))
        all_of_it.addWidget(self.export_button)
        self.setLayout(all_of_it)

    def layer_chosen(self, layer: Any) -> None:
        """Shows the fields of a layer, and asks for its unit where it names none."""
        self.numbers.setLayer(layer)
        needs_unit = isinstance(layer, QgsVectorLayer) and not layer.crs().isValid()
        for widget in (self.units, self.unit_label):
            widget.setVisible(needs_unit)
        if isinstance(layer, QgsVectorLayer):
            names = layer.fields().names()
            self.numbers.setField(next((name for name in USUAL_FIELDS if name in names), ""))

    def running(self, runs: bool) -> None:
        """Shows that a check runs, or that none does."""
        self.check_button.setEnabled(not runs)
        for widget in (self.cancel_button, self.bar):
            widget.setVisible(runs)
        self.bar.setValue(0)
        self.bar.setFormat("%p %")

    def progressed(self, percent: float, text: str) -> None:
        """Shows how far a check is, and what it does."""
        self.bar.setValue(int(percent))
        if text:
            self.bar.setFormat(f"{text} .. %p %")

    def mark_stale(self, stale: bool) -> None:
        """Makes the verdict and the list grey where they are out of date."""
        for widget in (self.said, self.table):
            widget.setStyleSheet(STALE if stale else "")


def _button(text: str, tip: str) -> QPushButton:
    button = QPushButton(text)
    button.setToolTip(tip)
    return button


def _row(*widgets: QWidget) -> QHBoxLayout:
    row = QHBoxLayout()
    for widget in widgets:
        row.addWidget(widget)
    return row
