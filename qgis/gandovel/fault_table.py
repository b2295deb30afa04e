"""The list of faults: sorted by any column, filtered by kind, and quiet when it is filled anew."""
from __future__ import annotations

from typing import Any, Dict, List, Optional

from qgis.PyQt.QtCore import Qt, pyqtSignal
from qgis.PyQt.QtWidgets import QAbstractItemView, QTableWidget, QTableWidgetItem

from .check_task import Fault
from .words import tr

PLACE = Qt.ItemDataRole.UserRole
"""Where an item keeps the position of its fault."""


def kind_text(kind: str) -> str:
    """The name of a kind of fault."""
    names = {
        "gap": tr("Gap"),
        "overlap": tr("Overlap"),
        "open_gap": tr("Open gap"),
        "sliver": tr("Sliver"),
        "beyond": tr("Beyond the city"),
    }
    return names[kind]


def area_text(fault: Fault) -> str:
    """A fault's area in m2; a small one with more decimals."""
    return f"{fault.area_m2:,.2f}" if fault.area_m2 >= 0.1 else f"{fault.area_m2:.6f}"


class AreaItem(QTableWidgetItem):
    """A cell that is sorted by the exact area."""

    def __init__(self, fault: Fault) -> None:
        super().__init__(area_text(fault))
        self.area = fault.exact_area
        self.setTextAlignment(int(Qt.AlignmentFlag.AlignRight | Qt.AlignmentFlag.AlignVCenter))
        self.setToolTip(tr("twice its area: {area} mm² (exact)", area=fault.area2_mm2))

    def __lt__(self, other: Any) -> bool:
        return bool(self.area < other.area)


class FaultTable(QTableWidget):
    """Faults, a row each. `opened` is sent with a fault that is clicked, or chosen by Enter."""

    opened = pyqtSignal(object)

    def __init__(self) -> None:
        columns = (tr("Kind"), tr("Area (m²)"), tr("Parcels"), tr("State"))
        super().__init__(0, len(columns))
        self.faults: List[Fault] = []
        self.kind = ""
        self.setHorizontalHeaderLabels(columns)
        self.setSelectionBehavior(QAbstractItemView.SelectionBehavior.SelectRows)
        self.setSelectionMode(QAbstractItemView.SelectionMode.SingleSelection)
        self.setEditTriggers(QAbstractItemView.EditTrigger.NoEditTriggers)
        self.verticalHeader().hide()
        self.horizontalHeader().setStretchLastSection(True)
        self.sortByColumn(1, Qt.SortOrder.DescendingOrder)
        self.cellClicked.connect(self._open)
        self.cellActivated.connect(self._open)

    def fill(self, faults: List[Fault], states: Optional[Dict[str, str]] = None) -> None:
        """Lists faults. What was chosen stays chosen and in its place, as long as it is there."""
        chosen, scrolled = self.chosen(), self.verticalScrollBar().value()
        self.blockSignals(True)
        self.setSortingEnabled(False)
        self.clearSelection()
        self.faults = faults
        self.setRowCount(len(faults))
        for row, fault in enumerate(faults):
            self._fill_row(row, fault, (states or {}).get(fault.identity, ""))
        self.setSortingEnabled(True)
        self.blockSignals(False)
        self.filter(self.kind)
        if chosen is not None:
            self.choose(chosen.identity)
        self.verticalScrollBar().setValue(scrolled)
        self.resizeColumnsToContents()
        self.itemSelectionChanged.emit()

    def _fill_row(self, row: int, fault: Fault, state: str) -> None:
        kind = tr("{kind} of zones", kind=kind_text(fault.kind)) if fault.layer == "zones" else kind_text(fault.kind)
        numbers = ", ".join(fault.numbers)
        items = (QTableWidgetItem(kind), AreaItem(fault), QTableWidgetItem(numbers), QTableWidgetItem(state))
        items[2].setToolTip(numbers)
        for column, item in enumerate(items):
            item.setData(PLACE, row)
            self.setItem(row, column, item)

    def filter(self, kind: str) -> None:
        """Shows faults of a kind alone; all where it is empty."""
        self.kind = kind
        for row in range(self.rowCount()):
            self.setRowHidden(row, bool(kind) and self.fault_of(row).kind != kind)

    def shown(self) -> List[Fault]:
        """The faults that are shown, from the top."""
        return [self.fault_of(row) for row in range(self.rowCount()) if not self.isRowHidden(row)]

    def fault_of(self, row: int) -> Fault:
        """The fault of a row."""
        return self.faults[int(self.item(row, 0).data(PLACE))]

    def chosen(self) -> Optional[Fault]:
        """The fault that is chosen; None where none is."""
        rows = self.selectionModel().selectedRows() if self.selectionModel() is not None else []
        return self.fault_of(rows[0].row()) if rows and self.faults else None

    def choose(self, identity: str) -> bool:
        """Chooses the fault of this identity; whether it is listed."""
        for row in range(self.rowCount()):
            if self.fault_of(row).identity == identity and not self.isRowHidden(row):
                self.selectRow(row)
                return True
        return False

    def step(self, by: int) -> None:
        """Chooses the next fault that is shown, or with -1 the one before, and opens it."""
        rows = [row for row in range(self.rowCount()) if not self.isRowHidden(row)]
        if not rows:
            return
        selected = self.selectionModel().selectedRows()
        now = rows.index(selected[0].row()) if selected and selected[0].row() in rows else (-1 if by > 0 else 0)
        row = rows[(now + by) % len(rows)]
        self.selectRow(row)
        self._open(row)

    def _open(self, row: int, _: int = 0) -> None:
        if 0 <= row < self.rowCount():
            self.opened.emit(self.fault_of(row))
