"""What the window's test does with live checking, the assistant and the register; see `window.py`."""
from __future__ import annotations

import time
from pathlib import Path
from typing import Any, Callable, Dict, List

from qgis.core import QgsGeometry, QgsProject, QgsVectorLayer
from qgis.PyQt.QtGui import QColor
from qgis.utils import iface

Turn = Callable[[Callable[[], bool], str], None]


def followed(dock: Any, turn: Turn) -> None:
    """Waits until live checking has said something of the layer as it is."""
    turn(lambda: dock.live.live is not None and dock.live.live.ready, "live checking")
    turn(lambda: dock.basis.version == dock.watch.version, "the live answer")


def corner_moved(layer: Any, number: str, by: float) -> int:
    """Moves the first corner of a parcel to the east; the feature."""
    plot = next(feature for feature in layer.getFeatures() if feature["parcel_no"] == number)
    place = plot.geometry().vertexAt(0)
    shape = QgsGeometry(plot.geometry())
    shape.moveVertex(place.x() + by, place.y(), 0)
    layer.changeGeometry(plot.id(), shape)
    return int(plot.id())


def live_work(dock: Any, folder: Path, turn: Turn, checked: Any, picture: Any) -> Dict[str, Any]:
    """A clerk mends a street with the assistant, while each edit is checked."""
    seen: Dict[str, Any] = {}
    layer = QgsVectorLayer(str(folder / "street_live.gpkg"), "street_live", "ogr")
    QgsProject.instance().addMapLayer(layer)
    iface.setActiveLayer(layer)
    layer.renderer().symbol().setColor(QColor("#e9ecee"))
    iface.mapCanvas().setExtent(layer.extent().buffered(4))
    dock.layers.setLayer(layer)
    dock.form.live_box.setChecked(True)
    dock.form.register_box.setChecked(True)
    layer.startEditing()
    seen["first"] = checked(dock)
    seen["states"] = [dock.table.item(row, 3).text() for row in range(dock.table.rowCount())]
    followed(dock, turn)
    begun = time.monotonic()
    dock.table.selectRow(0)
    dock.corner_button.click()
    followed(dock, turn)
    seen["live"] = [dock.said.text(), rows(dock), time.monotonic() - begun, dock.live.seconds]
    seen["grey"] = "gray" in dock.said.styleSheet()
    seen["list"] = list_work(dock)
    seen["assistant"] = assistant_work(dock, layer, turn, picture)
    seen["hold"] = hold_work(dock, layer, turn)
    seen["accepted"] = exception(dock, folder)
    layer.commitChanges(False)
    turn(lambda: True, "saving")
    seen["saved"] = dock.stale_reason()
    seen["whole"] = checked(dock)
    seen["whole states"] = [dock.table.item(row, 3).text() for row in range(dock.table.rowCount())]
    layer.rollBack()
    dock.form.live_box.setChecked(False)
    dock.form.register_box.setChecked(False)
    dock.form.hold_box.setChecked(False)
    return seen


def rows(dock: Any) -> List[List[str]]:
    """What the list shows."""
    table = dock.table
    return [[table.item(row, column).text() for column in range(3)] for row in range(table.rowCount())]


def list_work(dock: Any) -> Dict[str, Any]:
    """The filter, the order, and the keys for the next fault and the one before."""
    found: Dict[str, Any] = {}
    dock.kinds.setCurrentIndex(dock.kinds.findData("overlap"))
    found["overlaps"] = [fault.kind for fault in dock.table.shown()]
    dock.kinds.setCurrentIndex(0)
    dock.table.sortByColumn(1, 0)
    found["least first"] = [fault.area_m2 for fault in dock.table.shown()]
    dock.table.sortByColumn(1, 1)
    dock.table.clearSelection()
    dock.next_button.click()
    first = dock.table.chosen().identity
    dock.next_button.click()
    second = dock.table.chosen().identity
    dock.before_button.click()
    found["keys"] = [first != second, dock.table.chosen().identity == first]
    dock.next_button.click()
    dock._show(list(reversed(dock.faults)))
    found["stays"] = dock.table.chosen().identity == second
    return found


def assistant_work(dock: Any, layer: Any, turn: Turn, picture: Any) -> Dict[str, Any]:
    """The overlap is mended by the assistant: what it proposes, shows and does."""
    found: Dict[str, Any] = {}
    overlap = next(fault for fault in dock.faults if fault.kind == "overlap")
    dock.table.choose(overlap.identity)
    dock.table.opened.emit(overlap)
    dock.repair_button.click()
    assistant = dock.assistant
    found["proposed"] = [one.title for one in assistant.found]
    found["effect"] = assistant.effect.text()
    found["preview"] = len(assistant.bands)
    picture("assistant", assistant)
    steps = layer.undoStack().count()
    assistant.apply_button.click()
    followed(dock, turn)
    found["steps"] = layer.undoStack().count() - steps
    found["left"] = [fault.kind for fault in dock.faults]
    assistant.close()
    return found


def hold_work(dock: Any, layer: Any, turn: Turn) -> List[bool]:
    """Whether saving is on before a new fault, off with it, and on after it is taken back."""
    dock.form.hold_box.setChecked(True)
    save = iface.actionSaveActiveLayerEdits()
    before = save.isEnabled()
    corner_moved(layer, "12", -0.5)
    followed(dock, turn)
    during = save.isEnabled()
    layer.undoStack().undo()
    followed(dock, turn)
    return [before, during, save.isEnabled()]


def exception(dock: Any, folder: Path) -> Dict[str, Any]:
    """The open gap is accepted with a reason, and the register is exported."""
    found: Dict[str, Any] = {}
    gap = next(fault for fault in dock.faults if fault.kind == "open_gap")
    dock.table.choose(gap.identity)
    dock.repair_button.click()
    dock.assistant.accept_button.click()
    found["without"] = dock.assistant.effect.text()
    dock.assistant.reason.setText("a wall, by deed 17/3")
    dock.assistant.accept_button.click()
    found["with"] = dock.assistant.effect.text()
    dock.assistant.close()
    dock.export_register(str(folder / "faults.csv"))
    found["csv"] = (folder / "faults.csv").read_text().splitlines()
    return found
