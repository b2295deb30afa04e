"""What the test of an exit during a check does inside QGIS: it closes QGIS by its own command while the check runs."""
from __future__ import annotations

import os
import sys
from pathlib import Path

from qgis.core import QgsApplication, QgsProject, QgsVectorLayer
from qgis.PyQt.QtCore import QTimer
from qgis.PyQt.QtWidgets import QApplication, QMessageBox
from qgis.utils import iface, plugins

sys.path.insert(0, str(Path(os.environ["GANDOVEL_WINDOW_CODE"])))
from window_tools import FOLDER, turn  # noqa: E402


def agree() -> None:
    """Says yes where QGIS asks whether a task that runs is to be cancelled, and exits again once none runs."""
    box = QApplication.activeModalWidget()
    if isinstance(box, QMessageBox) and box.button(QMessageBox.StandardButton.Yes) is not None:
        box.button(QMessageBox.StandardButton.Yes).click()
    elif box is None and QgsApplication.taskManager().countActiveTasks() == 0:
        QgsProject.instance().setDirty(False)
        iface.actionExit().trigger()


def main() -> None:
    """Begins a check with a program that takes long, and exits once that runs."""
    layer = QgsVectorLayer(str(FOLDER / "street.gpkg"), "street", "ogr")
    QgsProject.instance().addMapLayer(layer)
    dock = plugins["gandovel"].dock
    dock.show()
    dock.layers.setLayer(layer)
    dock.check_button.click()
    turn(lambda: (FOLDER / "began").is_file() and (FOLDER / "began").read_text().endswith("\n"), "the program")
    QgsProject.instance().setDirty(False)
    (FOLDER / "exiting").write_text("yes")
    timer = QTimer(iface.mainWindow())
    timer.timeout.connect(agree)
    timer.start(200)
    iface.actionExit().trigger()


QTimer.singleShot(500, main)
