"""What the test of two projects, the batch dialog and an exit does inside QGIS."""
from __future__ import annotations

import os
import sys
from pathlib import Path
from typing import Any

from qgis.core import QgsApplication, QgsProject, QgsVectorLayer
from qgis.PyQt.QtWidgets import QApplication
from qgis.utils import iface, plugins

sys.path.insert(0, str(Path(os.environ["GANDOVEL_WINDOW_CODE"])))
from window_tools import FOLDER, picture, run, seen, turn  # noqa: E402


def opened(name: str) -> Any:
    """A layer of the folder, in the project that is open."""
    layer = QgsVectorLayer(str(FOLDER / f"{name}.gpkg"), name, "ogr")
    QgsProject.instance().addMapLayer(layer)
    return layer


def checked(dock: Any, layer: Any) -> Any:
    """What the dock says of a layer after a check."""
    dock.layers.setLayer(layer)
    dock.check_button.click()
    turn(lambda: dock.task is None, "the check")
    return [dock.said.text(), dock.table.rowCount()]


def two_projects(dock: Any) -> None:
    """A verdict is gone with its project; one that is under way then is of no layer; the next project has its own."""
    seen["one"] = checked(dock, opened("street"))
    QgsProject.instance().write(str(FOLDER / "one.qgz"))
    iface.newProject(False)
    seen["between"] = [dock.said.text(), dock.table.rowCount(), dock.checked is None, len(dock.marks.bands)]
    seen["two"] = checked(dock, opened("three"))
    dock.check_button.click()
    QgsProject.instance().read(str(FOLDER / "one.qgz"))
    turn(lambda: dock.task is None, "the end of a check of a project that is closed")
    seen["closed"] = [dock.said.text(), dock.table.rowCount()]
    layer = next(iter(QgsProject.instance().mapLayers().values()))
    seen["again"] = checked(dock, layer)


def batch() -> None:
    """Check parcels on two layers by the batch dialog, as a user fills it in."""
    from processing.gui.BatchAlgorithmDialog import BatchAlgorithmDialog

    algorithm = QgsApplication.processingRegistry().createAlgorithmById("gandovel:checkparcels")
    dialog = BatchAlgorithmDialog(algorithm, iface.mainWindow())
    dialog.show()
    panel = dialog.mainWidget()
    panel.addRow() if panel.batchRowCount() < 2 else None
    for row, name in enumerate(("street", "three")):
        values = {"INPUT": str(FOLDER / f"{name}.gpkg"), "NUMBER_FIELD": "parcel_no"}
        for definition in algorithm.parameterDefinitions():
            column = panel.parameter_to_column.get(definition.name())
            if definition.name() in values:
                panel.wrappers[row][column].setParameterValue(values[definition.name()], panel.processing_context)
        widget = panel.tblParameters.cellWidget(row + 1, panel.parameter_to_column["FAULTS"])
        widget.setValue(str(FOLDER / f"{name}_faults.gpkg"))
    picture("batch")
    dialog.runButton().click()
    turn(lambda: all((FOLDER / f"{name}_faults.gpkg").is_file() for name in ("street", "three")), "the batch")
    turn(lambda: dialog.runButton().isEnabled(), "the end of the batch")
    found = [QgsVectorLayer(str(FOLDER / f"{name}_faults.gpkg"), name, "ogr") for name in ("street", "three")]
    seen["batch"] = [layer.featureCount() for layer in found]
    dialog.close()


def drive() -> None:
    """All but the exit."""
    dock = plugins["gandovel"].dock
    dock.show()
    two_projects(dock)
    batch()
    QApplication.processEvents()


run(drive)
