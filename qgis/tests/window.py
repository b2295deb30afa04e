"""What the window's test does inside QGIS: run by `qgis --code window.py`, told by GANDOVEL_WINDOW what to use.

The plugin is installed from its zip. A clerk opens a street, edits it, checks it unsaved, goes to the largest fault,
inserts the missing corner, checks again, takes it back, spoils a plot, and is told which. What was seen is written as
JSON; pictures of the window beside it.
"""
from __future__ import annotations

import json
import os
import sys
import time
import traceback
from pathlib import Path
from typing import Any, Callable, Dict

from qgis.core import (
    QgsApplication,
    QgsFeature,
    QgsGeometry,
    QgsPalLayerSettings,
    QgsPointXY,
    QgsProject,
    QgsRectangle,
    QgsVectorLayer,
    QgsVectorLayerSimpleLabeling,
)
from qgis.PyQt.QtCore import QTimer
from qgis.PyQt.QtGui import QColor
from qgis.PyQt.QtWidgets import QApplication
from qgis.utils import iface, pluginMetadata, plugins

sys.path.insert(0, str(Path(os.environ["GANDOVEL_WINDOW_CODE"])))
from window_live import live_work  # noqa: E402

FOLDER = Path(os.environ["GANDOVEL_WINDOW"])
WAIT = float(os.environ.get("GANDOVEL_WAIT", "300"))
seen: Dict[str, Any] = {}


def turn(until: Callable[[], bool], what: str) -> None:
    """Lets QGIS work until something holds."""
    end = time.monotonic() + WAIT
    while not until():
        QApplication.processEvents()
        time.sleep(0.01)
        if time.monotonic() > end:
            raise TimeoutError(what)


def drawn() -> None:
    """Lets QGIS draw."""
    canvas = iface.mapCanvas()
    canvas.refresh()
    turn(lambda: not canvas.isDrawing(), "drawing")
    for _ in range(30):
        QApplication.processEvents()
        time.sleep(0.01)


def picture(name: str) -> None:
    """A picture of the window."""
    drawn()
    iface.mainWindow().grab().save(str(FOLDER / f"{name}.png"))


def with_assistant(name: str, dialog: Any) -> None:
    """Pictures of the window, and of a dialog beside it."""
    picture(f"street_{name}")
    dialog.grab().save(str(FOLDER / f"{name}.png"))


def rows(dock: Any) -> list[list[str]]:
    """What the list shows."""
    table = dock.table
    return [[table.item(row, column).text() for column in range(3)] for row in range(table.rowCount())]


def checked(dock: Any) -> list[list[str]]:
    """Checks by the button; what the list shows then."""
    dock.check_button.click()
    turn(lambda: dock.task is None, "the check")
    return rows(dock)


def install() -> None:
    """Installs the plugin as "Install from ZIP" does, and runs an algorithm that has a part in the package's Python."""
    import processing
    import pyplugin_installer

    seen["before"] = "gandovel" in plugins
    pyplugin_installer.instance().installFromZipFile(str(FOLDER / "gandovel.zip"))
    seen["installed"] = str(Path(sys.modules["gandovel"].__file__).parent)
    seen["version"] = pluginMetadata("gandovel", "version")
    provider = QgsApplication.processingRegistry().providerById("gandovel")
    seen["algorithms"] = sorted(one.name() for one in provider.algorithms())
    seen["icons"] = [provider.icon().isNull(), *(one.icon().isNull() for one in provider.algorithms())]
    street = {"INPUT": str(FOLDER / "street.gpkg"), "NUMBER_FIELD": "parcel_no"}
    prepared = processing.run("gandovel:prepare", {**street, "OUTPUT": "memory:", "CHANGES": "memory:"})
    seen["prepared"] = prepared["OUTPUT"].featureCount()


def drive() -> None:
    """The clerk's work."""
    install()
    layer = QgsVectorLayer(str(FOLDER / "street.gpkg"), "street", "ogr")
    QgsProject.instance().addMapLayer(layer)
    iface.setActiveLayer(layer)
    layer.renderer().symbol().setColor(QColor("#e9ecee"))
    labels = QgsPalLayerSettings()
    labels.fieldName = "parcel_no"
    layer.setLabeling(QgsVectorLayerSimpleLabeling(labels))
    layer.setLabelsEnabled(True)
    iface.mapCanvas().setExtent(layer.extent().buffered(4))
    dock = plugins["gandovel"].dock
    dock.show()
    seen["number"] = dock.numbers.currentField()
    layer.startEditing()
    seen["first"] = checked(dock)
    seen["said"] = dock.said.text()
    picture("street_checked")
    dock.table.selectRow(0)
    before = iface.mapCanvas().extent().width()
    dock.table.cellClicked.emit(0, 0)
    drawn()
    seen["zoomed"] = iface.mapCanvas().extent().width() < before / 2
    picture("street_fault")
    shapes = shapes_in(layer)
    beside_another_layer(dock, layer)
    seen["plan"] = dock.plan.text()
    dock.corner_button.click()
    seen["inserted"] = dock.plan.text()
    seen["stale"] = [dock.said.text(), "gray" in dock.said.styleSheet(), "gray" in dock.table.styleSheet()]
    seen["changed"] = sorted(number for number, shape in shapes_in(layer).items() if shape != shapes[number])
    seen["commands"] = layer.undoStack().count()
    after_the_corner(dock, layer, shapes)
    where_corners_disagree(dock)
    seen["live work"] = live_work(dock, FOLDER, turn, checked, with_assistant)
    dock.layers.setLayer(layer)
    show_many(dock, layer)
    cancel(dock)
    QgsProject.instance().removeMapLayer(layer.id())
    seen["forgotten"] = dock.checked is None


def after_the_corner(dock: Any, layer: Any, shapes: Dict[str, str]) -> None:
    """Checks again, takes the corner back, and spoils a plot."""
    dock.layers.setLayer(layer)
    seen["mended"] = checked(dock)
    iface.messageBar().clearWidgets()
    picture("street_mended")
    seen["saved"] = QgsVectorLayer(str(FOLDER / "street.gpkg"), "again", "ogr").featureCount()
    layer.undoStack().undo()
    seen["undone"] = shapes_in(layer) == shapes
    seen["after undo"] = dock.stale_reason()
    seen["gone"] = without_a_plot(dock, layer)
    spoil(layer)
    checked(dock)
    seen["refused"] = dock.said.text()
    seen["selected"] = [layer.getFeature(one)["parcel_no"] for one in layer.selectedFeatureIds()]
    seen["messages"] = len(iface.messageBar().items())
    picture("street_refused")
    layer.rollBack()
    if "GANDOVEL_PICTURES" in os.environ:
        picture_of_toolbox(layer)


def shapes_in(layer: Any) -> Dict[str, str]:
    """The plots as they are in the window, by their numbers."""
    return {feature["parcel_no"]: feature.geometry().asWkt() for feature in layer.getFeatures()}


def without_a_plot(dock: Any, layer: Any) -> str:
    """What the dock says where a plot of the first fault was taken out after the check; then it is back."""
    dock.table.selectRow(0)
    number = dock.faults[0].numbers[0]
    layer.deleteFeature(dock.owners[number][0])
    dock.corner_button.click()
    said = str(dock.plan.text())
    layer.undoStack().undo()
    return said


def beside_another_layer(dock: Any, layer: Any) -> None:
    """Adds another layer and chooses it in the dock: what the dock says of its verdict then, and of the first again."""
    other = QgsVectorLayer("Polygon?crs=EPSG:25832&field=parcel_no:string", "plans", "memory")
    QgsProject.instance().addMapLayer(other)
    dock.layers.setLayer(other)
    seen["other"] = [dock.said.text(), "gray" in dock.said.styleSheet()]
    dock.layers.setLayer(layer)
    dock.numbers.setField("parcel_no")
    seen["back"] = [dock.said.text(), "gray" in dock.said.styleSheet()]
    dock.layers.setLayer(other)


def where_corners_disagree(dock: Any) -> None:
    """Two parcels agree on a corner, and that of the third is 41 cm off: two clicks of Insert."""
    layer = QgsVectorLayer("Polygon?crs=EPSG:25832&field=parcel_no:string", "three", "memory")
    wkts = ("0 0, 5 0, 5 10, 0 10, 0 0", "5 0, 10 0, 10 10, 5 10, 5 0", "0 10, 5 10.41, 10 10, 10 20, 0 20, 0 10")
    features = []
    for number, wkt in zip("123", wkts):
        feature = QgsFeature(layer.fields())
        feature.setAttributes([number])
        feature.setGeometry(QgsGeometry.fromWkt(f"Polygon(({wkt}))"))
        features.append(feature)
    layer.dataProvider().addFeatures(features)
    QgsProject.instance().addMapLayer(layer)
    dock.layers.setLayer(layer)
    layer.startEditing()
    seen["three"] = checked(dock)
    before = shapes_in(layer)
    dock.table.selectRow(0)
    for _ in range(2):
        dock.corner_button.click()
    seen["disagree"] = [shapes_in(layer) == before, layer.undoStack().count(), dock.plan.text()]
    layer.rollBack()


def show_many(dock: Any, layer: Any) -> None:
    """Lists and marks 2,000 faults of a layer, and takes them away again."""
    from gandovel.check_task import Fault

    corner = layer.extent()
    places = [(corner.xMinimum() + at % 50, corner.yMinimum() + at // 50) for at in range(2000)]
    shapes = [QgsGeometry.fromRect(QgsRectangle(x, y, x + 0.5, y + 0.01)) for x, y in places]
    begun = time.process_time()
    dock.checked = layer
    dock._show([Fault("gap", "parcels", ["1"], 0.005, "10000", shape) for shape in shapes])
    drawn()
    seen["many"] = [dock.table.rowCount(), time.process_time() - begun]
    dock._show([])


def picture_of_toolbox(layer: Any) -> None:
    """A picture of the window of an algorithm, with its help."""
    import processing

    dialog = processing.createAlgorithmDialog("gandovel:checkparcels", {"INPUT": layer, "NUMBER_FIELD": "parcel_no"})
    dialog.resize(900, 560)
    dialog.show()
    drawn()
    dialog.grab().save(str(FOLDER / "check_dialog.png"))
    dialog.close()


def spoil(layer: Any) -> None:
    """Makes plot 12 cross itself."""
    plot = next(feature for feature in layer.getFeatures() if feature["parcel_no"] == "12")
    corners = [QgsPointXY(vertex) for vertex in plot.geometry().vertices()][:4]
    corners[1], corners[2] = corners[2], corners[1]
    layer.changeGeometry(plot.id(), QgsGeometry.fromPolygonXY([[*corners, corners[0]]]))


def cancel(dock: Any) -> None:
    """Cancels a check as soon as it runs."""
    dock.check_button.click()
    turn(lambda: dock.task is None or dock.task.status() > 1, "the start")
    dock.cancel_button.click()
    turn(lambda: dock.task is None, "the cancel")
    seen["cancelled"] = dock.said.text()


def main() -> None:
    """Drives the window, and ends QGIS."""
    try:
        drive()
    except BaseException:  # pylint: disable=broad-except
        seen["failed"] = traceback.format_exc()
    (FOLDER / "seen.json").write_text(json.dumps(seen, indent=1), encoding="utf-8")
    QgsProject.instance().setDirty(False)
    sys.stdout.flush()
    QgsApplication.instance().processEvents()
    os._exit(0)  # pylint: disable=protected-access


QTimer.singleShot(500, main)
