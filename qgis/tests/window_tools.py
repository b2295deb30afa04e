"""What scripts that drive a window of QGIS share."""
from __future__ import annotations

import json
import os
import sys
import time
import traceback
from pathlib import Path
from typing import Any, Callable, Dict

from qgis.core import QgsApplication, QgsPointXY, QgsProject
from qgis.PyQt.QtCore import QPoint, Qt, QTimer
from qgis.PyQt.QtTest import QTest
from qgis.PyQt.QtWidgets import QApplication
from qgis.utils import iface

FOLDER = Path(os.environ["GANDOVEL_WINDOW"])
WAIT = float(os.environ.get("GANDOVEL_WAIT", "300"))
seen: Dict[str, Any] = {}


def turn(until: Callable[[], bool], what: str) -> None:
    """Lets QGIS work until something holds."""
    end = time.monotonic() + WAIT
    while not until():
        QApplication.processEvents()
        time.sleep(0.005)
        if time.monotonic() > end:
            raise TimeoutError(what)


def drawn() -> None:
    """Lets QGIS draw."""
    canvas = iface.mapCanvas()
    canvas.refresh()
    turn(lambda: not canvas.isDrawing(), "drawing")
    for _ in range(30):
        QApplication.processEvents()
        time.sleep(0.01)


def picture(name: str) -> None:
    """A picture of the window."""
    drawn()
    iface.mainWindow().grab().save(str(FOLDER / f"{name}.png"))


def click(x: float, y: float, right: int = 0, button: Any = Qt.MouseButton.LeftButton) -> None:
    """A click on the map, at a place or some pixels to the right of it."""
    canvas = iface.mapCanvas()
    place = canvas.getCoordinateTransform().transform(QgsPointXY(x, y))
    at = QPoint(round(place.x()) + right, round(place.y()))
    QTest.mouseMove(canvas.viewport(), at)
    QTest.mouseClick(canvas.viewport(), button, Qt.KeyboardModifier.NoModifier, at)
    QApplication.processEvents()


def run(drive: Callable[[], None]) -> None:
    """Drives the window once QGIS is up, writes what was seen, and ends QGIS."""

    def main() -> None:
        try:
            drive()
        except BaseException:  # pylint: disable=broad-except
            seen["failed"] = traceback.format_exc()
            iface.mainWindow().grab().save(str(FOLDER / "failed.png"))
        (FOLDER / "seen.json").write_text(json.dumps(seen, indent=1), encoding="utf-8")
        QgsProject.instance().setDirty(False)
        sys.stdout.flush()
        QgsApplication.instance().processEvents()
        os._exit(0)  # pylint: disable=protected-access

    QTimer.singleShot(500, main)
