"""The map tool: clicks of an edit, with QGIS's snapping and its advanced digitising."""
from __future__ import annotations

from typing import Any, Iterable, List

from qgis.core import QgsGeometry, QgsPointXY, QgsWkbTypes
from qgis.gui import QgsMapToolAdvancedDigitizing, QgsRubberBand, QgsSnapIndicator
from qgis.PyQt.QtCore import Qt, pyqtSignal
from qgis.PyQt.QtGui import QColor

PATH, PARCEL, REACH = "#cc1e6e", "#0072b2", 12
"""The colours of a path and of its parcels; and within how many pixels a click takes the nearest corner."""


class EditTool(QgsMapToolAdvancedDigitizing):
    """Sends `clicked` with a place of the map, and how far around it a corner is taken; 0 where the place was
    constructed by the advanced digitising, which is taken as it is."""

    clicked = pyqtSignal(object, float)
    undone = pyqtSignal()
    cancelled = pyqtSignal()

    def __init__(self, canvas: Any, cad: Any) -> None:
        super().__init__(canvas, cad)
        self.setAutoSnapEnabled(True)
        self.indicator = QgsSnapIndicator(canvas)
        self.parcels = self._band(QgsWkbTypes.GeometryType.PolygonGeometry, PARCEL)
        self.path = self._band(QgsWkbTypes.GeometryType.LineGeometry, PATH)
        self.next = self._band(QgsWkbTypes.GeometryType.LineGeometry, PATH)
        self.next.setLineStyle(Qt.PenStyle.DashLine)
        self.last: List[QgsPointXY] = []
        self.layer: Any = None

    def _band(self, kind: Any, colour: str) -> QgsRubberBand:
        band, shade = QgsRubberBand(self.canvas(), kind), QColor(colour)
        band.setStrokeColor(shade)
        band.setWidth(3)
        shade.setAlpha(60)
        band.setFillColor(shade)
        return band

    def show_draft(self, shapes: Iterable[QgsGeometry], path: List[QgsPointXY], layer: Any) -> None:
        """Draws the parcels of an edit, and its path."""
        self.clear()
        self.layer = layer
        for shape in shapes:
            self.parcels.addGeometry(shape, layer)
        if path:
            self.path.addGeometry(QgsGeometry.fromPolylineXY(path if len(path) > 1 else [*path, *path]), layer)
        self.last = path[-1:]

    def clear(self) -> None:
        """Takes what is drawn away."""
        for band, kind in ((self.parcels, "PolygonGeometry"), (self.path, "LineGeometry"), (self.next, "LineGeometry")):
            band.reset(getattr(QgsWkbTypes.GeometryType, kind))
        self.last = []

    def cadCanvasMoveEvent(self, event: Any) -> None:
        """Shows where the pointer snaps, and the side that a click would add."""
        self.indicator.setMatch(event.mapPointMatch())
        self.next.reset(QgsWkbTypes.GeometryType.LineGeometry)
        if self.last:
            start = self.toMapCoordinates(self.layer, self.last[0])
            self.next.addGeometry(QgsGeometry.fromPolylineXY([start, event.mapPoint()]), None)

    def cadCanvasReleaseEvent(self, event: Any) -> None:
        """Takes a click; the right button takes the last one back."""
        if event.button() == Qt.MouseButton.RightButton:
            self.undone.emit()
            return
        cad = self.cadDockWidget()
        is_constructed = cad is not None and cad.cadEnabled()
        reach = 0.0 if is_constructed else REACH * self.canvas().mapUnitsPerPixel()
        self.clicked.emit(event.mapPoint(), reach)

    def keyPressEvent(self, event: Any) -> None:
        """Backspace takes the last click back, Escape the edit."""
        if event.key() in (Qt.Key.Key_Backspace, Qt.Key.Key_Delete):
            self.undone.emit()
        elif event.key() == Qt.Key.Key_Escape:
            self.cancelled.emit()
        else:
            super().keyPressEvent(event)
            return
        event.accept()

    def deactivate(self) -> None:
        """Another tool is chosen."""
        self.indicator.setMatch(type(self.indicator.match())())
        self.next.reset(QgsWkbTypes.GeometryType.LineGeometry)
        super().deactivate()

    def forget(self) -> None:
        """Takes the bands from the canvas."""
        for band in (self.parcels, self.path, self.next):
            self.canvas().scene().removeItem(band)
