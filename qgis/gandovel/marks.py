"""Marks of faults in the map: their shapes, and a sign that is seen at every scale."""
from __future__ import annotations

from typing import Any, Dict, List, Optional

from qgis.core import QgsCoordinateTransform, QgsGeometry, QgsProject, QgsRectangle, QgsVectorLayer, QgsWkbTypes
from qgis.gui import QgsMapCanvas, QgsRubberBand
from qgis.PyQt.QtGui import QColor

from .check_task import Fault

COLOURS = {"gap": "#d55e00", "overlap": "#a3367a", "beyond": "#b22222", "open_gap": "#b07800", "sliver": "#6a3fb5"}
"""Those of the report's map."""
AROUND = 3.0
"""How much more than the fault's own box is shown."""
LEAST = 5.0
"""The least width of what is shown, in the map's unit."""
FLASHES, FLASH_MILLISECONDS = 4, 250


class Marks:
    """The marks of one layer's faults on a canvas."""

    def __init__(self, canvas: QgsMapCanvas) -> None:
        self.canvas = canvas
        self.bands: List[QgsRubberBand] = []

    def clear(self) -> None:
        """Takes all marks away."""
        for band in self.bands:
            self.canvas.scene().removeItem(band)
        self.bands = []

    def show(self, faults: List[Fault], layer: Optional[QgsVectorLayer]) -> None:
        """Marks faults in place of what was marked."""
        self.clear()
        by_kind: Dict[str, List[Fault]] = {}
        for fault in faults:
            by_kind.setdefault(fault.kind, []).append(fault)
        for kind, several in by_kind.items():
            area = self._band(QgsWkbTypes.GeometryType.PolygonGeometry, kind)
            sign = self._band(QgsWkbTypes.GeometryType.PointGeometry, kind)
            # All at once: a band looks through all that it has for each geometry that is added.
            area.addGeometry(QgsGeometry.collectGeometry([fault.shape for fault in several]), layer)
            sign.addGeometry(QgsGeometry.collectGeometry([fault.shape.pointOnSurface() for fault in several]), layer)

    def _band(self, kind: Any, name: str) -> QgsRubberBand:
        band = QgsRubberBand(self.canvas, kind)
        colour = QColor(COLOURS[name])
        band.setStrokeColor(colour)
        band.setWidth(2)
        band.setIcon(QgsRubberBand.IconType.ICON_CIRCLE)
        band.setIconSize(12)
        colour.setAlpha(110)
        band.setFillColor(colour)
        self.bands.append(band)
        return band

    def go_to(self, fault: Fault, layer: QgsVectorLayer) -> None:
        """Zooms to a fault, and flashes it."""
        project = QgsProject.instance()
        transform = QgsCoordinateTransform(layer.crs(), self.canvas.mapSettings().destinationCrs(), project)
        box: QgsRectangle = transform.transformBoundingBox(fault.shape.boundingBox())
        box.scale(AROUND)
        box.grow(max(0.0, LEAST - max(box.width(), box.height())) / 2.0)
        self.canvas.setExtent(box)
        self.canvas.refresh()
        colour = QColor(COLOURS[fault.kind])
        shapes: List[QgsGeometry] = [fault.shape]
        self.canvas.flashGeometries(shapes, layer.crs(), colour, QColor(255, 255, 255, 0), FLASHES, FLASH_MILLISECONDS)
