"""Selecting the features that were refused, in the layer of the project, from any thread."""
from __future__ import annotations

from typing import List, Optional

from qgis.core import QgsMapLayer, QgsProject, QgsVectorLayer
from qgis.PyQt.QtCore import QObject, pyqtSignal


class Selector(QObject):
    """Lives in the main thread; what is asked for elsewhere is done there."""

    asked = pyqtSignal(str, list)

    def __init__(self) -> None:
        super().__init__()
        self.asked.connect(self._select)

    def _select(self, layer_id: str, features: List[int]) -> None:
        layer: Optional[QgsMapLayer] = QgsProject.instance().mapLayer(layer_id)
        if isinstance(layer, QgsVectorLayer):
            layer.selectByIds(features)
            layer.triggerRepaint()


_selectors: List[Selector] = []


def begin() -> None:
    """Makes the selector; called in the main thread, when the plugin begins."""
    if not _selectors:
        _selectors.append(Selector())


def select(layer_id: str, features: List[int]) -> None:
    """Selects features of a layer of the project; nothing where there is no such layer, or no window."""
    if _selectors and layer_id:
        _selectors[0].asked.emit(layer_id, features)
