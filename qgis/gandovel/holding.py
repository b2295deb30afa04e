"""Saving is held while a layer has new faults: the commands of QGIS that save are off, and say why.

QGIS lets no plugin stop a save that has begun. So what another plugin or a script saves is saved.
"""
from __future__ import annotations

from typing import Any, Callable, Dict

from qgis.PyQt.QtCore import QObject

from .words import tr

OF_ACTIVE = ("actionSaveActiveLayerEdits", "actionToggleEditing")
OF_ALL = ("actionSaveEdits", "actionSaveAllEdits")


class Hold(QObject):
    """Keeps QGIS's commands that save off, as long as `is_held` says so."""

    def __init__(self, iface: Any, is_held: Callable[[], bool], layer: Callable[[], Any]) -> None:
        super().__init__()
        self.iface, self.is_held, self.layer = iface, is_held, layer
        self.off: Dict[str, str] = {}
        """The tips of the commands that are off, by their names."""
        for name in (*OF_ACTIVE, *OF_ALL):
            action = self._action(name)
            if action is not None:
                action.changed.connect(self.look_again)

    def _action(self, name: str) -> Any:
        return getattr(self.iface, name)() if hasattr(self.iface, name) else None

    def _concerns(self, name: str) -> bool:
        layer = self.layer()
        return layer is not None and self.is_held() and (name in OF_ALL or self.iface.activeLayer() is layer)

    def look_again(self) -> None:
        """Puts the commands off, or on again."""
        for name in (*OF_ACTIVE, *OF_ALL):
            action = self._action(name)
            if action is None:
                continue
            action.blockSignals(True)
            if self._concerns(name):
                if name not in self.off:
                    self.off[name] = action.toolTip()
                    action.setToolTip(tr("Held: the layer has new faults. Mend them, accept them, or take edits back."))
                action.setEnabled(False)
            elif name in self.off:
                action.setToolTip(self.off.pop(name))
                action.setEnabled(True)
            action.blockSignals(False)

    def end(self) -> None:
        """Puts all on again."""
        for name in (*OF_ACTIVE, *OF_ALL):
            action = self._action(name)
            if action is not None:
                action.changed.disconnect(self.look_again)
                if name in self.off:
                    action.setToolTip(self.off.pop(name))
                    action.setEnabled(True)
