"""The plugin: its provider of algorithms, and in a window its dock."""
from __future__ import annotations

from typing import TYPE_CHECKING, Any, List, Optional

from qgis.core import QgsApplication
from qgis.PyQt.QtCore import Qt
from qgis.PyQt.QtGui import QIcon

from . import selecting
from .program import end_all
from .provider import ICON, GandovelProvider
from .words import tr

if TYPE_CHECKING:
    from .dock import FaultDock
    from .served.dock import RegisterDock


class GandovelPlugin:
    """What QGIS begins and ends; `iface` is its window, or None."""

    def __init__(self, iface: Any) -> None:
        self.iface = iface
        self.provider: Optional[GandovelProvider] = None
        self.dock: Optional[FaultDock] = None
        self.register: Optional[RegisterDock] = None
        self.actions: List[Any] = []

    def initProcessing(self) -> None:
        """Adds the provider; without a window that is all."""
        if self.provider is None:
            selecting.begin()
            QgsApplication.instance().aboutToQuit.connect(end_all)
            self.provider = GandovelProvider()
            QgsApplication.processingRegistry().addProvider(self.provider)

    def initGui(self) -> None:
        """Adds the provider, the docks, and the actions that show them."""
        from .dock import FaultDock
        from .served.dock import RegisterDock

        self.initProcessing()
        self.dock, self.register = FaultDock(self.iface), RegisterDock(self.iface)
        self._add(self.dock, tr("Faults of parcels"))
        self._add(self.register, tr("Live register"))

    def _add(self, dock: Any, text: str) -> None:
        """Adds a dock, hidden, and the action that shows it."""
        self.iface.addDockWidget(Qt.DockWidgetArea.RightDockWidgetArea, dock)
        dock.hide()
        action = dock.toggleViewAction()
        action.setText(text)
        action.setIcon(QIcon(str(ICON)))
        self.iface.addVectorToolBarIcon(action)
        self.iface.addPluginToVectorMenu("Gandovel", action)
        self.actions.append(action)

    def unload(self) -> None:
        """Takes all of it back, and ends what runs."""
        if self.provider is not None:
            QgsApplication.processingRegistry().removeProvider(self.provider)
            self.provider = None
            end_all()
        for dock, action in zip((self.dock, self.register), self.actions):
            if dock is not None:
                dock.forget()
                self.iface.removePluginVectorMenu("Gandovel", action)
                self.iface.removeVectorToolBarIcon(action)
                self.iface.removeDockWidget(dock)
                dock.deleteLater()
        self.dock, self.register, self.actions = None, None, []
