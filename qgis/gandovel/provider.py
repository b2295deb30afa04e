"""The Processing provider `Gandovel`, and its settings: where the package and the program are."""
from __future__ import annotations

from pathlib import Path
from typing import List

from qgis.core import QgsProcessingProvider
from qgis.PyQt.QtGui import QIcon

from .algorithms import ALGORITHMS
from .program import PYTHON_SETTING, TOOL_SETTING
from .words import tr

ICON = Path(__file__).with_name("icon.svg")
SETTINGS = (
    (PYTHON_SETTING, "Python that has the package gandovel (empty: the first that has it)"),
    (TOOL_SETTING, "Program parcel_tool (empty: the package's own, or the one on PATH)"),
)


class GandovelProvider(QgsProcessingProvider):
    """Algorithms over the package `gandovel`, under the id `gandovel`."""

    def id(self) -> str:
        """What stands in front of an algorithm's id."""
        return "gandovel"

    def name(self) -> str:
        """The name in the toolbox."""
        return "Gandovel"

    def longName(self) -> str:
        """The name in the list of providers."""
        return tr("Gandovel: exact check of parcel layers")

    def icon(self) -> QIcon:
        """The icon in the toolbox."""
        return QIcon(str(ICON))

    def load(self) -> bool:
        """Makes the settings, and loads the algorithms."""
        from processing.core.ProcessingConfig import ProcessingConfig, Setting

        ProcessingConfig.settingIcons[self.name()] = self.icon()
        for name, text in SETTINGS:
            ProcessingConfig.addSetting(Setting(self.name(), name, tr(text), "", valuetype=Setting.FILE))
        ProcessingConfig.readSettings()
        self.refreshAlgorithms()
        return True

    def unload(self) -> None:
        """Takes the settings back."""
        from processing.core.ProcessingConfig import ProcessingConfig

        for name, _ in SETTINGS:
            ProcessingConfig.removeSetting(name)

    def loadAlgorithms(self) -> None:
        """Adds the algorithms."""
        made: List[object] = [kind() for kind in ALGORITHMS]
        for algorithm in made:
            self.addAlgorithm(algorithm)
