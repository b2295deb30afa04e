"""The plugin of QGIS: a Processing provider and a dock, over the Python package `gandovel` in a process of its own."""
from __future__ import annotations

from typing import TYPE_CHECKING, Any

if TYPE_CHECKING:
    from .plugin import GandovelPlugin


def classFactory(iface: Any) -> GandovelPlugin:  # pylint: disable=invalid-name
    """What QGIS calls to make the plugin; `iface` is its window, None where it runs without one."""
    from .plugin import GandovelPlugin

    return GandovelPlugin(iface)
