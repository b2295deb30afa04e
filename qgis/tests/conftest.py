"""What the tests share: QGIS without a window, its Processing with the plugin, and layers that are made once."""
from __future__ import annotations

import configparser
import os
import shutil
import subprocess
import sys
from pathlib import Path
from typing import Any, Iterator

import pytest

ROOT = Path(__file__).resolve().parents[2]
TOWN, VILLAGE = ROOT / "examples/town", ROOT / "examples/village"
PLUGINS = "profile/profiles/default/python/plugins"
"""Where QGIS has the plugins that the user of a profile has installed."""
sys.path[:0] = [str(ROOT / "qgis"), "/usr/share/qgis/python/plugins"]


def make_zip(path: Path) -> None:
    """The plugin's zip, as a release has it."""
    subprocess.run([sys.executable, ROOT / "packaging/qgis_plugin.py", path, "1700000000"], check=True)


def metadata(name: str) -> str:
    """What the plugin says of itself."""
    parser = configparser.ConfigParser()
    parser.read(ROOT / "qgis/gandovel/metadata.txt")
    return parser["general"][name]


def environment(folder: Path) -> dict[str, str]:
    """The variables of a QGIS with a profile of its own in a folder, in which the plugin's zip was unpacked."""
    for name in ("run", "profile"):
        (folder / name).mkdir(mode=0o700, exist_ok=True)
    plugins = folder / PLUGINS
    if not plugins.exists():
        make_zip(folder / "gandovel.zip")
        shutil.unpack_archive(folder / "gandovel.zip", plugins)
    return {
        **os.environ,
        "QT_QPA_PLATFORM": "offscreen",
        "XDG_RUNTIME_DIR": str(folder / "run"),
        "QGIS_CUSTOM_CONFIG_PATH": str(folder / "profile"),
        "GANDOVEL_PYTHON": os.environ.get("GANDOVEL_PYTHON", "/usr/bin/python3"),
        "PYTHONPATH": os.environ.get("PYTHONPATH", str(ROOT / "python/src")),
    }


@pytest.fixture(scope="session")
def qgis(tmp_path_factory: pytest.TempPathFactory) -> Iterator[Any]:
    """QGIS in this process, with the provider `gandovel`."""
    os.environ.update(environment(tmp_path_factory.mktemp("qgis")))
    from qgis.core import QgsApplication

    application = QgsApplication([], False)
    application.initQgis()
    from processing.core.Processing import Processing

    Processing.initialize()
    from gandovel import classFactory

    plugin = classFactory(None)
    plugin.initProcessing()
    yield application
    plugin.unload()
    application.exitQgis()


@pytest.fixture(scope="session")
def register(tmp_path_factory: pytest.TempPathFactory) -> Any:
    """The register of 2,000 parcels with planted faults."""
    from layers_made import make_register

    return make_register(tmp_path_factory.mktemp("register"))


@pytest.fixture(scope="session")
def whole(tmp_path_factory: pytest.TempPathFactory) -> Any:
    """The same register without faults."""
    from layers_made import make_register

    return make_register(tmp_path_factory.mktemp("whole"), faults=False)
