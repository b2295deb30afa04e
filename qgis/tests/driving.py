"""A real window of QGIS under Xvfb, driven by a script of this folder: what the tests of windows share."""
from __future__ import annotations

import json
import os
import shutil
import subprocess
import time
from contextlib import contextmanager
from pathlib import Path
from typing import Any, Dict, Iterator

from conftest import environment

HERE = Path(__file__).resolve().parent
PROFILE = "profiles/default/QGIS/QGIS3.ini"
SETTINGS = """[PythonPlugins]
processing=true
GdalTools=false
MetaSearch=false
db_manager=false
grassprovider=false
otbprovider=false
sagaprovider=false

[qgis]
checkVersion=false
newsFeed\\disabled=true

[app]
projections\\unknownCrsBehavior=NoAction
"""


@contextmanager
def screen() -> Iterator[str]:
    """An Xvfb of its own: the name of its display."""
    reading, writing = os.pipe()
    words = ["Xvfb", "-displayfd", str(writing), "-screen", "0", "1280x800x24", "-nolisten", "tcp"]
    with subprocess.Popen(words, pass_fds=[writing], stderr=subprocess.DEVNULL) as server:
        os.close(writing)
        with os.fdopen(reading) as told:
            number = told.readline().strip()
        assert number, "Xvfb did not start"
        yield f":{number}"
        server.terminate()


def with_plugin(folder: Path) -> None:
    """A profile in a folder in which the plugin's zip is installed, and switched on."""
    environment(folder)
    settings = folder / "profile" / PROFILE
    settings.parent.mkdir(parents=True, exist_ok=True)
    settings.write_text(SETTINGS.replace("processing=true", "processing=true\ngandovel=true"))


def started(display: str, folder: Path, script: str, **more: str) -> "subprocess.Popen[str]":
    """QGIS with a window that runs a script; its profiles are in `folder`/profile, else in the folder itself."""
    variables = environment(folder)
    variables.pop("QGIS_CUSTOM_CONFIG_PATH")
    variables.update(
        DISPLAY=display, QT_QPA_PLATFORM="xcb", GANDOVEL_WINDOW=str(folder), GANDOVEL_WINDOW_CODE=str(HERE)
    )
    variables.update(more, LIBGL_ALWAYS_SOFTWARE="1")
    profiles = folder / "profile" if (folder / "profile" / PROFILE).is_file() else folder
    words = ["qgis", "--nologo", "--noversioncheck", "--profiles-path", str(profiles), "--code", str(HERE / script)]
    return subprocess.Popen(words, env=variables, stdout=subprocess.PIPE, stderr=subprocess.PIPE, text=True)


def driven(display: str, folder: Path, script: str, seconds: float = 900, **more: str) -> Dict[str, Any]:
    """What a script saw that drives the window; its pictures are kept where GANDOVEL_PICTURES says so."""
    begun = time.monotonic()
    with started(display, folder, script, **more) as running:
        try:
            _, errors = running.communicate(timeout=seconds)
        except subprocess.TimeoutExpired:
            running.kill()
            raise
    path = folder / "seen.json"
    assert path.is_file(), f"QGIS ended after {time.monotonic() - begun:.0f} s: {errors[-2000:]}"
    found: Dict[str, Any] = json.loads(path.read_text())
    assert "failed" not in found, found["failed"]
    keep = os.environ.get("GANDOVEL_PICTURES")
    if keep:
        Path(keep).mkdir(parents=True, exist_ok=True)
        for image in folder.glob("*.png"):
            shutil.copy(image, keep)
    return found
