"""The package `gandovel` in a process of its own: found, run, watched, and ended when the user cancels."""
from __future__ import annotations

import os
import platform
import queue
import shutil
import signal
import subprocess
import sys
import tempfile
import threading
from dataclasses import dataclass
from pathlib import Path
from typing import IO, Dict, List, Optional, Protocol, Sequence

from qgis.core import QgsSettings

from .words import tr

PYTHON_SETTING, TOOL_SETTING = "GANDOVEL_PYTHON", "GANDOVEL_TOOL"
"""Settings of Processing, and variables of the environment that stand above them."""
WHERE = "Settings > Options > Processing > Providers > Gandovel"
BESIDE = Path(__file__).parent
PACKAGE = BESIDE / "package"
"""The side of the package that the plugin's zip brings along."""
BUNDLED = BESIDE / "bin" / f"{platform.system().lower()}-{platform.machine()}" / "parcel_tool"
"""The program of this system, where the zip has one."""
HOME_ENVIRONMENT = Path("~/gandovel")
"""Where the README has the package installed: a virtual environment in the user's folder."""


def no_package() -> str:
    """What is said where no Python has the package."""
    return tr(
        "The Python package gandovel was not found, or GeoPandas and tqdm, which it needs: install it from a release "
        "into ~/gandovel, as its README says, or name the Python that has it in {where}.",
        where=WHERE,
    )


def no_program() -> str:
    """What is said where there is no program."""
    return tr(
        "The program parcel_tool was not found: install it from a release, or name it in {where}. The plugin has none "
        "of its own for {platform}: make build makes one from the sources.",
        where=WHERE,
        platform=BUNDLED.parent.name,
    )


TRIED_MODULES = ("gandovel", "geopandas", "tqdm")
FIND = "import importlib.util as util; print(all(map(util.find_spec, {modules!r})))"
"""Looks for the modules without importing them, which would take seconds."""
PAUSE = 0.1
"""Seconds between two looks at whether the user cancelled."""
PATIENCE = 2.0
"""Seconds that a process has to end before it is killed."""


class NotFound(Exception):
    """The package or the program is not there; the text says in one sentence how to get it."""


class Cancelled(Exception):
    """The user cancelled; the process and its children have ended, and nothing was written."""


class Watcher(Protocol):
    """Who looks on while a process runs."""

    def is_cancelled(self) -> bool:
        """Whether the user cancelled."""

    def step(self, text: str) -> None:
        """The process begins its next step."""


@dataclass(frozen=True)
class Ended:
    """How a process ended: its status, what it printed, and the lines of its standard error."""

    status: int
    printed: str
    errors: List[str]


def setting(name: str) -> str:
    """What the environment, else the setting of Processing, names; empty where neither does."""
    return os.environ.get(name) or str(QgsSettings().value(f"Processing/Configuration/{name}", "") or "")


def environment(folder: Optional[str] = None) -> Dict[str, str]:
    """The variables of a process of the package. Its temporary files go to `folder`, which the caller removes."""
    variables = {name: value for name, value in os.environ.items() if name not in ("PYTHONHOME", "PYTHONOPTIMIZE")}
    variables.update(PYTHONUTF8="1", PYTHONDONTWRITEBYTECODE="1")
    if folder is not None:
        variables["TMPDIR"] = variables["TEMP"] = variables["TMP"] = folder
    tool = setting(TOOL_SETTING) or bundled_program()
    if tool:
        variables[TOOL_SETTING] = tool
    if PACKAGE.is_dir():
        paths = [variables["PYTHONPATH"]] if variables.get("PYTHONPATH") else []
        variables["PYTHONPATH"] = os.pathsep.join([*paths, str(PACKAGE)])
    return variables


def bundled_program() -> str:
    """The program that the plugin's zip brought along for this system; empty where it has none."""
    if not BUNDLED.is_file():
        return ""
    if not os.access(BUNDLED, os.X_OK):  # an installer of plugins keeps no permissions
        BUNDLED.chmod(0o755)
    return str(BUNDLED)


_found: Dict[str, str] = {}
"""The Python that has the package, by the setting with which it was looked for."""


def find_python() -> str:
    """The Python that has the package: the one that is named, else the first that has it. Raises `NotFound`."""
    named = setting(PYTHON_SETTING)
    if named not in _found:
        candidates = [named] if named else _pythons()
        found = next((python for python in candidates if _has_package(python)), None)
        if found is None:
            raise NotFound(f"{no_package()} {tr('({path} is named now.)', path=named)}" if named else no_package())
        _found[named] = found
    return _found[named]


def _pythons() -> List[str]:
    """Pythons where the package may be: that of `~/gandovel`, that of a command `gandovel`, QGIS's own, and those on
    the path."""
    home = HOME_ENVIRONMENT.expanduser()
    inside = (home / "bin/python3", home / "bin/python", home / "Scripts/python.exe")
    places: List[Optional[str]] = [str(path) for path in inside if path.is_file()][:1]
    command = shutil.which("gandovel")
    if command:
        places.append(_interpreter_of(Path(command)))
    places += [sys.executable, *(shutil.which(name) for name in ("python3", "python")), "/usr/bin/python3"]
    names = [place for place in dict.fromkeys(places) if place and Path(place).name.lower().startswith("python")]
    return [str(name) for name in names]


def _interpreter_of(script: Path) -> Optional[str]:
    """The Python in the first line of a script."""
    with open(script, "rb") as file:
        line = file.readline(4096).decode("utf-8", "replace")
    return line[2:].split()[0] if line.startswith("#!/") else None


def _has_package(python: str) -> bool:
    command = [python, "-c", FIND.format(modules=TRIED_MODULES)]
    try:
        ended = subprocess.run(
            command,
            env=environment(),
            capture_output=True,
            text=True,
            timeout=60,
            stdin=subprocess.DEVNULL,
            check=False,
        )
    except (OSError, subprocess.TimeoutExpired):
        return False
    return ended.returncode == 0 and ended.stdout.strip() == "True"


_running: List[subprocess.Popen[bytes]] = []
"""The processes that have not ended yet."""


def end_all() -> None:
    """Ends all processes, with those that they started: QGIS itself ends, and waits for no task."""
    for process in list(_running):
        _end(process)


def run(arguments: Sequence[str], folder: str, watcher: Watcher) -> Ended:
    """Runs the package's Python. Raises `NotFound`, and `Cancelled` once all its processes have ended."""
    with tempfile.TemporaryFile(dir=folder) as output:
        process = subprocess.Popen(  # pylint: disable=consider-using-with
            [find_python(), *arguments],
            env=environment(folder),
            stdin=subprocess.DEVNULL,
            stdout=output,
            stderr=subprocess.PIPE,
            start_new_session=True,
        )
        _running.append(process)
        try:
            errors = _watched(process, watcher)
        finally:
            _running.remove(process)
        output.seek(0)
        return Ended(process.returncode, output.read().decode("utf-8", "replace"), errors)


def _watched(process: subprocess.Popen[bytes], watcher: Watcher) -> List[str]:
    """The lines of a process's standard error, once it has ended. Steps (`... TEXT`) are handed to the watcher."""
    lines: queue.Queue[Optional[str]] = queue.Queue()
    assert process.stderr is not None
    reader = threading.Thread(target=_read, args=(process.stderr, lines), daemon=True)
    reader.start()
    kept: List[str] = []
    try:
        while True:
            if watcher.is_cancelled():
                raise Cancelled("cancelled")
            try:
                line = lines.get(timeout=PAUSE)
            except queue.Empty:
                continue
            if line is None:
                process.wait()
                return kept
            if line.startswith("... "):
                watcher.step(line[4:])
            else:
                kept.append(line)
    finally:
        _end(process)
        reader.join(PATIENCE)
        process.stderr.close()


def _read(stream: IO[bytes], lines: queue.Queue[Optional[str]]) -> None:
    try:
        for line in stream:
            lines.put(line.decode("utf-8", "replace").rstrip())
    except ValueError:  # closed, since the process was ended
        pass
    lines.put(None)


def _end(process: subprocess.Popen[bytes]) -> None:
    """Ends a process that still runs, and those that it started."""
    if process.poll() is not None:
        return
    _send(process, signal.SIGTERM)
    try:
        process.wait(PATIENCE)
    except subprocess.TimeoutExpired:
        pass
    _send(process, getattr(signal, "SIGKILL", signal.SIGTERM))
    process.wait()


def _send(process: subprocess.Popen[bytes], number: int) -> None:
    if hasattr(os, "killpg"):
        try:
            os.killpg(process.pid, number)
        except ProcessLookupError:
            pass
    else:
        process.kill()
