"""Small cities, programs that misbehave, and the command, for the tests of `gandovel many`."""
from __future__ import annotations

import json
import os
import signal
import subprocess
import sys
import time
from functools import partial
from pathlib import Path
from typing import Any, Callable, Dict, List, Sequence, Set, Tuple

import numpy as np

from gandovel.program.layer_files import write_rings
from gandovel.program.tool import find_tool

SOURCES = Path(__file__).resolve().parents[1] / "src"
TOOL = find_tool()
"""The built program, or what stands in for it."""

SIDE = 10_000
"""The side of a parcel, in mm."""

GAP = 250
"""How much narrower the last parcel of a city with a gap is, in mm."""


def box(x0: int, y0: int, x1: int, y1: int) -> np.ndarray:
    """A counterclockwise ring, in mm."""
    return np.array([(x0, y0), (x1, y0), (x1, y1), (x0, y1)], dtype=np.int64)


def write_city(folder: Path, gap: bool = False, at: int = 0, side: int = SIDE) -> None:
    """Two by two parcels and two zones, from (`at`, 0); with a gap at the right end of the last parcel."""
    folder.mkdir(parents=True, exist_ok=True)
    write_rings(folder / "city.shp", [box(at, 0, at + 2 * side, 2 * side)])
    rings = [box(at + i * side, j * side, at + (i + 1) * side, (j + 1) * side) for j in range(2) for i in range(2)]
    if gap:
        rings[3] = box(at + side, side, at + 2 * side - GAP, 2 * side)
    write_rings(folder / "parcels.shp", rings)
    write_rings(
        folder / "zones.shp", [box(at, 0, at + side // 2, 2 * side), box(at + side // 2, 0, at + 2 * side, 2 * side)]
    )


def write_cities(folder: Path, count: int, gaps: Sequence[int] = (), zones: bool = False) -> Path:
    """So many cities `c0`, `c1` .. and their manifest."""
    lines = ["name,city,parcels,zones,unit"]
    for at in range(count):
        write_city(folder / f"in/c{at}", at in gaps)
        lines.append(f"c{at},in/c{at}/city.shp,in/c{at}/parcels.shp,{f'in/c{at}/zones.shp' if zones else ''},mm")
    manifest = folder / "manifest.csv"
    manifest.write_text("\n".join(lines) + "\n")
    return manifest


def program(folder: Path, monkeypatch: Any, lines: str) -> Path:
    """A program in place of the built one, a shell script that ends with it; `calls` has a line for each city's run.

    `lines` are run before it. In them `$city` is the folder of the city, and `once NAME` holds the first time alone.
    """
    script = folder / "program.sh"
    script.write_text(
        f"""#!/bin/sh
[ "$1" = --version ] && exec "{TOOL}" --version
case "$1 $2" in part*|*/gandovel-trial-*) exec "{TOOL}" "$@";; esac
city=$(dirname "$2")
once() {{ mkdir "$city/$1" 2> /dev/null; }}
echo "$(basename "$city") $1" >> "{folder}/calls"
{lines}
exec "{TOOL}" "$@"
"""
    )
    script.chmod(0o755)
    monkeypatch.setenv("GANDOVEL_TOOL", str(script))
    return script


def calls(folder: Path) -> List[str]:
    """The cities that a program of `program` was run for, in order."""
    path = folder / "calls"
    return [line.split()[0] for line in path.read_text().splitlines()] if path.is_file() else []


def told(out: Path, name: str, kind: str = "cities") -> Dict[str, Any]:
    """What a result's file says."""
    return json.loads((out / kind / name / "result.json").read_text())


def verdicts(summary: Any) -> Dict[str, Tuple[str, str]]:
    """The verdict and the code of each city."""
    return {it.name: (it.verdict, it.code) for it in summary.verdicts}


def names_in(folder: Path) -> Set[str]:
    """What stands in a folder, hidden names too."""
    return {path.name for path in folder.iterdir()}


def started(folder: Path, *words: Any) -> "subprocess.Popen[str]":
    """The command `gandovel many` in a folder, in a session of its own.

    It is stopped by SIGINT also where whoever runs the tests ignores that, as a shell's command in the background does.
    """
    path = os.pathsep.join([str(SOURCES), os.environ.get("PYTHONPATH", "")])
    return subprocess.Popen(
        [sys.executable, "-m", "gandovel", "many", *map(str, words)],
        cwd=str(folder),
        stdin=subprocess.DEVNULL,
        stdout=subprocess.PIPE,
        stderr=subprocess.PIPE,
        universal_newlines=True,
        start_new_session=True,
        preexec_fn=partial(signal.signal, signal.SIGINT, signal.SIG_DFL),
        env={**os.environ, "PYTHONPATH": path, "PYTHONDONTWRITEBYTECODE": "1"},
    )


def command(folder: Path, *words: Any) -> "subprocess.CompletedProcess[str]":
    """Runs the command `gandovel many` in a folder to its end."""
    process = started(folder, *words)
    out, errors = process.communicate(timeout=600)
    return subprocess.CompletedProcess(process.args, process.returncode, out, errors)


def until(what: Callable[[], Any], seconds: float = 120.0) -> Any:
    """Waits until a call answers something true, and answers it."""
    end = time.monotonic() + seconds
    while time.monotonic() < end:
        found = what()
        if found:
            return found
        time.sleep(0.05)
    raise AssertionError("it did not come to pass in time")


def have_results(out: Path, count: int) -> bool:
    """Whether so many cities have a result."""
    return len(list((out / "cities").glob("[!.]*/result.json"))) >= count if out.is_dir() else False


def kill_session(process: "subprocess.Popen[str]") -> None:
    """Kills a command that `started` began, with all processes of its session."""
    os.killpg(process.pid, signal.SIGKILL)
    process.communicate()


def processes_of(folder: Path) -> Dict[int, str]:
    """The running processes, by id, whose command line names a folder."""
    found = {}
    for place in Path("/proc").glob("[0-9]*"):
        try:
            words = (place / "cmdline").read_bytes().decode("utf-8", "replace")
            if str(folder) in words and "State:\tZ" not in (place / "status").read_text():
                found[int(place.name)] = words.replace("\0", " ")
        except OSError:
            pass
    return found
