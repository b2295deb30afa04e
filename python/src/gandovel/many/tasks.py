"""Tasks: what the program is asked of a city, on which files, within which limits; and how an engine is given them."""
from __future__ import annotations

import json
import subprocess
import tempfile
import time
from dataclasses import dataclass, field
from pathlib import Path
from typing import Any, Callable, Dict, Iterable, List, Optional, Sequence, Tuple

from ..errors import Refused
from ..program.tool import find_tool
from .manifest import Row
from .rings import files_of, polygon_of
from .worker.files import SETTLED, checked

WORKER = Path(__file__).parent / "worker/start.py"
"""What an engine starts for a list of tasks, with the list's file as its word."""


@dataclass(frozen=True)
class Program:
    """The proved program: its path, what `--version` prints, and its file's SHA-256; what a change of the file
    changes."""

    path: str
    version: str
    sha256: str
    stamp: Optional[Tuple[int, ...]] = None


@dataclass(frozen=True)
class Task:
    """One process of the program: its arguments, and the files it reads, each with whether it has to be there.

    Of the files in `by_bytes` the checksum is taken however old they are: a run writes them anew where they are
    damaged.
    """

    name: str
    arguments: Tuple[str, ...]
    inputs: Tuple[Tuple[str, bool], ...]
    by_bytes: Tuple[str, ...] = ()


@dataclass(frozen=True)
class Limits:
    """What a task may take: seconds by the clock, and kB of address space of the program; None for no limit."""

    timeout: Optional[float] = None
    memory_kb: Optional[int] = None


def find_program() -> Program:
    """The program that `gandovel` finds. Refused T1 where there is none, it tells no version, or a trial ends
    wrongly."""
    path = find_tool()
    try:
        ended = subprocess.run(
            [path, "--version"],
            stdin=subprocess.DEVNULL,
            stdout=subprocess.PIPE,
            stderr=subprocess.PIPE,
            universal_newlines=True,
        )
        here = checked(path)
    except (OSError, UnicodeDecodeError) as fault:
        raise Refused("T1", f"the program {path} can't be run: {fault}") from fault
    version = ended.stdout.strip()
    if ended.returncode != 0 or not version or here is None or here.sha256 is None:
        raise Refused("T1", f"the program {path} tells no version: status {ended.returncode}")
    _try(path)
    return Program(
        path, version, here.sha256, here.stamp if time.time() * 1e9 - here.stamp[3] > 1e9 * SETTLED else None
    )


def _try(path: str) -> None:
    """Asks a program about a square that tiles itself, and about one with a gap. Refused T1 where it says anything
    else."""
    with tempfile.TemporaryDirectory(prefix="gandovel-trial-") as name:
        city, part = Path(name) / "city.shp", Path(name) / "part.shp"
        for place, width in ((city, 10), (part, 9)):
            main, index = files_of(polygon_of([0, 0, 0, 10, width, 10, width, 0, 0, 0]))
            place.write_bytes(main)
            place.with_suffix(".shx").write_bytes(index)
        for layer, expected in ((city, (0, "tiling 1 200\n")), (part, (1, ""))):
            words = [path, "check", str(city), str(layer), "--unit", "mm"]
            ended = subprocess.run(words, stdin=subprocess.DEVNULL, stdout=subprocess.PIPE, stderr=subprocess.PIPE)
            if (ended.returncode, ended.stdout.decode(errors="replace")) != expected:
                kind = "tiles" if expected[1] else "has a gap"
                raise Refused("T1", f"{path} is not parcel_tool: it does not say of a layer that {kind} that it does")


def task_of(row: Row, threads: int = 1) -> Task:
    """What a row with a city asks, by so many threads: an overlay where it has zones, else a check with every fault."""
    if row.zones is None:
        return faults_task_of(row, "parcels", threads)
    city, clerks = str(row.city), [word for path in row.edits for word in ("--clerk", path)]
    return Task(
        row.name,
        ("overlay", city, row.parcels, row.zones, "--unit", row.unit, *clerks, "--workers", str(threads)),
        _inputs([city, row.parcels, row.zones], row.edits),
        _ring_of(row),
    )


def faults_task_of(row: Row, role: str, threads: int = 1) -> Task:
    """The check that tells every fault of a layer, `parcels` or `zones`, of a row with a city."""
    city, layer, edits = str(row.city), row.parcels, row.edits
    if role == "zones" and row.zones is not None:
        layer, edits = row.zones, ()
    clerks = [word for path in edits for word in ("--clerk", path)]
    words = ("check", city, layer, "--unit", row.unit, "--all", *clerks, "--workers", str(threads))
    return Task(row.name, words, _inputs([city, layer], edits), _ring_of(row))


def _ring_of(row: Row) -> Tuple[str, ...]:
    """The files of a district's ring, which the run writes."""
    return () if row.part_of is None or row.city is None else tuple(dict(_inputs([row.city], ())))


def _inputs(layers: Sequence[str], edits: Sequence[str]) -> Tuple[Tuple[str, bool], ...]:
    found = {}
    for path in layers:
        found[path] = True
        if path.endswith(".shp"):  # the program looks for no index beside a name in capitals
            found[path[: -len(".shp")] + ".shx"] = False
    found.update(dict.fromkeys(edits, True))
    return tuple(found.items())


@dataclass
class Batch:
    """Tasks that an engine runs, numbered from 0; their lists and the engine's own files are in a folder.

    `has_result` tells whether this run has put a task's result in place.
    """

    folder: Path
    tasks: List[Task]
    run: str
    has_result: Callable[[Task], bool]
    common: Dict[str, Any] = field(default_factory=dict)
    """What the worker is told of each task."""

    def line_of(self, number: int) -> str:
        """What the worker is told of a task, as a line of a list."""
        task = self.tasks[number]
        command = [self.common["command"], *task.arguments]
        told = {"name": task.name, "command": command, "inputs": dict(task.inputs), "read": list(task.by_bytes)}
        return json.dumps({**self.common, **told}) + "\n"

    def write(self, results: Path, program: Program, limits: Limits, by_bytes: bool = False) -> None:
        """Makes the folder, and says what holds of each task. `results` is the folder that has their results.

        With `by_bytes` a task compares its files by all their bytes, and not by their times, where these say as much.
        """
        notes = self.folder / "failed"
        notes.mkdir(parents=True)
        self.common = {
            "run": self.run,
            "folder": str(results),
            "notes": str(notes),
            "command": program.path,
            "program": {"version": program.version, "sha256": program.sha256},
            "program_stamp": program.stamp,
            "timeout": limits.timeout,
            "memory_kb": limits.memory_kb,
            "by_bytes": by_bytes,
        }

    def left(self, numbers: Optional[Iterable[int]] = None) -> List[int]:
        """The tasks, of these or of all, that have no result of this run."""
        asked = range(len(self.tasks)) if numbers is None else numbers
        return [number for number in asked if not self.has_result(self.tasks[number])]

    def note(self, number: int) -> Optional[Tuple[str, str]]:
        """The code and text that the task itself left of why it has no result."""
        try:
            note = json.loads((self.folder / "failed" / f"{self.tasks[number].name}.json").read_text(encoding="utf-8"))
            return (note["code"], note["text"]) if note["run"] == self.run else None
        except (OSError, ValueError, KeyError):
            return None
