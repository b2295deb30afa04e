"""The folder of results: a folder a city, each whole or not there, and the lock that keeps a second run out."""
from __future__ import annotations

import fcntl
import json
import os
import shutil
import time
from concurrent.futures import ThreadPoolExecutor
from contextlib import contextmanager
from dataclasses import dataclass, field
from hashlib import sha256
from pathlib import Path
from typing import Any, Dict, Iterator, List, Optional, Sequence, TextIO, Tuple

from ..errors import Refused
from ..whole_file import whole_file
from .tasks import Program, Task
from .worker.files import Checked, checked, has_stamp

KINDS = ("cities", "faults", "overlays")
"""The folders of results, by what was asked."""

RINGS, FRAMES = "rings", "frames"
"""The folders of the districts' rings, and of what they are overlaid with."""

MARK = "many.json"
"""The file by which a folder is known as one that `gandovel many` made."""

DERIVED = ("summary.csv", "summary.json", "faults.gpkg", "pairs.csv")
"""What a run makes of the results; an earlier run's goes when a run begins."""


@dataclass(frozen=True)
class Result:
    """What the program said of a city, and of which files. `output` and `errors` are its words as they were.

    `inputs` has the SHA-256 by path, None of an index that was not there, and empty of a file that was not read;
    `stamps` has what a change of a file would change, of those that were old enough to tell by it. `seconds` are by the
    clock, of the program alone; `memory_kb` is the most memory that it had at once, in kB of 1,024 bytes. `records` is
    how many parcels the layer had, by its index; None where there was no index, or edits were applied.
    """

    name: str
    run: str
    program: Dict[str, str]
    command: Tuple[str, ...]
    inputs: Dict[str, Optional[str]]
    status: int
    seconds: float
    memory_kb: int
    output: str
    errors: str
    records: Optional[int] = None
    stamps: Dict[str, List[int]] = field(default_factory=dict)

    def has_read(self, path: str, it: Checked) -> bool:
        """Whether a file that the program read was this one, by its checksum or by its stamp."""
        stamp, sha = self.stamps.get(path), self.inputs.get(path)
        return bool(sha and sha == it.sha256) or (stamp is not None and tuple(stamp) == it.stamp)

    def has_read_as(self, other: "Result", path: str) -> bool:
        """Whether both have read the same file there, or both none."""
        one, two = self.inputs.get(path), other.inputs.get(path)
        if one and two:
            return one == two
        if one is None or two is None:
            return one == two
        return path in self.stamps and self.stamps[path] == other.stamps.get(path)


class ResultsFolder:
    """A folder of results, held by one run. Use it in a `with` statement.

    Refused P14 where the folder is another's or can't be made, P16 where another run holds it.
    """

    def __init__(self, path: Path) -> None:
        self.path = Path(os.path.abspath(path))
        self.lock: Optional[int] = None
        """The open lock file. What inherits it holds the folder, too: so tasks do that outlive a killed command."""

    def __enter__(self) -> "ResultsFolder":
        mark = self.path / MARK
        try:
            if self.path.exists() and (not self.path.is_dir() or (any(self.path.iterdir()) and not mark.is_file())):
                raise Refused("P14", f"{self.path} is there and no folder that gandovel many made")
            for kind in (*KINDS, RINGS):
                (self.path / kind).mkdir(parents=True, exist_ok=True)
            if not mark.is_file():
                mark.write_text("{}")
            self._take_lock()
        except OSError as fault:
            raise Refused("P14", f"{self.path} can't be written: {fault}") from fault
        return self

    def __exit__(self, *_: Any) -> None:
        if self.lock is not None:
            os.close(self.lock)
            self.lock = None

    def _take_lock(self) -> None:
        lock = os.open(self.path / "run.lock", os.O_RDWR | os.O_CREAT, 0o644)
        try:
            fcntl.flock(lock, fcntl.LOCK_EX | fcntl.LOCK_NB)
            os.ftruncate(lock, 0)
            holder = f"process {os.getpid()} on {os.uname().nodename}, since {time.strftime('%Y-%m-%d %H:%M:%S')}"
            os.write(lock, holder.encode("utf-8"))
        except BlockingIOError as fault:
            holder = os.read(lock, 500).decode("utf-8", "replace") or "another process"
            os.close(lock)
            raise Refused(
                "P16", f"another run holds {self.path}: {holder}, or tasks that it left; wait until it ends"
            ) from fault
        except OSError as fault:
            os.close(lock)
            raise Refused("P16", f"{self.path / 'run.lock'} can't be locked: {fault}") from fault
        self.lock = lock

    def begin(self, facts: Dict[str, Any]) -> None:
        """Clears away what an earlier run left half done or derived, and writes what this run is."""
        for left in [
            *(path for kind in (*KINDS, RINGS) for path in self.path.glob(f"{kind}/.*")),
            self.path / "engine",
            self.path / FRAMES,
        ]:
            shutil.rmtree(left, ignore_errors=True)
        try:
            for name in DERIVED:
                if (self.path / name).exists():
                    (self.path / name).unlink()
        except OSError as fault:
            raise Refused("P14", f"{self.path} can't be written: {fault}") from fault
        self.write(MARK, json.dumps(facts, indent=1))

    def write(self, name: str, text: str) -> None:
        """Writes a file of the folder under another name, then renames it."""
        with self.written(name) as file:
            file.write(text)

    @contextmanager
    def written(self, name: str) -> Iterator[TextIO]:
        """A file of the folder under another name, which is renamed when it is full. Refused P14."""
        with whole_file(self.path / name) as aside, open(aside, "w", encoding="utf-8", newline="") as file:
            yield file

    def run_of(self, kind: str, name: str) -> Optional[str]:
        """The run that made a result of a kind; None where there is none."""
        try:
            return str(json.loads(_read(f"{self.path}/{kind}/{name}/result.json"))["run"])
        except (OSError, ValueError, KeyError, TypeError):
            return None

    def stamp_of(self, kind: str, name: str) -> Optional[Tuple[int, int]]:
        """What another result in a result's place changes; None where there is none."""
        try:
            facts = os.stat(f"{self.path}/{kind}/{name}/result.json")
        except OSError:
            return None
        return facts.st_ino, facts.st_mtime_ns

    def result(self, kind: str, name: str) -> Optional[Result]:
        """A whole result, with output and error text; None where there is none, or one that the disk has torn."""
        folder = f"{self.path}/{kind}/{name}"
        try:
            told = json.loads(_read(f"{folder}/result.json"))
            output, errors = (_read(f"{folder}/{part}.txt") for part in ("output", "errors"))
            files = ((output, told["output"]), (errors, told["errors"]))
            if any(sha256(content).hexdigest() != it["sha256"] for content, it in files):
                return None
            inputs = {path: it and it.get("sha256", "") for path, it in told["inputs"].items()}
            return Result(
                told["name"],
                told["run"],
                told["program"],
                tuple(told["command"]),
                inputs,
                told["status"],
                told["seconds"],
                told["memory_kb"],
                output.decode("utf-8", "replace"),
                errors.decode("utf-8", "replace"),
                _records(told),
                {path: it["stamp"] for path, it in told["inputs"].items() if it and "stamp" in it},
            )
        except (OSError, ValueError, KeyError, TypeError):
            return None

    def frames_of(self, name: str) -> Path:
        """The folder of what a district is overlaid with."""
        return self.path / FRAMES / name

    def without_frames(self) -> None:
        """Removes what districts were overlaid with."""
        shutil.rmtree(self.path / FRAMES, ignore_errors=True)

    def rings_of(self, name: str) -> Path:
        """The folder of a district's ring."""
        return self.path / RINGS / name

    def kept(self, kind: str, tasks: Sequence[Task], program: Program, jobs: int) -> List[bool]:
        """For each task whether there is a whole result of the same program, question and inputs."""
        with ThreadPoolExecutor(max_workers=jobs) as pool:
            return list(pool.map(lambda task: self._is_kept(kind, task, program), tasks))

    def _is_kept(self, kind: str, task: Task, program: Program) -> bool:
        result = self.result(kind, task.name)
        if result is None or result.program != {"version": program.version, "sha256": program.sha256}:
            return False
        if asked(result.command[1:]) != asked(task.arguments) or list(result.inputs) != [
            path for path, _ in task.inputs
        ]:
            return False
        try:
            return all(_is_same(path, before, result.stamps.get(path)) for path, before in result.inputs.items())
        except OSError:
            return False


def _read(path: str) -> bytes:
    with open(path, "rb", buffering=0) as file:
        return file.read()


def _is_same(path: str, before: Optional[str], stamp: Optional[Sequence[int]]) -> bool:
    """Whether a file has the stamp that it had, else the checksum, where that is known. OSError where it can't be
    read."""
    if stamp is not None and has_stamp(path, stamp):
        return True
    if before == "":
        return False
    now = checked(path)
    return (now and now.sha256) == before


def _records(told: Dict[str, Any]) -> Optional[int]:
    """How many records the layer of parcels had, by the length of its index, if there was one and nothing edits it."""
    index = told["inputs"].get(f"{told['command'][3][:-4]}.shx")
    return None if index is None or "--clerk" in told["command"] else int((index["bytes"] - 100) // 8)


LONGEST = 200


def short(fault: object) -> str:
    """What a fault says, on one line and no longer than a line should be."""
    text = " ".join(str(fault).split()) or type(fault).__name__
    return text if len(text) <= LONGEST else f"{text[:LONGEST]} .."


def asked(arguments: Sequence[str]) -> List[str]:
    """The arguments without the number of threads, which changes no answer."""
    words = list(arguments)
    if "--workers" in words:
        at = words.index("--workers")
        del words[at : at + 2]
    return words
