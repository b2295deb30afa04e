"""Finding and running the proved program, `parcel_tool`, and reading what it prints, in whole millimetres."""
from __future__ import annotations

import os
import re
import shutil
import subprocess
import sys
from collections import defaultdict
from dataclasses import dataclass, field
from functools import lru_cache
from pathlib import Path
from typing import TYPE_CHECKING, Dict, List, Optional, Sequence, Tuple, Union

from ..errors import Refused

if TYPE_CHECKING:  # elsewhere where it is used: `gandovel many` has to begin fast
    import numpy as np

    from ..arrays import Array

PathLike = Union[str, "os.PathLike[str]"]


def run_packed() -> None:
    """The command `parcel_tool` of an installed wheel: the program that the wheel carries takes its place."""
    packed = Path(__file__).parents[1] / "bin/parcel_tool"
    if not packed.is_file():
        print("error: T1 this installation of gandovel carries no parcel_tool", file=sys.stderr)
        raise SystemExit(1)
    os.execv(packed, ["parcel_tool", *sys.argv[1:]])


def find_tool() -> str:
    """The program's path: `GANDOVEL_TOOL`, else the wheel's own, else the first on `PATH`. Refused T1 without any."""
    named = os.environ.get("GANDOVEL_TOOL")
    packed = Path(__file__).parents[1] / "bin/parcel_tool"
    found = named or (str(packed) if packed.is_file() else shutil.which("parcel_tool"))
    if found and os.path.isfile(found) and os.access(found, os.X_OK):
        return os.path.abspath(found)
    where = f"GANDOVEL_TOOL names {named}, which can't be run" if named else "set GANDOVEL_TOOL or put it on PATH"
    raise Refused("T1", f"the program parcel_tool is not there: {where}")


_PAIR = re.compile(r"^pair (\d+) (\d+)$", re.MULTILINE)
_AREA = re.compile(r"^area (\d+) (\d+) (\d+)$", re.MULTILINE)
_VERSION = re.compile(r"parcel_tool (\d+)\.(\d+)\.(\d+)\b.*")
WANTED = 2
"""The first number of the versions that fit."""


def program_version() -> str:
    """The line that the program says of itself. Refused T1 without any, T2 where it is another program or version."""
    path = find_tool()
    return _version_of(path, os.stat(path).st_mtime_ns)


@lru_cache(maxsize=None)
def _version_of(path: str, changed: int) -> str:
    """The version line of the program at a path, which was changed then: it is asked once."""
    try:
        ended = subprocess.run(
            [path, "--version"], stdin=subprocess.DEVNULL, stdout=subprocess.PIPE, stderr=subprocess.PIPE, timeout=60
        )
    except (OSError, subprocess.TimeoutExpired) as fault:
        raise Refused("T1", f"the program {path} can't be run: {' '.join(str(fault).split())}") from fault
    line = ended.stdout.decode(errors="replace").strip()
    found = _VERSION.fullmatch(line)
    if ended.returncode != 0 or not found:
        raise Refused("T2", f"{path} is no parcel_tool: --version says {line[:80]!r}, status {ended.returncode}")
    if int(found[1]) != WANTED:
        raise Refused("T2", f"{path} is {line}, and version {WANTED} is wanted: set GANDOVEL_TOOL")
    return line


def run_tool(arguments: Sequence[str], text: Optional[str] = None) -> Tuple[str, Optional[Refused]]:
    """Runs the program; what it printed, and its refusal (status 1) or None. Any other end is Refused T2."""
    program_version()
    command = [find_tool(), *arguments]
    try:
        ended = subprocess.run(
            command,
            input=text,
            stdin=None if text is not None else subprocess.DEVNULL,
            stdout=subprocess.PIPE,
            stderr=subprocess.PIPE,
            text=True,
        )
    except OSError as fault:
        raise Refused("T1", f"the program {command[0]} can't be run: {fault.strerror}") from fault
    if ended.returncode == 0:
        return ended.stdout, None
    errors = [line for line in ended.stderr.splitlines() if line.startswith("error: ")]
    if ended.returncode == 1 and errors:
        return ended.stdout, refusal(errors[-1][len("error: ") :])
    last = ended.stderr.strip().splitlines()[-1:] or [""]
    raise Refused("T2", f"parcel_tool {arguments[0]} ended with status {ended.returncode}: {last[0]}")


def ask(arguments: Sequence[str], text: Optional[str] = None) -> str:
    """As `run_tool`, but raises the refusal."""
    printed, refused = run_tool(arguments, text)
    if refused is not None:
        raise refused
    return printed


def run_explained(words: Sequence[str]) -> List[str]:
    """What `parcel_tool explain` prints of a code, or of all; nothing of a code that it does not have."""
    program_version()
    ended = subprocess.run([find_tool(), "explain", *words], stdin=subprocess.DEVNULL, capture_output=True, text=True)
    return ended.stdout.splitlines() if ended.returncode == 0 else []


_TEXT = re.compile(r"(?:(?P<role>file|city|parcels|zones|points|clerk \d+): )?(?P<code>[A-Z]\d+)\b ?(?P<rest>.*)")


def refusal(line: str) -> Refused:
    """The text behind `error: ` as a `Refused`: code, role and record; a place (an edge, in mm) stays in `text`."""
    found = _TEXT.fullmatch(line)
    if not found:
        return Refused("no memory" if line == "no memory" else "T2", "" if line == "no memory" else line)
    role, code, rest = found["role"] or "", found["code"], found["rest"]
    if role == "file":
        role = ""
    record = None
    if code in ("H1", "H3"):
        record = int(rest.split()[0])
    elif code.startswith("F"):
        at = re.search(r"record (\d+)", rest)
        record = int(at[1]) if at else None
    return Refused(code, rest, role=role, record=record)


def _edges(rows: Sequence[Sequence[int]] = ()) -> Array:
    import numpy as np

    return np.array(rows, dtype=np.int64).reshape(-1, 5)


@dataclass
class CheckAnswer:
    """What `check --all` says of a layer: `count` and `area2` (mm2, doubled) where it tiles; else its faults.

    `edges` has rows (ax, ay, bx, by, net), int64; `rings` maps a record to the fault of its ring.
    """

    count: int = 0
    area2: int = 0
    edges: Array = field(default_factory=_edges)
    rings: Dict[int, str] = field(default_factory=dict)
    refused: Optional[Refused] = None

    @property
    def tiles(self) -> bool:
        """Whether the program says that the layer tiles the city."""
        return self.refused is None


def check_all(city: PathLike, layer: PathLike, unit: str = "mm") -> CheckAnswer:
    """Runs `check CITY LAYER --all`. A layer that does not tile is an answer; any other refusal is raised."""
    return answer_of_check(*run_tool(["check", str(city), str(layer), "--unit", unit, "--all"]), _records(layer))


def answer_of_check(printed: str, refused: Optional[Refused], records: int) -> CheckAnswer:
    """What `check --all` printed of a layer of so many records; a refusal that is not of the layer itself is raised."""
    answer = CheckAnswer(refused=refused)
    if refused is not None and refused.code not in ("H1", "H2"):
        raise refused
    edges = []
    try:
        for line in printed.splitlines():
            words = line.split()
            if words[0] == "tiling":
                answer.count, answer.area2 = int(words[1]), int(words[2])
            elif words[0] == "edge":
                edges.append([*map(int, words[1:5]), int(words[6])])
            elif words[0] == "ring":
                answer.rings[int(words[1])] = " ".join(words[2:])
    except (IndexError, ValueError) as fault:
        raise _no_answer("check", printed) from fault
    if edges:
        answer.edges = _edges(edges)
    told = answer.count == records if refused is None else bool(edges or answer.rings)
    if not told:
        raise _no_answer("check", printed)
    return answer


def _no_answer(command: str, printed: str) -> Refused:
    """The refusal of an answer that is none."""
    last = (printed.strip().splitlines() or ["nothing"])[-1][:80]
    return Refused("T2", f"parcel_tool {command} gave no verdict that fits the layer; its last line: {last}")


def _records(main: PathLike) -> int:
    """How many records a layer has, by its index."""
    return (os.path.getsize(Path(main).with_suffix(".shx")) - 100) // 8


@dataclass(frozen=True)
class Overlaid:
    """An overlay's pairs, int64 of shape (n, 2), and for each twice the area that both have in common, in mm2.

    An area is a whole number, at most 1 away from the exact one; those of a parcel sum to its own. It is None where the
    program has told none.
    """

    pairs: Array
    area2: List[Optional[int]]


def overlay_pairs(city: PathLike, parcels: PathLike, zones: PathLike, workers: int = 0) -> Array:
    """The pairs (record, zone's record), int64 of shape (n, 2), of `overlay`. Refused where a layer does not tile.

    T2 where a record is in no pair, or the program says anything else than an overlay.
    """
    printed = ask(["overlay", str(city), str(parcels), str(zones), "--unit", "mm", *_threads(workers)])
    return _pairs_of(printed, parcels, zones)


def overlay_areas(city: PathLike, parcels: PathLike, zones: PathLike, workers: int = 0) -> Overlaid:
    """As `overlay_pairs`, with areas, by `overlay --areas`.

    T2, too, where the areas are not those of the pairs, or those of a parcel do not sum to what `area` says of it.
    """
    printed = ask(["overlay", str(city), str(parcels), str(zones), "--unit", "mm", "--areas", *_threads(workers)])
    pairs, area2 = _pairs_of(printed, parcels, zones), areas_told(printed)
    sums: Dict[int, int] = defaultdict(int)
    for record, doubled in zip(pairs[:, 0].tolist(), area2):
        sums[record] += doubled
    if sums != areas(parcels):
        raise _no_answer("overlay", printed)
    return Overlaid(pairs, [*area2])


def areas_told(printed: str) -> List[int]:
    """The areas that `overlay --areas` printed, in the order of its pairs. T2 where they are not those of the pairs."""
    told = _AREA.findall(printed)
    fit = len(told) == printed.count("\narea ")
    if not fit or [(record, zone) for record, zone, _ in told] != _PAIR.findall(printed):
        raise _no_answer("overlay", printed)
    return [int(doubled) for _, _, doubled in told]


def _threads(workers: int) -> List[str]:
    return ["--workers", str(workers)] if workers else []


def _pairs_of(printed: str, parcels: PathLike, zones: PathLike) -> Array:
    """The pairs that `overlay` printed, each record of both layers in one."""
    import numpy as np

    try:
        pairs = np.array(_PAIR.findall(printed), dtype=np.int64).reshape(-1, 2)
        if len(pairs) != printed.count("\npair ") + printed.startswith("pair "):
            raise ValueError("a line that is no pair")
    except (ValueError, OverflowError) as fault:
        raise _no_answer("overlay", printed) from fault
    for column, main in ((0, parcels), (1, zones)):
        if not np.array_equal(np.unique(pairs[:, column]), np.arange(1, _records(main) + 1)):
            raise _no_answer("overlay", printed)
    return pairs


def areas(main: PathLike, unit: str = "mm") -> Dict[int, int]:
    """Twice the exact area, in mm2, by record."""
    printed = ask(["area", str(main), "--unit", unit])
    try:
        found = {int(a): int(b) for a, b in (line.split() for line in printed.splitlines())}
    except ValueError as fault:
        raise _no_answer("area", printed) from fault
    if len(found) != _records(main):
        raise _no_answer("area", printed)
    return found


def locate_points(city: PathLike, parcels: PathLike, points: Sequence[Tuple[int, int]]) -> List[Tuple[str, List[int]]]:
    """For each point (x, y) in mm: (`inside` | `edge` | `outside`, records)."""
    text = "".join(f"{x} {y}\n" for x, y in points)
    printed = ask(["locate", str(city), str(parcels), "--unit", "mm", "--points", "-"], text)
    lines = [line.split() for line in printed.splitlines()]
    if [words[:2] for words in lines] != [[str(x), str(y)] for x, y in points]:
        raise _no_answer("locate", printed)
    return [(words[2], [int(word) for word in words[3:]]) for words in lines]


def export(city: PathLike, parcels: PathLike, base: PathLike, clerks: Sequence[PathLike] = ()) -> List[str]:
    """Runs `export` with clerks' files; the lines of their edits, as the program prints them."""
    options = [word for path in clerks for word in ("--clerk", str(path))]
    printed = ask(["export", str(city), str(parcels), "--unit", "mm", "--out", str(base), *options])
    if not any(line.startswith("exported ") for line in printed.splitlines()):
        raise _no_answer("export", printed)
    return [line for line in printed.splitlines() if line.startswith("clerk ")]
