"""What a verdict stands on: one record, the same in print, JSON, the report and Python."""
from __future__ import annotations

import datetime
import hashlib
import re
from dataclasses import asdict, dataclass
from functools import lru_cache
from pathlib import Path
from typing import Any, Dict, List, Optional

from .. import __version__
from ..program.tool import find_tool, program_version
from ..reading.prepared import Prepared

MEASURED = [
    "precision.noise_mm",
    "precision.near_pairs",
    "precision.proposed",
    "touched.largest_mm",
    "touched.closed_m2",
    "moved.largest_mm",
    "unit.area_factor",
]
"""What of a basis is measured in floating point."""


UNKNOWN: Dict[str, Any] = {"how": "unknown", "grid_mm": None, "noise_mm": None, "corners_by_grid": [], "near_pairs": []}
"""The precision of a register that an earlier version of the package prepared."""


BAR = 30
"""How many signs the longest bar of a histogram has."""


@dataclass(frozen=True)
class Basis:
    """What a verdict stands on.

    `sources`: each layer's role, path, name and SHA-256. `projection` and `unit` as they were taken. `precision`: how
    finely the parcels are kept (`how`: grid, noise, exact, told or undecided), with the near pairs that were measured.
    `curves`: of each layer with arcs how many there are, as how many chords they were read, and how far these are off.
    `touch_mm`: how far off a border a corner touched it at most. `touched`, `moved`: how many corners, the farthest
    (mm), the area that touching closed (m2). `city`: where its outline is from. `program` and `package`: what judged,
    with versions; `built_over_proofs` and `texts`, the SHA-256 of the texts that the program was built of, are what its
    version line says, None where that says neither. `time`: when, in UTC.
    """

    sources: List[Dict[str, Any]]
    projection: Optional[str]
    unit: Dict[str, Any]
    precision: Dict[str, Any]
    curves: List[Dict[str, Any]]
    touch_mm: float
    touched: Dict[str, Any]
    moved: Dict[str, Any]
    city: str
    options: Dict[str, Any]
    program: Dict[str, Any]
    package: str
    time: str

    @classmethod
    def of(cls, prepared: Prepared) -> "Basis":
        """The basis of a verdict on a register, as of now."""
        told, unit = prepared.told, prepared.unit
        return cls(
            told.get("sources", []),
            None if prepared.crs is None else str(prepared.crs.name),
            {**asdict(unit), "metres": unit.millimetres / 1000},
            told.get("precision", UNKNOWN),
            told.get("curves", []),
            told["touch"],
            {"corners": told["touched"], "largest_mm": told["largest_touch"], "closed_m2": told["closed_m2"]},
            {"corners": told["moved"], "largest_mm": told["largest_move"]},
            told["city"],
            told.get("options", {}),
            _program(),
            f"gandovel {__version__}",
            datetime.datetime.now(datetime.timezone.utc).isoformat(timespec="seconds"),
        )

    def told(self) -> Dict[str, Any]:
        """It as a dictionary that JSON can write."""
        return {**asdict(self), "measured": MEASURED}

    def line(self) -> str:
        """It in one line: grid or noise, arcs, distance, corners that touch and move, the area closed."""
        return "; ".join([self._kept(), *self._curves(), self._distance(), self._moved()])

    def _kept(self) -> str:
        how, grid = self.precision["how"], self.precision["grid_mm"]
        if how == "told":
            return "the distance at which corners touch was told"
        if how == "grid":
            others = [one for one in self.precision["corners_by_grid"] if one["grid_mm"] != grid]
            count = sum(one["corners"] for one in others)
            return f"grid {_millimetres(grid)}" + (f" (another for {_corners(count)})" if count else "")
        if how == "noise":
            return f"no grid, but a noise of {_millimetres(self.precision['noise_mm'])} (measured)"
        if how == "undecided":
            return "no grid, and what is noise can't be told from faults"
        return "the grid is not known" if how == "unknown" else "no grid, and no noise"

    def _curves(self) -> List[str]:
        """How arcs were read; none where there are none."""
        arcs, chords = (sum(one[name] for one in self.curves) for name in ("arcs", "chords"))
        most = max((one["sagitta_mm"] for one in self.curves), default=0.0)
        what = f"{arcs} arc{'' if arcs == 1 else 's'} read as {chords} chords, {_millimetres(most)} off at most"
        return [what] if arcs else []

    def _distance(self) -> str:
        if self.touch_mm < 1e-3:
            return "corners are compared exactly"
        text = f"corners within {_millimetres(self.touch_mm)} of a border touch it"
        count = self.touched["corners"]
        if not count:
            return f"{text}, and none lay beside one"
        closed = f"{self.touched['closed_m2']:.2f} m2 closed"
        return f"{text}: {_corners(count)}, {_millimetres(self.touched['largest_mm'])} off at most, {closed} (measured)"

    def _moved(self) -> str:
        count = self.moved["corners"]
        if not count:
            return "no corner moved"
        return f"{_corners(count)} moved, {_millimetres(self.moved['largest_mm'])} at most (measured)"

    def advice(self) -> Optional[str]:
        """Where noise can't be told from faults: the distances that may be told instead, and what each would do."""
        if self.precision["how"] != "undecided":
            return None
        texts = [f"--touch {one['touch_mm']:g} ({_given(one)})" for one in self.precision["proposed"]]
        return (
            "it can't be decided how far off corners lie by the layer's rounding: their distances from borders have no "
            f"clear edge. Say it by one of these, which would give: {'; '.join(texts)}"
        )

    def text(self) -> str:
        """It as the report describes it: `line`, and `advice` where there is some."""
        unproved = ", built without proofs" if self.program["built_over_proofs"] is False else ""
        who = f"By {self.program['version']}{unproved}, SHA-256 {self.program['sha256']}, and {self.package}."
        return f"The verdict stands on: {self.line()}. {who} {self.advice() or ''}".rstrip()

    def histogram(self) -> str:
        """How far corners lie from borders that they nearly touch: a line with a bar for each distance.

        Empty where that was not measured.
        """
        pairs = self.precision["near_pairs"]
        most = max((one["pairs"] for one in pairs), default=0)
        if not most:
            return ""
        rows = [
            f"{_millimetres(one['up_to_mm']):>8} {'#' * -(-BAR * one['pairs'] // most):{BAR}} {one['pairs']}"
            for one in pairs
        ]
        return "\n".join(["Near pairs of a corner and a border, by how far they are apart at most (measured):", *rows])


def _given(proposal: Dict[str, Any]) -> str:
    """What a proposed distance would give."""
    pairs = f"{_counted(proposal['touching'], 'near pair')} touch{'es' if proposal['touching'] == 1 else ''}"
    if proposal.get("gaps") is None:
        return f"{pairs} (measured)"
    return f"{_counted(proposal['gaps'], 'gap')}, {_counted(proposal['overlaps'], 'overlap')}; {pairs} (measured)"


def _counted(count: int, noun: str) -> str:
    return f"{count} {noun}{'' if count == 1 else 's'}"


def _corners(count: int) -> str:
    return f"{count} corner{'' if count == 1 else 's'}"


def _millimetres(distance: float) -> str:
    text = f"{distance:.2f}".rstrip("0").rstrip(".") if distance >= 0.01 else f"{distance:.0e}" if distance else "0"
    return f"{text} mm"


_BUILT = re.compile(r"parcel_tool \S+ \([^,()]+, (proved|unproved), texts ([0-9a-f]{64})\)")
"""The version line of a program that says how and of what it was built."""


def _program() -> Dict[str, Any]:
    path, line = Path(find_tool()), program_version()
    built = _BUILT.fullmatch(line)
    return {
        "version": line,
        "sha256": _digest(str(path), path.stat().st_mtime_ns),
        "built_over_proofs": None if built is None else built[1] == "proved",
        "texts": None if built is None else built[2],
    }


@lru_cache(maxsize=8)
def _digest(path: str, changed: int) -> str:
    """The SHA-256 of a file, that was changed then: it is read once."""
    return hashlib.sha256(Path(path).read_bytes()).hexdigest()
