"""What a session answers, line by line, as values and named errors. All coordinates are whole millimetres."""
from __future__ import annotations

import re
from dataclasses import dataclass
from typing import Dict, List, Optional, Sequence, Tuple, Type, Union

import numpy as np

from ..arrays import Array
from ..errors import (
    BadAnswer,
    CardsMissing,
    JournalBroken,
    JournalInUse,
    JournalRefused,
    NoCard,
    NoMemory,
    NoSuchLine,
    NoVersion,
    NoWindow,
    NoZones,
    OperatorsOnly,
    Refused,
    RefusedEdit,
    SessionClosed,
    SessionError,
)
from ..program.tool import refusal


@dataclass(frozen=True)
class Accepted:
    """An edit that was made: its entry's number, the ids that it took out, and those of the rows that it brought."""

    number: int
    out: Tuple[int, ...]
    new: Tuple[int, ...]


@dataclass(frozen=True)
class Place:
    """Where a point (mm) lies after `entries` edits.

    `where` is `inside` (of the one parcel of `ids`), `edge` (of all parcels of `ids`, ascending) or `outside` (none).
    """

    entries: int
    x: int
    y: int
    where: str
    ids: Tuple[int, ...]


@dataclass(frozen=True, eq=False)
class Outline:
    """A parcel after `entries` edits: `ring` has its corners, int64 of shape (k, 2) in mm, counterclockwise.

    The first corner is the least, and does not come again at the end. `area2` is twice the area in mm2, exact.
    """

    entries: int
    id: int
    area2: int
    ring: Array


@dataclass(frozen=True)
class Tiling:
    """The parcels tile the city: `count` of them, and `area2`, twice the city's area in mm2."""

    count: int
    area2: int


@dataclass(frozen=True, eq=False)
class Overlaps:
    """Which parcels and zones have a common point inside, after `entries` edits.

    `pairs` has rows (parcel, zone), int64 of shape (n, 2), ascending; `split` the parcels in two zones or more;
    `within` rows (parcel, zone) of the others, int64 of shape (m, 2). `area2` has for each pair twice the area that
    both have in common, in mm2, at most 1 away; those of a parcel sum to its own. It is None where no areas were asked
    for.
    """

    entries: int
    pairs: Array
    split: Tuple[int, ...]
    within: Array
    area2: Optional[Tuple[int, ...]] = None


ERRORS: Dict[str, Type[SessionError]] = {
    "L1": NoSuchLine,
    "K4": NoVersion,
    "no memory": NoMemory,
    "operator": OperatorsOnly,
    "no card": NoCard,
    "no window": NoWindow,
    "journal": JournalBroken,
    "closed": SessionClosed,
    "no zones": NoZones,
    "no base": SessionError,
    "K2": CardsMissing,
}

_ERROR = re.compile(r"error: (L1|K4|no memory|operator|no card|no window|journal|closed|no zones|no base|K2)(?: (.*))?")
_ACCEPTED = re.compile(r"ok ([0-9]+) out((?: [0-9]+)*) new((?: [0-9]+)*)")
_REFUSED = re.compile(r"refused (E[0-9]+|no memory)(?: (.*))?")
_PLACE = re.compile(r"at ([0-9]+) (-?[0-9]+) (-?[0-9]+) (?:(inside)( [0-9]+)|(edge)((?: [0-9]+)+)|(outside))")
_PARCEL = re.compile(r"parcel ([0-9]+) ([0-9]+) (?:none|([0-9]+)((?: -?[0-9]+ -?[0-9]+){3,}))")
_OVERLAP = re.compile(r"(pair|within) ([0-9]+) ([0-9]+)|(split) ([0-9]+)")
_AREA = re.compile(r"area ([0-9]+) ([0-9]+) (-?[0-9]+)")
_JOURNAL = re.compile(
    r"(?: line ([0-9]+))?: (?:refused )?(S1|in use|no journal|another layer|changed|no memory|E[0-9]+)(?: (.*))?"
)


def test_error(line: str) -> None:
    """Raises what an answer `error: TEXT` says; any other line is left."""
    if not line.startswith("error: "):
        return
    found = _ERROR.fullmatch(line)
    if found:
        raise ERRORS[found[1]](found[1], found[2] or "")
    told = refusal(line[len("error: ") :])
    if told.code == "T2":
        raise bad(line, "an error")
    raise SessionError(told.code, told.text, told.role, told.record)


def bad(line: str, wanted: str) -> BadAnswer:
    """The error for an answer that is not what was wanted."""
    return BadAnswer("T3", f"not {wanted}: {line[:200]!r}")


def accepted_of(line: str) -> Accepted:
    """The answer to an edit. Raises `RefusedEdit`, and `BadAnswer`."""
    found = _ACCEPTED.fullmatch(line)
    if found:
        return Accepted(int(found[1]), _numbers(found[2]), _numbers(found[3]))
    refused = _REFUSED.fullmatch(line)
    if refused:
        raise RefusedEdit(refused[1], refused[2] or "")
    raise bad(line, "the answer to an edit")


def place_of(line: str, x: int, y: int) -> Place:
    """The answer to `locate x y`. Raises `BadAnswer`, also where it tells of another point."""
    found = _PLACE.fullmatch(line)
    if not found or (int(found[2]), int(found[3])) != (x, y):
        raise bad(line, f"where ({x}, {y}) lies")
    where = found[4] or found[6] or found[8]
    return Place(int(found[1]), x, y, where, _numbers(found[5] or found[7] or ""))


def outline_of(line: str, parcel: int) -> Optional[Outline]:
    """The answer to `parcel ID`; None where none has the id. Raises `BadAnswer`, also where it tells of another."""
    found = _PARCEL.fullmatch(line)
    if not found or int(found[2]) != parcel:
        raise bad(line, f"parcel {parcel}")
    if found[3] is None:
        return None
    return Outline(int(found[1]), parcel, int(found[3]), np.array(found[4].split(), dtype=np.int64).reshape(-1, 2))


def count_of(line: str, word: str) -> int:
    """The number N of an answer `word N`. Raises `BadAnswer`."""
    found = re.fullmatch(f"{word} ([0-9]+)", line)
    if not found:
        raise bad(line, f"`{word} NUMBER`")
    return int(found[1])


def tiling_of(lines: Sequence[str]) -> Tiling:
    """The report of `check`. Raises `BadAnswer`."""
    found = re.fullmatch("tiling ([0-9]+) ([0-9]+)", "\n".join(lines))
    if not found:
        raise bad("\n".join(lines), "`tiling N AREA2`")
    return Tiling(int(found[1]), int(found[2]))


def overlaps_of(lines: Sequence[str], areas: bool = False) -> Overlaps:
    """The report of `overlay`, or of `overlay areas`. Raises `BadAnswer`, also where an area is not of the pair in its
    place."""
    entries = count_of(lines[0] if lines else "", "entries")
    told: Dict[str, List[Tuple[int, ...]]] = {"pair": [], "within": [], "split": []}
    count = sum(line.startswith("pair ") for line in lines) if areas else 0
    for line in lines[1 : len(lines) - count]:
        found = _OVERLAP.fullmatch(line)
        if not found:
            raise bad(line, "a line of an overlay")
        told[found[1] or found[4]].append(_numbers(line.partition(" ")[2]))
    pairs, within = (np.array(told[kind], dtype=np.int64).reshape(-1, 2) for kind in ("pair", "within"))
    area2 = tuple(map(_area_of, lines[len(lines) - count :], told["pair"])) if areas else None
    return Overlaps(entries, pairs, tuple(ids[0] for ids in told["split"]), within, area2)


def _area_of(line: str, pair: Tuple[int, ...]) -> int:
    """The area that a line tells of a pair. Raises `BadAnswer`, also where it is of another."""
    found = _AREA.fullmatch(line)
    if not found or (int(found[1]), int(found[2])) != pair:
        raise bad(line, f"the area of parcel {pair[0]} in zone {pair[1]}")
    return int(found[3])


def start_refused(text: str, journal: Optional[str]) -> Union[Refused, JournalRefused]:
    """Why a session did not begin: `text` behind `error: `, and the journal's path as it was given."""
    found = _JOURNAL.fullmatch(text[len(journal) :]) if journal and text.startswith(journal) else None
    if not found:
        return refusal(text)
    kind = JournalInUse if found[2] == "in use" else JournalRefused
    return kind(found[2], found[3] or "", int(found[1]) if found[1] else None)


def _numbers(words: str) -> Tuple[int, ...]:
    return tuple(map(int, words.split()))
