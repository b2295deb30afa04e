"""What a metropolis is now: the folder that `prepare` wrote, and the recuts and journals in the folder of journals.

A recut is a folder `recut_N` there, which comes to stand by one rename: with it districts lie in it that lay elsewhere
before. What a crash left of one that did not come so far is taken away.
"""
from __future__ import annotations

import hashlib
import json
import re
import shutil
import sqlite3
from contextlib import closing
from dataclasses import dataclass, field, replace
from pathlib import Path
from typing import Any, Dict, List, Optional, Set, Tuple

from ..errors import JournalRefused, Refused
from ..live.journals import read_journal
from ..program.layer_files import read_rings
from ..serve.entries import Entry
from ..serve.past import Past
from .ids import A_DISTRICT, Ids
from .manifest import (
    BEFORE,
    NUMBERS,
    RECUT,
    SEEDS,
    DistrictRow,
    Manifest,
    place_of_island,
    read_json,
    test_district,
)

_ASIDE = re.compile(r"\.recut_[0-9]+")
_RECUT = re.compile(r"recut_([0-9]+)")


@dataclass(frozen=True)
class Seat:
    """Where a district is now: its row, the folder of its layer, its journal, and the ids of its parcels.

    `before` is how many entries its earlier journals have, and `seeds` what its layer's parcels were before, by record.
    """

    row: DistrictRow
    folder: Path
    journal: Path
    ids: Ids
    before: int = 0
    seeds: Optional[Path] = None

    @property
    def number(self) -> int:
        """The district's number."""
        return self.row.number


@dataclass
class State:
    """All districts as they are now, and what was before their present journals.

    `moved` says of parcels that went to another district which one; `past` has the entries of earlier journals, with
    global ids, `old` the same in order with their districts, and `keys` by their clients' keys.
    """

    folder: Path
    journals: Path
    manifest: Manifest
    seats: Dict[int, Seat] = field(default_factory=dict)
    outlines: Dict[int, Path] = field(default_factory=dict)
    cities: Dict[int, Path] = field(default_factory=dict)
    moved: Dict[int, int] = field(default_factory=dict)
    renumbered: Dict[str, Set[int]] = field(default_factory=dict)
    recuts: int = 0
    past: Past = field(default_factory=Past)
    old: List[Tuple[int, Entry]] = field(default_factory=list)
    keys: Dict[Tuple[str, str], Tuple[int, Entry]] = field(default_factory=dict)

    def home(self, parcel: int) -> int:
        """The district in which a parcel is, or was last."""
        return self.moved.get(parcel, parcel // A_DISTRICT)

    def numbered(self, number: str) -> List[int]:
        """The districts that may have parcels with a number, or that come from one that has it."""
        with closing(sqlite3.connect(f"{(self.folder / NUMBERS).resolve().as_uri()}?mode=ro", uri=True)) as numbers:
            rows = numbers.execute("SELECT district FROM numbers WHERE number = ?", (number,)).fetchall()
        return sorted({*(row[0] for row in rows), *self.renumbered.get(number, ())})

    def look(self, recut: Path) -> "Change":
        """What a recut, which stands, changes. Refused P1, W8."""
        told = read_json(recut / RECUT)
        try:
            return self._look(recut, told)
        except (KeyError, TypeError, ValueError, OSError) as fault:
            raise Refused("P1", f"{recut} is torn ({fault}): take it from a backup") from fault

    def _look(self, recut: Path, told: Dict[str, Any]) -> "Change":
        for name, digest in told["files"].items():
            if hashlib.sha256((recut / name).read_bytes()).hexdigest() != digest:
                raise Refused("W8", f"{recut / name} is not as it was written: take it from a backup")
        seats = [self._seat_of(recut, it) for it in told["districts"]]
        for number, others in told["neighbours"].items():
            seat = self.seats[int(number)]
            seats.append(replace(seat, row=replace(seat.row, neighbours=tuple(others))))
        lines = (recut / BEFORE).read_text(encoding="utf-8").splitlines()
        numbers = tuple(told["numbers"])
        return Change(recut, tuple(seats), int(told["moved"]), int(told["to"]), numbers, tuple(map(_entry_of, lines)))

    def _seat_of(self, recut: Path, told: Dict[str, Any]) -> Seat:
        """The seat of a district that a recut made."""
        row, of = DistrictRow.of(told["row"]), told["from"]
        was = self.seats[row.number]
        if of["layer"] != was.row.layer:
            text = f"{recut} goes on from another layer: name the folder that its journals were begun with"
            raise Refused("W8", f"district {row.number}: {text}")
        _test_closed(row.number, self.journals, of)
        ids = Ids(row.number, row.parcels, int(told["issued"]), tuple(map(int, told["own"])))
        journal, seeds = recut / f"district_{row.number}.txt", recut / f"{row.number}.{SEEDS}"
        return Seat(row, recut / str(row.number), journal, ids, was.before + int(of["entries"]), seeds)

    def take(self, change: "Change") -> None:
        """Takes in what a recut changes."""
        for seat in change.seats:
            self.seats[seat.number] = seat
        self.outlines[change.seats[0].row.island] = change.outlines
        self.moved[change.moved] = change.to
        for number in change.numbers:
            self.renumbered.setdefault(number, set()).add(change.to)
        for district, entry in change.entries:
            self.past.add(entry)
            self.old.append((district, entry))
            if entry.key is not None and entry.who is not None:
                self.keys[entry.who, entry.key] = district, entry
        self.recuts += 1


@dataclass(frozen=True)
class Change:
    """What a recut changes: seats, the two that it made first, and entries of journals that it closed.

    `moved` is the parcel that went `to` another district, and `numbers` are those by which it is found.
    """

    recut: Path
    seats: Tuple[Seat, ...]
    moved: int
    to: int
    numbers: Tuple[str, ...]
    entries: Tuple[Tuple[int, Entry], ...]

    @property
    def outlines(self) -> Path:
        """The layer of outlines from then on."""
        return self.recut / "districts.shp"


def _entry_of(line: str) -> Tuple[int, Entry]:
    """An entry of a journal that was closed, and its district."""
    told: Dict[str, Any] = json.loads(line)
    district = int(told.pop("district"))
    told["out"], told["new"] = tuple(told["out"]), tuple(told["new"])
    return district, Entry(**told)


def read_state(folder: Path, journals: Path) -> State:
    """What stands on the disk. Refused P1, P14, W8."""
    manifest = Manifest.load(folder)
    try:
        journals.mkdir(mode=0o700, parents=True, exist_ok=True)
        for place in [it for it in journals.iterdir() if _ASIDE.fullmatch(it.name)]:
            shutil.rmtree(place)
        recuts = sorted(int(found[1]) for found in map(_RECUT.fullmatch, _names(journals)) if found)
    except OSError as fault:
        raise Refused("P14", f"{journals}, for the journals, can't be made or read: {fault.strerror}") from fault
    state = State(folder, journals, manifest)
    for row in manifest.districts:
        place, journal = folder / "districts" / str(row.number), journals / f"district_{row.number}.txt"
        state.seats[row.number] = Seat(row, place, journal, Ids(row.number, row.parcels, row.parcels))
    for island in range(1, manifest.islands + 1):
        place = place_of_island(folder, island, manifest.islands)
        state.outlines[island], state.cities[island] = place / "districts.shp", place / "city.shp"
    if recuts != list(range(1, len(recuts) + 1)):
        raise Refused(
            "W8", f"{journals} has the recuts {recuts}: one before the last is missing: take it from a backup"
        )
    for number in recuts:
        state.take(state.look(journals / f"recut_{number}"))
    return state


def _names(folder: Path) -> List[str]:
    return [it.name for it in folder.iterdir()]


def test_state(state: State) -> Dict[int, int]:
    """Tests that each district has its own layer, in the outline of its row, and its own journal.

    Answers how many entries each one's present journal has. Refused W8, which names the district; as a journal is.
    """
    for island, path in state.outlines.items():
        outlines = read_rings(path)
        seats = [seat for seat in state.seats.values() if seat.row.island == island]
        if sorted(seat.row.record for seat in seats) != list(range(1, len(outlines) + 1)):
            raise Refused("W8", f"{path} has {len(outlines)} outlines, for {len(seats)} districts: prepare anew")
        for seat in seats:
            test_district(seat.row, seat.folder, outlines[seat.row.record - 1])
    return {number: _entries_of(state, seat) for number, seat in state.seats.items()}


def _entries_of(state: State, seat: Seat) -> int:
    """How many entries a district's journal has, which has to be its own."""
    if not seat.journal.exists() or not seat.journal.stat().st_size:
        return 0
    try:
        journal = read_journal(seat.journal)
    except JournalRefused as fault:
        where = seat.journal if fault.line is None else f"{seat.journal} line {fault.line}"
        text = f"the journal {where} is not as a session wrote it: take it from a backup"
        raise Refused(fault.code, f"district {seat.number}: {text}") from fault
    if journal.layer != seat.row.layer:
        whose = [it.number for it in state.seats.values() if it.row.layer == journal.layer]
        of = f"district {whose[0]}" if whose else "another layer"
        text = f"the journal {seat.journal} is of {of}: put each district's own journal in its place"
        raise Refused("W8", f"district {seat.number}: {text}")
    return len(journal.records)


def _test_closed(number: int, journals: Path, told: Dict[str, Any]) -> None:
    """Tests that the journal which a recut goes on from is as it was closed."""
    path = journals / told["journal"]
    try:
        journal = read_journal(path)
    except JournalRefused as fault:
        raise Refused(fault.code, f"district {number}: the journal {path} can't be read: {fault.text}") from fault
    found = {"layer": journal.layer, "digest": journal.digest, "entries": len(journal.records)}
    if any(found[name] != told[name] for name in found):
        text = f"the journal {path} is not the one that a recut goes on from: take it from a backup"
        raise Refused("W8", f"district {number}: {text}")
