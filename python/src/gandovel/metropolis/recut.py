"""A recut: one parcel goes to the district of another, so that both can be edited together.

Both districts take no edits meanwhile, and answer questions from their last version. What they become is written to a
new folder beside the journals, tested by the program, synchronised, and renamed once: a crash leaves the old pair or
the new one. Ids do not change, and the new folder names the digests of the journals that it goes on from.
"""
from __future__ import annotations

import asyncio
import hashlib
import os
import shutil
from contextlib import AsyncExitStack
from dataclasses import dataclass
from pathlib import Path
from typing import Any, Dict, List, Optional, Sequence, Tuple

import pandas as pd

from ..arrays import Array
from ..errors import Refused, RefusedEdit
from ..live.journals import read_journal
from ..program.layer_files import read_rings, write_rings
from ..program.tool import ask
from ..reading.prepared import Changes, Island, Prepared, Rows
from ..serve.faults import Fault
from ..serve.register import Register
from .borders import common_edge, neighbours_of, outline_of
from .cut import row_of
from .district import District, DistrictLayer
from .manifest import BEFORE, RECUT, SEEDS, as_lines, synchronise, write_json
from .office import Metropolis
from .outlines import Outlines
from .state import State


class NoRecut(Fault):
    """The border can't be moved along either parcel."""

    status_code = 409


@dataclass(frozen=True)
class Held:
    """A district that is recut: its parcels by ascending local ids, with their rings as the program exports them."""

    district: District
    register: Register
    ids: List[int]
    rings: List[Array]

    @property
    def layer(self) -> DistrictLayer:
        """Its layer."""
        layer = self.register.layer
        assert isinstance(layer, DistrictLayer)
        return layer


@dataclass(frozen=True)
class Piece:
    """What a district becomes: its parcels as (whose, local id, ring), by ascending global ids, and its outline."""

    held: Held
    parcels: List[Tuple[Held, int, Array]]
    outline: Array


async def together(metropolis: Metropolis, one: int, other: int) -> None:
    """Brings two parcels, by global ids, of neighbouring districts into one. Nothing where they are in one already.

    Raises `RefusedEdit` where they are no neighbours, `NoRecut`, `NotServing`; refused P14.
    """
    async with metropolis.changing:
        homes = [metropolis.home(it) for it in (one, other)]
        districts = sorted({it.number: it for it in homes if it is not None}.values(), key=lambda it: it.number)
        if len(districts) < 2:
            return
        async with AsyncExitStack() as stack:
            for district in districts:
                await stack.enter_async_context(district.edits.alone())
            registers = [await stack.enter_async_context(it.open()) for it in districts]
            number = metropolis.now.recuts + 1
            aside = metropolis.now.journals / f".recut_{number}"
            try:
                held = [await _held(aside, *it) for it in zip(districts, registers)]
                pieces, moved, to = _pieces(held, one, other)
                recut = _Recut(metropolis.now, aside, number, pieces, moved, to)
                await asyncio.get_running_loop().run_in_executor(None, recut.write)
            except OSError as fault:
                raise Refused("P14", f"the recut can't be written to {aside}: {fault.strerror}") from fault
            finally:
                shutil.rmtree(aside, ignore_errors=True)
            await _take_places(metropolis, recut)


async def _held(aside: Path, district: District, register: Register) -> Held:
    """A district's parcels of now, by the program's export."""
    aside.mkdir(mode=0o700, exist_ok=True)
    await register.shown()
    count = await register.export(aside / f"export_{district.number}")
    rings = read_rings(aside / f"export_{district.number}.shp")
    versions = register.versions
    ids = versions.ids(versions.places(versions.last)).tolist()
    if not count == len(rings) == len(ids):
        raise Refused("T3", f"district {district.number} exported {count} parcels, and has {len(ids)}")
    return Held(district, register, ids, rings)


def _pieces(held: Sequence[Held], one: int, other: int) -> Tuple[List[Piece], int, int]:
    """What both districts become, which parcel goes, and where to: the second to the first's, else the other way.

    Raises `RefusedEdit`, `NoRecut`.
    """
    places = [_place_of(held, it) for it in (one, other)]
    (first, at_first), (second, at_second) = places
    if not common_edge(first.rings[at_first], second.rings[at_second]):
        raise RefusedEdit("E4", "")
    for giver, at, taker, parcel in ((second, at_second, first, other), (first, at_first, second, one)):
        found = _moved(giver, at, taker)
        if found is not None:
            ordered = sorted(found, key=lambda piece: piece.held.district.number)
            return ordered, parcel, taker.district.number
    text = "neither parcel can go to the other's district, which would not be one piece without holes"
    raise NoRecut("recut", f"{text}: prepare the layer anew with another --parcels-a-district")


def _place_of(held: Sequence[Held], parcel: int) -> Tuple[Held, int]:
    for it in held:
        local = it.district.seat.ids.inward(parcel)
        if local is not None and local in it.ids:
            return it, it.ids.index(local)
    raise RefusedEdit("E2", f"{parcel} 0")


def _moved(giver: Held, at: int, taker: Held) -> Optional[List[Piece]]:
    """What both become where the giver's parcel at a place goes; None where one has no simple outline then."""
    found = []
    gone = (giver, giver.ids[at], giver.rings[at])
    for held in (giver, taker):
        parcels = [(held, local, ring) for local, ring in zip(held.ids, held.rings)]
        parcels = [it for it in parcels if it[0] is not giver or it[1] != gone[1]]
        parcels += [gone] if held is taker else []
        outline = outline_of([ring for _, _, ring in parcels]) if parcels else None
        if outline is None:
            return None
        parcels.sort(key=lambda it: it[0].district.seat.ids.outward(it[1]))
        found.append(Piece(held, parcels, outline))
    return found


class _Recut:
    """The folder of a recut: it is written aside, and comes to stand by one rename."""

    def __init__(self, state: State, aside: Path, number: int, pieces: List[Piece], moved: int, to: int) -> None:
        self._state, self._aside, self._number = state, aside, number
        self._pieces, self._moved, self._to = pieces, moved, to
        self.path = state.journals / f"recut_{number}"

    @property
    def island(self) -> int:
        """The island of both districts."""
        return self._pieces[0].held.district.seat.row.island

    @property
    def numbers(self) -> List[int]:
        """The numbers of both districts."""
        return [piece.held.district.number for piece in self._pieces]

    def write(self) -> None:
        """Writes it all, tests it by the program, and has it stand. OSError; refused as the program's commands are."""
        for path in self._aside.glob("export_*"):
            path.unlink()
        rings = self._write_outlines()
        beside = neighbours_of(rings)
        told = [self._written(piece, beside) for piece in self._pieces]
        entries = [line for piece in self._pieces for line in _entries_of(piece.held)]
        (self._aside / BEFORE).write_text(as_lines(entries), encoding="utf-8")
        write_json(self._aside / RECUT, self._facts(told, beside))
        synchronise(self._aside)
        os.rename(self._aside, self.path)
        synchronise_folder(self._state.journals)

    def _write_outlines(self) -> List[Array]:
        """The layer of outlines with both new ones, which has to tile the city."""
        rings = list(read_rings(self._state.outlines[self.island]))
        for piece in self._pieces:
            rings[piece.held.district.seat.row.record - 1] = piece.outline
        path = self._aside / "districts.shp"
        write_rings(path, rings)
        ask(["check", str(self._state.cities[self.island]), str(path), "--unit", "mm"])
        return rings

    def _written(self, piece: Piece, beside: List[Any]) -> Dict[str, Any]:
        """Writes the layer of a district: what the recut says of it."""
        row, number = piece.held.district.seat.row, piece.held.district.number
        here = self._aside / str(number)
        prepared, seeds = _prepared_of(piece)
        prepared.save(here)
        write_json(self._aside / f"{number}.{SEEDS}", seeds)
        others = self._numbers_of(beside[row.record - 1])
        made = row_of(number, row.island, row.record, here, len(piece.parcels), others)
        own = [held.district.seat.ids.outward(local) for held, local, _ in piece.parcels]
        return {"row": made.as_json(), "own": own, "issued": _issued(piece.held), "from": self._from(piece.held)}

    def _numbers_of(self, records: Any) -> Tuple[int, ...]:
        """The numbers of districts by their places, from 0, in the layer of outlines."""
        rows = [seat.row for seat in self._state.seats.values() if seat.row.island == self.island]
        return tuple(sorted(row.number for row in rows if row.record - 1 in records))

    def _from(self, held: Held) -> Dict[str, Any]:
        """The journal that a district goes on from."""
        path = held.district.seat.journal
        journal = read_journal(path)
        if len(journal.records) != len(held.register.entries):
            raise Refused("T3", f"district {held.district.number}: its journal has other entries than its session")
        told = {"layer": journal.layer, "digest": journal.digest, "entries": len(journal.records)}
        return {"journal": str(path.relative_to(self._state.journals)), **told}

    def _facts(self, told: List[Dict[str, Any]], beside: List[Any]) -> Dict[str, Any]:
        """What `recut.json` has."""
        changed = {}
        for seat in self._state.seats.values():
            if seat.row.island == self.island and seat.number not in self.numbers:
                others = self._numbers_of(beside[seat.row.record - 1])
                if others != seat.row.neighbours:
                    changed[str(seat.number)] = list(others)
        names = [BEFORE, *(f"{number}.{SEEDS}" for number in self.numbers)]
        sums = {name: hashlib.sha256((self._aside / name).read_bytes()).hexdigest() for name in names}
        sums["districts.shp"] = hashlib.sha256((self._aside / "districts.shp").read_bytes()).hexdigest()
        return {
            "number": self._number,
            "moved": self._moved,
            "to": self._to,
            "numbers": self._moved_numbers(),
            "neighbours": changed,
            "districts": told,
            "files": sums,
        }

    def _moved_numbers(self) -> List[str]:
        """The numbers by which the parcel that goes is found."""
        for piece in self._pieces:
            for held, local, _ in piece.parcels:
                if held is not piece.held:
                    prepared = held.layer.prepared
                    return sorted({prepared.number_of(row) for row in held.layer.origins(local)})
        return []


def _prepared_of(piece: Piece) -> Tuple[Prepared, Dict[str, Any]]:
    """A district's new layer as `prepare` would write it, and what its parcels were before, by record."""
    own = piece.held.layer
    prepared = own.prepared
    frames, numbers, shift = [prepared.parcels], list(prepared.numbers), len(prepared.numbers)
    places: Dict[int, int] = {-1: -1}
    for held, local, _ in piece.parcels:
        if held is not piece.held:
            rows = [row for row in held.layer.origins(local) if row >= 0]
            frames.append(held.layer.prepared.parcels.iloc[rows])
            numbers += [held.layer.prepared.numbers[row] for row in rows]
            places.update({row: shift + at for at, row in enumerate(rows)})
    parcels, seeds = Rows(), {}
    for record, (held, local, ring) in enumerate(piece.parcels, 1):
        told = held.layer.remembered([local])[local]
        if held is not piece.held:
            told["origins"] = [places[row] for row in told["origins"]]
        parcels.rings.append(ring)
        parcels.source.append(told["origins"][0])
        parcels.part.append(0)
        if told["facts"] is not None or len(told["origins"]) > 1:
            seeds[str(record)] = told
    frame = pd.concat(frames, ignore_index=True) if len(frames) > 1 else frames[0]
    island = Island(piece.outline, parcels)
    made = Prepared(frame, numbers, prepared.number, prepared.unit, [island], changes=Changes(), told=Changes().told())
    return made, seeds


def _issued(held: Held) -> int:
    """How many serials a district has given away: those before its layer, and those of its session."""
    ids = held.district.seat.ids
    brought = max((it for entry in held.register.entries for it in entry.new), default=ids.count)
    return ids.issued + max(0, brought - ids.count)


def _entries_of(held: Held) -> List[Dict[str, Any]]:
    """The entries of a district's journal that is closed, with global ids."""
    entries = map(held.district.outward, held.register.entries)
    return [{"district": held.district.number, **entry._asdict()} for entry in entries]


async def _take_places(metropolis: Metropolis, recut: _Recut) -> None:
    """Both districts are opened anew, and take the places of the old ones, which make no edit any more."""
    before = [metropolis.districts[it] for it in recut.numbers]
    for old in before:
        old.is_retired = True
    change = metropolis.now.look(recut.path)
    outlines = Outlines(recut.island, metropolis.now.cities[recut.island], change.outlines)
    made = [metropolis.seated(seat, outlines) for seat in change.seats if seat.number in recut.numbers]
    try:
        await outlines.start()
        for district in made:
            async with district.open():
                pass
    finally:  # one that could not be opened is tried again when it is asked
        metropolis.exchange(change, outlines, made)
    for old in before:
        metropolis.retire(old)


def synchronise_folder(folder: Path) -> None:
    """Brings a folder's own list of files to the disk."""
    handle = os.open(folder, os.O_RDONLY | os.O_DIRECTORY | os.O_CLOEXEC)
    try:
        os.fsync(handle)
    finally:
        os.close(handle)
