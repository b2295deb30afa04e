"""Edits over all districts: within one as ever, a corner of a border in each that has it, and merges by a recut."""
from __future__ import annotations

import os
import secrets
from contextlib import AsyncExitStack
from pathlib import Path
from typing import Any, Dict, List, NamedTuple, Optional, Sequence, Set, Tuple

from ..errors import JournalBroken, Refused, RefusedEdit
from ..live.journals import Said
from ..serve.entries import Asked, Entry
from ..serve.faults import KeyReused, NotServing, Stale, TooBusy
from ..serve.register import Register
from .district import District
from .ids import corners_of, parcels_of, renamed
from .manifest import read_json, synchronise, write_json
from .office import Metropolis
from .recut import together
from .vectors import Vector

PENDING = "pending"
"""The folder of edits of several districts that are under way, beside the journals."""
_NOT_MADE = (RefusedEdit, Stale, KeyReused, TooBusy, JournalBroken)
"""Refusals after which it is sure that an edit was not made."""
TRIES = 5
"""How often it is looked again which district an edit is of, where a recut came between."""


class Made(NamedTuple):
    """An edit that was made: its district, its entry with global ids, the other halves, and whether it was before."""

    district: int
    entry: Entry
    also: Sequence[Tuple[int, Entry]]
    is_repeated: bool


class Edits:
    """Makes edits in a metropolis."""

    def __init__(self, metropolis: Metropolis) -> None:
        self._all = metropolis
        self._pending = metropolis.now.journals / PENDING
        self._unsettled: List[Path] = []
        """Notes of edits of which it was not known whether they were made."""

    async def submit(self, line: str, said: Said, at: Vector) -> Made:
        """Makes an edit, whose line has global ids, once all versions are as `at` says, where it names some.

        Raises as a register's `submit` does, with global ids and the districts' numbers of entries.
        """
        if said.key is not None:
            known = self._all.now.keys.get((said.name, said.key))
            if known is not None:
                return _known(known, line)
        for _ in range(TRIES):
            made = await self._try(line, said, at)
            if made is not None:
                return made
        raise NotServing("recut", "the districts are being recut: send the edit again with the same key")

    async def _try(self, line: str, said: Said, at: Vector) -> Optional[Made]:
        """One try: None where a recut came between."""
        kind = line.split(" ", 1)[0]
        if kind in ("insert", "straighten"):
            numbers = await self._all.at(*corners_of(line)[-1])
            if not numbers:
                raise RefusedEdit("E7" if kind == "insert" else "E11", "")
        else:
            found = [self._district_of(parcel) for parcel in parcels_of(line)]
            numbers = sorted({district.number for district in found})
            if len(numbers) > 1:
                await together(self._all, *parcels_of(line))
                numbers = sorted({self._district_of(parcel).number for parcel in parcels_of(line)})
                if len(numbers) > 1:
                    return None
        districts = [self._all.districts[number] for number in numbers]
        self._test_others(at, numbers)
        if len(districts) == 1:
            return await self._within(districts[0], line, said, at)
        return await self._across(districts, line, said, at)

    def _district_of(self, parcel: int) -> District:
        district = self._all.home(parcel)
        if district is None:
            raise RefusedEdit("E1", str(parcel))
        return district

    def _test_others(self, at: Vector, numbers: Sequence[int]) -> None:
        """Tests the versions of districts that the edit is not of. Raises `Stale`."""
        for number in at:
            district = self._all.districts.get(number)
            if number not in numbers and (district is None or district.entries != at[number]):
                raise _stale(number, 0 if district is None else district.entries)

    async def _within(self, district: District, line: str, said: Said, at: Vector) -> Optional[Made]:
        """An edit of one district."""
        async with district.edits.shared():
            if district.is_retired:
                return None
            async with district.open() as register:
                entry, is_repeated = await self._submitted(district, register, line, said, at.get(district.number))
        return Made(district.number, entry, (), is_repeated)

    async def _submitted(
        self, district: District, register: Register, line: str, said: Said, at: Optional[int]
    ) -> Tuple[Entry, bool]:
        """Makes an edit by a district's session: its entry with global ids."""
        before = district.seat.before
        local = renamed(line, lambda parcel: self._inward(district, parcel))
        if at is not None and at < before:
            raise _stale(district.number, district.entries)
        try:
            entry, is_repeated = await register.submit(Asked(local, said), None if at is None else at - before)
        except RefusedEdit as fault:
            raise _outward(fault, district) from None
        except Stale as fault:
            raise _stale(district.number, before + int(fault.more["entries"])) from None
        return district.outward(entry), is_repeated

    def _inward(self, district: District, parcel: int) -> int:
        local = district.seat.ids.inward(parcel)
        if local is not None:
            return local
        gone = self._all.now.past.taken_by(parcel)
        raise RefusedEdit("E1", str(parcel)) if gone is None else RefusedEdit("E2", f"{parcel} {gone.number}")

    async def _across(self, districts: Sequence[District], line: str, said: Said, at: Vector) -> Optional[Made]:
        """A corner of a border: an edit in each district that has it, in all or in none.

        The last one decides: it has the client's key. What was made before it is taken back where it is refused; what a
        crash left half made, too, at the next start, by the file that says what is under way.
        """
        async with AsyncExitStack() as stack:
            for district in districts:
                await stack.enter_async_context(district.edits.alone())
            if any(district.is_retired for district in districts):
                return None
            registers = [await stack.enter_async_context(district.open()) for district in districts]
            await self._settle_those({district.number for district in districts})
            last, deciding = districts[-1], registers[-1]
            if said.key is not None and await knows(deciding, said.name, said.key):
                entry, _ = await self._submitted(last, deciding, line, said, None)
                return Made(last.number, entry, (), True)
            for district in districts:
                if at.get(district.number, district.entries) != district.entries:
                    raise _stale(district.number, district.entries)
            halves = [_Half.of(district, register, line, said) for district, register in zip(districts, registers)]
            if said.key is not None:
                halves[-1] = halves[-1]._replace(said=said)
            made = await self._in_all(halves, line)
        return Made(made[-1][0], made[-1][1], made[:-1], False)

    async def _in_all(self, halves: Sequence["_Half"], line: str) -> List[Tuple[int, Entry]]:
        """Makes the halves of an edit, all or none."""
        note = self._note(halves, line)
        made: List[Tuple[int, Entry]] = []
        try:
            for half in halves:
                entry, _ = await self._submitted(half.district, half.register, line, half.said, None)
                made.append((half.district.number, entry))
        except Refused as fault:
            if not (isinstance(fault, _NOT_MADE) or fault.code == "not made"):
                self._unsettled.append(note)  # it is not known whether it was made: the next one sees to it, or a start
                raise
            for half in halves[: len(made)]:
                await self._taken_back(half)
            note.unlink()
            raise
        note.unlink()
        return made

    async def _taken_back(self, half: "_Half") -> None:
        """Takes back a half by the edit that undoes it."""
        said = Said(half.said.name, "", f"{half.said.key}-back")
        await half.register.submit(Asked(half.back, said))

    def _note(self, halves: Sequence["_Half"], line: str) -> Path:
        """Says on the disk what is under way."""
        told = {
            "edit": line,
            "halves": [
                {"district": it.district.number, "name": it.said.name, "key": it.said.key, "back": it.back}
                for it in halves
            ],
        }
        try:
            self._pending.mkdir(mode=0o700, exist_ok=True)
            path = self._pending / f"{secrets.token_hex(8)}.json"
            write_json(path.with_suffix(".new"), told)
            os.replace(path.with_suffix(".new"), path)
            synchronise(self._pending)
        except OSError as fault:
            raise NotServing("journal", f"{self._pending} can't be written: {fault.strerror}") from fault
        return path

    async def settle(self) -> None:
        """Takes back what was half made when a server ended. Raises as a district's start does."""
        for path in sorted(self._pending.glob("*")) if self._pending.is_dir() else ():
            if path.suffix == ".json":
                await self._settle(read_json(path))
            path.unlink()

    async def _settle_those(self, districts: Set[int]) -> None:
        """The same of these districts, while the server runs; no other edit of theirs is under way."""
        for path in list(self._unsettled):
            told = read_json(path)
            if districts.issuperset(half["district"] for half in told["halves"]):
                await self._settle(told)
                path.unlink()
                self._unsettled.remove(path)

    async def _settle(self, told: Dict[str, Any]) -> None:
        *firsts, last = told["halves"]
        async with self._all.districts[last["district"]].open() as register:
            if await knows(register, last["name"], last["key"]):
                return
        for half in firsts:
            async with self._all.districts[half["district"]].open() as register:
                if await knows(register, half["name"], half["key"]):
                    said = Said(half["name"], "", f"{half['key']}-back")
                    await register.submit(Asked(half["back"], said))


class _Half(NamedTuple):
    """The edit of a border's corner in one of its districts, and the edit that takes it back."""

    district: District
    register: Register
    said: Said
    back: str

    @classmethod
    def of(cls, district: District, register: Register, line: str, said: Said) -> "_Half":
        """The half of a district, by a key of its own."""
        key = f"~{secrets.token_hex(12)}"
        return cls(district, register, Said(said.name, said.why, key), back_of(line, register))


async def knows(register: Register, name: str, key: str) -> bool:
    """Whether a register has an entry of this client's by this key."""
    await register.shown()
    return any((entry.who, entry.key) == (name, key) for entry in register.entries)


def back_of(line: str, register: Register) -> str:
    """The edit that takes back one of a corner: of a corner that is straightened, by its neighbours in a ring."""
    corners = corners_of(line)
    if line.startswith("insert"):
        return f"straighten {corners[-1][0]} {corners[-1][1]}"
    x, y = corners[0]
    versions = register.versions
    for place in versions.places(versions.last, (x, y, x, y)).tolist():
        ring = [(int(a), int(b)) for a, b in versions.row(place).ring.tolist()]
        if (x, y) in ring:
            at = ring.index((x, y))
            (ax, ay), (bx, by) = ring[at - 1], ring[(at + 1) % len(ring)]
            return f"insert {ax} {ay} {bx} {by} {x} {y}"
    return line


def _known(known: Tuple[int, Entry], line: str) -> Made:
    """An edit that was made before the district was recut."""
    district, entry = known
    if entry.edit != line:
        raise KeyReused("key", "this Idempotency-Key came with another edit before: use a new one for each edit")
    return Made(district, entry, (), True)


def _stale(number: int, entries: int) -> Stale:
    text = f"district {number} has gone on to entry {entries}: look at it again, and send the edit with that number"
    return Stale("stale", text, entries=f"{number}:{entries}")


def _outward(fault: RefusedEdit, district: District) -> RefusedEdit:
    """A refusal with global ids."""
    words = fault.text.split()
    if fault.code in ("E1", "E2", "E12") and words and words[0] != "0":
        words[0] = str(district.seat.ids.outward(int(words[0])))
    if fault.code == "E2" and len(words) > 1:
        words[1] = str(district.seat.before + int(words[1]))
    return RefusedEdit(fault.code, " ".join(words))
