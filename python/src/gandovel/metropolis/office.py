"""All districts at one address: which of them a parcel, a point or an edit is of, and what they answer together."""
from __future__ import annotations

import asyncio
import fcntl
import heapq
import os
from contextlib import AsyncExitStack, asynccontextmanager
from dataclasses import dataclass
from pathlib import Path
from typing import Any, AsyncIterator, Dict, Iterator, List, Optional, Sequence, Set, Tuple

import numpy as np

from ..arrays import Array
from ..errors import JournalInUse, Refused
from ..large.cutting import boxes_of
from ..serve.entries import Entry

from ..serve.register import Register
from .district import District
from .outlines import Outlines
from .state import Change, Seat, State, read_state, test_state
from .vectors import Vector, text_of

TEND = 1.0
"""Seconds between two looks at which districts may sleep."""


@dataclass(frozen=True)
class Where:
    """Where a point lies: `inside` of one parcel, on the `edge` of several, or `outside`; by which versions."""

    versions: Vector
    where: str
    parcels: List[int]


class Metropolis:
    """The districts of a metropolis, for one event loop. `start` it first, `close` it last."""

    def __init__(self, folder: Path, journals: Path, awake: int, keep: int = 10_000, crs: Optional[str] = None) -> None:
        """Reads both folders. `awake` districts may be so while nobody asks them.

        Refused P1, P14, W8; `JournalInUse` where another server has the journals.
        """
        self._awake, self._keep, self._crs = awake, keep, crs
        self._lock = _locked(journals)
        self.outlines: Dict[int, Outlines] = {}
        self.districts: Dict[int, District] = {}
        try:
            self.now: State = read_state(folder, journals)
            self._read(test_state(self.now))
        except BaseException:
            os.close(self._lock)
            raise
        self._boxes: Optional[Tuple[List[int], Array]] = None
        self.exchanges = 0
        """How often districts took the places of others."""
        self.stage, self.changing = "starting", asyncio.Lock()
        """`changing` is held while districts are recut, one pair at a time."""
        self._tending: Optional["asyncio.Task[None]"] = None
        self._retiring: Set["asyncio.Task[None]"] = set()

    def _read(self, counts: Dict[int, int]) -> None:
        """Reads the layers of outlines; each district is at its seat then, with so many entries, and asleep."""
        for island, path in self.now.outlines.items():
            self.outlines[island] = Outlines(island, self.now.cities[island], path)
        for number, seat in self.now.seats.items():
            self.districts[number] = self.seated(seat, self.outlines[seat.row.island], counts[number])

    def seated(self, seat: Seat, outlines: Outlines, count: int = 0) -> District:
        """A district at a seat, asleep; `count` is how many entries its journal has."""
        return District(seat, outlines.rings[seat.row.record - 1], count, self._crs, self._keep)

    def exchange(self, change: Change, outlines: Outlines, made: Sequence[District]) -> None:
        """Districts that a recut made take the places of the old ones, all at one moment."""
        self.now.take(change)
        self.outlines[outlines.island].close()
        self.outlines[outlines.island] = outlines
        for district in made:
            self.districts[district.number] = district
        for seat in change.seats[len(made) :]:
            self.districts[seat.number].seat = seat
        self._boxes, self.exchanges = None, self.exchanges + 1

    async def start(self) -> None:
        """Opens the layers of outlines, which the program refuses where they do not tile. Refused W8."""
        for outlines in self.outlines.values():
            await outlines.start()
        self.stage = "serving"
        self._tending = asyncio.get_running_loop().create_task(self._tend())

    async def close(self) -> None:
        """Ends all sessions: edits that were taken are answered."""
        if self.stage == "closed":
            return
        self.stage = "closed"
        if self._tending is not None:
            self._tending.cancel()
        for task in self._retiring:
            task.cancel()
        await asyncio.gather(*(district.end() for district in self.districts.values()))
        for outlines in self.outlines.values():
            outlines.close()
        os.close(self._lock)

    # which districts

    def home(self, parcel: int) -> Optional[District]:
        """The district that a parcel is in, or was last; None where there is none of its number."""
        return self.districts.get(self.now.home(parcel))

    def boxes(self) -> Tuple[List[int], Array]:
        """The districts, and the boxes of their outlines in mm."""
        if self._boxes is None:
            numbers = sorted(self.districts)
            self._boxes = numbers, boxes_of([self.districts[it].outline for it in numbers])
        return self._boxes

    def near(self, low: Sequence[float], high: Sequence[float]) -> List[int]:
        """The districts whose outlines' boxes meet a box in mm."""
        numbers, boxes = self.boxes()
        meets = (boxes[:, :2] <= np.array(high)).all(axis=1) & (boxes[:, 2:] >= np.array(low)).all(axis=1)
        return [numbers[at] for at in np.flatnonzero(meets).tolist()]

    async def at(self, x: int, y: int) -> List[int]:
        """The districts that a point (mm) is in, or on the edge of: by the program, where two boxes have it."""
        while True:
            before = self.exchanges
            found = await self._at(x, y)
            if before == self.exchanges:
                return found

    async def _at(self, x: int, y: int) -> List[int]:
        found = self.near((x, y), (x, y))
        if len(found) < 2:
            return found
        several: List[int] = []
        for island in {self.districts[number].seat.row.island for number in found}:
            records = set(await self.outlines[island].at(x, y))
            rows = [it.seat.row for it in self.districts.values() if it.seat.row.island == island]
            several += [row.number for row in rows if row.record in records]
        return sorted(several)

    @asynccontextmanager
    async def reading(self, numbers: Sequence[int]) -> AsyncIterator[List[District]]:
        """Districts of one moment: a recut that comes meanwhile is not seen. They wake as they are opened."""
        districts = [self.districts[number] for number in numbers]
        for district in districts:
            district.users += 1
        try:
            yield districts
        finally:
            for district in districts:
                district.users -= 1

    # questions

    async def locate_line(self, x: int, y: int) -> bytes:
        """`locate` as a session's line; its version is a vector."""
        it = await self.locate(x, y)
        ids = " ".join(map(str, it.parcels))
        return f"at {text_of(it.versions)} {x} {y} {it.where} {ids}".rstrip().encode()

    async def locate(self, x: int, y: int) -> Where:
        """Where a point (mm) lies, by the sessions of the districts that have it."""
        versions: Vector = {}
        kinds, parcels = set(), []
        async with self.reading(await self.at(x, y)) as districts:
            for district in districts:
                async with district.open() as register:
                    place = await register.locate(x, y)
                versions[district.number] = district.seat.before + place.entries
                kinds.add(place.where)
                parcels += [district.seat.ids.outward(it) for it in place.ids]
        where = next((it for it in ("inside", "edge") if it in kinds), "outside")
        return Where(versions, where, sorted(parcels))

    def versions(self) -> Vector:
        """After how many entries of each district that has some it is now."""
        return {number: it.entries for number, it in sorted(self.districts.items()) if it.entries}

    async def entries_after(self, after: Vector, limit: int) -> Tuple[List[Tuple[int, Entry]], Vector]:
        """The first entries of all districts behind a vector of versions, merged by time; and the vector of now.

        Those of a district are in their order, whatever its clock said.
        """
        wanted = [number for number, it in self.districts.items() if it.entries > after.get(number, 0)]
        shown: Vector = {number: it.entries for number, it in self.districts.items() if it.entries}
        several = []
        async with self.reading(sorted(wanted)) as districts:
            for district in districts:
                number = district.number
                found, shown[number] = await self._of_district(district, after.get(number, 0), limit)
                several.append(_by_time(number, found))
        merged = [(number, entry) for _, number, _, entry in heapq.merge(*several, key=lambda it: it[:3])]
        return merged[:limit], shown

    async def _of_district(self, district: District, after: int, limit: int) -> Tuple[List[Entry], int]:
        """The first entries of a district behind a number, with global ids; and how many it has."""
        found = []
        if after < district.seat.before:
            found = [entry for number, entry in self.now.old if number == district.number and entry.number > after]
        if district.entries == district.seat.before:
            return found[:limit], district.entries
        async with district.open() as register:
            count = await register.shown()
            begin = max(0, after - district.seat.before)
            some = register.entries[begin : min(begin + limit, count)]
            return [*found, *map(district.outward, some)][:limit], district.seat.before + count

    async def newest(self) -> Dict[int, Optional[Entry]]:
        """Of each district that is awake, or has entries of earlier journals, its newest entry."""
        old = dict(self.now.old)
        told: Dict[int, Optional[Entry]] = {}
        for number, district in sorted(self.districts.items()):
            register = district.register
            told[number] = district.outward(register.entries[-1]) if register and register.entries else old.get(number)
        return told

    # its life

    def retire(self, district: District) -> None:
        """Another district has taken this one's place: its session ends once nobody asks it."""
        task = asyncio.get_running_loop().create_task(district.retire())
        self._retiring.add(task)
        task.add_done_callback(self._retiring.discard)

    async def _tend(self) -> None:
        """Lets those districts sleep that were asked longest ago, where more are awake than may be."""
        while True:
            await asyncio.sleep(TEND)
            awake = [it for it in self.districts.values() if it.register is not None]
            spare = sorted((it for it in awake if not it.users), key=lambda it: it.asked)
            for district in spare[: max(0, len(awake) - self._awake)]:
                await district.sleep()

    @property
    def entries(self) -> range:
        """As many as there are entries of all districts, for what counts them."""
        return range(sum(it.entries for it in self.districts.values()))

    @property
    def state(self) -> str:
        """`serving` where it is open."""
        return self.stage

    @property
    def restarts(self) -> int:
        """How often sessions were started anew since they woke."""
        return sum(it.restarts for it in self._registers())

    @property
    def synchronised(self) -> int:
        """As a register's, of all that are awake."""
        return sum(it.synchronised for it in self._registers())

    @property
    def journal(self) -> Path:
        """The folder of the journals."""
        return self.now.journals

    def memory(self) -> Dict[str, int]:
        """Bytes of memory that the programs of all districts have now."""
        told = {"session": 0, "follower": 0}
        for register in self._registers():
            for name, size in register.memory().items():
                told[name] += size
        return told

    def _registers(self) -> Iterator[Register]:
        return (it.register for it in self.districts.values() if it.register is not None)

    def health(self) -> Dict[str, Any]:
        """The state, and of each district its own."""
        told = {str(number): it.state for number, it in sorted(self.districts.items()) if it.state != "asleep"}
        return {"state": self.stage, "entries": text_of(self.versions()), "restarts": self.restarts, "awake": told}


def _by_time(number: int, entries: Sequence[Entry]) -> List[Tuple[str, int, int, Entry]]:
    """Entries of a district by time, which does not go back for them."""
    latest, found = "", []
    for entry in entries:
        latest = max(latest, entry.time)
        found.append((latest, number, entry.number, entry))
    return found


def _locked(journals: Path) -> int:
    """The lock of a folder of journals, made where it is not there. Refused P14; raises `JournalInUse`."""
    try:
        journals.mkdir(mode=0o700, parents=True, exist_ok=True)
        lock = os.open(journals, os.O_RDONLY | os.O_DIRECTORY | os.O_CLOEXEC)
    except OSError as fault:
        raise Refused("P14", f"{journals}, for the journals, can't be made or read: {fault.strerror}") from fault
    try:
        fcntl.flock(lock, fcntl.LOCK_EX | fcntl.LOCK_NB)
    except OSError:
        os.close(lock)
        raise JournalInUse("in use", f"another server has {journals}: stop it first") from None
    return lock


async def opened(stack: AsyncExitStack, districts: Sequence[District]) -> List[Register]:
    """The registers of several districts, open until the stack ends."""
    return [await stack.enter_async_context(it.open()) for it in districts]
