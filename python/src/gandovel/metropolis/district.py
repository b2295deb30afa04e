"""A district that is served: a register of its own, awake or asleep, and who may edit it now."""
from __future__ import annotations

import asyncio

from contextlib import asynccontextmanager
from pathlib import Path
from typing import Any, AsyncIterator, Dict, List, Optional

from ..arrays import Array
from ..errors import Refused
from ..live.journals import Chain
from ..serve.entries import Entry
from ..serve.faults import NotServing
from ..serve.features import Collections
from ..serve.layer import Layer
from ..serve.register import Register
from .manifest import read_json, test_district
from .state import Seat

WAITING = 60.0
"""Seconds that an edit waits for districts that are recut."""


class Turnstile:
    """Edits go through side by side; one that wants to be alone waits until none is under way, and keeps others out."""

    def __init__(self) -> None:
        self._inside, self._is_kept = 0, False
        self._changed = asyncio.Condition()

    @asynccontextmanager
    async def shared(self) -> AsyncIterator[None]:
        """One edit. Raises `NotServing` where it waits too long."""
        await self._enter(lambda: not self._is_kept)
        self._inside += 1
        try:
            yield
        finally:
            self._inside -= 1
            await self._tell()

    @asynccontextmanager
    async def alone(self) -> AsyncIterator[None]:
        """No other edit meanwhile. Raises `NotServing` where it waits too long."""
        await self._enter(lambda: not self._is_kept)
        self._is_kept = True
        try:
            await self._enter(lambda: not self._inside)
            yield
        finally:
            self._is_kept = False
            await self._tell()

    async def _enter(self, test: Any) -> None:
        try:
            async with asyncio.timeout(WAITING), self._changed:
                await self._changed.wait_for(test)
        except TimeoutError:
            raise NotServing("recut", "the district is being recut: send the edit again with the same key") from None

    async def _tell(self) -> None:
        async with self._changed:
            self._changed.notify_all()


class DistrictLayer(Layer):
    """The layer of a district, whose parcels may have a history in journals before its own."""

    def __init__(self, seat: Seat, crs: Optional[str]) -> None:
        """Refused P1, W3."""
        super().__init__(seat.folder, 1, crs)
        for record, told in read_json(seat.seeds).items() if seat.seeds is not None else ():
            self.remember(int(record), told)

    def remember(self, parcel: int, told: Dict[str, Any]) -> None:
        """Takes in which rows a parcel comes from, and what is known of it where that is not what its row says."""
        rows = tuple(told["origins"])
        self._origins[parcel] = rows
        if told["facts"] is not None:
            self._facts[parcel] = told["facts"]
        for row in rows[1:]:
            self._from_row.setdefault(row, []).append(parcel)

    def remembered(self, parcels: List[int]) -> Dict[int, Dict[str, Any]]:
        """What `remember` takes, of these parcels."""
        return {it: {"origins": list(self.origins(it)), "facts": self._facts.get(it)} for it in parcels}


class District:
    """A district at its seat. It sleeps until it is asked, and `sleep` lets it sleep again where nobody asks."""

    def __init__(self, seat: Seat, outline: Array, count: int, crs: Optional[str], keep: int) -> None:
        """`count` is how many entries its present journal has."""
        self.seat, self.outline = seat, outline
        self.edits = Turnstile()
        self.is_retired = False
        """Whether a recut has put another in its place: no edit is made here any more."""
        self.users, self.asked = 0, 0.0
        self.register: Optional[Register] = None
        self.collections: Optional[Collections] = None
        self._count, self._crs, self._keep = count, crs, keep
        self._changing = asyncio.Lock()

    @property
    def number(self) -> int:
        """Its number."""
        return self.seat.number

    @property
    def entries(self) -> int:
        """How many entries it has that were answered, those of earlier journals with them."""
        register = self.register
        known = self._count if register is None else max(register.acknowledged, len(register.entries), self._count)
        return self.seat.before + known

    @property
    def unasked(self) -> Optional[int]:
        """How many parcels it has, where that is known without a session; None where it is awake, or has entries."""
        return None if self.register is not None or self._count else self.seat.row.parcels

    @property
    def state(self) -> str:
        """`asleep`, or the register's state."""
        return "asleep" if self.register is None else self.register.state

    @asynccontextmanager
    async def open(self) -> AsyncIterator[Register]:
        """The district's register, awake while this holds. Raises `NotServing`, which names the district."""
        self.users += 1
        self.asked = asyncio.get_running_loop().time()
        try:
            yield self.register if self.register is not None else await self._awake()
        finally:
            self.users -= 1

    async def _awake(self) -> Register:
        async with self._changing:
            if self.register is None:
                try:
                    await self._start()
                except Refused as fault:
                    told = fault.text if fault.code == "W8" else f"district {self.number}: {fault}"
                    raise NotServing(fault.code, told) from fault
            assert self.register is not None
            return self.register

    async def _start(self) -> None:
        """Starts the session, with the layer whose outline is that of the district's row. Refused as both are."""
        layer = await asyncio.get_running_loop().run_in_executor(None, self._layer)
        register = Register(layer, self.seat.journal, self._keep)
        await register.start()
        found = _layer_of(self.seat.journal)
        if found != self.seat.row.layer:
            await register.close()
            raise Refused("W8", f"district {self.number}: its session has another layer than its row names")
        self.collections = Collections(register)
        self.register = register

    def _layer(self) -> DistrictLayer:
        test_district(self.seat.row, self.seat.folder, self.outline)
        return DistrictLayer(self.seat, self._crs)

    async def sleep(self) -> None:
        """Closes its session. Nothing where somebody asks it."""
        async with self._changing:
            register = self.register
            if register is None or self.users:
                return
            self._count = max(register.acknowledged, len(register.entries))
            self.register = self.collections = None
            await register.close()

    async def retire(self) -> None:
        """Closes its session as soon as nobody asks it any more."""
        self.is_retired = True
        while self.users:
            await asyncio.sleep(0.05)
        await self.sleep()

    async def end(self) -> None:
        """Closes its session: edits that were taken are answered."""
        async with self._changing:
            if self.register is not None:
                await self.register.close()

    def outward(self, entry: Entry) -> Entry:
        """An entry of its session with global ids and the district's number of it."""
        return self.seat.ids.entry_outward(entry, self.seat.before)


def _layer_of(journal: Path) -> str:
    """The digest of the layer that a journal names."""
    chain = Chain()
    with open(journal, "rb") as file:
        chain.feed(file.readline())
    return chain.layer
