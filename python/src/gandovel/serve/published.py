"""What is published of a register: its entries in order, the rows of each version, and who waits for the next ones."""
from __future__ import annotations

import asyncio
from collections import deque
from typing import Deque, Dict, List, Sequence, Tuple

from ..arrays import Array
from .entries import Entry, Versions
from .layer import Layer
from .past import Past

RowRead = Tuple[int, int, Array]
"""A parcel's id, twice its area in mm2, and its ring, int64 (k, 2) in mm."""
SPARE = 1000
"""Rows of versions that are not kept any more, beyond twice as many as are kept, before they are forgotten at once."""


class Published:
    """Entries, versions and keys as answers tell them. For one event loop."""

    def __init__(self, layer: Layer, keep: int) -> None:
        """Takes the layer that entries change, and how many entries back versions are kept."""
        self.entries: List[Entry] = []
        self.versions, self.past = Versions(), Past()
        self.keys: Dict[Tuple[str, str], Entry] = {}
        """The entry of each client's name and key, also of those that are not published yet."""
        self.is_closed = False
        self._layer, self._keep = layer, keep
        self._news = asyncio.Event()
        self._awaited: Deque[Tuple[int, "asyncio.Future[None]"]] = deque()
        """Who waits until so many entries are published, the least number first."""

    def know(self, entry: Entry) -> None:
        """Keeps an entry's key: an edit with it is not made again."""
        if entry.key is not None and entry.who is not None:
            self.keys[entry.who, entry.key] = entry

    def enter(self, entry: Entry) -> None:
        """Takes in the next entry, whose rows stand in a version already."""
        self.entries.append(entry)
        self.past.add(entry)
        self._layer.follow(entry)
        self.know(entry)

    def publish(self, entry: Entry, rows: Sequence[RowRead]) -> None:
        """Publishes the next entry with the rows that it brought."""
        self.versions.apply(entry, rows)
        self.enter(entry)
        self.tell()
        if self.versions.dead > 2 * self._keep + SPARE:
            self.versions.forget(entry.number - self._keep)

    def begin(self, records: int, rows: Sequence[Tuple[int, int, int, Array]]) -> None:
        """Puts in the rows of the first version that is kept, after so many entries."""
        self.versions.begin(records, rows)

    def tell(self) -> None:
        """Wakes those who wait for what is published now, or for the end."""
        news, self._news = self._news, asyncio.Event()
        news.set()
        while self._awaited and (self._awaited[0][0] <= len(self.entries) or self.is_closed):
            future = self._awaited.popleft()[1]
            if not future.done():
                future.set_result(None)

    def close(self) -> None:
        """Nothing more comes."""
        self.is_closed = True
        self.tell()

    async def news(self, after: int, timeout: float) -> bool:
        """Waits until there is an entry after this number; whether there is one."""
        if len(self.entries) <= after and not self.is_closed:
            try:
                await asyncio.wait_for(self._news.wait(), timeout)
            except asyncio.TimeoutError:
                pass
        return len(self.entries) > after

    async def until(self, number: int, timeout: float) -> bool:
        """Waits until entry `number` is published; whether it is."""
        if len(self.entries) >= number or self.is_closed:
            return len(self.entries) >= number
        if not self._awaited or self._awaited[-1][0] < number:
            self._awaited.append((number, asyncio.get_running_loop().create_future()))
        try:
            async with asyncio.timeout(timeout):
                await asyncio.shield(self._awaited[-1][1])
        except TimeoutError:
            pass
        return len(self.entries) >= number
