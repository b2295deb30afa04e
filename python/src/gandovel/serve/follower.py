"""The second run of the program: it makes the accepted edits again, in order, so that rows are the program's words."""
from __future__ import annotations

import asyncio
from collections import deque
from typing import Deque, Dict, List, Optional, Sequence, Tuple

import numpy as np

from ..errors import BadAnswer
from ..live.answers import Accepted, accepted_of
from ..live.journals import JournalRecord
from .entries import Entry
from .layer import Layer
from .program import Program
from .published import Published, RowRead

AskedRow = Tuple[int, "asyncio.Future[List[bytes]]"]
"""A parcel, and the answer to come of it."""
Told = Tuple[Accepted, bytes]
"""What the session answered to an edit: as it is read, and its line."""
Followed = Tuple[Entry, "asyncio.Future[List[bytes]]", Optional[Told], List[AskedRow]]
"""An edit that went to the follower: the answer to come, what the session said of it, and the rows that were asked
for."""
AHEAD = 64
"""How many edits are sent to the follower before the first of them is answered."""


class Follower:
    """A run of the program without a journal. `accepted` are the entries that it has not published yet, by number."""

    def __init__(self, published: Published, layer: Layer) -> None:
        """Takes what it publishes to, and the layer that it begins with."""
        self.program: Optional[Program] = None
        self.accepted: Dict[int, Entry] = {}
        self.told: Dict[int, Told] = {}
        """What the session answered to edits that are not published yet."""
        self._published, self._layer = published, layer
        self._is_new = True
        self._one = asyncio.Lock()

    @property
    def runs(self) -> bool:
        """Whether its program runs."""
        return self.program is not None and not self.program.operator.has_ended

    async def begin(self, words: Sequence[str], records: Sequence[JournalRecord], keep: int) -> None:
        """Starts its program, and makes the edits before the first version that is kept; `keep` versions are.

        Those that come after are followed as all are, so that their versions are kept over a start. Where the follower
        alone ended, the rows are known; it has to come to the same, else `BadAnswer` is raised.
        """
        of = self._layer.checkpoint
        self.program = await Program.start(words, checkpoint=of)
        before = 0 if of is None else of.before
        early = max(before, len(records) - keep) if self._is_new else len(self._published.entries)
        lines = self.program.operator
        answers = [lines.put(record.edit.encode()) for record in records[before:early]]
        accepted = [] if of is None else [Accepted(it.record.number, *map(_ids, it.change)) for it in of.past]
        accepted += [accepted_of((await answer)[0].decode()) for answer in answers]
        if self._is_new:
            await self._publish_first(records[:early], accepted)
            self._is_new = False
        elif any((made.out, made.new) != (it.out, it.new) for made, it in zip(accepted, self._published.entries)):
            raise BadAnswer("T3", "the journal's edits came out otherwise")

    async def _publish_first(self, records: Sequence[JournalRecord], accepted: Sequence[Accepted]) -> None:
        """Publishes the first version that is kept: the rows that these edits leave."""
        born: Dict[int, int] = {parcel: 0 for parcel in range(1, self._layer.count + 1)}
        for made in accepted:
            for parcel in made.out:
                del born[parcel]
            born.update(dict.fromkeys(made.new, made.number))
        rows = await rows_of(self._asked_rows(list(born)))
        self._published.begin(len(records), [(it[0], born[it[0]], *it[1:]) for it in rows])
        for record, made in zip(records, accepted):
            self._published.enter(Entry.of(record, made.out, made.new))

    def accept(self, entry: Entry) -> None:
        """Takes the next entry that it has to follow."""
        self.accepted[entry.number] = entry
        self._published.know(entry)

    async def follow(self) -> None:
        """Makes the accepted edits, in order, and publishes each with its rows. Raises `BadAnswer`, `ProgramEnded`."""
        sent: Deque[Followed] = deque()
        async with self._one:
            while self._send_ahead(sent):
                entry, answer, told, rows = sent.popleft()
                line = (await answer)[0]
                made = told[0] if told and told[1] == line else accepted_of(line.decode())
                if made.number != entry.number or told and made != told[0]:
                    raise BadAnswer("T3", f"entry {entry.number} came out otherwise")
                found = await rows_of(rows if told else self._asked_rows(made.new))
                del self.accepted[entry.number]
                self.told.pop(entry.number, None)
                self._published.publish(entry.with_ids(made.out, made.new), found)

    def _send_ahead(self, sent: Deque[Followed]) -> bool:
        """Sends the next edits to the program, each with the question for its rows, where the session has told their
        ids.

        Behind one whose ids are not known nothing is sent. Whether there is an answer to wait for.
        """
        assert self.program is not None
        lines, number = self.program.operator, len(self._published.entries) + len(sent) + 1
        while number in self.accepted and len(sent) < AHEAD and (not sent or sent[-1][2] is not None):
            entry, told = self.accepted[number], self.told.get(number)
            answer = lines.put(entry.edit.encode())
            sent.append((entry, answer, told, self._asked_rows(told[0].new) if told else []))
            number += 1
        return bool(sent)

    def _asked_rows(self, parcels: Sequence[int]) -> List[AskedRow]:
        assert self.program is not None
        return asked_rows(self.program, parcels)


def _ids(texts: Sequence[str]) -> Tuple[int, ...]:
    return tuple(map(int, texts))


def asked_rows(program: Program, parcels: Sequence[int]) -> List[AskedRow]:
    """Asks a program for parcels as it has them then."""
    return [(parcel, program.operator.put(b"parcel %d" % parcel)) for parcel in parcels]


async def rows_of(asked: Sequence[AskedRow]) -> List[RowRead]:
    """The rows of the parcels that were asked for. Raises `BadAnswer`."""
    return [_row_of((await answer)[0], parcel) for parcel, answer in asked]


def _row_of(line: bytes, parcel: int) -> RowRead:
    words = line.split(b" ", 4)
    if len(words) < 5 or words[0] != b"parcel" or int(words[2]) != parcel:
        raise BadAnswer("T3", f"parcel {parcel} is not there")
    ring = np.fromstring(words[4], dtype=np.int64, sep=" ")
    if len(ring) < 6 or len(ring) % 2 or len(ring) != words[4].count(b" ") + 1:
        raise BadAnswer("T3", f"parcel {parcel} has no ring")
    return parcel, int(words[3]), ring.reshape(-1, 2)
