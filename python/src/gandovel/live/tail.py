"""The journal of a session, read on as the session writes it: who, when, why and by which key stand in its records."""
from __future__ import annotations

import os
from pathlib import Path
from typing import Dict, List, Optional, Tuple

from ..errors import BadAnswer, JournalRefused
from .checkpoint import Checkpoint
from .journals import Chain, Change, Journal, JournalRecord, changes_of
from .witness import End

PART = 1 << 20
"""How many bytes are read at once."""


class Tail:
    """The records of a journal in order, `records`, each tested against the one before it.

    What a session answered `ok` is in the file before the answer, so it is there when it is looked for.
    """

    def __init__(self, path: Path, before: Optional[Checkpoint] = None) -> None:
        """Reads what is there, behind the entries `before` it. Raises `JournalRefused` as `read_journal` does."""
        self.records: List[JournalRecord] = [] if before is None else [it.record for it in before.past]
        self._before = before
        self.grown = 0
        """How often it had to be read on for an edit that was answered: each time stands for a synchronisation of its
        own."""
        self._chain = Chain()
        try:
            self._file = os.open(path, os.O_RDONLY | os.O_CLOEXEC)
        except OSError as fault:
            raise JournalRefused("S1", f"the journal can't be read: {fault.strerror}") from fault
        try:
            self._read_on()
        except BaseException:
            self.close()
            raise

    @property
    def layer(self) -> str:
        """SHA-256 of the layer, with which the chain begins."""
        return self._chain.layer

    def read_to(self, number: int) -> None:
        """Reads on until there is a record with this number, which was answered. Raises `BadAnswer`,
        `JournalRefused`."""
        if len(self.records) < number:
            self._read_on()
            self.grown += 1
        if len(self.records) < number:
            raise BadAnswer("journal", f"entry {number} was answered, and is not in the journal")

    def end(self, number: int) -> End:
        """What a witness tells of the record with this number, or of the layer before the first: as its file has it."""
        own = number - (0 if self._before is None else self._before.before)
        return End(own, self.records[number - 1].digest if own else self.layer, self.layer)

    def _read_on(self) -> None:
        try:
            part = os.read(self._file, PART)
            while part:
                found = self._chain.feed(part)
                self.records += found if self._before is None else map(self._before.record, found)
                part = os.read(self._file, PART) if len(part) == PART else b""
        except OSError as fault:
            raise JournalRefused("S1", f"the journal can't be read: {fault.strerror}") from fault

    def close(self) -> None:
        """Closes the file. A second call does nothing."""
        if self._file >= 0:
            os.close(self._file)
        self._file = -1


class History:
    """The entries of a register as they come, and what each took out and brought; through a checkpoint, if it has one.

    Numbers and ids are the register's, but for those that `lines` has.
    """

    def __init__(self, path: Path, parcels: int, checkpoint: Optional[Checkpoint] = None) -> None:
        """Takes the journal, and how many parcels its layer has; the checkpoint that the layer is of."""
        self._tail, self._of = Tail(path), checkpoint
        self._before = checkpoint.before if checkpoint else 0
        self._changes: List[Change] = []
        self._last = [parcels]
        """The greatest id behind each entry of the journal, and first before all: the session's."""
        self._taken: Dict[int, int] = {}
        """The entry of the journal that took each id of the session out."""

    def read_to(self, count: int) -> None:
        """Reads on to an entry, which the session has answered or shown."""
        self._tail.read_to(count - self._before)
        known = len(self._changes)
        news = tuple(self._tail.records[known:])
        if news:
            self._changes += changes_of(Journal("", news, 0, ""), self._last[-1])
        for entry, change in enumerate(self._changes[known:], known + 1):
            self._last.append(self._last[-1] + len(change.new))
            self._taken.update((int(number), entry) for number in change.out)

    def lines(self, count: int) -> List[str]:
        """The edits of the journal up to entry `count`, with the session's ids."""
        self.read_to(count)
        return [record.edit for record in self._tail.records[: count - self._before]]

    def records(self, count: int) -> List[JournalRecord]:
        """The first `count` entries."""
        self.read_to(count)
        records = self._tail.records[: count - self._before]
        of = self._of
        return records if of is None else [*(it.record for it in of.past), *map(of.record, records)]

    def changes(self, count: int) -> List[Change]:
        """What each of the first `count` entries took out and brought, as `changes_of` tells it."""
        self.read_to(count)
        changes, of = self._changes[: count - self._before], self._of
        if of is None:
            return changes
        return [*of.changes, *map(of.change, changes)]

    def taken(self, parcel: int, count: int) -> Optional[Tuple[int, Tuple[str, ...]]]:
        """The entry that took an id out, up to entry `count`, and the ids that it brought; None where none did."""
        self.read_to(count)
        of = self._of
        local = parcel if of is None else of.ids.inward(parcel)
        entry = of.taken.get(parcel) if of is not None and local is None else self._taken.get(local or 0)
        if entry is None:
            return None
        if of is not None and local is None:
            return entry, of.past[entry - 1].change.new
        change = self._changes[entry - 1]
        return self._before + entry, (change if of is None else of.change(change)).new

    def ids(self, count: int) -> List[int]:
        """The ids of the parcels after so many entries, ascending."""
        entry = count - self._before
        there = [it for it in range(1, self._last[entry] + 1) if self._taken.get(it, entry + 1) > entry]
        return there if self._of is None else [self._of.ids.outward(it) for it in there]

    def next_id(self, count: int) -> int:
        """The id that the next parcel gets after so many entries."""
        following = self._last[count - self._before] + 1
        return following if self._of is None else self._of.ids.outward(following)

    def close(self) -> None:
        """Closes the journal."""
        self._tail.close()
