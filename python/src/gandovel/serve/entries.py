"""An entry of the journal as the server tells it, and the rows of all its versions."""
from __future__ import annotations

import json
from dataclasses import dataclass
from typing import Any, Dict, List, NamedTuple, Optional, Sequence, Tuple

import numpy as np

from ..arrays import Array
from ..live.journals import JournalRecord, Said

NEVER = np.iinfo(np.int64).max
"""The entry that takes out a row which is there still."""
Box = Tuple[float, float, float, float]
"""Least x and y, greatest x and y, in mm."""
_QUOTED = json.JSONEncoder(ensure_ascii=False).encode


class Asked(NamedTuple):
    """An edit that a client sent: its line, as a journal has it, and who sends it, why and by which key."""

    edit: str
    said: Said

    @property
    def line(self) -> bytes:
        """What the session is asked for."""
        return f"by {self.said.word}: {self.edit}".encode()

    def is_of(self, record: JournalRecord) -> bool:
        """Whether this may be what became the record."""
        return (record.who, record.edit) == (self.said.word, self.edit)


class Entry(NamedTuple):
    """An accepted edit, as the journal's record has it, and the ids that it took out and brought.

    `time` is UTC, as `2026-01-31T12:00:00Z`. `who` is None where the record has no word of its client.
    """

    number: int
    edit: str
    out: Tuple[int, ...]
    new: Tuple[int, ...]
    who: Optional[str]
    why: str
    time: str
    key: Optional[str]
    digest: str = ""
    """SHA-256 of the chain of records up to this one, in hexadecimal, as the journal's record has it."""

    @classmethod
    def of(cls, record: JournalRecord, out: Tuple[int, ...] = (), new: Tuple[int, ...] = ()) -> "Entry":
        """The entry of a record."""
        said, moment = record.said, record.time.isoformat()[:19] + "Z"
        who = said.name or None
        return cls(record.number, record.edit, out, new, who, said.why, moment, said.key, record.digest)

    def with_ids(self, out: Tuple[int, ...], new: Tuple[int, ...]) -> "Entry":
        """The same with the ids that it took out and brought."""
        return self._replace(out=out, new=new)

    def from_of(self, parcel: int) -> Tuple[int, ...]:
        """Which of the parcels that it took out one that it brought comes from: of a moved border one of both."""
        if not self.edit.startswith("move "):
            return self.out
        at = self.new.index(parcel)
        return self.out[at : at + 1]

    def as_json(self) -> Dict[str, Any]:
        """What an answer has of it; the key is its maker's alone."""
        return {
            "number": self.number,
            "time": self.time,
            "who": self.who,
            "why": self.why,
            "edit": self.edit,
            "out": list(self.out),
            "new": list(self.new),
            "digest": self.digest,
        }

    @property
    def text(self) -> str:
        """`as_json` as text: each edit is answered by it."""
        who, why = "null" if self.who is None else _QUOTED(self.who), _QUOTED(self.why)
        out, new = ",".join(map(str, self.out)), ",".join(map(str, self.new))
        head = f'{{"number":{self.number},"time":"{self.time}","who":{who},"why":{why}'
        return f'{head},"edit":"{self.edit}","out":[{out}],"new":[{new}],"digest":"{self.digest}"}}'


@dataclass(eq=False)
class Row:
    """A parcel from entry `born` on, until entry `died`: `ring` int64 (k, 2) in mm, `area2` in mm2, doubled, exact.

    `texts` are parts of answers on it that never change, as JSON, each made once: by what they are.
    """

    __slots__ = ("id", "born", "died", "area2", "ring", "texts")
    id: int
    born: int
    died: int
    area2: int
    ring: Array
    texts: Dict[str, bytes]


class Versions:
    """The rows of a register in each version that is kept: version N is what the first N entries leave."""

    def __init__(self) -> None:
        self.first = self.last = 0
        self._count = 0
        self._numbers = np.zeros((1024, 3), dtype=np.int64)
        """Id, born, died of each row."""
        self._boxes = np.zeros((1024, 4), dtype=np.int64)
        self._rows: List[Row] = []
        self.turn = 0
        """How often rows were forgotten: places are of one turn."""
        self._alive: Dict[int, int] = {}
        self._found: Dict[Tuple[int, int], Array] = {}

    def begin(self, entries: int, rows: Sequence[Tuple[int, int, int, Array]]) -> None:
        """Puts in the rows (id, born, area2, ring) of the version with so many entries; none before it is kept."""
        turn = self.turn
        self.__init__()  # type: ignore[misc]
        self.turn = turn + 1
        self.first = self.last = entries
        for row in rows:
            self._add(*row)

    def apply(self, entry: Entry, rows: Sequence[Tuple[int, int, Array]]) -> None:
        """Puts in the next entry, with the rows (id, area2, ring) that it brought."""
        for number in entry.out:
            place = self._alive.pop(number)
            self._numbers[place, 2] = self._rows[place].died = entry.number
        for number, area2, ring in rows:
            self._add(number, entry.number, area2, ring)
        self.last = entry.number

    def forget(self, first: int) -> None:
        """Keeps no version before `first`. It takes time by how many rows there are, so call it now and then."""
        kept = np.flatnonzero(self._numbers[: self._count, 2] > first)
        self.first, self._found, self.turn = max(first, self.first), {}, self.turn + 1
        self._numbers, self._boxes = self._numbers[kept].copy(), self._boxes[kept].copy()
        self._rows = [self._rows[at] for at in kept.tolist()]
        self._count = len(kept)
        alive = np.flatnonzero(self._numbers[:, 2] == NEVER).tolist()
        self._alive = {int(self._numbers[at, 0]): at for at in alive}

    @property
    def dead(self) -> int:
        """How many rows are kept for older versions alone."""
        return self._count - len(self._alive)

    def bounds(self) -> Box:
        """The box of all rows, in mm."""
        boxes = self._boxes[: self._count]
        low, high = boxes[:, :2].min(axis=0), boxes[:, 2:].max(axis=0)
        return float(low[0]), float(low[1]), float(high[0]), float(high[1])

    def places(self, entries: int, box: Optional[Box] = None, since: Optional[int] = None) -> Array:
        """Where the rows of a version are, by ascending ids: int64, for `row`. With a box those whose box meets it.

        With `since` those of all versions from that one on, of each parcel the last one. Each has to be kept (`first`
        to `last`).
        """
        begin = entries if since is None else since
        found = self._found.get((begin, entries))
        if found is None:
            numbers = self._numbers[: self._count]
            there: Array = np.flatnonzero((numbers[:, 1] <= entries) & (numbers[:, 2] > begin))
            found = np.asarray(there[np.lexsort((numbers[there, 1], numbers[there, 0]))])
            if since is not None:
                found = np.asarray(found[np.append(np.diff(numbers[found, 0]) != 0, True)[: len(found)]])
            while len(self._found) > 7:
                self._found.pop(next(iter(self._found)))
            self._found[begin, entries] = found
        if box is None:
            return found
        boxes = self._boxes[found]
        low, high = np.array(box[:2]), np.array(box[2:])
        return np.asarray(found[((boxes[:, :2] <= high) & (boxes[:, 2:] >= low)).all(axis=1)])

    def within(self, places: Array, box: Box) -> Array:
        """Of each of these rows whether its box lies in `box`: bool."""
        boxes = self._boxes[places]
        return np.asarray(((boxes[:, :2] >= np.array(box[:2])) & (boxes[:, 2:] <= np.array(box[2:]))).all(axis=1))

    def sizes(self, places: Array) -> Array:
        """The wider side of the box of each of these rows, in mm: int64."""
        boxes = self._boxes[places]
        return np.asarray((boxes[:, 2:] - boxes[:, :2]).max(axis=1)) if len(places) else np.zeros(0, dtype=np.int64)

    def changed(self, before: int, after: int, box: Optional[Box]) -> bool:
        """Whether an entry after number `before`, up to `after`, took out or brought a row whose box meets `box`."""
        born, died = self._numbers[: self._count, 1], self._numbers[: self._count, 2]
        found = np.flatnonzero((born > before) & (born <= after) | (died > before) & (died <= after))
        if before < self.first:
            return True
        if box is None or not len(found):
            return bool(len(found))
        boxes = self._boxes[found]
        meets = (boxes[:, :2] <= np.array(box[2:])) & (boxes[:, 2:] >= np.array(box[:2]))
        return bool(meets.all(axis=1).any())

    def ids(self, places: Array) -> Array:
        """The ids of the rows at these places: int64."""
        return np.asarray(self._numbers[places, 0])

    def row(self, place: int) -> Row:
        """The row at a place that `places` found."""
        return self._rows[place]

    def find(self, parcel: int, entries: int, since: Optional[int] = None) -> Optional[Row]:
        """The row of a parcel in a version, or with `since` in one from that on; None where it has none."""
        at = self._alive.get(parcel)
        if at is not None and self._numbers[at, 1] <= entries:
            return self.row(at)
        numbers, begin = self._numbers[: self._count], entries if since is None else since
        is_there = (numbers[:, 0] == parcel) & (numbers[:, 1] <= entries) & (numbers[:, 2] > begin)
        places = np.flatnonzero(is_there)
        return self.row(int(places[-1])) if len(places) else None

    def _add(self, parcel: int, born: int, area2: int, ring: Array) -> None:
        if self._count == len(self._numbers):
            self._numbers = np.concatenate([self._numbers, np.zeros_like(self._numbers)])
            self._boxes = np.concatenate([self._boxes, np.zeros_like(self._boxes)])
        self._numbers[self._count] = parcel, born, NEVER
        xs, ys = ring.T.tolist()
        self._boxes[self._count] = min(xs), min(ys), max(xs), max(ys)
        self._alive[parcel] = self._count
        self._rows.append(Row(parcel, born, int(NEVER), area2, ring, {}))
        self._count += 1
