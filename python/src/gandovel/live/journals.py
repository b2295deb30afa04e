"""Journals of sessions, read and checked without their layer.

    for record in gandovel.read_journal("register.txt").records:
        print(record.number, record.time, record.who, record.edit)

The form is that of `docs/cli.md`: a header that names the layer, and two lines for each edit, chained by SHA-256.
"""
from __future__ import annotations

import hashlib
import os
import re
from dataclasses import dataclass
from datetime import datetime, timezone
from typing import List, NamedTuple, Optional, Tuple

from ..errors import JournalRefused
from ..program.tool import PathLike

MOST_WORD = 200
"""Bytes of the client's own word in a record."""
FARTHEST = 100_000_000_000
"""How far from 0 a coordinate may lie, in mm."""
MOST_CLERK = 2**32 - 1
_HEADER = re.compile(rb"# gandovel journal 1 mm ([0-9a-f]{64})")
_NUMBER = rb"(?:0|[1-9][0-9]{0,18})"
_STAMP = re.compile(
    rb"# (" + _NUMBER + rb") (" + _NUMBER + rb") (\d{4}-\d\d-\d\dT\d\d:\d\d:\d\dZ) (?:(.+) )?([0-9a-f]{64})", re.DOTALL
)
_SEALED = re.compile(rb"[^\0\n]*[0-9a-f]{64}")
"""The first line of a record, which ends in a digest."""
_EDIT_BEGUN = re.compile(rb"[0-9a-z -]*")
MOST_STAMP = 320
"""Bytes of a record's first line."""
BLOCK = 512
"""Bytes that a disk writes or does not write."""
_CORNER = rb"(?: (?:0|-?[1-9][0-9]{0,11}) (?:0|-?[1-9][0-9]{0,11}))"
_EDIT = re.compile(
    b"split ID(?:CORNER)+|merge ID ID|move ID ID(?:CORNER)+|insert(?:CORNER){3}|straightenCORNER".replace(
        b"ID", _NUMBER
    ).replace(b"CORNER", _CORNER)
)
_WORD = re.compile(r"(.*?)(?: #([!-~]{1,100}))?(?:, (.*))?", re.DOTALL)
_PARCELS = {"split": (1, 2), "merge": (2, 1), "move": (2, 2), "insert": (0, 0), "straighten": (0, 0)}
"""How many parcels an edit names, and how many ids it brings. The last two leave all ids as they are."""


class Said(NamedTuple):
    """The client's own word, taken apart: `NAME #KEY, WHY`. `gandovel serve` writes it; a word of others is read alike.

    `key` is the one by which a client asks again for an edit whose answer it lost.
    """

    name: str
    why: str = ""
    key: Optional[str] = None

    @property
    def word(self) -> str:
        """The word as a journal has it."""
        return f"{self.name}{'' if self.key is None else f' #{self.key}'}{f', {self.why}' if self.why else ''}"


def said_of(word: str) -> Said:
    """A word of a journal, taken apart: the name is what stands before the key and the first comma with a space."""
    found = _WORD.fullmatch(word)
    assert found is not None
    return Said(found[1], found[3] or "", found[2])


@dataclass(frozen=True)
class JournalRecord:
    """An edit that a session accepted: its number from 1, its clerk, its time (UTC), who and why, its line, and the
    digest of the chain up to it."""

    number: int
    clerk: int
    time: datetime
    who: str
    edit: str
    digest: str = ""

    @property
    def said(self) -> Said:
        """Who made the edit, why, and by which key, as `who` says it."""
        return said_of(self.who)

    @property
    def moment(self) -> str:
        """Its time as the journal has it: `2026-11-28T11:34:48Z`."""
        return self.time.strftime("%Y-%m-%dT%H:%M:%SZ")


@dataclass(frozen=True)
class Journal:
    """What a journal says: the SHA-256 of its layer, its records, and how many bytes are torn behind them.

    `digest` is that of the last record, which stands for all of them.
    """

    layer: str
    records: Tuple[JournalRecord, ...]
    torn: int
    digest: str


class Chain:
    """Reads a journal record by record as its bytes come, and checks each against the one before it."""

    def __init__(self) -> None:
        self.layer = self.digest = ""
        self.count = 0
        self.rest = b""
        """Bytes behind the last whole record."""
        self.longest = self._fed = 0
        """How many bytes the longest record has, and all that were fed."""

    def feed(self, part: bytes) -> List[JournalRecord]:
        """Takes in the bytes that come next: the records that are whole with them. Raises `JournalRefused`.

        A record is whole with its second line feed. Nothing may be fed behind a refusal.
        """
        self._fed += len(part)
        lines = (self.rest + part).split(b"\n")
        at, found = 0, []
        if not self.layer and len(lines) > 1:
            header = _HEADER.fullmatch(lines[0])
            if not header:
                raise JournalRefused("no journal", "")
            self.layer = self.digest = header[1].decode()
            at = 1
        while self.layer and at + 2 < len(lines):
            found.append(self.record(lines[at], lines[at + 1]))
            at += 2
        self.rest = b"\n".join(lines[at:])
        return found

    def last(self) -> List[JournalRecord]:
        """The record at the end that lacks its line feed alone: its digest proves it, so it counts. None else."""
        stamp, line_feed, edit = self.rest.partition(b"\n")
        if not line_feed or b"\n" in edit:
            return []
        try:
            record = self.record(stamp, edit)
        except JournalRefused:
            return []
        self.rest = b""
        return [record]

    def end(self) -> int:
        """How many bytes stand at the end that a cut may have left: of one record, or of a group of which blocks were
        not written. Raises `JournalRefused` where they are others."""
        if not self.layer:
            raise JournalRefused("no journal", "")
        if self.rest and not self._is_begun() and not self._is_lost():
            raise self._changed()
        return len(self.rest)

    def _is_begun(self) -> bool:
        """Whether the rest is a beginning of the next record."""
        first, line_feed, second = self.rest.partition(b"\n")
        start = b"# %d " % (self.count + 1)
        if len(first) > MOST_STAMP or b"\0" in first:
            return False
        if not line_feed:
            return first.startswith(start) or start.startswith(first)
        return first.startswith(start) and bool(_SEALED.fullmatch(first) and _EDIT_BEGUN.fullmatch(second))

    def _is_lost(self) -> bool:
        """Whether a zero byte stands in the rest's first two lines, behind it only zeros in its block, and the rest is
        no longer than a group of records may be."""
        zero = self.rest.find(b"\0")
        if zero < 0 or self.rest.count(b"\n", 0, zero) > 1 or len(self.rest) > 9 * (self.longest or 128):
            return False
        first = -((self._fed - len(self.rest)) % BLOCK)
        blocks = (self.rest[max(at, 0) : at + BLOCK] for at in range(first, len(self.rest), BLOCK))
        return not any(b"\0" in block.rstrip(b"\0") for block in blocks)

    def record(self, stamp: bytes, edit: bytes) -> JournalRecord:
        """The record of two lines behind the one before. Raises `JournalRefused`."""
        found = _STAMP.fullmatch(stamp)
        digest = hashlib.sha256(self.digest.encode() + stamp[:-64] + edit + b"\n").hexdigest()
        if not found or int(found[1]) != self.count + 1 or found[5].decode() != digest or not _is_edit(edit):
            raise self._changed()
        try:
            time = datetime.fromisoformat(found[3].decode()[:-1]).replace(tzinfo=timezone.utc)
            who = (found[4] or b"").decode("utf-8")
        except ValueError:
            raise self._changed() from None
        if int(found[2]) > MOST_CLERK or len(who.encode()) > MOST_WORD or any(map(_is_control, who)):
            raise self._changed()
        self.count, self.digest = self.count + 1, digest
        self.longest = max(self.longest, len(stamp) + len(edit) + 2)
        return JournalRecord(self.count, int(found[2]), time, who, edit.decode("ascii"), digest)

    def _changed(self) -> JournalRefused:
        return JournalRefused("changed", "", 2 * self.count + 2)


def read_journal(path: PathLike) -> Journal:
    """Reads the journal at a path, and checks that each record stands as it was written.

    Parameters
    ----------
    path : path
        The journal, of a session that may be running.

    Returns
    -------
    Journal
        Its layer and records (edits in ids and mm), and as `torn` how many bytes stand at its end that a cut may leave.

    Raises
    ------
    JournalRefused
        S1 where the file can't be read, "no journal", or "changed" with the record's first line.

    Examples
    --------
    >>> import gandovel, pathlib, tempfile
    >>> with tempfile.TemporaryDirectory() as folder:
    ...     path = pathlib.Path(folder, "journal")
    ...     _ = path.write_text(f"# gandovel journal 1 mm {64 * '0'}\\n")
    ...     gandovel.read_journal(path).records
    ()
    """
    try:
        with open(path, "rb") as file:
            text = file.read()
    except OSError as fault:
        raise JournalRefused("S1", f"{os.fspath(path)}: {fault.strerror}") from fault
    return journal_of(text)


def journal_of(text: bytes) -> Journal:
    """What the text of a journal says. Raises as `read_journal`."""
    chain = Chain()
    records = chain.feed(text) + chain.last()
    return Journal(chain.layer, tuple(records), chain.end(), chain.digest)


def _is_edit(line: bytes) -> bool:
    """Whether a line is an edit as a session writes it: in one form, and within the limits."""
    if not _EDIT.fullmatch(line):
        return False
    kind, *words = line.split(b" ")
    return all(abs(int(word)) <= FARTHEST for word in words[_PARCELS[kind.decode()][0] :])


def _is_control(sign: str) -> bool:
    return sign < " " or "\x7f" <= sign <= "\x9f"


class Change(NamedTuple):
    """The ids that an edit takes out and brings."""

    out: Tuple[str, ...]
    new: Tuple[str, ...]


def changes_of(journal: Journal, parcels: Optional[int] = None) -> List[Change]:
    """What each record takes out and brings, as its edit says it.

    New ids go on behind the layer's: with `parcels`, how many parcels the layer has, they are told as they are; without
    it as +1, +2 .. behind these. Edits of corners leave all ids as they are, and have none here.
    """
    found, brought = [], 0
    for record in journal.records:
        kind, *words = record.edit.split(" ")
        named, new = _PARCELS[kind]
        ids = range(brought + 1, brought + new + 1)
        brought += new
        told = (f"+{it}" if parcels is None else str(parcels + it) for it in ids)
        found.append(Change(tuple(words[:named]), tuple(told)))
    return found
