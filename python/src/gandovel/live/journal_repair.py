"""A damaged journal read as far as its digests prove it: what is damaged, where, and what can be kept."""
from __future__ import annotations

import hashlib
import re
from dataclasses import dataclass, field
from typing import Iterator, List, NamedTuple, Optional, Tuple

from ..errors import JournalRefused
from .journals import Chain

MOST_TRIED = 2_048
"""Bytes of a record in which each change of one byte is tried: some million digests, seconds."""
_HEADER = re.compile(rb"# gandovel journal 1 mm ([0-9a-f]{64})")
_STAMP = re.compile(rb"# ([1-9][0-9]{0,18}) [0-9]+ \d{4}-\d\d-\d\dT\d\d:\d\d:\d\dZ (?:.+ )?([0-9a-f]{64})", re.DOTALL)


class Damage(NamedTuple):
    """What is not as a session wrote it: the line (from 1) and byte (from 0) of the file, and what it is.

    `is_proved` says whether a digest proves what stood there, so that nothing is lost by it.
    """

    line: int
    byte: int
    text: str
    is_proved: bool


class Readable(NamedTuple):
    """An entry behind the damage that reads as one: its number, its two lines, whether the one before it is there, too,
    and proves it."""

    number: int
    stamp: str
    edit: str
    is_chained: bool


@dataclass
class Repair:
    """What is made of a journal: `text` is a journal of the `entries` that are proved.

    `readable` are entries behind the damage, which no journal can have: those before them are lost.
    """

    text: bytes = b""
    entries: int = 0
    damages: List[Damage] = field(default_factory=list)
    readable: List[Readable] = field(default_factory=list)

    @property
    def is_whole(self) -> bool:
        """Whether all that was answered is kept, as far as the file says."""
        return all(damage.is_proved for damage in self.damages)


class _Found(NamedTuple):
    """A record as it was: its two lines with their line feeds, how many bytes it has in the file, and what is wrong."""

    text: bytes
    length: int
    digest: str
    wrong: str


def repair(data: bytes) -> Repair:
    """What the bytes of a journal say, as far as digests prove it.

    Proved are, by its own digest, a record without its last line feed, and one of at most 2,048 bytes in which one byte
    was changed, added or lost; by the digest of the record behind it, one whose digest was changed; and by that of the
    first record a header of which this is true. Lines that end in CR LF are taken as if they did not.

    Raises
    ------
    JournalRefused
        "no journal": the header can't be read, and no record proves what it was.
    """
    made = Repair()
    if b"\r\n" in data and data.count(b"\n") == data.count(b"\r\n"):
        data = data.replace(b"\r\n", b"\n")
        made.damages.append(Damage(1, 0, "the lines end in CR LF, as another program wrote them", True))
    header, at, digest = _begun(data, made)
    parts = [header]
    while at < len(data):
        found = _next(data, at, digest, made.entries + 1)
        if found is None:
            break
        made.entries += 1
        if found.wrong:
            made.damages.append(_damage(data, at, f"entry {made.entries}: {found.wrong}", True))
        parts.append(found.text)
        at, digest = at + found.length, found.digest
    made.text = b"".join(parts)
    if at < len(data):
        _tell_rest(data, at, made)
    return made


def _begun(data: bytes, made: Repair) -> Tuple[bytes, int, str]:
    """The header's line, where the first record begins, and the digest of the layer. Raises `JournalRefused`."""
    line, line_feed, _ = data.partition(b"\n")
    plain = _HEADER.fullmatch(line)
    at = len(line) + len(line_feed)
    if plain and line_feed and (len(data) == at or _next(data, at, plain[1].decode(), 1)):
        return line + b"\n", at, plain[1].decode()
    for length in _lengths(data, 0, 0, 1):
        for text in _variants(data[:length]):
            found = _HEADER.fullmatch(text[:-1]) if text.endswith(b"\n") else None
            if found and _plain(data, length, found[1].decode(), 1):
                made.damages.append(Damage(1, 0, "one byte of the header: the first digest proves it", True))
                return text, length, found[1].decode()
    if plain:
        return line + b"\n", at, plain[1].decode()
    raise JournalRefused("no journal", "")


def _digest_of(before: str, stamp: bytes, edit: bytes) -> str:
    return hashlib.sha256(before.encode() + stamp[:-64] + edit + b"\n").hexdigest()


def _plain(data: bytes, at: int, before: str, number: int) -> Optional[_Found]:
    """The record at a byte, as it stands."""
    lines = _lines_at(data, at)
    if lines is None:
        return None
    found = _sealed(lines[0], lines[1], before, number)
    wrong = "" if lines[2] else "it lacks its line feed"
    return found and _Found(found[0], len(found[0]) - (0 if lines[2] else 1), found[1], wrong)


def _lines_at(data: bytes, at: int) -> Optional[Tuple[bytes, bytes, bool]]:
    """The two lines at a byte, and whether the second one has its line feed; None where there is no second one."""
    first = data.find(b"\n", at)
    if first < 0:
        return None
    second = data.find(b"\n", first + 1)
    end = len(data) if second < 0 else second
    return data[at:first], data[first + 1 : end], second >= 0


def _sealed(stamp: bytes, edit: bytes, before: str, number: int) -> Optional[Tuple[bytes, str]]:
    """The text and the digest of two lines, where the digest is theirs behind the one before."""
    if not stamp.startswith(b"# %d " % number):
        return None
    digest = _digest_of(before, stamp, edit)
    if stamp[-64:] != digest.encode():
        return None
    chain = Chain()
    chain.count, chain.digest = number - 1, before
    try:
        chain.record(stamp, edit)
    except JournalRefused:  # the digest is right, and the form is none of a session's
        return None
    return stamp + b"\n" + edit + b"\n", digest


def _next(data: bytes, at: int, before: str, number: int) -> Optional[_Found]:
    """The record at a byte as a digest proves it; None where none does."""
    return _plain(data, at, before, number) or _by_next(data, at, before, number) or _by_own(data, at, before, number)


def _by_next(data: bytes, at: int, before: str, number: int) -> Optional[_Found]:
    """A record whose digest was changed in its place: the record behind it is sealed behind the right one."""
    lines = _lines_at(data, at)
    if lines is None or not lines[2] or not lines[0].startswith(b"# %d " % number):
        return None
    stamp, edit = lines[0], lines[1]
    digest, length = _digest_of(before, stamp, edit), len(stamp) + len(edit) + 2
    if not _plain(data, at + length, digest, number + 1):
        return None
    text = stamp[:-64] + digest.encode() + b"\n" + edit + b"\n"
    return _Found(text, length, digest, "its digest was changed: that of the entry behind it proves it")


def _by_own(data: bytes, at: int, before: str, number: int) -> Optional[_Found]:
    """A record of which one byte was changed, added or lost: its digest proves what it was."""
    for length in _lengths(data, at, number, 3):
        for text in _variants(data[at : at + length]):
            lines = text.split(b"\n")
            if len(lines) == 3 and not lines[2]:
                found = _sealed(lines[0], lines[1], before, number)
                if found:
                    return _Found(text, length, found[1], "one byte was changed, added or lost: its digest proves it")
    return None


def _lengths(data: bytes, at: int, number: int, lines: int) -> Iterator[int]:
    """How many bytes a record may have in the file: up to a line's end, to the record behind it, or to the end."""
    ends = {data.find(b"# %d " % (number + 1), at + 1) - at}
    end = at
    for _ in range(lines):
        end = data.find(b"\n", end) + 1
        if not end:
            break
        ends.add(end - at)
    ends.add(len(data) - at)
    yield from sorted(length for length in ends if 0 < length <= MOST_TRIED)


def _variants(text: bytes) -> Iterator[bytes]:
    """A text with each byte left out, then with each replaced, then with one more at each place."""
    for at in range(len(text)):
        yield text[:at] + text[at + 1 :]
    signs = [bytes([value]) for value in range(256)]
    for at in range(len(text)):
        for sign in signs:
            yield text[:at] + sign + text[at + 1 :]
    for at in range(len(text) + 1):
        for sign in signs:
            yield text[:at] + sign + text[at:]


def _tell_rest(data: bytes, at: int, made: Repair) -> None:
    """Says what the bytes are behind the last entry that is proved, and reads what reads as entries there."""
    size = len(data) - at
    if _may_be_cut(made.text + data[at:]):
        text = f"{size} bytes of what was not answered yet, as a cut of power leaves them"
        made.damages.append(_damage(data, at, text, True))
        return
    made.readable = list(_readable(data, at, made.entries))
    text = f"{size} bytes behind entry {made.entries} that no digest proves"
    made.damages.append(_damage(data, at, text, False))


def _may_be_cut(text: bytes) -> bool:
    """Whether a session sets the end of a journal aside, as what a cut left."""
    chain = Chain()
    try:
        chain.feed(text)
        chain.end()
    except JournalRefused:
        return False
    return True


def _readable(data: bytes, at: int, entries: int) -> Iterator[Readable]:
    """What reads as entries behind the damage, by ascending numbers."""
    lines, last, before = data[at:].split(b"\n"), entries, ""
    for stamp, edit in zip(lines, lines[1:]):
        found = _STAMP.search(stamp)
        if not found or found.end() != len(stamp) or int(found[1]) <= last or edit.startswith(b"#") or not edit:
            continue
        number, whole = int(found[1]), stamp[found.start() :]
        is_chained = number == last + 1 and bool(before) and _digest_of(before, whole, edit).encode() == found[2]
        yield Readable(number, whole.decode("utf-8", "backslashreplace"), edit.decode("ascii", "replace"), is_chained)
        last, before = number, found[2].decode()


def _damage(data: bytes, at: int, text: str, is_proved: bool) -> Damage:
    return Damage(data.count(b"\n", 0, at) + 1, at, text, is_proved)
