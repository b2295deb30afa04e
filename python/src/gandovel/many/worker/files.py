"""What a task knows of files: their checksums, and the stamps that a change of them changes.

Like all of this folder it needs nothing but Python's own modules, on any node that has Python 3.8.
"""
from __future__ import annotations

import errno
import hashlib
import os
import stat
import time
from typing import Any, Dict, NamedTuple, Optional, Sequence, Tuple

BLOCK = 1 << 20
SETTLED = 2.0
"""Seconds after which a change of a file gets another time than the last, whatever the disk's clock."""

Stamp = Tuple[int, int, int, int]


class Checked(NamedTuple):
    """A file as it was: its checksum (64 hexadecimal digits; None where it was not read), its length in bytes, and what
    a change of it changes.
    """

    sha256: Optional[str]
    size: int
    stamp: Stamp
    """The file's number on its disk, its length, and when it and what is noted of it were changed, in nanoseconds."""

    def told(self) -> Dict[str, Any]:
        """As a result tells it."""
        return {"bytes": self.size} if self.sha256 is None else {"sha256": self.sha256, "bytes": self.size}


class Input(NamedTuple):
    """A file as it was before the program ran: None where there was none.

    It is `old` where a change of it would give it another stamp. Where that is enough, it has no checksum.
    """

    checked: Optional[Checked]
    old: bool = False

    def told(self) -> Optional[Dict[str, Any]]:
        """As a result tells it: with its stamp, where that says as much as its checksum."""
        if self.checked is None:
            return None
        return {**self.checked.told(), "stamp": self.checked.stamp} if self.old else self.checked.told()


def checked(path: str) -> Optional[Checked]:
    """A file's checksum; None where there is no such file. OSError where it can't be read."""
    return read_input(path).checked


def read_input(path: str, by_bytes: bool = True) -> Input:
    """A file as it is, with its checksum; without `by_bytes` an old one has none. OSError where it can't be read."""
    digest, size = hashlib.sha256(), 0
    try:
        with open(path, "rb", buffering=0) as file:
            facts = os.fstat(file.fileno())
            if not stat.S_ISREG(facts.st_mode):
                raise IsADirectoryError(errno.EISDIR, "it is no file")
            old = time.time() - facts.st_ctime > SETTLED
            if old and not by_bytes:
                return Input(Checked(None, facts.st_size, stamp_of(facts)), True)
            for block in iter(lambda: file.read(BLOCK), b""):
                digest.update(block)
                size += len(block)
    except (FileNotFoundError, NotADirectoryError):
        return Input(None)
    return Input(Checked(digest.hexdigest(), size, stamp_of(facts)), old)


def stamp_of(facts: os.stat_result) -> Stamp:
    """What a change of a file changes. (Its time may be set back; the time at which that was done may not.)"""
    return facts.st_ino, facts.st_size, facts.st_mtime_ns, facts.st_ctime_ns


def has_stamp(path: str, stamp: Sequence[int]) -> bool:
    """Whether a file is there with a stamp. OSError where that can't be known."""
    try:
        return list(stamp_of(os.stat(path))) == list(stamp)
    except (FileNotFoundError, NotADirectoryError):
        return False


def is_unchanged(path: str, before: Input) -> bool:
    """Whether a file is what it was: the same file, with the same times, and bytes where these say too little.

    OSError where it can't be read.
    """
    if before.checked is not None and before.checked.sha256 is None:
        return has_stamp(path, before.checked.stamp)
    return checked(path) == before.checked


def told_of(path: str) -> Optional[Dict[str, Any]]:
    """A file of a result, as the result tells it."""
    it = checked(path)
    return it and it.told()


_programs: Dict[Tuple[Any, ...], Optional[str]] = {}
"""The checksums that this process has taken of a program, by what a change of it changes."""


def checksum_of_program(path: str) -> Optional[str]:
    """A program's checksum; it is read once for all tasks of a list, and again where it changed. OSError without it."""
    facts = os.stat(path)
    state = path, facts.st_dev, facts.st_ino, facts.st_size, facts.st_mtime_ns, facts.st_ctime_ns
    if state not in _programs:
        here = checked(path)
        if here is None:
            raise FileNotFoundError(path)
        if time.time() - facts.st_ctime < SETTLED:
            return here.sha256
        _programs[state] = here.sha256
    return _programs[state]
