"""The end of a journal anchored elsewhere: its last number and digest in a file on another disk, the witness.

    # gandovel witness 1 entry 12 digest 5f.. layer 0c.. time 2026-12-01T09:30:00Z sum 77..

A journal proves each of its records by the one before, and so not that none is gone from the end. Its witness does.
"""
from __future__ import annotations

import hashlib
import logging
import os
import re
import stat
import threading
from datetime import datetime, timezone
from pathlib import Path
from typing import Callable, Dict, NamedTuple, Optional, Tuple

from ..errors import JournalRefused, Refused
from ..program.tool import PathLike
from ..whole_file import renamed, synchronise_folder
from .journals import Chain, JournalRecord

LOG = logging.getLogger("gandovel.witness")
PACE = 0.5
"""Seconds between two looks for a new end."""
PATIENCE = 5.0
"""Seconds that an end may take to be written at the close; a disk that takes longer is not waited for."""
MOST = 1 << 10
"""Bytes of a witness that are looked at: one has fewer."""
PART = 1 << 20
"""How many bytes of a journal are read at once."""
_LINE = re.compile(
    r"(# gandovel witness 1 entry (0|[1-9][0-9]{0,18}) digest ([0-9a-f]{64}) layer ([0-9a-f]{64}) "
    r"time (\d{4}-\d\d-\d\dT\d\d:\d\d:\d\dZ)) sum ([0-9a-f]{64})\n"
)
_OTHER = "or give this journal another witness"


class End(NamedTuple):
    """The end of a journal: the number of its last record, 0 before the first, its digest, and the layer's."""

    number: int
    digest: str
    layer: str


def line_of(end: End, time: datetime) -> bytes:
    """A witness of this end."""
    told = (
        f"# gandovel witness 1 entry {end.number} digest {end.digest} layer {end.layer} time {time:%Y-%m-%dT%H:%M:%SZ}"
    )
    return f"{told} sum {hashlib.sha256(told.encode()).hexdigest()}\n".encode()


def end_of(text: bytes) -> Optional[Tuple[End, str]]:
    """The end that a witness tells of, and when it was written; None where it is not as it was written."""
    found = _LINE.fullmatch(text.decode("utf-8", "backslashreplace"))
    if not found or hashlib.sha256(found[1].encode()).hexdigest() != found[6]:
        return None
    return End(int(found[2]), found[3], found[4]), found[5]


class _Digests(Chain):
    """A chain that keeps the digests of its records from the number `least` on, also where a later one is refused."""

    def __init__(self) -> None:
        super().__init__()
        self.least = 0
        self.kept: Dict[int, str] = {}

    def record(self, stamp: bytes, edit: bytes) -> JournalRecord:
        """As `Chain.record`."""
        record = super().record(stamp, edit)
        if record.number >= self.least:
            self.kept[record.number] = record.digest
        return record


class Ends:
    """The ends that a journal has had, as it is read on. For one thread at a time."""

    def __init__(self, path: PathLike) -> None:
        """Opens the journal. OSError where it can't be."""
        self._file = os.open(path, os.O_RDONLY | os.O_CLOEXEC | os.O_NONBLOCK)
        self._chain = _Digests()
        self._size = 0

    @property
    def count(self) -> int:
        """How many records were read."""
        return self._chain.count

    @property
    def layer(self) -> str:
        """The layer's digest, with which the chain begins; empty where no header was read."""
        return self._chain.layer

    def has_more_than(self, number: int) -> bool:
        """Whether there is more in the file than this record is the end of. OSError."""
        return self.count != number or bool(self._chain.rest) or os.fstat(self._file).st_size != self._size

    def at(self, number: int) -> Optional[End]:
        """The end with this number, which is no less than those asked for before; None where it is not there.

        Raises `JournalRefused` where the file is not as it was written, and OSError.
        """
        self._chain.least = number
        self._chain.kept = {it: digest for it, digest in self._chain.kept.items() if it >= number}
        while part := os.read(self._file, PART):
            self._size += len(part)
            self._chain.feed(part)
        return self._end(number)

    def found(self, number: int) -> Optional[End]:
        """As `at`, as far as the file is as it was written, and with a last record that lacks its line feed alone. It
        is the last that is asked for."""
        try:
            self.at(number)
            self._chain.last()
        except JournalRefused:
            pass  # the program says so, if no record is missed before
        return self._end(number)

    def close(self) -> None:
        """Closes the journal. A second call does nothing."""
        if self._file >= 0:
            os.close(self._file)
        self._file = -1

    def _end(self, number: int) -> Optional[End]:
        digest = self._chain.kept.get(number, self.layer if number == 0 else "")
        return End(number, digest, self.layer) if digest else None


class Witness:
    """The witness of one journal, which a thread of its own writes, until `close`.

    Nothing waits for it. Where it can't be written that is said once, and tried again. A witness that another wrote
    meanwhile, and what is no witness, is never written over.
    """

    def __init__(self, path: PathLike, journal: Optional[PathLike]) -> None:
        """Compares the journal with its witness, where there is one; both stay as they are.

        Refused P20 where the journal is shorter, has another record in that place or another layer, where the file is
        no witness, or where `journal` is None. `JournalRefused` S1 where the journal can't be read.
        """
        if journal is None:
            raise Refused("P20", f"{os.fspath(path)}: a witness is of a journal: name the journal, too")
        self.path, self._journal = Path(os.path.realpath(path)), os.fspath(journal)
        if self.path == Path(os.path.realpath(journal)):
            raise Refused("P20", f"{self.path} is the journal itself: name another file as its witness")
        self._present = self._read()
        """The bytes of the witness, as they were read or written last."""
        self.number = -1
        """The entry that it has; -1 where it has none yet."""
        self._is_new = self._present is None and os.path.exists(self._journal)
        if self._present is not None:
            self.number = self._compared(self._present)
        self._owner = os.getpid()
        self._end: Optional[End] = None
        self._newest: Callable[[], Optional[End]] = lambda: self._end
        self._is_troubled = self._is_begun = False
        self._ended = threading.Event()
        self._thread = threading.Thread(target=self._run, name="gandovel witness", daemon=True)

    def start(self, newest: Optional[Callable[[], Optional[End]]] = None) -> None:
        """Begins to write it. `newest` is asked for the end that is on the disk, in the thread of the witness; without
        it that is what `saw` was given last."""
        self._newest = newest or self._newest
        self._is_begun = True
        try:
            self._thread.start()
        except RuntimeError as fault:
            LOG.warning("the witness %s can't be written: %s", self.path, fault)

    def saw(self, end: End) -> None:
        """Takes an end that is on the disk. It costs nothing."""
        self._end = end

    def stop(self) -> None:
        """Lets the thread end, and does not wait for it."""
        self._ended.set()

    def close(self) -> None:
        """Writes the end once more, and ends the thread. A second call does nothing, and none in a forked child
        does."""
        if os.getpid() != self._owner:
            return
        self.stop()
        if self._thread.is_alive():
            self._thread.join(PATIENCE)
            if self._thread.is_alive():
                LOG.warning("the witness %s is not written in time: it stays behind", self.path)

    def _run(self) -> None:
        while not self._ended.wait(PACE):
            self._look()
        self._look()

    def _look(self) -> None:
        """Writes the newest end, where that is another than the one that is written."""
        try:
            end = self._newest()
            if end is None or end.number == self.number and self.path.exists():
                return
            self._write(end)
        except (OSError, Refused) as fault:
            if not self._is_troubled:
                text = fault.strerror if isinstance(fault, OSError) else fault
                LOG.warning("the witness %s can't be written, and is tried again: %s", self.path, text)
            self._is_troubled = True
            return
        if self._is_troubled:
            LOG.warning("the witness %s is written again, up to entry %d", self.path, end.number)
        elif self._is_new and end.number > 0:
            LOG.warning("the witness %s was not there: it begins with entry %d", self.path, end.number)
        self._is_troubled = self._is_new = False

    def _write(self, end: End) -> None:
        """Writes it aside, and puts it in its place, both on the disk. OSError, and Refused where another wrote it."""
        if self._read() not in (self._present, None):
            raise Refused("P20", f"it was written by another, or is no witness: {_OTHER}")
        text = line_of(end, datetime.now(timezone.utc))
        with renamed(self.path) as aside:
            aside.unlink(missing_ok=True)
            handle = os.open(aside, os.O_WRONLY | os.O_CREAT | os.O_EXCL | os.O_NOFOLLOW | os.O_CLOEXEC, 0o600)
            with open(handle, "wb") as file:
                os.fchmod(handle, 0o600)
                file.write(text)
                file.flush()
                os.fsync(handle)
        self._present, self.number = text, end.number
        synchronise_folder(self.path.parent)

    def _read(self) -> Optional[bytes]:
        """What stands there; None where nothing does, or a folder, which can't be written over. Refused P20."""
        try:
            handle = os.open(self.path, os.O_RDONLY | os.O_CLOEXEC | os.O_NONBLOCK)
        except (FileNotFoundError, NotADirectoryError):
            return None
        except OSError as fault:
            raise Refused("P20", f"the witness {self.path} can't be read: {fault.strerror}: {_OTHER}") from fault
        try:
            mode = os.fstat(handle).st_mode
            if stat.S_ISDIR(mode):
                return None
            if not stat.S_ISREG(mode):
                raise Refused("P20", f"the witness {self.path} is no regular file: {_OTHER}")
            return os.read(handle, MOST)
        except OSError as fault:
            raise Refused("P20", f"the witness {self.path} can't be read: {fault.strerror}: {_OTHER}") from fault
        finally:
            os.close(handle)

    def _compared(self, present: bytes) -> int:
        """The entry of the witness, which the journal has as well. Refused P20; `JournalRefused` S1.

        The witness was read before, so that a journal that is being written is no shorter.
        """
        told = end_of(present)
        if told is None:
            raise Refused("P20", f"{self.path} is no witness, or is not as it was written: {_OTHER}")
        (number, digest, layer), time = told
        known = f"its witness {self.path} knows of {number}, at {time}"
        keep = f"put the copy back that has it (what the file has: gandovel journal --repair {self._journal})"
        try:
            ends = Ends(self._journal)
        except FileNotFoundError:
            raise Refused("P20", f"{self._journal} is not there, and {known}: {keep}, {_OTHER}") from None
        except OSError as fault:
            raise JournalRefused("S1", f"the journal can't be read: {fault.strerror}") from fault
        try:
            found = ends.found(number)
        except OSError as fault:
            raise JournalRefused("S1", f"the journal can't be read: {fault.strerror}") from fault
        finally:
            ends.close()
        if ends.layer and ends.layer != layer:
            text = f"{self.path} is the witness of a journal of another layer, {layer}, than {self._journal}"
            raise Refused(
                "P20", f"{text}, {ends.layer}: a journal that is begun anew takes a new witness: name another"
            )
        if found is None:
            raise Refused("P20", f"{self._journal} has {ends.count} entries, and {known}: {keep}, {_OTHER}")
        if found.digest != digest:
            raise Refused("P20", f"entry {number} of {self._journal} is another, and {known}: {keep}, {_OTHER}")
        return number


class SessionWitness(Witness):
    """The witness of a `Session`'s journal.

    The file may have records that are not synchronised yet. So the session is asked how many it shows, before which it
    synchronises them, and the digest of that record is read. It is asked only where the file has more than that.
    """

    def follow(self, count: int, shown: Callable[[], Optional[int]]) -> None:
        """Begins, once the session is ready with `count` entries. `shown` asks it, in the thread of the witness; None
        for no answer."""
        self._count, self._shown = count, shown
        self._ends: Optional[Ends] = None
        self.start(self._followed)

    def end(self, count: Optional[int]) -> None:
        """Ends, once the session has said how many entries it has at its close; None where it did not."""
        if self._is_begun:
            self._shown = lambda: count
            self.close()
            if self._ends is not None and not self._thread.is_alive():
                self._ends.close()

    def _followed(self) -> Optional[End]:
        if self._ends is None:
            self._ends = Ends(self._journal)
        if self._ends.has_more_than(self._count):
            self._count = max(self._count, self._shown() or 0)
        return self._ends.at(self._count)
