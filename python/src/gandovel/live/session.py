"""Running sessions of the proved program: clerks and readers at desks, and the operator.

    with gandovel.Session("city.shp", "parcels.shp", "cm", journal="register.txt", desks=["anna", "bert"]) as session:
        with session.desk("anna") as desk:
            made = desk.merge(4, 5)
            desk.parcel(made.new[0]).area2

An edit that was answered by an `Accepted` is in the journal on the disk.
"""
from __future__ import annotations

import os
import subprocess
import tempfile
import threading
import weakref
from types import TracebackType
from typing import IO, Any, Callable, List, Optional, Sequence, Tuple, Type

from ..errors import ProgramEnded, Refused, SessionClosed, SessionError, TimedOut
from ..program.tool import PathLike, find_tool
from .answers import Overlaps, Tiling, count_of, overlaps_of, start_refused, test_error, tiling_of
from .desk_calls import Calls
from .greeting import greeted
from .own_folder import OwnFolder
from .pipes import Wire, left_of, limit_of
from .witness import SessionWitness

MOST_NOTES = 1 << 20
"""How many bytes of standard error are looked at."""
PATIENCE = 5.0
"""Seconds that a program has to end by `close`, and then by SIGTERM, before it is killed."""


class Desk(Calls):
    """A client at a desk of a session; a context manager, which leaves the desk. Its calls are those of `Calls`."""

    @classmethod
    def at(cls, path: PathLike, timeout: Optional[float] = None) -> "Desk":
        """The desk at the pipes `path`.in and `path`.out, of a session that another process may have started.

        It waits until the desk answers, at most `timeout` seconds, which then holds for each call. What an earlier
        client left there is ended and forgotten: a line without its end, and answers that it did not read. Refused P1
        where there are no such pipes; `DeskTaken` where another client of this package is there (take care that there
        is no other program); `TimedOut`.
        """
        return cls(greeted(os.fspath(path), limit_of(timeout), lambda: None), timeout)

    def close(self) -> None:
        """Leaves the desk, for another client. A second call does nothing; any other is a `SessionClosed` then."""
        self._wire.close()

    @property
    def is_closed(self) -> bool:
        """Whether the desk was left."""
        return self._wire.is_closed

    def __enter__(self) -> "Desk":
        return self

    def __exit__(
        self, kind: Optional[Type[BaseException]], fault: Optional[BaseException], trace: Optional[TracebackType]
    ) -> None:
        self.close()


class Session(Calls):
    """A running `parcel_tool session`, and its operator's desk; a context manager, which closes it.

    Without named desks all calls of `Calls` are made here. With desks no edit is, and with eight no question. A context
    that is left by an exception ends the program as `terminate` does. Where this process ends, however that is, the
    program finds the end of its input, and closes. A forked child lets go of what it has of the session by `close`, by
    `terminate` or by its end, and its parent's session goes on; any other call there is a `SessionClosed`.

    Examples
    --------
    >>> import gandovel, numpy, pathlib, tempfile
    >>> from gandovel.program.layer_files import write_rings
    >>> left, right = [[0, 0], [9, 0], [9, 9], [0, 9]], [[9, 0], [18, 0], [18, 9], [9, 9]]
    >>> with tempfile.TemporaryDirectory() as name:
    ...     city, parcels = pathlib.Path(name, "city.shp"), pathlib.Path(name, "parcels.shp")
    ...     write_rings(city, [numpy.array([[0, 0], [18, 0], [18, 9], [0, 9]])])
    ...     write_rings(parcels, [numpy.array(left), numpy.array(right)])
    ...     with gandovel.Session(city, parcels, "mm") as session:
    ...         session.merge(1, 2), session.check()
    (Accepted(number=1, out=(1, 2), new=(3,)), Tiling(count=1, area2=324))
    """

    replayed: int
    """How many entries the journal had at the start."""

    def __init__(
        self,
        city: PathLike,
        parcels: PathLike,
        unit: str = "mm",
        *,
        zones: Optional[PathLike] = None,
        journal: Optional[PathLike] = None,
        desks: Sequence[str] = (),
        workers: Optional[int] = None,
        timeout: Optional[float] = None,
        witness: Optional[PathLike] = None,
    ) -> None:
        """Starts the program on a layer, whose files are in `unit` (mm, cm or m), and waits until it is ready.

        The edits of `journal` are made first, and each further edit is written to it; it is made where it isn't there.
        Each name of `desks`, eight at most, gets two named pipes in a folder of the session's own. `workers` is
        handed on; an overlay of a session takes one thread all the same. The start and each call may take `timeout`
        seconds. The end of the journal is kept in the file `witness`, too, at most a second late and at the close; a
        journal that is shorter than that is refused P20.

        Refused as the program's commands are (H2, S1 ..); `JournalRefused`, `JournalInUse`; `ProgramEnded`; `TimedOut`.
        """
        self._journal = None if journal is None else os.fspath(journal)
        self._witness = None if witness is None else SessionWitness(witness, self._journal)
        self._turn = threading.RLock()
        self._owner = os.getpid()
        self._folder = OwnFolder()
        self._errors = tempfile.TemporaryFile()
        self._opened: List[Desk] = []
        self._names = tuple(desks)
        self._notes: Optional[List[str]] = None
        self._is_closing = False
        self._last: Optional[int] = None
        try:
            self._make_pipes()
            options = {"--zones": zones, "--journal": journal, "--workers": workers}
            words = [word for name, value in options.items() if value is not None for word in (name, _text(value))]
            words += [word for name in desks for word in ("--desk", self.path(name))]
            command = [find_tool(), "session", _text(city), _text(parcels), "--unit", unit, *words]
            self._process, wire = _started(command, self._errors)
        except BaseException:
            self._forget()
            raise
        super().__init__(wire, timeout)
        try:
            self.replayed = self._begun()
            if self._witness is not None:
                self._witness.follow(self.replayed, _asking(weakref.ref(self)))
                weakref.finalize(self, self._witness.stop).atexit = False
        except BaseException:
            self._end()
            raise

    def path(self, name: str) -> str:
        """What `Desk.at` is given for the desk with this name, by another process. ValueError where none has it."""
        if name not in self._names:
            raise ValueError(f"no desk has the name {name!r}")
        return os.path.join(self._folder.name, name)

    def desk(self, name: str, timeout: Optional[float] = None) -> Desk:
        """Opens the desk with this name, as `Desk.at` does, by default with the session's time limit.

        It is left when the session is closed.
        """
        limit = self.timeout if timeout is None else timeout
        desk = Desk(greeted(self.path(name), limit_of(limit), self._test_running), limit)
        self._opened = [other for other in self._opened if not other.is_closed] + [desk]
        return desk

    @property
    def pid(self) -> int:
        """The number of the program's process."""
        return self._process.pid

    @property
    def notes(self) -> List[str]:
        """The lines that the program wrote to standard error, as of torn bytes that were set aside from the journal."""
        if self._notes is not None:
            return self._notes
        return os.pread(self._errors.fileno(), MOST_NOTES, 0).decode("utf-8", "backslashreplace").splitlines()

    def check(self) -> Tiling:
        """How many parcels there are now, and twice the area of the city that they tile."""
        return tiling_of(self._reported("check"))

    def overlay(self, areas: bool = False) -> Overlaps:
        """Which parcels and zones overlap now; with `areas` also how much of each parcel lies in each zone. Raises
        `NoZones`."""
        return overlaps_of(self._reported("overlay areas" if areas else "overlay"), areas)

    def export(self, base: PathLike) -> int:
        """Writes the parcels of now to `base`.shp and `base`.shx, in mm, and answers how many they are.

        Records are numbered anew, by ascending ids. Raises `SessionError`, and nothing is written: with code S2 where
        they can't be written, with S5 where `base` names files of the session's own (a layer that it read, its journal,
        a pipe), with S6 where a table or a projection stands beside, and with `no base` where it ends in `.shp` or is a
        folder.
        """
        return count_of("\n".join(self._reported(f"export {_text(base)}")), "exported")

    def publish(self) -> int:
        """Shows all entries to readers, and answers how many they are. Edits are shown without it, too."""
        return count_of(self.ask("publish"), "published")

    def close(self) -> Optional[int]:
        """Closes the session, and answers how many entries there are; None where it was ended by `terminate`.

        No further line is taken at any desk, and the program ends. Desks that were opened here are left first. A client
        of another process that does not read its answers is cut off. Where the journal failed, only the entries count
        that the disk has. Raises `CardsMissing` where a clerk's card did not come back. A second call does nothing.
        """
        if self._notes is not None:
            return self._last
        for desk in self._opened:
            desk.close()
        if os.getpid() != self._owner:
            self._end()
            return None
        try:
            self._last = self._closed()
        except TimedOut:
            raise
        except BaseException:
            self._end()
            raise
        self._end()
        return self._last

    def terminate(self) -> None:
        """Ends the program by `close`; by SIGTERM where it does not take that in time. Nothing is raised.

        No edit that was answered is lost. A second call does nothing.
        """
        for desk in self._opened:
            desk.close()
        self._end()

    def __enter__(self) -> "Session":
        return self

    def __exit__(
        self, kind: Optional[Type[BaseException]], fault: Optional[BaseException], trace: Optional[TracebackType]
    ) -> None:
        try:
            if fault is None:
                self.close()
        finally:
            self.terminate()

    def _make_pipes(self) -> None:
        if len(set(self._names)) < len(self._names):
            raise ValueError("two desks have the same name")
        for name in self._names:
            if not name or name in (".", "..") or "/" in name or "\0" in name:
                raise ValueError(f"not the name of a desk: {name!r}")
            for end in ("in", "out"):
                os.mkfifo(f"{self.path(name)}.{end}", 0o600)

    def _begun(self) -> int:
        """How many entries were replayed, as the first line says. Where none comes, the refusal is raised."""
        try:
            line = self._wire.line(limit_of(self.timeout))
        except ProgramEnded:
            ended = self._ended()
            errors = [note for note in self.notes if note.startswith("error: ")]
            if self._process.returncode == 1 and errors:
                raise start_refused(errors[-1][len("error: ") :], self._journal) from None
            raise ended from None
        return count_of(line.decode("utf-8", "backslashreplace"), "ready")

    def _closed(self) -> int:
        """Asks for the close, unless that was done, and waits for the answer and for the program's end."""
        with self._turn:
            if not self._is_closing:
                self._put("close", False)
                self._is_closing = True
            until = limit_of(self.timeout)
            line = self._answered()[0]
        try:
            status = self._process.wait(left_of(until))
        except subprocess.TimeoutExpired:
            raise TimedOut("T4", "the program did not end in time") from None
        test_error(line)
        if status != 0:
            raise self._ended()
        return count_of(line, "closed")

    def ask_all(self, lines: Sequence[str]) -> List[str]:
        """As `Calls.ask_all`."""
        self._test_running()
        with self._turn:
            return super().ask_all(lines)

    def _exchanged(self, line: str, is_report: bool) -> List[str]:
        self._test_running()  # before: a forked child may have the turn as another thread held it
        with self._turn:
            return super()._exchanged(line, is_report)

    def _shown(self) -> Optional[int]:
        """How many entries are on the disk, for the witness; None where that is not said."""
        with self._turn:
            try:
                return None if self._is_closing else self.publish()
            except SessionError:
                return None

    def _put(self, line: str, is_report: bool) -> None:
        self._test_running()
        super()._put(line, is_report)

    def _answered(self, behind: int = 0) -> List[str]:
        try:
            return super()._answered(behind)
        except ProgramEnded:
            raise self._ended() from None

    def _test_running(self) -> None:
        if self._notes is not None:
            raise SessionClosed("closed", "the session was closed")
        if os.getpid() != self._owner:
            raise SessionClosed(
                "closed", "the session is of the process that began it; open a desk by gandovel.Desk.at"
            )
        if self._process.poll() is not None:
            raise self._ended()

    def _ended(self) -> ProgramEnded:
        """The error for a program that ended of its own, or by another's signal."""
        try:
            status = self._process.wait(PATIENCE)
        except subprocess.TimeoutExpired:
            return ProgramEnded("T2", "the program closed its output, and runs on")
        how = f"by signal {-status}" if status < 0 else f"with status {status}"
        return ProgramEnded("T2", " ".join([f"the program ended {how}", *self.notes[-1:]]))

    def _end(self) -> None:
        """Ends the program where it runs, and takes away what the session has of its own. A forked child only lets go
        of its copies."""
        if self._notes is not None:
            return
        if os.getpid() != self._owner:
            self._wire.close()
            self._forget()
            return
        if not self._turn.acquire(timeout=PATIENCE):  # the witness waits for a program that does not answer
            self._process.kill()
            self._turn.acquire()
        try:
            self._ask_to_end()
            self._wire.close()
        finally:
            self._turn.release()
        for end in (lambda: None, self._process.terminate, self._process.kill):
            end()
            try:
                self._process.wait(PATIENCE)
                break
            except subprocess.TimeoutExpired:
                pass
        if self._witness is not None:
            self._witness.end(self._last)
        self._forget()

    def _ask_to_end(self) -> None:
        """Sends `close`, and reads what the program answers until it closes its output, or for as long as it has."""
        until = limit_of(PATIENCE)
        try:
            if not self._is_closing:
                self._is_closing = True
                self._wire.put(b"close\n")
            while True:
                self._wire.line(until)
        except (ProgramEnded, SessionClosed, TimedOut):
            pass

    def _forget(self) -> None:
        self._notes = self.notes
        self._errors.close()
        self._folder.cleanup()


def _started(command: Sequence[str], errors: IO[bytes]) -> Tuple[subprocess.Popen[bytes], Wire]:
    """Runs the program: its process, and a wire to its standard input and output. Refused T1 where it can't be run."""
    lines, outward = os.pipe()
    inward, answers = os.pipe()
    wire = Wire(outward, inward)
    try:
        # Signals that Python ignores stay so: a limit on files is a write that fails, and no end of the program.
        process = subprocess.Popen(command, stdin=lines, stdout=answers, stderr=errors, restore_signals=False)
        return process, wire
    except OSError as fault:
        wire.close()
        raise Refused("T1", f"the program {command[0]} can't be run: {fault.strerror}") from fault
    finally:
        os.close(lines)
        os.close(answers)


def _asking(session: "weakref.ref[Session]") -> Callable[[], Optional[int]]:
    """What a witness asks, which keeps no session that nobody has any more."""

    def shown() -> Optional[int]:
        found = session()
        return None if found is None else found._shown()

    return shown


def _text(value: Any) -> str:
    return str(os.fspath(value)) if isinstance(value, os.PathLike) else str(value)
