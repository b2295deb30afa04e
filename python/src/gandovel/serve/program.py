"""Starting the proved program for an event loop: its operator's desk, its named desks, its end with this process."""
from __future__ import annotations

import asyncio
import ctypes
import fcntl
import os
import re
import signal
import subprocess
import tempfile
from functools import partial
from pathlib import Path
from typing import IO, Callable, List, Optional, Sequence, Tuple

from ..errors import JournalInUse, ProgramEnded, Refused, TimedOut
from ..live.answers import count_of, start_refused, test_error
from ..live.checkpoint import Checkpoint
from ..live.pipes import limit_of, open_pipes
from ..program.tool import find_tool
from .lines import Lines, RenamedLines

PATIENCE = 5.0
"""Seconds that a program has to end by SIGTERM, before it is killed."""
START = 600.0
"""Seconds that a start may take: a long journal is applied then."""
MOST_NOTES = 1 << 20
"""How many bytes of standard error are looked at."""
OPENING = 60.0
"""Seconds until a desk's pipes are open, once the program is ready."""
_SET_PARENT_DEATH_SIGNAL = 1


class Program:
    """A running `parcel_tool session`: `operator` are the lines of its operator's desk, `desks` those of the others.

    It gets SIGTERM where this process ends in any way, so that it never holds a journal that nobody reads.
    """

    def __init__(self, process: "subprocess.Popen[bytes]", operator: Lines, errors: IO[bytes]) -> None:
        self.process, self.operator = process, operator
        self.desks: List[Lines] = []
        self.replayed = 0
        self._errors = errors

    @classmethod
    async def start(
        cls,
        words: Sequence[str],
        names: Sequence[str] = (),
        journal: Optional[str] = None,
        checkpoint: Optional[Checkpoint] = None,
    ) -> "Program":
        """Runs `session WORDS`, with desks whose pipes have these names (`Room.pipes`), and waits until it is ready.

        Over the layer of a `checkpoint` its lines have the register's ids and numbers, and so has `replayed`.
        Refused as a session's start is; `ProgramEnded`; `TimedOut`.
        """
        command = [find_tool(), "session", *words, *(word for name in names for word in ("--desk", name))]
        command += [] if journal is None else ["--journal", journal]
        errors = tempfile.TemporaryFile()
        lines: Callable[[int, int], Lines] = Lines
        if checkpoint is not None:
            lines = partial(RenamedLines, checkpoint)
        process, *ends = _begun(command, errors)
        program = cls(process, lines(*ends), errors)
        try:
            await program._make_ready(journal)
            for name in names:
                program.desks.append(lines(*await _opened(name, program.process)))
        except BaseException:
            program.kill()
            raise
        return program

    async def _make_ready(self, journal: Optional[str]) -> None:
        try:
            line = await asyncio.wait_for(self.operator.unasked(), START)
        except asyncio.TimeoutError:
            raise TimedOut("T4", "the program was not ready in time") from None
        except ProgramEnded:
            raise self._refusal(journal) from None
        self.replayed = count_of(line.decode(), "ready")

    def _refusal(self, journal: Optional[str]) -> Refused:
        """Why a program that ended at its start did."""
        status = self.process.wait()
        errors = [note[len("error: ") :] for note in self.notes if note.startswith("error: ")]
        if status == 1 and errors:
            return start_refused(errors[-1], journal)
        return ProgramEnded("T2", f"the program ended with status {status} at its start")

    async def close(self) -> Optional[int]:
        """Closes the session in order, and answers how many entries it has; None where it had ended, or had to be.

        An end in disorder loses nothing that was answered.
        """
        for desk in self.desks:
            desk.close()
        try:
            line = (await asyncio.wait_for(self.operator.ask(b"close"), PATIENCE)).decode()
            test_error(line)
            await asyncio.get_running_loop().run_in_executor(None, self.process.wait, PATIENCE)
            return count_of(line, "closed")
        except (Refused, asyncio.TimeoutError, subprocess.TimeoutExpired):
            return None
        finally:
            self.kill()

    def kill(self) -> None:
        """Ends the program at once. No edit that was answered is lost. A second call does nothing."""
        self.process.kill()
        self.process.wait()
        for lines in (self.operator, *self.desks):
            lines.close()
        self._errors.close()

    @property
    def notes(self) -> List[str]:
        """The lines that the program wrote to standard error, as of torn bytes that were set aside from the journal."""
        return os.pread(self._errors.fileno(), MOST_NOTES, 0).decode("utf-8", "backslashreplace").splitlines()

    @property
    def memory(self) -> int:
        """Bytes of memory that the program has now; 0 where it has ended."""
        try:
            pages = int(Path(f"/proc/{self.process.pid}/statm").read_text().split()[1])
        except (OSError, IndexError):
            return 0
        return pages * os.sysconf("SC_PAGE_SIZE")


def _begun(command: Sequence[str], errors: IO[bytes]) -> "Tuple[subprocess.Popen[bytes], int, int]":
    """Runs the program: its process, and the ends of pipes to its standard input and output. Refused T1."""
    lines, outward = os.pipe()
    inward, answers = os.pipe()
    try:
        # Signals that Python ignores stay so: a limit on files is a write that fails, and no end of the program.
        process = subprocess.Popen(
            command,
            stdin=lines,
            stdout=answers,
            stderr=errors,
            preexec_fn=_end_with_parent,
            restore_signals=False,
        )
    except OSError as fault:
        for end in (outward, inward):
            os.close(end)
        raise Refused("T1", f"the program can't be run: {fault.strerror}") from fault
    finally:
        os.close(lines)
        os.close(answers)
    return process, outward, inward


class Room:
    """The folder of a server's pipes, which only its user may look into. It is locked: a journal has one server."""

    def __init__(self, path: Path) -> None:
        """Makes the folder, or takes one that a server left that was killed. Raises `JournalInUse`; refused P14."""
        self._path = path
        try:
            path.mkdir(mode=0o700, exist_ok=True)
            self._lock = os.open(path, os.O_RDONLY | os.O_DIRECTORY | os.O_CLOEXEC)
        except OSError as fault:
            raise self._refusal(fault) from fault
        try:
            fcntl.flock(self._lock, fcntl.LOCK_EX | fcntl.LOCK_NB)
            is_there = os.path.samestat(os.fstat(self._lock), os.stat(path))
        except OSError:  # another has it, or has just taken it away
            is_there = False
        if not is_there:
            os.close(self._lock)
            raise JournalInUse("in use", "another server has this journal: stop it first")

    def pipes(self, desks: int) -> List[str]:
        """Makes the pipes of so many desks anew: their names. Refused P14."""
        try:
            self._clear()
            names = [str(self._path / f"desk{number}") for number in range(1, desks + 1)]
            for name in names:
                os.mkfifo(f"{name}.in", 0o600)
                os.mkfifo(f"{name}.out", 0o600)
        except OSError as fault:
            raise self._refusal(fault) from fault
        return names

    def close(self) -> None:
        """Takes the folder away."""
        try:
            self._clear()
            self._path.rmdir()
        except OSError:
            pass  # it has something that is not the server's
        os.close(self._lock)

    def _refusal(self, fault: OSError) -> Refused:
        advice = "see that the journal's folder is there, and may be written to"
        return Refused("P14", f"{self._path}, for the server's pipes, can't be made: {fault.strerror}: {advice}")

    def _clear(self) -> None:
        """Takes away what servers make there, and nothing else."""
        for path in self._path.iterdir():
            if re.fullmatch(r"desk[1-8]\.(in|out|lock)", path.name):
                path.unlink()


_LIBC = ctypes.CDLL(None, use_errno=True)


def _end_with_parent() -> None:
    """In the child: SIGTERM where the thread that began it ends, as by `kill -9`; and no Ctrl-C of the terminal."""
    _LIBC.prctl(_SET_PARENT_DEATH_SIGNAL, int(signal.SIGTERM))
    os.setpgid(0, 0)


async def _opened(name: str, process: "subprocess.Popen[bytes]") -> Tuple[int, int]:
    """Opens a desk's pipes."""

    def test_running() -> None:
        if process.poll() is not None:
            raise ProgramEnded("T2", "the program ended")

    until = limit_of(OPENING)
    return await asyncio.get_running_loop().run_in_executor(None, open_pipes, name, until, test_running)
