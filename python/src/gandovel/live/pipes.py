"""The two pipes between a client and a program that answers lines, each call with a time limit."""
from __future__ import annotations

import errno
import fcntl
import os
import select
import stat
import time
from typing import Callable, List, Optional, Tuple

from ..errors import DeskTaken, ProgramEnded, Refused, SessionClosed, TimedOut

PART = 1 << 16
"""How many bytes are read at once: what a pipe holds."""
SOON = 0.001
"""Seconds between two tries to open a pipe that the program hasn't opened yet."""
UNANSWERED = "the program ended, or the desk, without an answer"
"""What T2 says of a wire."""


def limit_of(timeout: Optional[float]) -> Optional[float]:
    """The time of `time.monotonic` (seconds) that is `timeout` seconds from now; None where there is no limit."""
    return None if timeout is None else time.monotonic() + timeout


def left_of(until: Optional[float]) -> Optional[float]:
    """How many seconds are left until then, None for no limit. Raises `TimedOut` where none are."""
    if until is None:
        return None
    left = until - time.monotonic()
    if left <= 0:
        raise TimedOut("T4", "no answer in time")
    return left


class Wire:
    """A client's ends of the two pipes; neither end blocks. Lines are bytes, without their line feed.

    A call that raises `TimedOut` loses nothing: the next one goes on where it stopped.
    """

    def __init__(self, outward: int, inward: int) -> None:
        """Takes two file descriptors: lines are written to `outward`, and read from `inward`. It closes them."""
        self._outward, self._inward = outward, inward
        self._unsent, self._unread, self._looked = bytearray(), bytearray(), 0
        self._is_deaf = self._has_ended = False
        os.set_blocking(outward, False)
        os.set_blocking(inward, False)

    @property
    def is_closed(self) -> bool:
        """Whether `close` was called."""
        return self._outward < 0

    def put(self, line: bytes) -> None:
        """Adds a line, with its line feed, to what `line` sends. Raises `SessionClosed` where the wire is closed."""
        if self.is_closed:
            raise SessionClosed("closed", "the desk was left")
        self._unsent += line

    def line(self, until: Optional[float]) -> bytes:
        """Sends all that was put, and answers the next line. Raises `ProgramEnded` where none comes, and `TimedOut`."""
        while True:
            self._send()
            found = self._taken()
            if found is not None:
                return found
            if self._has_ended:
                raise ProgramEnded("T2", UNANSWERED)
            if self._is_deaf and self._unsent:  # what was said before is read, and nothing else is waited for
                self._receive()
                self._has_ended = True
            elif self._is_ready(until):
                self._receive()

    def test_heard(self) -> None:
        """Raises `ProgramEnded` where nobody read the pipe for a moment, though somebody does again: nothing is sent
        then."""
        if self._is_deaf:
            raise ProgramEnded("T2", UNANSWERED)

    def close(self) -> None:
        """Closes both pipes; a second call does nothing."""
        if not self.is_closed:
            _close_all([self._outward, self._inward])
            self._outward = self._inward = -1

    def _send(self) -> None:
        """Writes what the pipe takes."""
        try:
            while self._unsent and not self._is_deaf:
                del self._unsent[: os.write(self._outward, self._unsent[:PART])]
        except BlockingIOError:
            pass
        except BrokenPipeError:
            self._is_deaf = True

    def _taken(self) -> Optional[bytes]:
        """The next line of what was received, if it is whole."""
        end = self._unread.find(b"\n", self._looked)
        if end < 0:
            self._looked = len(self._unread)
            return None
        found, self._looked = bytes(self._unread[:end]), 0
        del self._unread[: end + 1]
        return found

    def _is_ready(self, until: Optional[float]) -> bool:
        """Waits until something can be done; whether that is to read.

        A pipe that the program hasn't opened yet reads as one that it has closed. So nothing is read before the program
        has written, closed it, or closed the other one.
        """
        left = left_of(until)
        poll = select.poll()
        poll.register(self._inward, select.POLLIN)
        if not self._is_deaf:
            poll.register(self._outward, select.POLLOUT if self._unsent else 0)
        ready = dict(poll.poll(None if left is None else left * 1000))
        if ready.get(self._outward, 0) & (select.POLLERR | select.POLLHUP):
            self._is_deaf = True
        return self._inward in ready or self._is_deaf

    def _receive(self) -> None:
        try:
            part = os.read(self._inward, PART)
        except BlockingIOError:
            return
        self._unread += part
        self._has_ended = not part


def open_pipes(path: str, until: Optional[float], test_running: Callable[[], None]) -> Tuple[int, int]:
    """Opens `path`.in for writing and then `path`.out for reading, as soon as a program reads the first.

    Between two tries it calls `test_running`, which raises where no program will.

    Refused P1 where one is not there, is no pipe, or may not be opened; `DeskTaken` where another client of this
    package has the desk; `TimedOut`.
    """
    for name in (f"{path}.in", f"{path}.out"):
        _test_pipe(name)
    while True:
        opened: List[int] = []
        try:
            opened.append(os.open(f"{path}.in", os.O_WRONLY | os.O_NONBLOCK))
            _take(opened[0], path)
            opened.append(os.open(f"{path}.out", os.O_RDONLY | os.O_NONBLOCK))
            return opened[0], opened[1]
        except OSError as fault:
            _close_all(opened)
            if fault.errno != errno.ENXIO:
                raise Refused("P1", f"{fault.filename or path}: {fault.strerror}") from fault
        except DeskTaken:
            _close_all(opened)
            raise
        test_running()
        pause(until)


def pause(until: Optional[float]) -> None:
    """Waits a moment before something is tried again. Raises `TimedOut`."""
    left = left_of(until)
    time.sleep(SOON if left is None else min(SOON, left))


def _take(outward: int, path: str) -> None:
    """Locks the pipe for as long as it is open, so that two clients of this package are not at one desk."""
    try:
        fcntl.flock(outward, fcntl.LOCK_EX | fcntl.LOCK_NB)
    except BlockingIOError as fault:
        raise DeskTaken("T5", f"another client is at the desk {path}") from fault


def _test_pipe(name: str) -> None:
    try:
        mode = os.stat(name).st_mode
    except OSError as fault:
        raise Refused("P1", f"{name}: {fault.strerror}") from fault
    if not stat.S_ISFIFO(mode):
        raise Refused("P1", f"{name} is no named pipe")


def _close_all(ends: List[int]) -> None:
    for end in ends:
        os.close(end)
