"""Lines to a program and its answers in their order, by an event loop: many may be on their way at once."""
from __future__ import annotations

import asyncio
import os
from collections import deque
from typing import Callable, Deque, List, Optional

from ..errors import ProgramEnded
from ..live.checkpoint import Checkpoint

PART = 1 << 18
"""How many bytes are read at once."""


class _Asked:
    """A line that was sent: the future of its answer's lines; a report ends with a line `.` or an error."""

    __slots__ = ("answer", "is_report", "lines")

    def __init__(self, answer: "asyncio.Future[List[bytes]]", is_report: bool) -> None:
        self.answer, self.is_report = answer, is_report
        self.lines: List[bytes] = []


class Lines:
    """The two ends of pipes at which a program answers lines. For one event loop; neither end blocks.

    An answer that nobody waits for any more is read and forgotten, so that a client that leaves shifts no other's.
    """

    def __init__(self, outward: int, inward: int) -> None:
        """Takes two file descriptors: lines are written to `outward`, and read from `inward`. It closes them."""
        self._outward, self._inward = outward, inward
        self._loop = asyncio.get_running_loop()
        self._unsent, self._rest = bytearray(), b""
        self._asked: Deque[_Asked] = deque()
        self._said: Deque[bytes] = deque(maxlen=16)
        """Lines that came while nothing was asked for."""
        self._is_flushing = self._is_held_up = False
        self.has_ended = False
        self.when_ended: Optional[Callable[[], None]] = None
        """Is called once no answer can come any more."""
        for end in (outward, inward):
            os.set_blocking(end, False)
        self._loop.add_reader(inward, self._receive)

    @property
    def waiting(self) -> int:
        """How many lines have no answer yet."""
        return len(self._asked)

    async def ask(self, line: bytes) -> bytes:
        """The one line that answers this one, both without a line feed. Raises `ProgramEnded`."""
        return (await self.put(line))[0]

    async def report(self, line: bytes) -> List[bytes]:
        """The lines of the report that answers this line, without the `.` at its end. Raises `ProgramEnded`."""
        return await self.put(line, True)

    async def unasked(self) -> bytes:
        """The next line that the program says of itself, where nothing else is waited for. Raises `ProgramEnded`."""
        if self._said:
            return self._said.popleft()
        answer: "asyncio.Future[List[bytes]]" = self._loop.create_future()
        if self.has_ended:
            raise _ended()
        self._asked.append(_Asked(answer, False))
        return (await answer)[0]

    def put(self, line: bytes, is_report: bool = False) -> "asyncio.Future[List[bytes]]":
        """Sends a line; the future of the lines that answer it."""
        answer: "asyncio.Future[List[bytes]]" = self._loop.create_future()
        if self.has_ended:
            answer.set_exception(_ended())
            answer.exception()  # one that nobody waits for is no news
            return answer
        self._asked.append(_Asked(answer, is_report))
        self._unsent += line + b"\n"
        if not self._is_flushing:
            self._is_flushing = True
            self._loop.call_soon(self._flush)
        return answer

    def close(self) -> None:
        """Closes both pipes, and ends what waits for an answer. A second call does nothing."""
        if self._inward >= 0:
            self._loop.remove_reader(self._inward)
            self._loop.remove_writer(self._outward)
            os.close(self._inward)
            os.close(self._outward)
            self._inward = self._outward = -1
        self._end()

    def _flush(self) -> None:
        """Writes what the pipe takes; the rest as soon as it takes more."""
        if self._outward < 0:
            return
        try:
            while self._unsent:
                del self._unsent[: os.write(self._outward, self._unsent[:PART])]
        except BlockingIOError:
            self._is_held_up = True
            self._loop.add_writer(self._outward, self._flush)
            return
        except OSError:
            self.close()
            return
        if self._is_held_up:
            self._loop.remove_writer(self._outward)
        self._is_flushing = self._is_held_up = False

    def _receive(self) -> None:
        try:
            part = os.read(self._inward, PART)
        except BlockingIOError:
            return
        except OSError:
            part = b""
        if not part:
            self.close()
            return
        *lines, self._rest = (self._rest + part).split(b"\n")
        for line in lines:
            self._take(line)

    def _take(self, line: bytes) -> None:
        """Gives a line to what was asked first."""
        if not self._asked:
            self._said.append(line)
            return
        first = self._asked[0]
        is_end = first.is_report and line == b"."
        if not is_end:
            first.lines.append(line)
        if not first.is_report or is_end or line.startswith(b"error: "):
            self._asked.popleft()
            if not first.answer.done():
                first.answer.set_result(first.lines)

    def _end(self) -> None:
        told, self.when_ended = self.when_ended, None
        self.has_ended = True
        while self._asked:
            answer = self._asked.popleft().answer
            if not answer.done():
                answer.set_exception(_ended())
                answer.exception()  # one that nobody waits for is no news
        if told is not None:
            told()


class RenamedLines(Lines):
    """Lines to a session over a checkpoint: parcels and entries have the register's ids and numbers."""

    def __init__(self, checkpoint: Checkpoint, outward: int, inward: int) -> None:
        """Takes the checkpoint, and two file descriptors as `Lines`."""
        super().__init__(outward, inward)
        self._checkpoint = checkpoint

    def put(self, line: bytes, is_report: bool = False) -> "asyncio.Future[List[bytes]]":
        """As of `Lines`."""
        return super().put(self._checkpoint.inward(line.decode()).encode(), is_report)

    def _take(self, line: bytes) -> None:
        super()._take(self._checkpoint.outward(line.decode()).encode())


def _ended() -> ProgramEnded:
    return ProgramEnded("T2", "the program ended before it answered")
