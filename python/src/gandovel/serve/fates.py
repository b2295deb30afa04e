"""What becomes of edits that are under way: their fate where no answer comes, and how long each is waited for."""
from __future__ import annotations

import asyncio
from collections import deque
from typing import Any, Deque, Optional, Tuple

from .entries import Asked
from .faults import Unknown


class Fate:
    """An edit that went to the session: `after` so many records that were known then; its entry's number comes
    later."""

    def __init__(self, asked: Asked, after: int) -> None:
        self.asked, self.after = asked, after
        self.number: "asyncio.Future[Optional[int]]" = asyncio.get_running_loop().create_future()
        """None where the journal does not have it."""


class Deadline:
    """Futures that end with `TimeoutError` where they are not done within so many seconds, by one timer."""

    def __init__(self, seconds: float) -> None:
        self._seconds = seconds
        self._watched: Deque[Tuple[float, "asyncio.Future[Any]"]] = deque()
        self._timer: Optional[asyncio.TimerHandle] = None

    def watch(self, future: "asyncio.Future[Any]") -> None:
        """Watches one more."""
        while self._watched and self._watched[0][1].done():
            self._watched.popleft()
        loop = future.get_loop()
        self._watched.append((loop.time() + self._seconds, future))
        if self._timer is None:
            self._timer = loop.call_later(self._seconds, self._look, loop)

    def _look(self, loop: asyncio.AbstractEventLoop) -> None:
        now, self._timer = loop.time(), None
        while self._watched and (self._watched[0][0] <= now or self._watched[0][1].done()):
            future = self._watched.popleft()[1]
            if not future.done():
                future.set_exception(TimeoutError())
        if self._watched:
            self._timer = loop.call_later(self._watched[0][0] - now, self._look, loop)


def unknown() -> Unknown:
    """Why an edit has no answer: the server ends before it is known whether the journal has it."""
    return Unknown("unknown", "the server ends: send the edit again with the same key")
