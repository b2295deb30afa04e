"""Clients share the desks of a session: each name in turn, and one that asks for the register to stand still, alone."""
from __future__ import annotations

import asyncio
from collections import deque
from typing import Deque, Dict, List, Optional, Sequence, Tuple

from .faults import NotServing, TooBusy
from .lines import Lines

MOST_WAITING = 64
"""How many edits of one name may wait."""
_Ticket = Tuple["asyncio.Future[Lines]", bool]


class Turns:
    """Who gets a desk next. A ticket that wants to be alone waits until no desk is taken; none is given meanwhile."""

    def __init__(self) -> None:
        self._idle: List[Lines] = []
        self._current: List[Lines] = []
        self._taken = 0
        self._is_alone = False
        self._queues: Dict[str, Deque[_Ticket]] = {}
        self._names: Deque[str] = deque()

    def renew(self, desks: Sequence[Lines]) -> None:
        """These are the desks now; those before are gone. Who waits goes on waiting."""
        self._idle, self._current, self._taken, self._is_alone = list(desks), list(desks), 0, False
        self._hand_out()

    async def take(self, name: str, alone: bool) -> Lines:
        """A desk, when it is this name's turn; `give_back` it. Raises `TooBusy` where too many of the name wait."""
        queue = self._queues.setdefault(name, deque())
        if len(queue) >= MOST_WAITING:
            raise TooBusy("busy", f"{MOST_WAITING} edits of yours wait: send the next one when one is answered")
        ticket: "asyncio.Future[Lines]" = asyncio.get_running_loop().create_future()
        queue.append((ticket, alone))
        if name not in self._names:
            self._names.append(name)
        self._hand_out()
        try:
            return await ticket
        except asyncio.CancelledError:
            if ticket.done() and not ticket.cancelled():
                self.give_back(ticket.result())
            raise

    def give_back(self, desk: Lines) -> None:
        """The desk is free again; one of a program that has ended, or is about to, is forgotten."""
        if desk not in self._current:
            return
        self._taken -= 1
        self._is_alone = False
        self._idle.append(desk)
        self._hand_out()

    def end(self) -> None:
        """Nobody who waits gets a desk any more."""
        for queue in self._queues.values():
            for ticket, _ in queue:
                if not ticket.done():
                    ticket.set_exception(NotServing("closed", "the server ends"))

    def _hand_out(self) -> None:
        while self._idle and not self._is_alone:
            found = self._next()
            if found is None:
                return
            ticket, alone = found
            self._taken += 1
            self._is_alone = alone
            ticket.set_result(self._idle.pop())

    def _next(self) -> Optional[_Ticket]:
        """The first ticket of the name whose turn it is. None where nobody waits, or it has to be alone and isn't."""
        while self._names:
            queue = self._queues[self._names[0]]
            while queue and queue[0][0].done():
                queue.popleft()
            if not queue:
                del self._queues[self._names.popleft()]
                continue
            if queue[0][1] and self._taken:
                return None
            self._names.rotate(-1)
            return queue.popleft()
        return None
