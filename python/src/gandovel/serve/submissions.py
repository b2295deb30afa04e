"""The edits that clients send: each goes to a desk of the session, and is answered once the journal has it."""
from __future__ import annotations

import asyncio
import time
from typing import TYPE_CHECKING, Any, Dict, Optional, Sequence, Set, Tuple

from ..errors import BadAnswer, JournalBroken, JournalRefused, NoMemory, ProgramEnded
from ..live.answers import Accepted, accepted_of, test_error
from ..live.journals import JournalRecord
from .entries import Asked, Entry
from .fates import Deadline, Fate, unknown
from .faults import KeyReused, NotServing, Stale
from .lines import Lines
from .turns import Turns

if TYPE_CHECKING:
    from .register import Register

ANSWER = 60.0
"""Seconds that the program has for a line, before it is taken to be stuck and is started anew."""
PATIENCE = 60.0
"""Seconds until an edit whose answer does not come is left to its key."""
REST = 10.0
"""Seconds that no edit is taken after one that the disk did not take: readers have no session that begins each
moment."""
MOST_UNPUBLISHED = 256
"""How many entries may wait to be published, before no further edit is taken: who asks waits for as many."""
_WITHOUT_ANSWER = (ProgramEnded, JournalBroken, JournalRefused, NoMemory, BadAnswer, asyncio.TimeoutError)
"""Where what became of an edit is found in the journal."""


class Submissions:
    """Edits on their way to the session of a register. For one event loop."""

    def __init__(self, register: "Register") -> None:
        self._register = register
        self._turns = Turns()
        self._flying: Dict[Tuple[str, str], Tuple[str, "asyncio.Task[Entry]"]] = {}
        self._alike: Dict[Asked, "asyncio.Future[None]"] = {}
        self.fates: Set[Fate] = set()
        self._answers, self._patience = Deadline(ANSWER), Deadline(PATIENCE)
        self._rests_until = 0.0

    @property
    def is_resting(self) -> bool:
        """Whether no edit is taken, since the disk did not take one a moment ago."""
        return time.monotonic() < self._rests_until

    def renew(self, desks: Sequence[Lines]) -> None:
        """These are the desks of the session now."""
        self._turns.renew(desks)

    def give_up(self) -> None:
        """Answers those who wait for a session that none comes any more."""
        self._turns.end()
        for fate in self.fates:
            if not fate.number.done():
                fate.number.set_exception(unknown())

    def settle(self, records: Sequence[JournalRecord]) -> None:
        """Says by the records of a session's start what became of edits that got no answer."""
        for fate in self.fates:
            behind = records[fate.after :]
            number = next((record.number for record in behind if fate.asked.is_of(record)), None)
            if not fate.number.done():
                fate.number.set_result(number)
        self.fates = set()

    async def submit(self, asked: Asked, at: Optional[int]) -> Tuple[Entry, bool]:
        """As `Register.submit`."""
        keep = self._register.keep_task
        if asked.said.key is None:
            return await self._waited(keep(self._make(asked, at))), False
        key = (asked.said.name, asked.said.key)
        known = self._register.published.keys.get(key)
        edit, flying = self._flying.get(key, ("", None))
        if known is not None or flying is not None:
            if asked.edit != (known.edit if known else edit):
                raise KeyReused(
                    "key", "this Idempotency-Key came with another edit before: use a new one for each edit"
                )
            return await self._waited(flying or keep(self._published(known))), True  # type: ignore[arg-type]
        task = keep(self._make(asked, at))
        self._flying[key] = asked.edit, task
        task.add_done_callback(lambda _: self._flying.pop(key, None))
        return await self._waited(task), False

    async def _waited(self, task: "asyncio.Task[Entry]") -> Entry:
        """What a task answers; where it takes longer than a client waits it goes on."""
        waiting: "asyncio.Future[None]" = asyncio.get_running_loop().create_future()

        def come(_: Any) -> None:
            if not waiting.done():
                waiting.set_result(None)

        task.add_done_callback(come)
        self._patience.watch(waiting)
        await waiting
        return task.result()

    async def _make(self, asked: Asked, at: Optional[int]) -> Entry:
        """Lets the session make the edit; of those that a record would not tell apart one at a time."""
        self._test_at(at)
        await self._register.test_serving()
        if self.is_resting:
            raise JournalBroken("journal", "the disk did not take an edit a moment ago")
        while asked in self._alike:
            await asyncio.shield(self._alike[asked])
        done = self._alike[asked] = asyncio.get_running_loop().create_future()
        try:
            return await self._made(asked, at)
        finally:
            del self._alike[asked]
            done.set_result(None)

    async def _made(self, asked: Asked, at: Optional[int]) -> Entry:
        register = self._register
        self._test_open()
        if register.acknowledged - len(register.entries) > MOST_UNPUBLISHED:
            await register.until_published(register.acknowledged - MOST_UNPUBLISHED)
        desk = await self._turns.take(asked.said.name, at is not None)
        fate = None
        try:
            self._test_at(at)
            self._test_open()
            fate = Fate(asked, register.acknowledged)
            self.fates.add(fate)
            made, line = await self._answer(desk, asked)
            if made.number > len(register.entries):
                register.follower.told[made.number] = made, line
            register.accept(made.number)
        except _WITHOUT_ANSWER as fault:
            if fate is None:
                raise
            return await self._fate_of(fate, fault)
        finally:
            self.fates.discard(fate)  # type: ignore[arg-type]
            self._turns.give_back(desk)
        return self._known(made.number).with_ids(made.out, made.new)

    async def _answer(self, desk: Lines, asked: Asked) -> Tuple[Accepted, bytes]:
        """What the session answers to an edit: as it is read, and its line. Raises as the line says."""
        asking = desk.put(asked.line)
        self._answers.watch(asking)
        line = (await asking)[0]
        answer = line.decode()
        test_error(answer)
        return accepted_of(answer), line

    async def _fate_of(self, fate: Fate, fault: BaseException) -> Entry:
        """The entry of an edit without an answer, as the journal tells it once the session is started anew."""
        register = self._register
        if register.state == "closed":
            raise unknown()
        self.fates.add(fate)
        if not isinstance(fault, ProgramEnded) and register.state == "serving":
            register.kill_session()
        if isinstance(fault, JournalBroken):
            register.trouble = "the journal can't be written: see that its disk has room"
            self._rests_until = time.monotonic() + REST
        number = await fate.number
        if number is None:
            if isinstance(fault, JournalBroken):
                raise fault
            raise NotServing("not made", "the program ended before the edit was made: send it again")
        return await self._published(self._known(number))

    async def _published(self, entry: Entry) -> Entry:
        """The entry as it is published: with the ids that it took out and brought."""
        register = self._register
        while len(register.entries) < entry.number:
            if register.state == "closed":
                raise unknown()
            await register.news(len(register.entries), PATIENCE)
        return register.entries[entry.number - 1]

    def _known(self, number: int) -> Entry:
        """The entry of a record that was taken in."""
        entries = self._register.entries
        return entries[number - 1] if number <= len(entries) else self._register.follower.accepted[number]

    def _test_open(self) -> None:
        if self._register.state == "closed":
            raise NotServing("closed", "the server ends")

    def _test_at(self, at: Optional[int]) -> None:
        """Tests that the version that a client knows is the newest. Raises `Stale`."""
        entries = self._register.entries
        newest = max(self._register.acknowledged, len(entries))
        if at is not None and at != newest:
            last = entries[newest - 1] if 0 < newest <= len(entries) else None
            raise Stale(
                "stale",
                f"the register has gone on to entry {newest}: look at it again, and send the edit with that number",
                entries=newest,
                last=last.as_json() if last else None,
            )
