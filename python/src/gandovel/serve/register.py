"""A register that is open: a session of the proved program, and all that the server knows of its journal.

Edits and `locate` are answered by the session. A second run of the program, without a journal, follows the accepted
edits in order (`Follower`), so that the rows of each version are the program's own words.
"""
from __future__ import annotations

import asyncio
import logging
from pathlib import Path
from typing import Any, Dict, List, Optional, Sequence, Set, Tuple

from ..errors import BadAnswer, JournalInUse, NoZones, ProgramEnded, Refused
from ..live.answers import Overlaps, Place, count_of, overlaps_of, place_of, test_error
from ..live.journals import JournalRecord
from ..live.tail import Tail
from ..live.witness import Witness
from .entries import Asked, Entry
from .fates import Deadline, Fate
from .faults import NotServing
from .follower import Follower
from .layer import Layer
from .program import Program, Room
from .published import Published
from .submissions import ANSWER, Submissions

__all__ = ["Deadline", "Fate", "Register"]
LOG = logging.getLogger("gandovel.serve")
DESKS = 8
"""Desks of a session: the first one is for questions, the others are for edits."""
WAITING = 30.0
"""Seconds that a request waits for a session that is started anew."""
BEHIND = 0.001
"""Seconds until a question is asked again whose answer is older than an edit that was answered before it."""
MOST_BEHIND = 10_000
"""How often it is asked again."""
IN_USE = 20
"""How often a journal that is in use is tried again, each half a second."""
PACES = (0.0, 0.5, 1.0, 2.0, 5.0)
"""Seconds between two tries to start a session anew; the last one for all further ones."""
KEPT_OVERLAPS = 4
"""How many versions' overlaps are kept, for the pages that follow a first one."""


class Register:
    """The interface of the server to its register. For one event loop.

    `entries` are the published entries in order, `versions` the rows of each version, `past` what became of each
    parcel, `state` one of `starting`, `serving`, `restarting`, `broken` and `closed`.
    """

    def __init__(self, layer: Layer, journal: Path, keep: int = 10_000, witness: Optional[Path] = None) -> None:
        """Takes the layer, the journal, which is made where it is not there, how many entries back are kept, and a file
        on another disk for the journal's end."""
        self.layer, self.journal, self._keep = layer, journal, keep
        self.published = Published(layer, keep)
        self.entries, self.versions, self.past = self.published.entries, self.published.versions, self.published.past
        self.follower = Follower(self.published, layer)
        self.submissions = Submissions(self)
        self.faults: Optional[List[Any]] = None
        """The faults of a layer that does not tile (`FaultyRegister`)."""
        self.state, self.restarts, self.trouble = "starting", 0, ""
        self.acknowledged = 0
        """The newest entry that was answered, or that the journal had at a start."""
        self.witness: Optional[Witness] = None
        """It writes the journal's end."""
        self._witness_path = witness
        self._synchronised = 0
        self._room: Optional[Room] = None
        self._tail: Optional[Tail] = None
        self._session: Optional[Program] = None
        self._tasks: Set["asyncio.Task[Any]"] = set()
        self._overlaps: Dict[int, "asyncio.Task[Overlaps]"] = {}
        self._running = asyncio.Event()
        self._following: Optional["asyncio.Task[None]"] = None
        self._restarting: Optional["asyncio.Task[None]"] = None

    # its life

    async def start(self) -> None:
        """Starts the session and reads its journal. Refused as a session's start, `Room`, `Tail` and `Witness` are."""
        if self._witness_path is not None:
            self.witness = Witness(self._witness_path, self.journal)
        try:
            await self._open_soon()
            if self.witness is not None:
                self.witness.start()
        except BaseException:
            self._kill()
            raise

    async def _open_soon(self) -> None:
        """Opens it, once the program of a server that was killed has let go of the journal."""
        for _ in range(IN_USE):
            try:
                return await self._open()
            except JournalInUse:
                await asyncio.sleep(0.5)
        await self._open()

    async def close(self) -> None:
        """Ends in order: edits that were taken are answered, no other is, and the session is closed."""
        was, self.state = self.state, "closed"
        self.published.close()
        if self._restarting is not None:
            self._restarting.cancel()
            await asyncio.wait([self._restarting])
        if was != "serving":
            self._running.set()
            self.submissions.give_up()
        if self._tasks:
            await asyncio.wait(self._tasks, timeout=ANSWER)
        if self._session is not None and was == "serving":
            await self._session.close()
        self._kill()
        if self.witness is not None:
            await asyncio.get_running_loop().run_in_executor(None, self.witness.close)

    async def _open(self) -> None:
        """Starts the programs that do not run, and takes in what the journal has beyond what is known."""
        self.kill_session()
        if self._room is None:
            self._room = Room(self.journal.with_name(self.journal.name + ".desks"))
        names, words = self._room.pipes(DESKS), self.layer.words
        self._session = await Program.start(words, names, str(self.journal), self.layer.checkpoint)
        records = await self._read_journal(self._session.replayed)
        if not self.follower.runs:
            await self.follower.begin(words, records, self._keep)
        self.take_in(records)
        await self.follower.follow()
        assert self.follower.program is not None
        for lines in (self._session.operator, *self._session.desks, self.follower.program.operator):
            lines.when_ended = self._ended
            if lines.has_ended:
                raise ProgramEnded("T2", "the program ended as soon as it was ready")
        self._overlaps = {}
        self.state = "serving"
        self._running.set()
        self.submissions.renew(self._session.desks[1:])
        self.published.tell()

    async def _read_journal(self, count: int) -> List[JournalRecord]:
        """The journal's records; they have to be as many as the session has, and begin with those that are known."""
        tail = await asyncio.get_running_loop().run_in_executor(None, Tail, self.journal, self.layer.checkpoint)
        if self._tail is not None:
            self._synchronised += self._tail.grown
            self._tail.close()
        self._tail = tail
        if len(tail.records) != count:
            raise BadAnswer("T3", f"the journal has {len(tail.records)} edits, and the session {count}")
        accepted = self.follower.accepted
        known = [*self.entries, *(accepted[number] for number in sorted(accepted))]
        if any((it.edit, it.time) != (record.edit, record.moment) for it, record in zip(known, tail.records)) or (
            count < max(self.acknowledged, len(known))
        ):
            raise BadAnswer("journal", "edits that were answered are not in the journal any more")
        return list(tail.records)

    def take_in(self, records: Sequence[JournalRecord]) -> None:
        """Takes in the records of a session's start, and says what became of edits that got no answer."""
        self.accept(len(records))
        self.submissions.settle(records)

    def accept(self, number: int) -> None:
        """Takes the journal's records up to one that was answered, which all are on the disk; the follower goes on."""
        assert self._tail is not None
        self._tail.read_to(number)
        for record in self._tail.records[max(self.acknowledged, len(self.entries)) : number]:
            self.follower.accept(Entry.of(record))
        self.acknowledged = max(self.acknowledged, number)
        if self.witness is not None:
            self.witness.saw(self._tail.end(self.acknowledged))
        if self._following is None or self._following.done():
            self._following = self.keep_task(self._follow_and_tell())

    async def _follow_and_tell(self) -> None:
        try:
            await self.follower.follow()
        except ProgramEnded:
            return  # the restart goes on with it
        except Refused as fault:
            self.state, self.trouble = "broken", f"{fault.code}: the follower does not agree with the journal"
            LOG.error("the follower does not agree with the journal: %s", fault)

    def _ended(self) -> None:
        """One of the programs has ended: both are looked after."""
        if self.state == "serving":
            self.state, self.trouble = "restarting", "the program ended"
            self._running.clear()
            self.submissions.renew([])
            self.published.tell()
            self._restarting = self.keep_task(self._restart())

    async def _restart(self) -> None:
        for attempt in range(1_000_000):
            await asyncio.sleep(PACES[min(attempt, len(PACES) - 1)])
            if self.state == "closed":
                return
            try:
                self.restarts += 1
                await self._open()
                LOG.warning("the session was started anew, with %d entries", len(self.entries))
                return
            except (Refused, OSError) as fault:
                self.trouble = fault.code if isinstance(fault, Refused) else "the program can't be started"
                LOG.error("the session can't be started anew: %s", fault)

    def kill_session(self) -> None:
        """Ends the session's program; where the register is serving a new one is started."""
        if self._session is not None:
            self._session.kill()

    def _kill(self) -> None:
        for program in (self._session, self.follower.program):
            if program is not None:
                program.kill()
        if self._tail is not None:
            self._tail.close()
        if self._room is not None:
            self._room.close()
            self._room = None

    # edits

    async def submit(self, asked: Asked, at: Optional[int] = None) -> Tuple[Entry, bool]:
        """Makes an edit: its entry, once it is in the journal on the disk, and whether it was made before by this key.

        With `at` it is made only where that is the number of the newest entry.

        An edit whose key was seen before is not made again. Raises `RefusedEdit`, `Stale`, `KeyReused`, `TooBusy`,
        `NotServing`, `JournalBroken`; `TimeoutError` where what became of it is not known after `PATIENCE`.
        """
        return await self.submissions.submit(asked, at)

    async def test_serving(self) -> None:
        """Waits a while for a session that is started anew. Raises `NotServing`."""
        if self.state == "serving":
            return
        if self.state != "closed":
            try:
                await asyncio.wait_for(self._running.wait(), WAITING)
                if self.state != "closed":
                    return
            except asyncio.TimeoutError:
                pass
        raise NotServing(self.state, self.trouble or "the register is not open: try again")

    # questions

    async def news(self, after: int, timeout: float) -> bool:
        """Waits until there is an entry after this number; whether there is one."""
        return await self.published.news(after, timeout)

    async def shown(self) -> int:
        """The newest published entry, once all that was answered before this call is published. Raises `NotServing`."""
        if len(self.entries) < self.acknowledged:
            await self.until_published(self.acknowledged)
        return len(self.entries)

    async def until_published(self, number: int) -> None:
        """Waits until entry `number` is published. Raises `NotServing`."""
        if self.state == "closed":
            raise NotServing("closed", "the server ends")
        if not await self.published.until(number, WAITING):
            raise NotServing(self.state, "the register is behind: try again")

    async def locate(self, x: int, y: int) -> Place:
        """Where a point (mm) lies, by the session. Raises `NotServing`."""
        return place_of((await self.locate_line(x, y)).decode(), x, y)

    async def locate_line(self, x: int, y: int) -> bytes:
        """The session's line on a point (mm), of a version with all that was answered before this call."""
        wanted, line = self.acknowledged, b"locate %d %d" % (x, y)
        for _ in range(3):
            if self.state != "serving":
                await self.test_serving()
            assert self._session is not None
            desk = self._session.desks[0]
            try:
                for _ in range(MOST_BEHIND):
                    answer = (await desk.put(line))[0]
                    if answer.startswith(b"error"):
                        test_error(answer.decode())
                    if int(answer.split(b" ", 2)[1]) >= wanted:
                        return answer
                    await asyncio.sleep(BEHIND)
            except ProgramEnded:
                continue
            raise NotServing("behind", "the register is behind: try again")
        raise NotServing("restarting", "the session ends again and again: look at /health")

    async def overlaps(self) -> Overlaps:
        """Which parcels and zones overlap, with all edits that were answered before; shared by those who ask at
        once."""
        if self.layer.zones is None:
            raise NoZones("no zones", "the layer was prepared without zones")
        for entries, task in list(self._overlaps.items()):
            if entries >= self.acknowledged and not (task.done() and task.exception()):
                return await asyncio.shield(task)
        task = self.keep_task(self._overlay())
        self._overlaps[self.acknowledged] = task
        while len(self._overlaps) > KEPT_OVERLAPS:
            self._overlaps.pop(min(self._overlaps))
        return await asyncio.shield(task)

    async def kept_overlaps(self, entries: int) -> Optional[Overlaps]:
        """The overlaps of just this version, where they are kept."""
        for task in self._overlaps.values():
            if task.done() and not task.exception() and task.result().entries == entries:
                return task.result()
        return None

    async def _overlay(self) -> Overlaps:
        lines = await self._report("overlay")
        return await asyncio.get_running_loop().run_in_executor(None, overlaps_of, lines)

    async def export(self, base: Path) -> int:
        """Writes the parcels of now to `base`.shp and `base`.shx, in mm: how many they are. Raises `SessionError`."""
        return count_of("\n".join(await self._report(f"export {base}")), "exported")

    async def _report(self, line: str) -> List[str]:
        """What the session's operator is told to a line. Raises `SessionError`, `NotServing`."""
        await self.test_serving()
        assert self._session is not None
        lines = [line.decode() for line in await self._session.operator.report(line.encode())]
        test_error(lines[-1] if lines else "")
        return lines

    @property
    def layer_digest(self) -> str:
        """SHA-256 of the layer, with which the journal's chain of digests begins; empty where there is no journal.

        Of several journals it is the first one's."""
        of = self.layer.checkpoint
        return of.layer if of is not None else self._tail.layer if self._tail is not None else ""

    def health(self) -> Dict[str, Any]:
        """State, entries, and how often the session was started anew."""
        return {
            "state": self.state,
            "entries": len(self.entries),
            "kept_from": self.versions.first,
            "restarts": self.restarts,
            "trouble": self.trouble if self.state != "serving" or self.submissions.is_resting else "",
        }

    @property
    def synchronised(self) -> int:
        """How many synchronisations of the journal answers told of since the server began: there were as many or
        more."""
        return self._synchronised + (self._tail.grown if self._tail is not None else 0)

    def memory(self) -> Dict[str, int]:
        """Bytes of memory that each program has now."""
        programs = {"session": self._session, "follower": self.follower.program}
        return {name: program.memory for name, program in programs.items() if program is not None}

    def keep_task(self, work: Any) -> "asyncio.Task[Any]":
        """Runs a coroutine to its end, also where nobody waits for it; the end of the register waits for it."""
        task = asyncio.get_running_loop().create_task(work)
        self._tasks.add(task)
        task.add_done_callback(self._tasks.discard)
        task.add_done_callback(lambda done: done.cancelled() or done.exception())
        return task
