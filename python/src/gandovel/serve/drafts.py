"""Drafts: edits that clerks keep before they are made, see as they would be, and that a second clerk approves.

They lie in a file beside the journal, `JOURNAL.drafts`. A draft goes stale only where an entry concerns one of its
parcels.
"""
from __future__ import annotations

import asyncio
import json
import os
import secrets
from dataclasses import asdict, dataclass
from datetime import datetime, timezone
from pathlib import Path
from typing import Any, Dict, List, Optional, Tuple

from ..errors import Refused
from ..live.answers import accepted_of, overlaps_of, test_error
from .entries import Asked, Entry
from .faults import Fault, Faulty, NotServing, NoSuchThing, Stale, TooBusy
from .follower import asked_rows, rows_of
from .program import Program
from .published import RowRead
from .register import Register

MOST = 1_000
"""Drafts that are kept at once."""
AHEAD = 1_000
"""Edits of the journal that are sent before their answers are waited for."""


class NotYours(Fault):
    """A draft that another clerk has to approve, or to drop."""

    status_code = 403


@dataclass(frozen=True)
class Draft:
    """An edit that is kept: by whom, when, why, after how many entries, and the parcels that it would take out."""

    id: str
    who: str
    time: str
    why: str
    edit: str
    at: int
    parcels: Tuple[int, ...]


@dataclass(frozen=True)
class Seen:
    """An edit as it would be after so many entries: the parcels that go, and the rows and zones of those that come."""

    entries: int
    out: Tuple[int, ...]
    new: List[RowRead]
    zones: Dict[int, List[str]]


class Drafts:
    """The drafts of a register."""

    def __init__(self, register: Register) -> None:
        self._register = register
        self._path = register.journal.with_name(register.journal.name + ".drafts")
        self._kept: Dict[str, Draft] = {}
        self._one = asyncio.Lock()
        if self._path.exists():
            self._kept = {it.id: it for it in _read(self._path)}

    @property
    def all(self) -> List[Draft]:
        """Those that are kept, the oldest first."""
        return list(self._kept.values())

    def find(self, key: str) -> Draft:
        """A draft by its id. Raises `NoSuchThing`."""
        if key not in self._kept:
            raise NoSuchThing("draft", "there is no such draft: it was approved or dropped, or never was")
        return self._kept[key]

    def stale_by(self, draft: Draft) -> Optional[Entry]:
        """The first entry since then that concerns a parcel of a draft; None where there is none."""
        mine = set(draft.parcels)
        return next((it for it in self._register.entries[draft.at :] if mine.intersection(it.out)), None)

    async def keep(self, edit: str, why: str, who: str) -> Tuple[Draft, Seen]:
        """Keeps an edit that could be made now. Raises `RefusedEdit` where it could not, `TooBusy`, `Faulty`."""
        if len(self._kept) >= MOST:
            raise TooBusy("drafts", f"{MOST} drafts are kept: approve or drop some of them")
        seen = await self.seen(edit)
        moment = datetime.now(timezone.utc).strftime("%Y-%m-%dT%H:%M:%SZ")
        draft = Draft(secrets.token_hex(8), who, moment, why, edit, seen.entries, seen.out)
        self._write({**self._kept, draft.id: draft})
        return draft, seen

    async def seen(self, edit: str) -> Seen:
        """An edit as it would be now, by a run of the program of its own. Raises `RefusedEdit`, `Faulty`."""
        register = self._register
        if register.faults is not None:
            raise Faulty("faults", "the parcels have faults: no edit is taken, and no draft kept")
        await register.shown()
        async with self._one:
            program = await Program.start(register.layer.words, checkpoint=register.layer.checkpoint)
            try:
                return await _tried(register, program, edit)
            finally:
                program.kill()

    async def approve(self, draft: Draft, asked: Asked) -> Tuple[Entry, bool]:
        """Makes a draft's edit, by a second clerk. Raises `NotYours`, `Stale`, and as `Register.submit`."""
        if asked.said.name == draft.who:
            raise NotYours("second", f"{draft.who} kept this draft: another clerk has to approve it")
        stale = self.stale_by(draft)
        if stale is not None:
            text = f"entry {stale.number} took out a parcel of this draft: look at it again, and keep a new one"
            raise Stale("stale", text, entries=len(self._register.entries), last=stale.as_json())
        made = await self._register.submit(asked)
        self._write({key: it for key, it in self._kept.items() if key != draft.id})
        return made

    def drop(self, draft: Draft, who: str, is_operator: bool) -> None:
        """Drops a draft: its clerk or an operator may. Raises `NotYours`."""
        if who != draft.who and not is_operator:
            raise NotYours("draft", f"{draft.who} kept this draft: it is for them or an operator to drop")
        self._write({key: it for key, it in self._kept.items() if key != draft.id})

    def _write(self, kept: Dict[str, Draft]) -> None:
        """Puts the drafts onto the disk, whole, and knows them then. Raises `NotServing`."""
        aside = self._path.with_name(f".{self._path.name}")
        try:
            with open(os.open(aside, os.O_WRONLY | os.O_CREAT | os.O_TRUNC, 0o600), "wb") as file:
                file.write(json.dumps([asdict(it) for it in kept.values()]).encode())
                file.flush()
                os.fsync(file.fileno())
            os.replace(aside, self._path)
        except OSError:
            raise NotServing(
                "drafts", "drafts can't be written: tell the operator to see that the disk has room"
            ) from None
        self._kept = kept


def _read(path: Path) -> List[Draft]:
    """The drafts of a file. Refused W2."""
    try:
        told: List[Dict[str, Any]] = json.loads(path.read_bytes())
        return [Draft(parcels=tuple(it.pop("parcels")), **it) for it in told]
    except (OSError, ValueError, TypeError, KeyError):
        raise Refused("W2", f"{path} has no drafts as they were written: move it away, and keep them anew") from None


async def _tried(register: Register, program: Program, edit: str) -> Seen:
    """Makes all entries by a run of the program, and then the edit, of which the journal hears nothing."""
    lines, entries, of = program.operator, list(register.entries), register.layer.checkpoint
    for at in range(0 if of is None else of.before, len(entries), AHEAD):
        for told in [lines.put(it.edit.encode()) for it in entries[at : at + AHEAD]]:
            test_error((await told)[0].decode())
    answer = (await lines.put(edit.encode()))[0].decode()
    test_error(answer)
    made = accepted_of(answer)
    rows = await rows_of(asked_rows(program, made.new))
    zones: Dict[int, List[str]] = {}
    if register.layer.zones is not None:
        pairs = [line.decode() for line in await lines.report(b"overlay")]
        test_error(pairs[-1] if pairs else "")
        overlaps = await asyncio.get_running_loop().run_in_executor(None, overlaps_of, pairs)
        for parcel in made.new:
            records = overlaps.pairs[overlaps.pairs[:, 0] == parcel, 1].tolist()
            zones[parcel] = register.layer.zone_names(records)
    return Seen(len(entries), made.out, rows, zones)
