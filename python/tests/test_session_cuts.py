"""Cuts of power and synchronisations that fail, block by block: whatever they leave, a start has each edit that was
answered `ok`, and none that nobody sent."""
from __future__ import annotations

import contextlib
import random
import subprocess
import threading
from collections import Counter
from functools import partial
from pathlib import Path
from typing import Dict, List, Set

import pytest

import gandovel as gv
from session_cuts import Disk, Event, events_of
from session_register import CELL
from session_town import FULL, SECONDS, Town, find_tool, preload, preloaded

pytestmark = pytest.mark.usefixtures("in_time")
CUTS = 1000 if FULL else 60
OF_A_LIFE = 10
"""Cuts of each life: the next one begins with what one of them left."""
NAMES = tuple(f"desk{k}" for k in range(1, 9))
EDITS = 8


@pytest.fixture(scope="module")
def recording(tmp_path_factory: pytest.TempPathFactory) -> Path:
    """The library that writes down what the program does to its journal."""
    return preloaded(tmp_path_factory.mktemp("preload"), "recording_disk.c")


class Clerk(threading.Thread):
    """Cuts parcels of its own in two, by paths of many corners, and merges the parts, until so many edits are made or
    the journal fails."""

    def __init__(self, session: gv.Session, at: int, seed: int, sent: Set[str]) -> None:
        super().__init__()
        self._path, self._at, self._draw, self._sent = session.path(NAMES[at]), at, random.Random(seed), sent
        self.fault: List[BaseException] = []

    def run(self) -> None:
        try:
            with gv.Desk.at(self._path, SECONDS) as desk:
                for _ in range(self._draw.randint(1, EDITS)):
                    with contextlib.suppress(gv.RefusedEdit):  # of what an earlier clerk left in pieces
                        self.work(desk)
        except gv.JournalBroken:
            pass
        except BaseException as fault:  # the test raises it
            self.fault.append(fault)

    def work(self, desk: gv.Desk) -> None:
        """Cuts a parcel in the row of this clerk and merges its parts, or those that an earlier clerk left."""
        place = desk.locate(self._draw.randrange(8 * CELL), self._at * CELL + CELL // 2)
        outline = desk.parcel(place.ids[0])
        ring, pair = outline.ring.tolist(), (outline.id, outline.id + 1)
        if len(ring) == 4:
            steps = sorted(self._draw.sample(range(30, 70), self._draw.choice([0, 1, 5, 40])))
            ends = list(zip(ring[0], ring[2]))
            bent = [[a + (b - a) * step // 100 + self._draw.randint(-9, 9) for a, b in ends] for step in steps]
            path = " ".join(f"{x} {y}" for x, y in [ring[0], *bent, ring[2]])
            pair = self.make(desk, f"split {outline.id} {path}").new
        self.make(desk, "merge {} {}".format(*pair))

    def make(self, desk: gv.Desk, line: str) -> gv.Accepted:
        """Sends an edit, with a word of any length."""
        self._sent.add(line)
        return desk.edit_line(line, "é" * self._draw.choice([1, 10, 100]))


def lived(town: Town, draw: random.Random, recording: Path, monkeypatch: pytest.MonkeyPatch, sent: Set[str]) -> bytes:
    """One to three sessions after one another, with clerks at one to eight desks, of which some fail: the record."""
    record = town.journal.parent / "record"
    record.unlink(missing_ok=True)
    for _ in range(draw.randint(1, 3)):
        with monkeypatch.context() as patch:
            fails = {draw.choice(["SYNC_FAILS", "WRITE_FAILS"]): draw.choice([0, draw.randint(1, 12)])}
            paths = {"JOURNAL": town.journal.resolve(), "RECORD": record.resolve()}
            preload(town, patch, recording, **paths, **{"SYNC_FAILS": 0, "WRITE_FAILS": 0, **fails})
            try:
                with town.session(*NAMES) as session:
                    clerks = [Clerk(session, at, draw.random(), sent) for at in range(draw.choice([1, 3, 8]))]
                    for clerk in clerks:
                        clerk.start()
                    for clerk in clerks:
                        clerk.join()
                    assert [fault for clerk in clerks for fault in clerk.fault] == []
            except gv.JournalRefused as fault:
                assert fault.code == "S1" and any(fails.values())
    return record.read_bytes()


def begun(town: Town, left: Dict[str, bytes]) -> None:
    """Puts what a cut left in the place of the journal and the files beside it."""
    for path in town.journal.parent.glob(f"{town.journal.name}*"):
        path.unlink()
    for name, text in left.items():
        (town.journal.parent / name).write_bytes(text)


def files_of(town: Town) -> Dict[str, bytes]:
    """The journal and the files beside it."""
    return {path.name: path.read_bytes() for path in town.journal.parent.glob(f"{town.journal.name}*")}


def started(town: Town, left: Dict[str, bytes], found: "Counter[str]") -> int:
    """How many entries a start has, in the program's own words.

    A start that was cut before its new file was on the disk can leave that one begin with zeros. The next start does
    not know it for its own, refuses by S1, and changes nothing; it is the operator who takes it away.
    """
    words = ["session", town.city, town.parcels, "--unit", "mm", "--journal", town.journal]
    run = partial(subprocess.run, [find_tool(), *map(str, words)], stdin=subprocess.DEVNULL, capture_output=True)
    told, other = run(), f"{town.journal.name}.gandovel-next"
    if told.returncode == 1 and b"\0" in left.get(other, b"")[:24]:
        assert told.stderr.decode() == f"error: {town.journal}: S1\n" and files_of(town) == left
        town.journal.with_name(other).unlink()
        told, found["held up"] = run(), found["held up"] + 1
    assert told.returncode == 0 and told.stdout.startswith(b"ready "), (told.stdout, told.stderr)
    return int(told.stdout.split()[1])


def test_random_cuts_and_failing_synchronisations(town, recording, monkeypatch):
    """Of a life each cut leaves any of what was not synchronised: the edits stand that were answered by then."""
    draw, sent, found = random.Random(80), set(), Counter()
    for _ in range(CUTS // OF_A_LIFE):
        before = files_of(town)
        disks = [Disk(before), Disk(before)]
        for disk in disks:
            disk.find(town.journal.parent)
        events = list(events_of(lived(town, draw, recording, monkeypatch, sent)))
        found["failed"] += any(event.is_failed for event in events)
        weights = [weight_of(disks[0], event) for event in events]
        places = Counter(draw.choices(range(len(events)), weights, k=OF_A_LIFE))
        for at, event in enumerate(events):
            disks[1].take(event)
            for _ in range(places[at]):
                cut(town, disks[1], draw, sent, found)
    print(dict(found))
    kinds = ("cuts", "failed", "aside", "unanswered", *(("completed", "next") if FULL else ()))
    assert all(found[kind] for kind in kinds), found


def weight_of(disk: Disk, event: Event) -> int:
    """How often a moment is drawn, behind this event: the more, the more is open then."""
    disk.take(event)
    return 1 + 8 * disk.is_open + 16 * (event.kind in "NRLU" or event.text == b"D")


def cut(town: Town, disk: Disk, draw: random.Random, sent: Set[str], found: "Counter[str]") -> None:
    """One cut at this moment: what it left is started anew, and stays in the town's folder."""
    left, written = disk.left(draw), disk.names.get(town.journal.name)
    begun(town, left)
    replayed = started(town, left, found)
    assert replayed >= disk.answered
    now, journal = files_of(town), town.journal.name
    assert written is None or bytes(written.text).startswith(now[journal]) or not written.text
    lines = town.lines()
    assert len(lines) == replayed and set(lines) <= sent
    asides = [name for name in now if ".cut." in name]
    assert all(now[name] == left[name] for name in asides if name in left)
    new = b"".join(now[name] for name in asides if name not in left)
    assert not left.get(journal) or now[journal] + new in (left[journal], left[journal] + b"\n")
    assert f"{journal}.gandovel-next" not in now
    found["cuts"] += 1
    found["aside"] += bool(new)
    found["completed"] += len(now[journal]) > len(left.get(journal, b"")) > 0
    found["unanswered"] += replayed > disk.answered
    found["next"] += f"{journal}.gandovel-next" in left


def test_a_program_that_synchronised_nothing_would_be_found(town, recording, monkeypatch):
    """Where no synchronisation of a file counts, the same cuts lose edits: so the test before says something."""
    draw, sent, disk = random.Random(81), set(), Disk({})
    for event in events_of(lived(town, draw, recording, monkeypatch, sent)):
        if (event.kind, event.text) != ("E", b"F"):
            disk.take(event)
    with pytest.raises(AssertionError):
        for _ in range(20):
            cut(town, disk, draw, sent, Counter())
