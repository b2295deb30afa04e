"""Disks that fail under a session's journal: what is shown and counted is what the disk has, and nothing else."""
from __future__ import annotations

import os
import shutil
import subprocess
import time
from pathlib import Path
from typing import Iterator, List

import pytest

import gandovel as gv
from gandovel.live.journals import journal_of
from session_town import FULL, SECONDS, Town, preload, preloaded

pytestmark = pytest.mark.usefixtures("in_time")
FIRST = ["merge 1 2", "merge 65 3", "merge 66 4", "merge 67 5", "merge 68 6", "merge 69 7"]


@pytest.fixture(scope="module")
def failing(tmp_path_factory: pytest.TempPathFactory) -> Path:
    """The library that has calls on the journal fail."""
    return preloaded(tmp_path_factory.mktemp("preload"), "failing_disk.c")


def fails(town: Town, monkeypatch: pytest.MonkeyPatch, library: Path, kind: str, at: int) -> None:
    """Has each session begin on a disk that fails so, at this call on the journal."""
    preload(town, monkeypatch, library, FAILS=kind, AT=at, JOURNAL=town.journal)


def accepted_until_broken(desk: gv.Desk) -> List[str]:
    """Edits until the journal is broken: what was accepted. The desk sees these edits, then and later, and no other."""
    accepted: List[str] = []
    for number, line in enumerate(FIRST, 1):
        try:
            assert desk.ask(line).startswith(f"ok {number} ")
        except gv.JournalBroken:
            break
        accepted.append(line)
        assert desk.entries() == number
    return accepted


def shows(session: gv.Session, desk: gv.Desk, accepted: List[str]) -> None:
    """No answer has the edit that failed, and nobody edits any more."""
    count = len(accepted)
    place = desk.locate(1, 1)
    assert desk.entries() == count and place.entries == count and place.ids == ((64 + count) if count else 1,)
    assert desk.parcel(65 + count) is None and desk.parcel(count + 2) is not None
    for call in (session.check, session.publish, session.overlay, lambda: session.export(session.path("anna") + "new")):
        with pytest.raises(gv.JournalBroken):
            call()
    with pytest.raises(gv.JournalBroken):
        desk.merge(9, 10)
    assert desk.entries() == count


@pytest.mark.parametrize("at", range(2, 7))
@pytest.mark.parametrize("kind", ["write", "half a write", "synchronise"])
def test_an_edit_that_the_disk_refuses_is_not_shown(town, monkeypatch, failing, kind, at):
    """Number 2: an error of the device at the write of an edit, in its middle, and at its synchronisation."""
    # A start writes once, and synchronises twice.
    fails(town, monkeypatch, failing, kind, at + (kind == "synchronise"))
    with town.session("anna", "bert", zones=town.city) as session:
        with session.desk("anna", SECONDS) as desk, session.desk("bert", SECONDS) as other:
            accepted = accepted_until_broken(desk)
            assert len(accepted) == at - 2
            shows(session, other, accepted)
            shows(session, desk, accepted)
    assert session.close() == len(accepted)
    journal = journal_of(town.journal.read_bytes())
    lines = [record.edit for record in journal.records]
    assert lines == (FIRST[: at - 1] if kind == "synchronise" else accepted)
    assert (journal.torn > 0) == (kind == "half a write")
    monkeypatch.undo()
    with town.session("anna") as session:
        assert session.replayed == len(lines) and len(session.notes) == (1 if journal.torn else 0)


@pytest.mark.parametrize(
    "kind, at", [("write", 1), ("half a write", 1), ("synchronise", 1), ("synchronise", 2), ("folder", 1)]
)
def test_a_journal_that_can_not_be_begun(town, monkeypatch, failing, kind, at):
    """A start that fails leaves a file with which the next one begins."""
    fails(town, monkeypatch, failing, kind, at)
    with pytest.raises(gv.JournalRefused, match="^journal: S1"):
        town.session()
    monkeypatch.undo()
    with town.session() as session:
        assert session.replayed == 0 and session.notes == [] and session.merge(1, 2).number == 1
    assert town.lines() == ["merge 1 2"]


def test_writes_that_take_half(town, monkeypatch, failing):
    """A short write is gone on with: no edit is refused, and none is torn."""
    fails(town, monkeypatch, failing, "short writes", 1)
    with town.session("anna") as session, session.desk("anna", SECONDS) as desk:
        assert accepted_until_broken(desk) == FIRST
    assert town.lines() == FIRST


@pytest.fixture
def disk(tmp_path: Path) -> Iterator[Path]:
    """A folder on a small disk of its own, which is the file `image` beside it."""
    image, folder = tmp_path / "image", tmp_path / "disk"
    folder.mkdir()
    with open(image, "wb") as out:
        out.truncate(16 << 20)
    made = subprocess.run(["mkfs.ext4", "-q", "-F", image], capture_output=True)
    if made.returncode or subprocess.run(["mount", "-o", "loop", image, folder], capture_output=True).returncode:
        pytest.skip("no disk can be mounted here")
    try:
        yield folder
    finally:
        subprocess.run(["umount", "-l", folder], check=True)


def test_a_loss_of_power(town, tmp_path, disk):
    """Number 4: what a disk had at a moment, mounted anew, has each edit that was answered by then."""
    town.journal, answered = disk / "register.txt", 0
    for turn in range(20 if FULL else 4):
        with town.session("anna") as session, session.desk("anna", SECONDS) as desk:
            assert session.replayed >= answered
            before = session.replayed
            image = lost(tmp_path, turn)
            assert read_lost(town, tmp_path, image) >= before
            for _ in range(3):
                number = desk.entries() + 1
                desk.merge(1 if number == 1 else 63 + number, number + 1)
                assert read_lost(town, tmp_path, lost(tmp_path, turn)) >= number
                answered = number


def lost(folder: Path, turn: int) -> Path:
    """What the disk has at this moment."""
    path = folder / f"lost{turn}"
    shutil.copyfile(folder / "image", path)
    return path


def read_lost(town: Town, folder: Path, image: Path) -> int:
    """How many edits the journal has on a copy of the disk."""
    place = folder / "again"
    place.mkdir(exist_ok=True)
    subprocess.run(["mount", "-o", "loop", image, place], check=True)
    try:
        return len(journal_of((place / town.journal.name).read_bytes()).records)
    finally:
        subprocess.run(["umount", place], check=True)
