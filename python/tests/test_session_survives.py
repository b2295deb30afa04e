"""Journals that survive their disk, their neighbours and their operator: what a cut leaves, and what somebody else did
to the file."""
from __future__ import annotations

import os
import random
import shutil
import signal
import subprocess
import time
from pathlib import Path
from typing import Callable, List

import pytest

import gandovel as gv
from session_town import FULL, SECONDS, Raw, Town, find_tool, preload, preloaded
from test_session_disk import disk, lost  # noqa: F401  (a fixture)

pytestmark = pytest.mark.usefixtures("in_time")
CUTS = 1000 if FULL else 25
BLOCK = 512


def edits(count: int, first: int = 1) -> List[str]:
    """So many edits of the town, of which the first has this number."""
    return [f"merge {1 if number == 1 else 63 + number} {number + 1}" for number in range(first, first + count)]


def asides(town: Town) -> List[Path]:
    """The files of what was set aside of the journal."""
    return sorted(town.journal.parent.glob(f"{town.journal.name}.cut.*"))


def test_a_whole_record_that_lacks_its_line_feed(town):
    """Its digest proves it: so it is completed."""
    text = town.text_of(*edits(3))
    town.journal.write_bytes(text[:-1])
    with town.session() as session:
        assert session.replayed == 3
        assert session.notes == [f"note: {town.journal}: the end of the last line was missing, and is completed"]
        assert town.journal.read_bytes() == text
        session.ask(edits(1, 4)[0])
    assert town.lines() == edits(4) and asides(town) == []


def spoiled(text: bytes, start: int, how: str) -> bytes:
    """A text from a place on overwritten."""
    draw, end = random.Random(how), text[start:]
    if how == "zeros":
        return text[:start] + bytes(len(end))
    if how == "random bytes":
        return text[:start] + draw.randbytes(len(end))
    return text[:start] + end.replace(b"\n", b" ")


@pytest.mark.parametrize("how", ["zeros", "random bytes", "line feeds made spaces"])
def test_ten_records_at_the_end_that_were_overwritten(town, how):
    """More than a group that was not synchronised: nothing is cut off, and nothing set aside."""
    text, first = town.text_of(*edits(20)), len(town.text_of(*edits(10)))
    other = spoiled(text, first, how)
    town.journal.write_bytes(other)
    with pytest.raises(gv.JournalRefused, match="^journal line 22: changed$"):
        town.session()
    assert town.journal.read_bytes() == other and os.listdir(town.journal.parent).count(town.journal.name) == 1
    assert asides(town) == []


@pytest.mark.parametrize("count", [1, 3, 8])
def test_a_group_that_was_never_written(town, count):
    """Eight desks have a record each under way; of all of them the disk may have kept nothing but the length."""
    whole = town.text_of(*edits(10))
    lost_bytes = len(town.text_of(*edits(10 + count))) - len(whole)
    town.journal.write_bytes(whole + bytes(lost_bytes))
    for turn in (1, 2):
        with town.session() as session:
            assert session.replayed == 10
            assert session.notes == [
                f"note: {town.journal}: {lost_bytes} bytes after the last whole record are set aside as"
                f" {town.journal}.cut.{turn}"
            ]
        assert town.journal.read_bytes() == whole
        assert asides(town)[-1].read_bytes() == bytes(lost_bytes) and len(asides(town)) == turn
        town.journal.write_bytes(whole + bytes(lost_bytes))


def cut(draw: random.Random, synced: bytes, written: bytes) -> bytes:
    """What a cut may leave: blocks in any order, each up to some byte, and a file that ends anywhere."""
    left = bytearray(written)
    for start in range(len(synced) // BLOCK * BLOCK, len(written), BLOCK):
        end = min(start + BLOCK, len(written))
        kept = draw.choice([start, draw.randint(start, end), end, end])
        for place in range(max(kept, len(synced)), end):
            left[place] = 0
    return bytes(left[: draw.choice([len(written), draw.randint(len(synced), len(written))])])


def test_cuts_at_random_moments(town):
    """After any cut a start has each record that was synchronised, and nothing that was not written."""
    draw, refused = random.Random(80), 0
    for _ in range(CUTS):
        count, more = draw.randint(0, 40), draw.randint(1, 8)
        synced, written = town.text_of(*edits(count)), town.text_of(*edits(count + more))
        left = cut(draw, synced, written)
        town.journal.write_bytes(left)
        for aside in asides(town):
            aside.unlink()
        with town.session() as session:
            replayed = session.replayed
        assert count <= replayed <= count + more and town.lines() == edits(replayed)
        kept = b"".join(path.read_bytes() for path in asides(town))
        assert town.journal.read_bytes() + kept in (left, left + b"\n")


@pytest.mark.parametrize("number", [5, 10, 17])
def test_a_changed_record_is_never_a_torn_one(town, number):
    """Also the last ones: a bit that is not as it was written is refused, and nothing is set aside."""
    text, draw = town.text_of(*edits(17)), random.Random(number)
    start, end = (len(town.text_of(*edits(at))) for at in (number - 1, number))
    for _ in range(80 if FULL else 6):
        place, bit = draw.randrange(start, end - 1), 1 << draw.randrange(8)
        other = text[:place] + bytes([text[place] ^ bit]) + text[place + 1 :]
        town.journal.write_bytes(other)
        with pytest.raises(gv.JournalRefused, match=f"^journal line {2 * number}: changed$"):
            town.session()
        assert town.journal.read_bytes() == other and asides(town) == []


def shorter(path: Path) -> None:
    path.write_bytes(b"")


def older(path: Path) -> None:
    shutil.copyfile(f"{path}.old", path)


def longer(path: Path) -> None:
    with open(path, "ab") as file:
        file.write(b"\n")


def one_byte(path: Path) -> None:
    with open(path, "r+b") as file:
        file.seek(100)
        file.write(b"x")


@pytest.mark.parametrize("change", [shorter, older, longer, one_byte])
def test_a_journal_that_somebody_else_changed(town, change: Callable[[Path], None]):
    """The next edit is not answered `ok`, as where the journal is moved; what the neighbour wrote stays."""
    with town.session("anna") as session, session.desk("anna", SECONDS) as desk:
        shutil.copyfile(town.journal, f"{town.journal}.old")
        for line in edits(3):
            assert desk.ask(line).startswith("ok ")
        time.sleep(0.05)
        change(town.journal)
        left = town.journal.read_bytes()
        for _ in range(2):
            with pytest.raises(gv.JournalBroken):
                desk.ask(edits(1, 4)[0])
        assert desk.entries() == 3 and town.journal.read_bytes() == left


def test_a_start_puts_another_file_in_the_journals_place(town):
    """Of the same mode; behind a link it stays a link; and nobody has it at the same time."""
    real = town.journal.with_name("real.txt")
    town.journal.symlink_to(real.name)
    real.write_bytes(town.text_of(*edits(2)))
    real.chmod(0o640)
    before = real.stat()
    with town.session() as session:
        after = real.stat()
        assert town.journal.is_symlink() and after.st_ino != before.st_ino and after.st_mode == before.st_mode
        with pytest.raises(gv.JournalInUse):
            town.session()
        session.ask(edits(1, 3)[0])
    assert town.lines() == edits(3)
    assert [it.name for it in real.parent.iterdir() if it.name.startswith("real")] == ["real.txt"]


def test_what_a_killed_start_left_goes_and_other_files_stay(town):
    town.journal.write_bytes(town.text_of(*edits(2)))
    next_one = Path(f"{town.journal}.gandovel-next")
    next_one.write_bytes(town.text_of(*edits(1)))
    with town.session() as session:
        assert session.replayed == 2 and not next_one.exists()
    next_one.write_bytes(b"notes of mine\n")
    with pytest.raises(gv.JournalRefused, match="^journal: S1"):
        town.session()
    assert next_one.read_bytes() == b"notes of mine\n" and town.lines() == edits(2)


def test_pages_that_the_disk_never_had(town, tmp_path, disk):  # noqa: F811
    """A page whose write-back failed is clean in memory, and not on the disk. A start does not trust it."""
    town.journal = disk / "register.txt"
    with town.session() as session:
        for line in edits(60):
            session.ask(line)
    subprocess.run(["sync", "-f", disk], check=True)
    image = (tmp_path / "image").read_bytes()
    digest = town.journal.read_bytes().split(b"\n")[9][-64:]
    place = image.index(digest)
    with open(tmp_path / "image", "r+b") as file:
        file.seek(place)
        file.write(bytes(64))
    assert town.lines() == edits(60)
    with town.session() as session:
        assert session.replayed == 60
        session.ask(edits(1, 61)[0])
        copy = lost(tmp_path, 0)
    assert on_disk(copy, tmp_path, town.journal.name) == edits(61)


def on_disk(image: Path, folder: Path, name: str) -> List[str]:
    """The edits of the journal on a copy of a disk."""
    place = folder / "again"
    place.mkdir(exist_ok=True)
    subprocess.run(["mount", "-o", "loop", image, place], check=True)
    try:
        return [record.edit for record in gv.read_journal(place / name).records]
    finally:
        subprocess.run(["umount", place], check=True)


def words(town: Town, *more: object) -> List[str]:
    """The command of a session with the journal."""
    named = ["session", town.city, town.parcels, "--unit", "mm", "--journal", town.journal, *more]
    return [find_tool(), *map(str, named)]


@pytest.mark.parametrize("at", [1, 2, 30, 61])
def test_a_start_with_a_clerks_file_that_is_killed(town, tmp_path, tmp_path_factory, at):
    """All of the clerk's file stands in the journal, or none of it: the next start begins it."""
    clerk = tmp_path / "edits.txt"
    clerk.write_text("".join(f"{line}\n" for line in edits(60)))
    library = preloaded(tmp_path_factory.mktemp("preload"), "failing_disk.c")
    dies = {"LD_PRELOAD": str(library), "FAILS": "dies", "AT": str(at), "JOURNAL": str(town.journal)}
    command = words(town, "--clerk", clerk)
    killed = subprocess.run(command, env={**os.environ, **dies}, stdin=subprocess.DEVNULL, capture_output=True)
    assert (killed.returncode, killed.stdout) == (-signal.SIGKILL, b"")
    assert town.lines() == []
    answered = subprocess.run(command, stdin=subprocess.DEVNULL, capture_output=True)
    assert answered.stdout == b"ready 60\nclosed 60\n" and town.lines() == edits(60)


@pytest.mark.parametrize("closed", ["1>&-", "2>&-", "0<&-", "0<&- 1>&- 2>&-"])
def test_standard_files_that_are_closed_at_the_start(town, closed):
    """None of the session's files gets their numbers: no answer and no note lands in the journal."""
    town.journal.write_bytes(town.text_of(*edits(3))[:-20])
    command = f"echo {edits(1, 3)[0]!r} | exec {' '.join(words(town))} {closed}"
    subprocess.run(["/bin/sh", "-c", command], capture_output=True, timeout=SECONDS)
    assert town.lines() == edits(2 if "0<" in closed else 3)
    assert [len(it.read_bytes()) for it in asides(town)] == [
        len(town.text_of(*edits(3))[:-20]) - len(town.text_of(*edits(2)))
    ]


def test_a_clock_before_1970(town, monkeypatch, tmp_path_factory):
    """It is taken as 1970: the edits are made."""
    preload(town, monkeypatch, preloaded(tmp_path_factory.mktemp("preload"), "early_clock.c"))
    with town.session() as session:
        assert session.ask(edits(1)[0]).startswith("ok 1 ")
    assert gv.read_journal(town.journal).records[0].moment == "1970-01-01T00:00:00Z"


def test_a_journal_of_version_one(town):
    """Its refusal says how to go on with it."""
    town.journal.write_text("".join(f"{line}\n" for line in edits(3)))
    refused = subprocess.run(words(town), stdin=subprocess.DEVNULL, capture_output=True, text=True)
    assert refused.returncode == 1 and refused.stderr.splitlines()[-1] == f"error: {town.journal}: no journal"
    assert f"--clerk {town.journal} --journal NEW" in refused.stderr


def test_a_close_without_memory_wakes_idle_desks(town, tmp_path, tmp_path_factory):
    """Nothing is asked of the heap to wake them, with a client that is idle, or without."""
    for name in ("anna", "bert"):
        for end in (".in", ".out"):
            os.mkfifo(tmp_path / f"{name}{end}", 0o600)
    refused, library = tmp_path / "refused", preloaded(tmp_path_factory.mktemp("preload"), "no_memory.c")
    command = words(town, "--desk", tmp_path / "anna", "--desk", tmp_path / "bert")
    memory = {**os.environ, "LD_PRELOAD": str(library), "REFUSED": str(refused)}
    with subprocess.Popen(command, env=memory, stdin=subprocess.PIPE, stdout=subprocess.PIPE) as running:
        try:
            assert running.stdout.readline() == b"ready 0\n"
            with Raw(str(tmp_path / "anna")) as anna:
                assert anna.ask(f"{edits(1)[0]}\n".encode()) == [b"ok 1 out 1 2 new 65"]
                refused.touch()
                running.stdin.close()
                running.wait(20)
        finally:
            running.kill()
    assert town.lines() == edits(1)
