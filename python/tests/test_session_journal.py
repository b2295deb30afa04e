"""Journals of sessions: what was answered `ok` is on the disk, whatever becomes of the program. And refused ones."""
from __future__ import annotations

import os
import random
import signal
import stat
import subprocess
import time
from datetime import datetime, timezone
from pathlib import Path
from typing import List

import pytest

import gandovel as gv
from gandovel.live.journals import journal_of
from gandovel.program.layer_files import read_rings
from gandovel.program.tool import ask, export, find_tool
from session_clerks import Heard, Said, accepted_of, compare, edits_of, started
from session_register import Register
from session_town import FULL, SECONDS, Town, program

pytestmark = pytest.mark.usefixtures("in_time")
KILLS = 200 if FULL else 20
CLERKS = ("anna", "bert", "carl", "dora")


def test_a_journal_goes_on_where_it_ended(town):
    for number in range(1, 6):
        with town.session("anna") as session:
            assert session.replayed == number - 1 and session.notes == []
            with session.desk("anna") as desk:
                assert desk.entries() == number - 1
                assert desk.merge(1 if number == 1 else 63 + number, number + 1).number == number
        assert session.close() == number
    assert town.lines() == ["merge 1 2", "merge 65 3", "merge 66 4", "merge 67 5", "merge 68 6"]


def test_no_journal_is_kept_unless_one_is_named(town):
    with town.session(journal=None) as session:
        assert session.merge(1, 2).number == 1
    assert not town.journal.exists()


def test_a_journal_is_a_clerks_file(town, tmp_path):
    text = town.text_of("merge 1 2", "merge 65 3")
    town.journal.write_bytes(text)
    with town.session() as session:
        assert session.replayed == 2
        assert session.merge(66, 4).number == 3
        assert session.export(tmp_path / "ours") == 61
    assert town.journal.read_bytes().startswith(text) and town.lines() == ["merge 1 2", "merge 65 3", "merge 66 4"]
    answers = export(town.city, town.parcels, tmp_path / "theirs", [town.journal])
    assert [answer.split(" ", 4)[4] for answer in answers] == ["ok 1", "ok 2", "ok 3"]
    assert (tmp_path / "ours.shp").read_bytes() == (tmp_path / "theirs.shp").read_bytes()


def test_a_record_tells_who_and_when(town):
    before = datetime.now(timezone.utc).replace(microsecond=0)
    with town.session("anna", "bert") as session:
        with session.desk("anna") as anna, session.desk("bert") as bert:
            anna.edit(gv.Merge(1, 2), who="Anna Müller, deed 17: a merger")
            bert.merge(65, 3)
    records = gv.read_journal(town.journal).records
    assert [(it.number, it.clerk, it.who, it.edit) for it in records] == [
        (1, 1, "Anna Müller, deed 17: a merger", "merge 1 2"),
        (2, 2, "", "merge 65 3"),
    ]
    assert all(before <= it.time <= datetime.now(timezone.utc) for it in records)
    assert stat.S_IMODE(town.journal.stat().st_mode) == 0o600


@pytest.mark.parametrize("who", ["", "x" * 201, "a\tb", "\x7f", "a\x85b"])
def test_a_word_that_is_none(town, who):
    with town.session() as session:
        with pytest.raises(gv.NoSuchLine):
            session.edit(gv.Merge(1, 2), who=who)
        assert session.edit(gv.Merge(1, 2), who="x" * 200).number == 1


def test_the_journal_has_a_line_for_each_edit_and_none_else(halves):
    with halves.session() as session:
        session.insert((0, 0), (60, 0), (30, 0))
        for line in ("insert 0 100 060 100 30 0100", "locate 1 1", "# merge 1 2", "", "merge 1 1", "entries"):
            session.ask(line)
        with pytest.raises(gv.NoSuchLine):
            session.ask("merge")
        session.split(1, [(30, 0), (20, 50), (30, 100)])
        session.merge(3, 4)
        session.straighten((30, 0))
        session.move(5, 2, [(60, 0), (70, 50), (60, 100)])
    assert halves.lines() == [
        "insert 0 0 60 0 30 0",
        "insert 0 100 60 100 30 100",
        "split 1 30 0 20 50 30 100",
        "merge 3 4",
        "straighten 30 0",
        "move 5 2 60 0 70 50 60 100",
    ]


@pytest.mark.parametrize("length", [1, 2, 3, 20, 60, 91, 92, 93, 101])
def test_a_torn_last_record_is_set_aside(town, length):
    whole, more = town.text_of("merge 1 2"), town.text_of("merge 1 2", "merge 65 3")
    town.journal.write_bytes(more[: len(whole) + length])
    with town.session() as session:
        assert session.replayed == 1
        assert session.notes == [
            f"note: {town.journal}: {length} bytes after the last whole record are set aside as {town.journal}.cut.1"
        ]
        assert town.journal.read_bytes() == whole
        assert Path(f"{town.journal}.cut.1").read_bytes() == more[len(whole) : len(whole) + length]
        session.merge(65, 3)
    assert town.lines() == ["merge 1 2", "merge 65 3"]


@pytest.mark.parametrize(
    "text",
    [
        b"x",
        b"merge 1 2",
        b"merge 1 2\n",
        b"# a comment\n",
        b"\n",
        b"grid cm\n",
        b"\xff" * 100,
        b"# gandovel journal 1 mm ",
        b"# gandovel journal 2 mm " + b"0" * 64 + b"\n",
    ],
)
def test_a_file_that_is_no_journal_is_not_touched(town, text):
    town.journal.write_bytes(text)
    with pytest.raises(gv.JournalRefused, match="^journal: no journal$"):
        town.session()
    assert town.journal.read_bytes() == text


@pytest.mark.parametrize(
    "edits, code, line, rest",
    [
        (["merge 1 2", "merge 1 2"], "E2", 5, "1 1"),
        (["merge 1 3"], "E4", 3, ""),
        (["merge 99 1"], "E1", 3, "99"),
        (["straighten 0 0"], "E12", 3, "1"),
        (["merge 01 2"], "changed", 2, ""),
        (["merge 1 2 "], "changed", 2, ""),
        (["merge 1 2", "locate 1 1"], "changed", 4, ""),
        (["# x", "merge 1 2"], "changed", 2, ""),
    ],
)
def test_a_journal_that_does_not_fit(town, edits, code, line, rest):
    text = town.text_of(*edits)
    town.journal.write_bytes(text)
    with pytest.raises(gv.JournalRefused) as refused:
        town.session()
    assert (refused.value.code, refused.value.line, refused.value.text) == (code, line, rest)
    assert town.journal.read_bytes() == text


def damaged(draw: random.Random, text: bytes, kind: str) -> bytes:
    """A journal with a digit changed, a line gone, doubled or made a comment, or two lines exchanged."""
    lines = text.split(b"\n")[:-1]
    at = draw.randrange(1, len(lines))
    if kind == "digit":
        places = [place for place, byte in enumerate(text) if chr(byte).isdigit()]
        place = draw.choice(places)
        digit = draw.choice([it for it in b"0123456789" if it != text[place]])
        return text[:place] + bytes([digit]) + text[place + 1 :]
    if kind == "gone":
        del lines[draw.randrange(1, len(lines) - 2)]
    elif kind == "doubled":
        lines.insert(at, lines[at])
    elif kind == "comment":
        lines[at] = b"# " + lines[at]
    else:
        other = draw.choice([it for it in range(1, len(lines)) if lines[it] != lines[at]])
        lines[at], lines[other] = lines[other], lines[at]
    return b"\n".join(lines) + b"\n"


@pytest.mark.parametrize("kind", ["digit", "gone", "doubled", "comment", "exchanged"])
def test_no_damage_is_read_in_silence(town, kind):
    draw = random.Random(kind)
    text = town.text_of(*[f"merge {1 if at == 2 else 62 + at} {at}" for at in range(2, 9)])
    for _ in range(500 if FULL else 10):
        other = damaged(draw, text, kind)
        town.journal.write_bytes(other)
        with pytest.raises(gv.JournalRefused, match="changed|another layer|no journal"):
            town.session()
        assert town.journal.read_bytes() == other


def test_a_journal_of_another_layer(town, halves):
    text = halves.text_of("insert 0 0 60 0 30 0")
    town.journal.write_bytes(text)
    with pytest.raises(gv.JournalRefused, match="^journal: another layer$"):
        gv.Session(town.city, town.city, journal=town.journal, timeout=SECONDS)
    assert town.journal.read_bytes() == text


@pytest.mark.parametrize("how", ["unlinked", "moved", "replaced"])
def test_a_journal_whose_path_names_it_no_more(town, tmp_path, how):
    with town.session() as session:
        session.merge(1, 2)
        if how == "moved":
            town.journal.rename(tmp_path / "elsewhere")
        else:
            town.journal.unlink()
        if how == "replaced":
            town.journal.write_bytes(b"")
        with pytest.raises(gv.JournalBroken):
            session.merge(65, 3)
        with pytest.raises(gv.JournalBroken):
            session.merge(65, 3)


def test_a_desk_that_another_session_serves(town, tmp_path):
    for name in ("anna.in", "anna.out"):
        os.mkfifo(tmp_path / name, 0o600)
    command = [find_tool(), "session", town.city, town.parcels, "--unit", "mm", "--desk", tmp_path / "anna"]
    first = subprocess.Popen(list(map(str, command)), stdin=subprocess.PIPE, stdout=subprocess.PIPE)
    try:
        assert first.stdout.readline() == b"ready 0\n"
        second = subprocess.run(list(map(str, command)), stdin=subprocess.DEVNULL, capture_output=True, timeout=SECONDS)
        assert (second.returncode, second.stdout) == (1, b"")
        assert second.stderr == f"error: S4 {tmp_path}/anna.lock\n".encode()
        assert first.communicate(b"close\n", SECONDS)[0] == b"closed 0\n"
    finally:
        first.kill()
        first.wait()


def test_two_sessions_on_one_journal(town):
    with town.session("anna") as session:
        with pytest.raises(gv.JournalInUse, match="^journal: in use$") as refused:
            town.session()
        assert isinstance(refused.value, gv.JournalRefused) and refused.value.line is None
        with session.desk("anna") as desk:
            assert desk.merge(1, 2).number == 1
    with town.session() as session:
        assert session.replayed == 1


def test_a_journal_is_free_once_its_session_is_killed(town):
    session = town.session()
    session.merge(1, 2)
    os.kill(session.pid, signal.SIGKILL)
    with pytest.raises(gv.ProgramEnded):
        session.entries()
    with town.session() as other:
        assert other.replayed == 1
    session.terminate()


@pytest.mark.parametrize("kind", ["a folder", "a pipe", "a device", "no folder", "a folder that can't be written"])
def test_a_journal_that_cannot_be(town, tmp_path, kind):
    path = tmp_path / "journal"
    if kind == "a folder":
        path.mkdir()
    elif kind == "a pipe":
        os.mkfifo(path)
    elif kind == "a device":
        path = Path("/dev/null")
    elif kind == "no folder":
        path = tmp_path / "none" / "journal"
    else:
        path = unwritable(tmp_path) / "journal"
    with pytest.raises(gv.JournalRefused, match="^journal: S1") as refused:
        town.session(journal=path)
    assert (refused.value.code, refused.value.line) == ("S1", None)


def unwritable(folder: Path) -> Path:
    """A folder in which no file can be made: of root's, only the system's own are such."""
    if os.geteuid() == 0:
        return Path("/sys")
    (folder / "mine").mkdir(mode=0o555)
    return folder / "mine"


def test_a_journal_that_may_only_be_read(town):
    town.journal.write_bytes(town.text_of("merge 1 2"))
    town.journal.chmod(0o444)
    if os.geteuid() == 0:
        with town.session() as session:
            assert session.replayed == 1
    else:
        with pytest.raises(gv.JournalRefused, match="S1"):
            town.session()


def limited(town: Town, monkeypatch: pytest.MonkeyPatch, before: str) -> None:
    """Has each session begin by commands of the shell, in which `$journal` is the folder of the journal."""
    text = f'folder={town.journal.parent}/full\n{before}\nexec "{find_tool()}" "$@"\n'
    monkeypatch.setenv("GANDOVEL_TOOL", program(town.journal.parent / "limited", text, "/bin/bash"))


FULL_DISKS = {
    "a limit of the file's size": "ulimit -f 1",
    "a small disk": "mount -t tmpfs -o size=4k none $folder || exit 9",
}


@pytest.mark.parametrize("kind", sorted(FULL_DISKS))
def test_a_full_disk(town, tmp_path, monkeypatch, kind):
    (tmp_path / "full").mkdir()
    before = FULL_DISKS[kind]
    if before.startswith("mount"):
        if subprocess.run(["unshare", "-rm", "true"], stderr=subprocess.DEVNULL).returncode:
            pytest.skip("no disk can be mounted here")
        before = f'if [ -z "$inside" ]; then exec env inside=1 unshare -rm "$0" "$@"; fi\n{before}'
    limited(town, monkeypatch, before)
    town.journal = tmp_path / "full" / "register.txt"
    with town.session("anna", "bert") as session:
        accepted = until_full(session)
        journal = Path(f"/proc/{session.pid}/root{town.journal}").read_bytes()
        read = journal_of(journal)
        assert [record.edit for record in read.records] == accepted
        town.journal.write_bytes(journal)
    assert session.close() == len(accepted)
    monkeypatch.undo()
    with town.session("anna") as session, session.desk("anna", SECONDS) as desk:
        assert session.replayed == len(accepted) and len(session.notes) == (1 if read.torn else 0)
        next_edit(desk)
    assert len(town.lines()) == len(accepted) + 1


def next_edit(desk: gv.Desk) -> str:
    """Puts one more corner into the lower side of parcel 1, and answers the journal's line."""
    ring = [(x, y) for x, y in desk.parcel(1).ring.tolist()]
    desk.insert(ring[0], ring[1], (ring[1][0] - 1, 0))
    return f"insert {ring[0][0]} {ring[0][1]} {ring[1][0]} {ring[1][1]} {ring[1][0] - 1} 0"


def until_full(session: gv.Session) -> List[str]:
    """Edits until the disk is full: what was accepted. Then no desk edits, and each answers questions."""
    accepted: List[str] = []
    with session.desk("anna", SECONDS) as desk, session.desk("bert", SECONDS) as other:
        with pytest.raises(gv.JournalBroken):
            while len(accepted) < 10_000:
                accepted.append(next_edit(desk))
        for it in (desk, other, desk):
            with pytest.raises(gv.JournalBroken):
                it.merge(3, 4)
            assert it.locate(1, 1).ids == (1,) and it.parcel(3) is not None
            with pytest.raises(gv.JournalBroken):
                it.merge(3, 3)
            assert it.entries() == len(accepted)
        for call in (session.check, session.publish, lambda: session.export(session.path("anna") + "new")):
            with pytest.raises(gv.JournalBroken):
                call()
    assert session.entries() == len(accepted)
    return accepted


def test_killed_at_random_moments(town, tmp_path):
    """Nothing that was answered `ok` is missing, nothing is there twice, and a line more only where no answer came."""
    draw, register = random.Random(7), town.register()
    for turn in range(KILLS):
        before = register.entries
        with town.session(*CLERKS) as session:
            assert session.replayed == before and session.notes == []
            finished = started(
                [
                    (session.path(name), 100 * turn + at, 80_000, 80_000, "work", 10**9)
                    for at, name in enumerate(CLERKS)
                ]
            )
            time.sleep(draw.random() * 0.4)
            os.kill(session.pid, signal.SIGKILL)
            session.terminate()
            heard = finished()
        lines = without_torn(town, heard)
        are_answered(lines[before:], before, heard)
        compare(register, lines, [it.said for it in heard], killed=True)
        killed_while_it_starts(town, draw.random() * 0.05)
        assert town.lines() == lines
    assert register.entries > KILLS
    is_as_read(town, tmp_path, register)


def without_torn(town: Town, heard: List[Heard]) -> List[str]:
    """The lines of the journal's edits. A torn record is the beginning of one that got no answer."""
    text = town.journal.read_bytes()
    torn = gv.read_journal(town.journal).torn
    assert not torn or unanswered(heard)
    town.journal.write_bytes(text[: len(text) - torn])
    return town.lines()


def unanswered(heard: List[Heard]) -> List[Said]:
    """The edits that got no answer: the last of a desk at most."""
    found = [[at for at, it in enumerate(desk.said) if it.answer is None] for desk in heard]
    assert all(places in ([], [len(desk.said) - 1]) for places, desk in zip(found, heard))
    return edits_of([desk.said[-1] for places, desk in zip(found, heard) if places])


def are_answered(lines: List[str], before: int, heard: List[Heard]) -> None:
    """Each line of the journal was answered `ok` at its number, or is one of those that got no answer, once."""
    accepted = accepted_of([it for desk in heard for it in desk.said])
    extra = [line for number, line in enumerate(lines, before + 1) if number not in accepted]
    left = [it.line for it in unanswered(heard)]
    for line in extra:
        left.remove(line)
    assert all(before < number <= before + len(lines) for number in accepted)


def killed_while_it_starts(town: Town, seconds: float) -> None:
    """Starts a session and kills it soon, perhaps before it is ready."""
    words = [town.city, town.parcels, "--unit", "mm", "--journal", town.journal]
    starting = subprocess.Popen(
        [find_tool(), "session", *map(str, words)],
        stdin=subprocess.PIPE,
        stdout=subprocess.DEVNULL,
        stderr=subprocess.DEVNULL,
    )
    time.sleep(seconds)
    starting.kill()
    starting.wait()
    starting.stdin.close()


def is_as_read(town: Town, folder: Path, register: Register) -> None:
    """Compares a session's parcels with the register's, and with those that `export --clerk` writes of the journal."""
    with town.session("anna") as session:
        with session.desk("anna") as desk:
            for number in range(1, register.next):
                outline = desk.parcel(number)
                assert (outline is not None) == (number in register.rings)
                if outline is not None:
                    assert [tuple(corner) for corner in outline.ring.tolist()] == register.rings[number]
        assert session.check() == gv.Tiling(len(register.rings), 12_800_000_000)
        session.export(folder / "ours")
    answers = export(town.city, town.parcels, folder / "theirs", [town.journal])
    assert [answer.split()[4:] for answer in answers] == [["ok", str(at)] for at in range(1, register.entries + 1)]
    for end in (".shp", ".shx"):
        assert (folder / f"ours{end}").read_bytes() == (folder / f"theirs{end}").read_bytes()
    assert [list(map(tuple, ring.tolist())) for ring in read_rings(folder / "ours.shp")] == [
        register.rings[number] for number in sorted(register.rings)
    ]
    checked = ask(["check", str(town.city), str(town.parcels), "--unit", "mm", "--clerk", str(town.journal)])
    assert checked.splitlines()[-1] == f"tiling {len(register.rings)} 12800000000"
