"""Sessions: each call and each error, clients that come, go and misbehave, and programs that do."""
from __future__ import annotations

import contextlib
import os
import signal
import subprocess
import threading
import time
from pathlib import Path

import numpy as np
import pytest

import gandovel as gv
from gandovel.program.layer_files import read_rings, write_rings
from gandovel.program.tool import find_tool
from session_register import Register, area2, area2_west_of
from session_town import HALVES, SECONDS, SQUARE, Raw, Town, program

pytestmark = pytest.mark.usefixtures("in_time")
EIGHT = tuple(f"desk{k}" for k in range(1, 9))
EXAMPLE = ["insert 0 0 60 0 30 0", "insert 0 100 60 100 30 100", "split 1 30 0 30 100", "merge 3 4", "straighten 30 0"]
"""The accepted edits of the worked example in `docs/edits.md`."""


def test_the_worked_example(halves):
    with halves.session("anna") as session, session.desk("anna", SECONDS) as desk:
        assert desk.insert((0, 0), (60, 0), (30, 0)) == gv.Accepted(1, (1,), (1,))
        assert desk.insert((0, 100), (60, 100), (30, 100)) == gv.Accepted(2, (1,), (1,))
        assert desk.locate(10, 10) == gv.Place(2, 10, 10, "inside", (1,))
        assert desk.split(1, [(30, 0), (30, 100)]) == gv.Accepted(3, (1,), (3, 4))
        with pytest.raises(gv.RefusedEdit, match="^E2 1 3$") as refused:
            desk.split(1, [(30, 0), (30, 100)])
        assert (refused.value.code, refused.value.text) == ("E2", "1 3")
        assert desk.locate(10, 10) == gv.Place(3, 10, 10, "inside", (3,))
        assert desk.locate(30, 0) == gv.Place(3, 30, 0, "edge", (3, 4))
        assert desk.locate(-5, 0) == gv.Place(3, -5, 0, "outside", ())
        assert desk.merge(3, 4) == gv.Accepted(4, (3, 4), (5,))
        assert desk.straighten((30, 0)) == gv.Accepted(5, (5,), (5,))
        for corner, text in (((60, 0), "E12 2"), ((0, 0), "E12 5"), ((50, 50), "E11")):
            with pytest.raises(gv.RefusedEdit, match=f"^{text}$"):
                desk.straighten(corner)
        outline = desk.parcel(5)
        assert (outline.entries, outline.id, outline.area2, outline.ring.dtype) == (5, 5, 12_000, np.int64)
        assert outline.ring.tolist() == [[0, 0], [60, 0], [60, 100], [30, 100], [0, 100]]
        assert desk.parcel(1) is None and desk.parcel(6) is None and desk.entries() == 5
    assert session.close() == 5
    assert halves.lines() == EXAMPLE


@pytest.mark.parametrize(
    "edit, text",
    [
        (gv.Split(9, [(0, 0), (60, 100)]), "E1 9"),
        (gv.Split(2, [(60, 0), (50, 50), (60, 100)]), "E6 1 G3"),
        (gv.Split(1, [(0, 0), (1, 1)]), "E3"),
        (gv.Merge(1, 1), "E4"),
        (gv.Insert((0, 0), (60, 0), (60, 0)), "E8"),
        (gv.Insert((0, 0), (100, 0), (30, 0)), "E7"),
        (gv.Move(1, 2, [(60, 100), (40, 50), (60, 0)]), "E3"),
        (gv.Split(1, [(0, 0), (60, 0)]), "E6 2 G1"),
        (gv.Split(1, [(0, 0), (80, 50), (60, 100)]), "E6 2 G2 1 3"),
    ],
)
def test_refused_edits(halves, edit, text):
    with halves.session() as session:
        with pytest.raises(gv.RefusedEdit) as refused:
            session.edit(edit)
        assert str(refused.value) == text and session.entries() == 0
    assert halves.lines() == []


def test_a_border_is_moved(halves):
    with halves.session() as session:
        assert session.move(1, 2, np.array([(60, 0), (40, 50), (60, 100)])) == gv.Accepted(1, (1, 2), (3, 4))
        assert session.parcel(np.int64(4)).ring.tolist() == [[40, 50], [60, 0], [100, 0], [100, 100], [60, 100]]


@pytest.mark.parametrize(
    "call",
    [
        lambda it: it.locate(1.0, 2),
        lambda it: it.locate(1, True),
        lambda it: it.locate("1", 2),
        lambda it: it.parcel(1.5),
        lambda it: it.split(1, [(0, 0), (60.0, 100)]),
        lambda it: it.split(1, np.array([(0.0, 0.0), (60.0, 100.0)])),
        lambda it: it.split("1", [(0, 0), (60, 100)]),
        lambda it: it.split(1, [(0, 0, 0), (60, 100)]),
        lambda it: it.merge(1, None),
        lambda it: it.move(1, 2, [60, 0]),
        lambda it: it.insert((0, 0), (60, 0), (30.5, 0)),
        lambda it: it.straighten((0,)),
        lambda it: it.edit("merge 1 2"),
    ],
)
def test_anything_but_whole_numbers_is_a_type_error(halves, call):
    with halves.session() as session:
        with pytest.raises(TypeError):
            call(session)
        assert session.entries() == 0


def test_the_operators_calls(town, tmp_path):
    write_rings(
        tmp_path / "zones.shp",
        [
            np.array([(0, 0), (35_000, 0), (35_000, 80_000), (0, 80_000)]),
            np.array([(35_000, 0), (80_000, 0), (80_000, 80_000), (35_000, 80_000)]),
        ],
    )
    register = town.register()
    with town.session("anna", zones=tmp_path / "zones.shp", workers=2) as session:
        with session.desk("anna") as desk:
            desk.merge(1, 2)
            register.apply("merge 1 2")
        assert session.publish() == 1 and session.entries() == 1 and session.parcel(1) is None
        assert session.check() == gv.Tiling(63, 12_800_000_000)
        assert session.export(tmp_path / "new") == 63
        rings = [[tuple(corner) for corner in ring.tolist()] for ring in read_rings(tmp_path / "new.shp")]
        assert rings == [register.rings[number] for number in sorted(register.rings)]
        found = session.overlay()
        west = {number for number, ring in register.rings.items() if min(x for x, _ in ring) < 35_000}
        east = {number for number, ring in register.rings.items() if max(x for x, _ in ring) > 35_000}
        assert found.entries == 1 and found.split == tuple(sorted(west & east))
        assert found.pairs.tolist() == sorted([[it, 1] for it in west] + [[it, 2] for it in east])
        assert found.within.tolist() == [pair for pair in found.pairs.tolist() if pair[0] not in west & east]
        assert found.area2 is None
        measured = session.overlay(areas=True)
        assert (measured.entries, measured.split) == (found.entries, found.split)
        assert measured.pairs.tolist() == found.pairs.tolist() and measured.within.tolist() == found.within.tolist()
        told = dict(zip(map(tuple, measured.pairs.tolist()), measured.area2))
        for number, ring in register.rings.items():
            in_west, in_east = told.get((number, 1), 0), told.get((number, 2), 0)
            assert in_west + in_east == area2(ring) and abs(in_west - area2_west_of(35_000, ring)) <= 1
        with pytest.raises(gv.SessionError, match="S2"):
            session.export(tmp_path / "none" / "new")
        assert session.check() == gv.Tiling(63, 12_800_000_000)


def test_each_error_has_a_name(town):
    with town.session(*EIGHT) as session, session.desk("desk1") as desk:
        for line in ("check", "overlay", "overlay areas", "export x", "publish", "close"):
            with pytest.raises(gv.OperatorsOnly):
                desk.ask(line)
        with pytest.raises(gv.NoCard):
            session.merge(1, 2)
        for call in (session.entries, lambda: session.locate(1, 1), lambda: session.parcel(1)):
            with pytest.raises(gv.NoWindow):
                call()
        for areas in (False, True):
            with pytest.raises(gv.NoZones):
                session.overlay(areas)
        assert desk.entries() == session.publish() == 0


def test_the_operator_of_seven_desks_has_a_window(town):
    with town.session(*EIGHT[:7]) as session, session.desk("desk7") as desk:
        desk.merge(1, 2)
        session.publish()
        assert session.entries() == 1 and session.locate(1, 1).ids == (65,)


NO_LINES = [
    b"grid cm",
    b"merge 1",
    b"merge 1 2 3",
    b"merge  1 2",
    b" merge 1 2",
    b"merge 1 2 ",
    b"Merge 1 2",
    b"merge 1 2\r\r",
    b"merge\t1 2",
    b"merge 1 +2",
    b"merge 1 -2",
    b"merge 1 99999999999999999999",
    b"split 1",
    b"split 1 0",
    b"split 1 0 0 6",
    b"move 1 2",
    b"insert 0 0 1 1",
    b"insert 0 0 1 1 2 2 3 3",
    b"straighten 0",
    b"straighten 0 0 0",
    b"locate 1",
    b"locate 1 2 3",
    b"locate 100000000001 0",
    b"locate 1.0 2",
    b"locate +1 2",
    b"locate " + b"0" * 20 + b" 1",
    b"parcel",
    b"parcel -1",
    b"parcel 1 2",
    b"parcel " + b"0" * 20,
    b"entries 1",
    b"entries ",
    b"overlay ",
    b"overlay area",
    b"overlay  areas",
    b"overlay areas ",
    b"overlay areas 1",
    b" ",
    b" # x",
    b"\xff\xfe",
    b"merge 1 2\x00",
    b"\x00",
    b"merge 1 \xb2",
    "m\u00e9rge 1 2".encode(),
    b"\xef\xbb\xbfmerge 1 2",
    b"ok 1 out new",
    b"quit",
]


def test_what_is_no_line_of_a_session(town):
    with town.session("anna") as session, Raw(session.path("anna")) as raw:
        for line in NO_LINES:
            assert raw.ask(line + b"\n") == [b"error: L1"], line
        assert raw.ask(b"check 1\n") == [b"error: L1"]
        assert raw.ask(b"entries\n") == [b"entries 0"]
        with pytest.raises(gv.NoSuchLine):
            session.ask("nonsense")
        with pytest.raises(gv.NoSuchLine):
            session.ask("export")
        with pytest.raises(gv.NoSuchLine):
            session.parcel(-1)
    assert town.lines() == []


def test_lines_as_other_systems_end_them_and_notes(town):
    with town.session("anna") as session, Raw(session.path("anna")) as raw:
        assert raw.ask(b"entries\r\n") == [b"entries 0"]
        assert raw.ask(b"\n\r\n# merge 1 2\n#\n#\r\n", 5) == [b"skipped"] * 5
        assert raw.ask(b"merge 01 0002\r\n") == [b"ok 1 out 1 2 new 65"]
        assert raw.ask(b"locate -0 00\n") == [b"at 1 0 0 edge 65"]
        assert raw.ask(b"parcel 000\n") == [b"parcel 1 0 none"]
    assert town.register().apply(town.lines()[0])[1:] == ([1, 2], [65])


def test_many_lines_in_one_write_and_one_line_in_many(town):
    with town.session("anna") as session, Raw(session.path("anna")) as raw:
        assert raw.ask(b"entries\nmerge 1 2\nentries\n", 3) == [b"entries 0", b"ok 1 out 1 2 new 65", b"entries 1"]
        for byte in b"merge 65 3":
            raw.ask(bytes([byte]), 0)
        assert raw.ask(b"\n") == [b"ok 2 out 65 3 new 66"]
        assert raw.ask(b"entries\n" * 4000, 4000) == [b"entries 2"] * 4000


def test_a_line_of_a_mebibyte_and_one_byte_more(town):
    with town.session("anna") as session, Raw(session.path("anna")) as raw:
        for more in (b"", b"x", b"x" * 70_000, b"x" * (1 << 20)):
            line = b"#" + b"x" * ((1 << 20) - 2) + more + b"\n"
            assert raw.ask(line + b"entries\n", 2) == [b"error: L1" if more else b"skipped", b"entries 0"]
        path = b" 1 1" * 10_000
        assert raw.ask(b"split 1" + path + b"\n") == [b"refused E3"]
        assert raw.ask(b"split 1" + path * 30 + b"\nentries\n", 2) == [b"error: L1", b"entries 0"]


def test_a_client_that_goes_away_in_the_middle_of_a_line_and_comes_back(town):
    with town.session("anna") as session:
        for half in (b"merge 1 2", b"entries\nmerge 1 2", b"m", b"# x", b"x" * 70_000):
            with Raw(session.path("anna")) as raw:
                raw.ask(half, 0)
            with session.desk("anna", SECONDS) as desk:
                assert desk.entries() == 0
    assert town.lines() == []


def test_answers_that_a_client_left_are_not_the_next_ones(town):
    with town.session("anna") as session:
        for count in (1, 10, 3_000):
            with Raw(session.path("anna")) as raw:
                raw.ask(b"locate 1 1\n" * count, 0)
            with session.desk("anna", SECONDS) as desk:
                assert desk.locate(-7, count) == gv.Place(0, -7, count, "outside", ())


def test_a_client_that_closes_only_what_it_reads(town):
    with town.session("anna", "bert") as session, session.desk("bert", SECONDS) as other:
        for _ in range(5):
            raw = Raw(session.path("anna"))
            raw.inward.close()
            filled(raw, b"locate 1 1\n", 0.1)
            raw.outward.close()
            assert other.entries() == 0
            with session.desk("anna", SECONDS) as desk:
                assert desk.locate(1, 1).ids == (1,)


@pytest.mark.parametrize("reads", (False, True))
def test_close_ends_beside_a_client_that_never_ends(town, reads):
    with town.session("anna", "bert") as session, session.desk("bert", SECONDS) as other:
        raw = Raw(session.path("anna"))
        if not reads:
            raw.inward.close()
        writer = threading.Thread(target=write_on, args=(raw,), daemon=True)
        writer.start()
        assert other.merge(1, 2).number == 1
        begun = time.monotonic()
        assert session.close() == 1 and time.monotonic() < begun + SECONDS / 4
        writer.join(SECONDS)
        assert not writer.is_alive()


def write_on(raw: Raw) -> None:
    """Sends lines for as long as anybody takes them."""
    with contextlib.suppress(BrokenPipeError):
        while True:
            raw.outward.write(b"locate 1 1\n" * 1000)


def test_a_client_that_never_reads_keeps_its_own_desk_alone(town):
    with town.session("anna", "bert") as session, session.desk("bert", SECONDS) as other:
        with Raw(session.path("anna")) as raw:
            count = filled(raw, b"locate 1 1\n", 1)
            assert other.merge(1, 2).number == 1 and session.check().count == 63
            answers = {raw.inward.readline() for _ in range(count)}
            assert answers <= {b"at 0 1 1 inside 1\n", b"at 1 1 1 inside 65\n"} and len(answers) > 0
            assert other.entries() == 1


def filled(raw: Raw, line: bytes, seconds: float) -> int:
    """Sends a line again and again until nothing was taken for so long, or nobody reads, and a MiB at the most, since a
    desk whose answers nobody wants takes them as fast as they come; how many of them are whole."""
    os.set_blocking(raw.outward.fileno(), False)
    text, sent, last = line * 100, 0, time.monotonic()
    while sent < 1 << 20 and time.monotonic() < last + seconds:
        try:
            count = raw.outward.write(text[sent % len(line) :])
        except BrokenPipeError:
            break
        if count:
            sent, last = sent + count, time.monotonic()
    return sent // len(line)


def test_a_desk_has_one_client_of_this_package(town):
    with town.session("anna") as session:
        with session.desk("anna") as desk:
            for call in (lambda: session.desk("anna"), lambda: gv.Desk.at(session.path("anna"))):
                with pytest.raises(gv.DeskTaken):
                    call()
            assert desk.entries() == 0
        with pytest.raises(gv.SessionClosed):
            desk.entries()
        with gv.Desk.at(session.path("anna"), SECONDS) as desk:
            assert desk.entries() == 0


def test_desks_come_and_go(town):
    with town.session("anna", "bert") as session:
        for number in range(1, 60):
            with session.desk("anna", SECONDS) as desk:
                assert desk.merge(1 if number == 1 else 63 + number, number + 1).number == number
            with gv.Desk.at(session.path("bert"), SECONDS) as other:
                assert other.entries() == number
                desk.close()
    assert session.close() == 59


def test_nine_desks(town):
    with pytest.raises(gv.Refused, match="^K1 9$"):
        town.session(*EIGHT, "desk9")


def test_names_of_desks(town):
    for names in (["a/b"], [""], [".."], ["a", "a"]):
        with pytest.raises(ValueError):
            town.session(*names)
    with town.session("frau müller") as session:
        with session.desk("frau müller", SECONDS) as desk:
            assert desk.entries() == 0
        with pytest.raises(ValueError):
            session.desk("anna")


def test_pipes_that_are_none(tmp_path):
    (tmp_path / "anna.in").write_text("")
    os.mkfifo(tmp_path / "anna.out", 0o600)
    for path in (tmp_path / "anna", tmp_path / "bert"):
        with pytest.raises(gv.Refused, match="P1 "):
            gv.Desk.at(path)


def ran(town: Town, *words: str) -> subprocess.CompletedProcess:
    """How a session ends whose operator says nothing."""
    command = [find_tool(), "session", str(town.city), str(town.parcels), "--unit", "mm", *words]
    return subprocess.run(
        command, stdin=subprocess.DEVNULL, stdout=subprocess.PIPE, stderr=subprocess.PIPE, text=True, timeout=SECONDS
    )


@pytest.mark.parametrize("bad", ["in", "out"])
@pytest.mark.parametrize("how", ["file", "folder", "nothing"])
def test_what_is_no_pipe_is_refused_by_name_before_any_is_read(town, tmp_path, bad, how):
    for name in ("anna.in", "anna.out", "bert.in", "bert.out"):
        if name != f"bert.{bad}":
            os.mkfifo(tmp_path / name, 0o600)
        elif how != "nothing":
            (tmp_path / name).write_text("merge 1 2\n") if how == "file" else (tmp_path / name).mkdir()
    ended = ran(town, "--desk", str(tmp_path / "anna"), "--desk", str(tmp_path / "bert"))
    assert (ended.returncode, ended.stdout) == (1, "")
    assert ended.stderr.startswith("error: ") and str(tmp_path / f"bert.{bad}") in ended.stderr
    assert ended.stderr.count("\n") == 1


def test_layers_that_are_refused(town, tmp_path):
    write_rings(tmp_path / "gap.shp", [np.array(ring) for ring in town.rings[1:]])
    with pytest.raises(gv.Refused, match="^parcels: H2 "):
        gv.Session(town.city, tmp_path / "gap.shp", timeout=SECONDS)
    with pytest.raises(gv.Refused, match="^S1 ") as refused:
        gv.Session(town.city, tmp_path / "none.shp", timeout=SECONDS)
    assert "none.shp" in refused.value.text
    with pytest.raises(gv.Refused, match="^zones: H2 "):
        gv.Session(town.city, town.parcels, zones=tmp_path / "gap.shp", timeout=SECONDS)


def test_the_operator_alone_closes_by_the_end_of_input(town):
    ended = ran(town)
    assert (ended.returncode, ended.stderr) == (0, "") and ended.stdout.startswith("ready 0\n")


def test_the_end_of_the_operators_input_closes_the_desks(town, tmp_path):
    for name in ("anna.in", "anna.out"):
        os.mkfifo(tmp_path / name, 0o600)
    command = [find_tool(), "session", town.city, town.parcels, "--unit", "mm", "--desk", tmp_path / "anna"]
    running = subprocess.Popen(list(map(str, command)), stdin=subprocess.PIPE, stdout=subprocess.PIPE)
    try:
        assert running.stdout.readline() == b"ready 0\n"
        for number in (1, 2):
            with gv.Desk.at(tmp_path / "anna", SECONDS) as desk:
                assert desk.merge(number, 65 if number == 2 else 9).number == number
        assert running.communicate(b"", SECONDS)[0] == b"closed 2\n"
        assert running.returncode == 0
    finally:
        running.kill()
        running.wait()


def test_close_wakes_desks_that_are_blocked(town):
    session = town.session(*EIGHT)
    reading = [gv.Desk.at(session.path(name), SECONDS) for name in EIGHT[:3]]
    half = Raw(session.path(EIGHT[3]))
    half.ask(b"merge 1", 0)
    reading[0].merge(1, 2)
    assert session.close() == 1
    for desk in reading:
        with pytest.raises(gv.SessionClosed):
            desk.entries()
        desk.close()
    half.close()
    for call in (session.check, session.entries, lambda: session.desk(EIGHT[0])):
        with pytest.raises(gv.SessionClosed):
            call()
    assert session.close() == 1 and town.lines() == ["merge 1 2"]


def test_close_between_the_lines_of_clerks_at_work(town):
    session = town.session("anna", "bert")
    raws = [Raw(session.path(name)) for name in ("anna", "bert")]
    for raw in raws:
        raw.ask(b"insert 0 0 1 1 2 2\n" * 3_000, 0)
    assert session.close() == 0
    for raw in raws:
        answers = raw.inward.read().splitlines()
        assert set(answers[:-1]) <= {b"refused E7"} and answers[-1:] in ([], [b"error: closed"], [b"refused E7"])
        raw.close()


def test_a_context_that_is_left_by_an_error_ends_the_program(town):
    with pytest.raises(ZeroDivisionError):
        with town.session("anna") as session:
            session.desk("anna").merge(1, 2)
            folder = Path(session.path("anna")).parent
            raise ZeroDivisionError
    assert session.close() is None and not folder.exists() and town.lines() == ["merge 1 2"]


def test_a_program_that_is_killed(town):
    with pytest.raises(gv.ProgramEnded, match="by signal 9"):
        with town.session("anna") as session:
            desk = session.desk("anna")
            desk.merge(1, 2)
            os.kill(session.pid, signal.SIGKILL)
            with pytest.raises(gv.ProgramEnded):
                desk.merge(3, 4)
            with pytest.raises(gv.ProgramEnded, match="by signal 9"):
                session.check()
            with pytest.raises(gv.ProgramEnded):
                session.desk("anna")
    assert town.lines() == ["merge 1 2"]


ODD = {
    "no answer": ("import time; print('ready 0', flush=True); time.sleep(60)", gv.TimedOut),
    "never ready": ("import time; time.sleep(60)", gv.TimedOut),
    "not ready": ("print('hello')", gv.BadAnswer),
    "nothing": ("", gv.ProgramEnded),
    "status 3": ("import sys; print('ready 0', flush=True); input(); sys.exit(3)", gv.ProgramEnded),
    "another word": ("print('ready 0'); input(); print('entry 0'); input()", gv.BadAnswer),
    "no number": ("print('ready 0'); input(); print('entries x'); input()", gv.BadAnswer),
    "no text": ("import sys; print('ready 0'); input(); sys.stdout.buffer.write(b'\\xff\\n'); input()", gv.BadAnswer),
    "an unknown error": ("print('ready 0'); input(); print('error: what'); input()", gv.BadAnswer),
    "a refusal": ("import sys; sys.exit('error: parcels: H3 7')", gv.Refused),
    "no memory": ("print('ready 0'); input(); print('error: no memory'); input()", gv.NoMemory),
    "no version": ("print('ready 0'); input(); print('error: K4'); input()", gv.NoVersion),
}


@pytest.mark.parametrize("name", sorted(ODD))
def test_programs_that_misbehave(town, tmp_path, monkeypatch, name):
    text, error = ODD[name]
    monkeypatch.setenv("GANDOVEL_TOOL", program(tmp_path / "odd", text))
    with pytest.raises(error) as raised:
        with town.session(timeout=2 if error is gv.TimedOut else SECONDS) as session:
            session.entries()
    assert raised.type is error and "\n" not in str(raised.value)


def test_answers_that_are_not_to_the_question(town, tmp_path, monkeypatch):
    monkeypatch.setenv(
        "GANDOVEL_TOOL",
        program(
            tmp_path / "odd",
            """
print("ready 0", flush=True)
for answer in ("at 0 1 3 outside", "at 0 1 2 inside", "at 0 1 2 inside 1 2", "parcel 0 2 none", "parcel 0 1 5 0 0 1 1",
               "ok 1 out new", "ok 1 out 1 new 2", "ok x out new", "refused", "refused E3 ", "closed 1"):
    input()
    print(answer, flush=True)
""",
        ),
    )
    with town.session() as session:
        for _ in range(3):
            with pytest.raises(gv.BadAnswer):
                session.locate(1, 2)
        for _ in range(2):
            with pytest.raises(gv.BadAnswer):
                session.parcel(1)
        assert session.merge(1, 2) == gv.Accepted(1, (), ())
        assert session.merge(1, 2) == gv.Accepted(1, (1,), (2,))
        for error in (gv.BadAnswer, gv.BadAnswer, gv.RefusedEdit):
            with pytest.raises(error):
                session.merge(1, 2)


def test_cards_that_are_missing(town, tmp_path, monkeypatch):
    odd = "print('ready 0', flush=True); input(); print('error: K2 3 2', flush=True)"
    monkeypatch.setenv("GANDOVEL_TOOL", program(tmp_path / "odd", odd))
    with pytest.raises(gv.CardsMissing, match="^K2 3 2$"):
        with town.session():
            pass


def test_an_answer_that_comes_late_is_forgotten(town, tmp_path, monkeypatch):
    monkeypatch.setenv(
        "GANDOVEL_TOOL",
        program(
            tmp_path / "late",
            """
import time
print("ready 0", flush=True)
for number in range(2):
    input()
    time.sleep(1 - number)
    print("entries", number, flush=True)
input()
print("closed 0", flush=True)
""",
        ),
    )
    with town.session() as session:
        session.timeout = 0.2
        with pytest.raises(gv.TimedOut) as raised:
            session.entries()
        assert isinstance(raised.value, TimeoutError)
        session.timeout = SECONDS
        assert session.entries() == 1


def test_close_is_waited_for_again(town, tmp_path, monkeypatch):
    odd = "import time; print('ready 0', flush=True); input(); time.sleep(1); print('closed 4', flush=True)"
    monkeypatch.setenv("GANDOVEL_TOOL", program(tmp_path / "odd", odd))
    session = town.session()
    session.timeout = 0.1
    with pytest.raises(gv.TimedOut):
        session.close()
    session.timeout = SECONDS
    assert session.close() == 4


def test_a_desk_whose_session_is_gone(town, tmp_path):
    for name in ("anna.in", "anna.out"):
        os.mkfifo(tmp_path / name, 0o600)
    with pytest.raises(gv.TimedOut):
        gv.Desk.at(tmp_path / "anna", 0.2)


def test_a_program_that_is_not_there(town, tmp_path, monkeypatch):
    monkeypatch.setenv("GANDOVEL_TOOL", str(tmp_path / "none"))
    with pytest.raises(gv.Refused, match="^T1 "):
        town.session()


def test_the_register_of_the_tests():
    """The independent reader gives the tables of `docs/edits.md`."""
    register = Register(SQUARE, HALVES)
    for line in EXAMPLE:
        register.apply(line)
    assert register.rings[5] == [(0, 0), (60, 0), (60, 100), (30, 100), (0, 100)] and area2(register.rings[5]) == 12_000
    assert sorted(register.rings) == [2, 5] and register.next == 6 and register.locate(10, 10) == "inside 5"
