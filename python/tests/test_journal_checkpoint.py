"""Checkpoints: a register that goes on over the layer that its journal led to answers as one that went on with it."""
from __future__ import annotations

import json
import shutil
import subprocess
import sys
from pathlib import Path

import pandas as pd
import pytest

import gandovel as gv
from gandovel.cli import main
from gandovel.live.checkpoint import NO_ID, Checkpoint
from gandovel.live.journals import read_journal
from gandovel.metropolis.ids import Ids
from served import EAST, NORTH, Served, environment, prepared
from session_register import grid_city

pytestmark = pytest.mark.usefixtures("in_time")
SIDE = 10_000


def at(x, y):
    """A place in the grid of squares, in mm."""
    return f"{EAST + SIDE * x:.0f} {NORTH + SIDE * y:.0f}"


EARLY = [
    "merge 1 2",  # 17
    f"insert {at(0, 4)} {at(1, 4)} {at(0.5, 4)}",
    f"split 3 {at(2, 0)} {at(3, 1)}",  # 18, 19
    f"move 7 8 {at(3, 1)} {at(3.5, 1.5)} {at(3, 2)}",  # 20, 21
    f"insert {at(4, 3)} {at(4, 4)} {at(4, 3.5)}",
    f"straighten {at(0.5, 4)}",
    "merge 18 19",  # 22
]
LATE = [
    "merge 22 17",  # 23
    f"straighten {at(4, 3.5)}",
    f"split 16 {at(3, 3)} {at(4, 4)}",  # 24, 25
    "merge 24 15",  # 26
    f"move 20 21 {at(3, 1)} {at(3, 2)}",  # 27, 28
]
LAST = [f"split 23 {at(1, 0)} {at(1, 1)}", "merge 25 26", "merge 13 14"]


@pytest.fixture(scope="module")
def layer(tmp_path_factory):
    """Sixteen squares, prepared."""
    rings = [
        [
            (SIDE * a, SIDE * b),
            (SIDE * a + SIDE, SIDE * b),
            (SIDE * a + SIDE, SIDE * b + SIDE),
            (SIDE * a, SIDE * b + SIDE),
        ]
        for b in range(4)
        for a in range(4)
    ]
    city = [(SIDE * a, 0) for a in range(4)] + [(4 * SIDE, SIDE * b) for b in range(4)]
    city += [(SIDE * a, 4 * SIDE) for a in range(4, 0, -1)] + [(0, SIDE * b) for b in range(4, 0, -1)]
    return prepared(tmp_path_factory.mktemp("squares") / "layer", city, rings)


def made(folder: Path, journal: Path, lines) -> None:
    """Makes edits of a register, as a clerk's program sends them, each with its own key and reason."""
    with gv.open(folder, journal) as register:
        count = register.count()
        for number, line in enumerate(lines, count + 1):
            register._desk.edit_line(line, f"anna #key{number}, deed {number}")


@pytest.fixture(scope="module")
def registers(layer, tmp_path_factory):
    """The same register with one journal, and with two checkpoints; the folder of the latter."""
    folder = tmp_path_factory.mktemp("registers")
    made(layer, folder / "whole.txt", [*EARLY, *LATE])
    made(layer, folder / "early.txt", EARLY)
    before = (folder / "early.txt").read_bytes(), (folder / "early.txt").stat().st_mtime_ns
    assert checkpoint(folder / "early.txt", layer, folder / "first") == 0
    assert ((folder / "early.txt").read_bytes(), (folder / "early.txt").stat().st_mtime_ns) == before
    made(folder / "first", folder / "first/journal.txt", LATE)
    assert checkpoint(folder / "first/journal.txt", folder / "first", folder / "second") == 0
    return folder


def checkpoint(journal: Path, of: Path, out: Path, *more: str) -> int:
    """`gandovel journal --checkpoint`: its status."""
    return main(["journal", "--checkpoint", str(journal), "--of", str(of), "--out", str(out), *more])


def same(one: gv.OpenRegister, other: gv.OpenRegister) -> None:
    """Two registers have the same parcels, entries and answers."""
    parcels = [it.parcels for it in (one, other)]
    assert parcels[0].geom_equals(parcels[1]).all() and len(parcels[0]) == len(parcels[1])
    pd.testing.assert_frame_equal(*(pd.DataFrame(it.drop(columns="geometry")) for it in parcels))
    pd.testing.assert_frame_equal(*(it.entries.drop(columns="time") for it in (one, other)))
    x, y = EAST / 1000, NORTH / 1000
    places = [(x + a * 2.5, y + b * 2.5) for a in range(18) for b in range(18)]
    pd.testing.assert_frame_equal(*(pd.DataFrame(it.locate(places).drop(columns="geometry")) for it in (one, other)))
    for edit in (
        gv.Merge(gv.Id(1), gv.Id(9)),
        gv.Merge(gv.Id(9), gv.Id(99)),
        gv.Merge(gv.Id(24), gv.Id(9)),
        gv.Merge(gv.Id(9), gv.Id(9)),
    ):
        with pytest.raises(gv.RefusedEdit) as first, one.transaction() as edits:
            edits.edit(edit)
        with pytest.raises(gv.RefusedEdit) as second, other.transaction() as edits:
            edits.edit(edit)
        assert str(first.value) == str(second.value)
        with pytest.raises(gv.RefusedEdit, match=rf"^{first.value.code}\b"):
            other.edit(edit)


def test_a_register_goes_on_from_checkpoints(layer, registers, tmp_path):
    whole = shutil.copyfile(registers / "whole.txt", tmp_path / "whole.txt")
    with gv.open(layer, whole) as one, gv.open(registers / "second") as other:
        assert other.count() == len(EARLY + LATE) and not other.session.replayed
        same(one, other)
        for line in LAST:
            answers = [register._desk.edit_line(line, "bert") for register in (one, other)]
            assert answers[0] == answers[1]
        same(one, other)
        for register in (one, other):
            with pytest.raises(gv.Refused, match=r"P13 parcel A1: entry 1 took it out, and brought Id\(17\)"):
                register.edit(gv.Merge("A1", "A9"))
            assert register.edit(gv.Merge("A9", "A10")).out == (9, 10)
    (registers / "second/journal.txt").write_bytes(
        (registers / "second/journal.txt").read_bytes().split(b"\n")[0] + b"\n"
    )


def test_the_table_keeps_ids_and_numbers(registers):
    rows = (registers / "second/ids.csv").read_text().splitlines()
    assert rows[:4] == ["record,id,parcel_no", "1,4,A4", "2,5,A5", "3,6,A6"]
    assert rows[-6:] == ["9,14,A14", "10,23,", "11,25,", "12,26,", "13,27,A7", "14,28,A8"]


def test_the_table_of_entries_goes_through(registers, capsys):
    assert main(["journal", str(registers / "second"), "--json"]) == 0
    told = json.loads(capsys.readouterr().out)
    assert main(["journal", str(registers / "whole.txt"), "--json", "--parcels", "16"]) == 0
    whole = json.loads(capsys.readouterr().out)
    assert [{**it, "time": ""} for it in told["records"]] == [{**it, "time": ""} for it in whole["records"]]
    assert told["layer"] == whole["layer"] == read_journal(registers / "early.txt").layer
    assert told["digest"] == read_journal(registers / "first/journal.txt").digest


def test_the_program_takes_its_layer_as_it_is(registers, monkeypatch):
    """Whoever has no package: the layer is the parcels after all entries, and the journal is of it."""
    of = registers / "first"
    with gv.Session(of / "city.shp", of / "parcels.shp", zones=of / "zones.shp") as session:
        assert session.check().count == 16 - 1 and session.overlay().split == ()


QUESTIONS = [
    "/entries",
    "/parcels/17/history",
    "/parcels/1/lineage",
    "/parcels/22/lineage",
    "/parcels/23",
    "/parcels/4",
    "/parcels?limit=100",
    "/parcels/27/zones",
    "/overlay",
    "/collections/parcels/items?limit=100",
    "/collections/parcels/items?number=A3",
]


def plain(served: Served, question: str):
    """An answer without times, digests and addresses."""
    answer = served.ask(question)
    told = answer.json()
    return answer.status_code, _without(told, {"time", "digest", "links", "timeStamp", "href"})


def _without(told, names):
    if isinstance(told, dict):
        return {name: _without(value, names) for name, value in told.items() if name not in names}
    return [_without(it, names) for it in told] if isinstance(told, list) else told


def test_a_server_goes_on_from_a_checkpoint(layer, registers, tmp_path):
    shutil.copytree(registers, tmp_path / "all")
    here = tmp_path / "all"
    with Served(layer, here / "whole.txt") as one, Served(here / "second", here / "second/journal.txt") as other:
        for turn in range(2):
            for question in QUESTIONS:
                answers = [plain(served, question) for served in (one, other)]
                assert answers[0] == answers[1] and answers[0][0] in ((200, 410) if turn else (200,)), question
            for question in ("/parcels/1", "/parcels/24", "/parcels/99"):
                answers = [plain(served, question) for served in (one, other)]
                assert answers[0] == answers[1] and answers[0][0] in (404, 410), question
            for line in ("merge 1 9", "merge 22 9", "merge 9 99", "merge 9 9") if turn else LAST:
                answers = [served.edit(line) for served in (one, other)]
                assert answers[0].status_code == answers[1].status_code == (409 if turn else 200), answers[1].text
                told = [_without(it.json(), {"time", "digest"}) for it in answers]
                assert told[0] == told[1]
            other.kill()
            other.start()
        found = [served.ask(f"/locate?x={EAST + 1}&y={NORTH + 1}").json() for served in (one, other)]
        assert found[0] == found[1]
        assert one.end() == other.end() == 0


INWARD = {
    "split 6 -5 0 7 -3": "split 2 -5 0 7 -3",
    "by a: b: merge 4 9": "by a: b: merge 1 3",
    "move 10 11 1 1 2 2": "move 4 5 1 1 2 2",
    "merge 5 9": f"merge {NO_ID + 5} 3",
    "parcel 6": "parcel 2",
    "insert 4 6 9 4 5 5": "insert 4 6 9 4 5 5",
    "merge 4_0 6": "merge 4_0 6",
    "merge 4": "merge 4",
    "export /a merge 4 6": "export /a merge 4 6",
    "close": "close",
}
OUTWARD = {
    "ok 1 out 1 2 new 4": "ok 6 out 4 6 new 10",
    "ok 2 out 3 new 3": "ok 7 out 9 new 9",
    "at 0 -5 7 edge 1 2": "at 5 -5 7 edge 4 6",
    "at 0 1 1 outside": "at 5 1 1 outside",
    "parcel 1 2 20 0 0 1 0 0 1": "parcel 6 6 20 0 0 1 0 0 1",
    f"parcel 1 {NO_ID + 5} none": "parcel 6 5 none",
    "refused E12 2": "refused E12 6",
    "refused E2 1 3": "refused E2 4 8",
    f"refused E1 {NO_ID + 5}": "refused E2 5 2",
    f"refused E1 {NO_ID + 70}": "refused E1 70",
    "refused E6 1 G2 0 3": "refused E6 1 G2 0 3",
    "pair 2 1": "pair 6 1",
    "area 3 1 77": "area 9 1 77",
    "entries 3": "entries 8",
    "ready 0": "ready 5",
    "tiling 3 20": "tiling 3 20",
    "error: L1": "error: L1",
    "skipped": "skipped",
}


def test_lines_have_the_registers_ids_and_numbers(tmp_path):
    """Parcels 4, 6 and 9 are the session's 1, 2 and 3; five entries were before, of which the second took out 5."""
    (tmp_path / "before.jsonl").write_text('[2, 1, "2026-01-01T00:00:00Z", "", "merge 5 3", "", "3 5", "6"]\n')
    of = Checkpoint(tmp_path, 5, "", "", "", 1, 3, Ids(0, 3, 9, (4, 6, 9)))
    assert {line: of.inward(line) for line in INWARD} == INWARD
    assert {line: of.outward(line) for line in OUTWARD} == OUTWARD


def refused(capsys, *words: object) -> str:
    """A command is refused: its last line."""
    assert main([str(word) for word in words]) not in (0, None)
    return capsys.readouterr().err.splitlines()[-1]


def spoiled(registers: Path, tmp_path: Path) -> Path:
    """A copy of all that a test may spoil: its second checkpoint."""
    return Path(shutil.copytree(registers, tmp_path / "all")) / "second"


@pytest.mark.parametrize("name", ["ids.csv", "before.jsonl", "parcels.shp", "city.shx", "origin/prepared.json"])
@pytest.mark.parametrize("how", ["changed", "lost", "of another"])
def test_parts_that_do_not_belong_together(registers, tmp_path, capsys, name, how):
    folder = spoiled(registers, tmp_path)
    part = folder / name
    if how == "changed":
        part.write_bytes(part.read_bytes()[:-2] + b"9\n")
    elif how == "lost":
        part.unlink()
    else:
        part.write_bytes(
            (registers / "first" / name).read_bytes() + (b" " if name in ("city.shx", "origin/prepared.json") else b"")
        )
    code, words = ("P1", "can't be read") if how == "lost" else ("P19", "is not as it was written")
    for line in (
        refused(capsys, "journal", folder),
        refused(capsys, "journal", "--checkpoint", folder / "journal.txt", "--of", folder, "--out", tmp_path / "new"),
    ):
        assert (
            line.startswith(f"error: {code} {part}") and words in line and "take the whole folder from a backup" in line
        )
    with pytest.raises(gv.Refused, match=f"^{code} "):
        gv.open(folder)


@pytest.mark.parametrize("how", ["lost", "shorter", "another"])
def test_a_lost_predecessor(registers, tmp_path, capsys, how):
    folder = spoiled(registers, tmp_path)
    journal = folder.parent / "first/journal.txt"
    digest = read_journal(journal).digest
    if how == "lost":
        journal.unlink()
    else:
        text = (folder.parent / "whole.txt").read_bytes() if how == "another" else journal.read_bytes()[:-20]
        journal.write_bytes(text)
    line = refused(capsys, "journal", folder)
    assert line.startswith("error: P19 ") and "first/journal.txt" in line and f"whose last digest is {digest}" in line
    with pytest.raises(gv.Refused, match="^P19 "):
        gv.open(folder)


def test_a_torn_checkpoint(registers, tmp_path, capsys):
    folder = spoiled(registers, tmp_path)
    told = folder / "checkpoint.txt"
    for text in (told.read_text().replace("entries 12", "entries 13"), told.read_text()[:-9], "", "\n"):
        told.write_text(text)
        assert refused(capsys, "journal", folder).startswith(f"error: P19 {told} is not as it was written")


def test_a_journal_of_another_layer(layer, registers, tmp_path, capsys):
    folder = spoiled(registers, tmp_path)
    shutil.copyfile(folder.parent / "whole.txt", folder / "journal.txt")
    assert refused(capsys, "journal", folder).startswith(f"error: P19 {folder / 'journal.txt'} is of another layer")
    with pytest.raises(gv.JournalRefused, match="another layer .*other parcels"):
        gv.open(folder)
    line = refused(
        capsys, "journal", "--checkpoint", registers / "whole.txt", "--of", folder, "--out", tmp_path / "new"
    )
    assert line.startswith(f"error: another layer {registers / 'whole.txt'}: it was begun with other parcels")
    assert "name by --of the layer" in line and not (tmp_path / "new").exists()


def test_what_can_not_be_made(layer, registers, tmp_path, capsys):
    early = registers / "early.txt"
    assert "is there already" in refused(capsys, "journal", "--checkpoint", early, "--of", layer, "--out", tmp_path)
    for words, code in (
        ((tmp_path / "none", "--of", layer), "S1"),
        ((early, "--of", tmp_path / "none"), "P1"),
        ((layer / "rows.csv", "--of", layer), "no journal"),
        ((early, "--of", layer, "--island", "2"), "P13"),
        (("a\nb", "--of", layer), "P14"),
    ):
        line = refused(capsys, "journal", "--checkpoint", *words, "--out", tmp_path / "new")
        assert line.startswith(f"error: {code} "), line
    with gv.open(layer, tmp_path / "open.txt"):
        line = refused(
            capsys, "journal", "--checkpoint", tmp_path / "open.txt", "--of", layer, "--out", tmp_path / "new"
        )
        assert line.startswith("error: journal: in use ") and "close that first" in line
    with pytest.raises(SystemExit):
        main(["journal", "--checkpoint", str(early)])
    assert "--of LAYER and --out FOLDER" in capsys.readouterr().err
    assert [it.name for it in tmp_path.iterdir()] == ["open.txt"]


def test_a_torn_end_does_not_count(layer, registers, tmp_path, capsys):
    """It stays in the old journal, which is not changed."""
    text = (registers / "early.txt").read_bytes() + b"# 8 1 2026-"
    (tmp_path / "torn.txt").write_bytes(text)
    assert checkpoint(tmp_path / "torn.txt", layer, tmp_path / "new") == 0
    assert (tmp_path / "torn.txt").read_bytes() == text
    with gv.open(tmp_path / "new") as register:
        assert register.count() == len(EARLY)


def test_a_backup_says_how_a_checkpoint_is_copied(registers, tmp_path, capsys):
    folder = registers / "second"
    line = refused(capsys, "backup", folder, "--journal", folder / "journal.txt", "--out", tmp_path / "copy")
    assert line.startswith("error: P1 ") and "copy the folder, and the journal that it goes on from" in line


def test_a_checkpoint_that_is_killed_leaves_nothing(layer, registers, tmp_path):
    """It comes to stand by one rename: what a kill leaves is a folder with a dot, and the journal as it was."""
    command = ["gandovel", "journal", "--checkpoint", registers / "early.txt", "--of", layer, "--out", tmp_path / "new"]
    text = (registers / "early.txt").read_bytes()
    script = (
        "import os, sys; from gandovel.cli import main; "
        "os.rename = lambda *_: os.kill(os.getpid(), 9); main(sys.argv[1:])"
    )
    ended = subprocess.run(
        [sys.executable, "-c", script, *map(str, command[1:])], capture_output=True, env=environment()
    )
    assert ended.returncode == -9 and not (tmp_path / "new").exists() and (registers / "early.txt").read_bytes() == text
    assert checkpoint(registers / "early.txt", layer, tmp_path / "new") == 0
