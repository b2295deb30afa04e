"""The command `gandovel`: edits by own numbers, codes in words, one status for each way that it ends."""
from __future__ import annotations

import os
import re
import subprocess
import sys
from pathlib import Path

import geopandas as gpd
import numpy as np
import pytest
from shapely.geometry import box

import gandovel as gv
from gandovel.cli import parser
from gandovel.codes import OWN
from gandovel.program.edit_lines import edits_of
from gandovel.reading.options import defaults
from gandovel.reading.register import Options
from test_register import command

CRS = 25832
SOURCES = Path(gv.__file__).parent


@pytest.fixture
def folder(tmp_path):
    """Plots in feet whose numbers are no records, one with a blank; and plots that overlap, and with an open gap."""
    shapes = [box(at, 0, at + 10, 10) for at in (0, 10, 20)]
    numbers = ["7", "1 / 3", "2"]
    gpd.GeoDataFrame({"nr": numbers, "use": list("abc")}, geometry=shapes, crs=2263).to_file(tmp_path / "feet.gpkg")
    metres = gpd.GeoDataFrame({"nr": numbers}, geometry=shapes, crs=CRS)
    metres.to_file(tmp_path / "tiles.gpkg")
    metres.assign(geometry=[box(0, 0, 11, 10), *shapes[1:]]).to_file(tmp_path / "overlap.gpkg")
    notch = box(0, 0, 10, 10).difference(box(4, 5, 4.5, 10))
    metres.assign(geometry=[notch, *shapes[1:]]).to_file(tmp_path / "open.gpkg")
    return tmp_path


EDITS = '# The first deed.\nmerge 7 "1 / 3"\n\ninsert 20 0 30 0 25 0\ninsert 20 10 30 10 25 10\nsplit 2 25 0 25 10\n'


def test_edits_by_own_numbers_to_a_new_layer(folder):
    (folder / "edits.txt").write_text(EDITS)
    before = (folder / "feet.gpkg").read_bytes()
    ended = command("apply", "feet.gpkg", "edits.txt", "--number", "nr", "--out", "new.gpkg", cwd=folder)
    assert ended.returncode == 0, ended.stderr
    answers = "line 2 ok 1\nline 4 ok 2\nline 5 ok 3\nline 6 ok 4\n"
    assert ended.stdout == f"{answers}3 parcels, 3 of them from edits\n"
    new = gpd.read_file(folder / "new.gpkg", layer="parcels")
    assert new.came_from.tolist() == ["7,1 / 3", "2", "2"] and new.crs.to_epsg() == 2263
    assert np.allclose(new.geometry.area, [200, 50, 50], rtol=1e-3) and new.use.tolist() == ["a", "c", "c"]
    assert (folder / "feet.gpkg").read_bytes() == before
    assert command("check", "new.gpkg", "--number", "ROW", cwd=folder).returncode == 0


def test_a_refused_edit_refuses_all_and_writes_nothing(folder):
    (folder / "edits.txt").write_text(EDITS + "merge 2 2\n")
    words = ("apply", "tiles.gpkg", "edits.txt", "--number", "nr", "--out", "new.gpkg")
    ended = command(*words, cwd=folder)
    assert (ended.returncode, ended.stdout) == (1, "") and not (folder / "new.gpkg").exists()
    assert ended.stderr.splitlines()[-1] == "error: E2 3 4: line 7, merge 2 2"
    kept = command(*words, "--keep", cwd=folder)
    assert kept.returncode == 0 and "line 7 refused E2 3 4\n3 parcels" in kept.stdout


BAD = {
    "merge 7": "line 1 is no edit (merge names 2 parcels)",
    "merge 7 8 9": "places are X Y, pairs of numbers",
    "split 7 1 2 3": "places are X Y, pairs of numbers",
    "split 7": "split has a path places, and not 0",
    "insert 1 2 3 4": "insert has 3 places, and not 2",
    "straighten nan 1": "places are X Y",
    "MERGE 7 8": "MERGE is none of split, merge, move, insert, straighten",
    'merge 7 "1': "No closing quotation",
    "merge 7 2\nx\ny": "L1 2 rows are refused: line 2 is no edit (x is none of",
    "grid cm": "grid is none of",
}


@pytest.mark.parametrize("text", BAD)
def test_lines_that_are_no_edits(text):
    with pytest.raises(gv.Refused, match=re.escape(BAD[text])) as refused:
        edits_of(text)
    assert refused.value.code == "L1" and refused.value.status == 4


@pytest.mark.parametrize(
    "edits, words, status, said",
    [
        (b"merge 7 99\n", (), 4, "error: parcels: P13 parcel 99: it is not there"),
        (b"\xff\xfe", (), 4, "error: edits: P1 edits.txt is no text in UTF-8 (byte 0)"),
        (None, (), 4, "error: edits: P1 edits.txt: No such file"),
        (b"", ("--island", "2"), 4, "error: parcels: P13 part 2 of the city is not there"),
        (b"", ("--out", "edits.txt"), 4, "error: P14 edits.txt would be a GeoPackage"),
        (b"", ("--out", "tiles.gpkg"), 4, "error: P14 tiles.gpkg is read, and would be written over"),
        (b"", ("--outt", "x"), 2, "unrecognized arguments"),
    ],
)
def test_what_is_refused_leaves_nothing(folder, edits, words, status, said):
    if edits is not None:
        (folder / "edits.txt").write_bytes(edits)
    before = (folder / "tiles.gpkg").read_bytes()
    ended = command("apply", "tiles.gpkg", "edits.txt", "--number", "nr", "--out", "new.gpkg", *words, cwd=folder)
    assert (ended.returncode, ended.stdout) == (status, "") and said in ended.stderr, ended.stderr
    assert not (folder / "new.gpkg").exists() and (folder / "tiles.gpkg").read_bytes() == before


@pytest.mark.parametrize(
    "words, status",
    [
        (("check", "tiles.gpkg", "--number", "nr"), 0),
        (("report", "tiles.gpkg", "--number", "nr", "--json"), 0),
        (("check", "overlap.gpkg", "--number", "nr"), 1),
        (("mend", "overlap.gpkg", "--number", "nr", "--out", "m.gpkg"), 1),
        (("overlay", "overlap.gpkg", "--zones", "tiles.gpkg", "--number", "nr"), 1),
        (("locate", "overlap.gpkg", "--number", "nr", "--at", "1", "1"), 1),
        (("check",), 4),
        (("check", "tiles.gpkg", "--nummer", "nr"), 2),
        (("locate", "tiles.gpkg", "--number", "nr"), 2),
        ((), 2),
        (("check", "open.gpkg", "--number", "nr"), 3),
        (("report", "open.gpkg", "--number", "nr", "--csv"), 3),
        (("check", "none.gpkg"), 4),
        (("check", "tiles.gpkg", "--number", "none"), 4),
        (("report", "tiles.gpkg", "--number", "nr", "--out", "no/folder.gpkg"), 4),
    ],
)
def test_statuses_apart(folder, words, status):
    ended = command(*words, cwd=folder)
    assert ended.returncode == status, ended.stdout + ended.stderr
    if status in (0, 3, 4):
        assert ("error: " in ended.stderr) == (status == 4), ended.stderr


def test_at_in_the_layers_unit(folder):
    ended = command("locate", "feet.gpkg", "--number", "nr", "--at", "25", "5", cwd=folder)
    assert ended.stdout == "25.000 5.000 inside 2\n", ended.stderr


def test_explains_codes_of_the_program_and_the_package(folder):
    listed = command("explain", cwd=folder).stdout.splitlines()
    codes = [line.partition(":")[0] for line in listed]
    assert {"F9 C2", "H2", "E12", "K1", "P1", "P18", "T1", "T11", "W7", "L1"} <= set(codes)
    assert len(codes) == len(set(codes))
    for words in (["P6"], ["F9", "C2"], ["H2"], ["W6"], ["no", "memory"]):
        told = command("explain", *words, cwd=folder)
        assert told.returncode == 0 and "what to do: " in told.stdout and " ".join(words) in told.stdout
    none = command("explain", "X9", cwd=folder)
    assert (none.returncode, none.stdout) == (2, "") and "there is no code X9" in none.stderr


def test_each_code_that_is_raised_has_words():
    raised = set()
    for path in SOURCES.rglob("*.py"):
        raised |= set(re.findall(r'"([PTW][0-9]{1,2})"', path.read_text()))
    assert raised <= set(OWN), raised - set(OWN)
    assert all(words.meaning and words.remedy for words in OWN.values())


def test_options_of_prepare_stand_once():
    """What `prepare` takes is what each function takes, and the command line has, with the same defaults."""
    assert set(Options.__annotations__) == set(defaults()) - {"zones"}
    for name in ("check", "report", "overlay", "mend", "apply", "locate", "prepare"):
        words = {"apply": ["x", "y", "--out", "z"], "locate": ["x", "--at", "1", "1"], "check": ["x"], "overlay": ["x"]}
        told = vars(parser().parse_args([name, *words.get(name, ["x", "--out", "z"])]))
        assert {option: told[option] for option in defaults()} == defaults(), name


def test_edits_from_standard_input(folder):
    words = [sys.executable, "-m", "gandovel", "apply", "tiles.gpkg", "-", "--number", "nr", "--out", "new.gpkg"]
    env = {**os.environ, "PYTHONPATH": str(SOURCES.parent)}
    ended = subprocess.run(words, cwd=folder, env=env, input="merge 7 '1 / 3'\n", capture_output=True, text=True)
    assert ended.stdout == "line 1 ok 1\n2 parcels, 1 of them from edits\n", ended.stderr


def test_the_command_line_is_read_without_geopandas():
    """It takes a second, of which `--help`, `many` and a shell's completion have no use."""
    words = (
        "import sys, gandovel.cli as cli; cli.parser(); print({'pandas', 'geopandas', 'shapely'} & set(sys.modules))"
    )
    env = {**os.environ, "PYTHONPATH": str(SOURCES.parent)}
    ended = subprocess.run([sys.executable, "-c", words], env=env, capture_output=True, text=True, check=True)
    assert ended.stdout == "set()\n"
