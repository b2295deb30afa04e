"""A limit on the size of files: no session is ended by it, and what was answered `ok` stands in the journal."""
from __future__ import annotations

import resource
import subprocess
from pathlib import Path
from typing import List

import pytest

from gandovel.program.tool import find_tool
from session_town import SECONDS

pytestmark = pytest.mark.usefixtures("in_time")
EDITS = ["insert 0 40000 50000 40000 25000 40000", "straighten 25000 40000"]
"""A corner is put into a border of the town of the examples, and taken out again: as often as one likes."""


def answers(limit: int, lines: List[str]) -> "subprocess.CompletedProcess[str]":
    """What a session over the town of the examples answers, whose files may have so many bytes."""
    return subprocess.run(
        [find_tool(), "session", "city.shp", "parcels.shp", "--unit", "cm", "--journal", "register.txt"],
        input="".join(f"{line}\n" for line in lines),
        text=True,
        capture_output=True,
        timeout=SECONDS,
        restore_signals=True,
        preexec_fn=lambda: resource.setrlimit(resource.RLIMIT_FSIZE, (limit, limit)),
    )


@pytest.fixture
def in_the_village(tmp_path, monkeypatch):
    """A copy of the town of the examples, which is the folder of the test."""
    village = Path(__file__).resolve().parents[2] / "examples/town"
    for name in ("city.shp", "city.shx", "parcels.shp", "parcels.shx"):
        (tmp_path / name).write_bytes((village / name).read_bytes())
    monkeypatch.chdir(tmp_path)
    return tmp_path


def test_an_edit_that_has_no_room_is_an_error(in_the_village):
    ended = answers(1024, EDITS * 10 + ["entries", "close"])
    said = ended.stdout.splitlines()
    made = [line for line in said if line.startswith("ok ")]
    assert ended.returncode == 0 and 0 < len(made) < 20
    assert said[1 + len(made)] == "error: journal" and said[-1] == f"closed {len(made)}"
    assert (in_the_village / "register.txt").stat().st_size <= 1024
    assert answers(2**30, ["entries", "close"]).stdout.splitlines()[0] == f"ready {len(made)}"


def test_a_start_that_has_no_room_is_refused(in_the_village):
    answers(2**30, EDITS + ["close"])
    before = (in_the_village / "register.txt").read_bytes()
    ended = answers(100, ["close"])
    assert (ended.returncode, ended.stderr) == (1, "error: register.txt: S1\n")
    assert (in_the_village / "register.txt").read_bytes() == before


def test_an_export_that_has_no_room_is_an_error(in_the_village):
    said = answers(600, ["export out", "entries", "close"]).stdout.splitlines()
    assert said[:2] == ["ready 0", "error: S2"] and said[-1] == "closed 0"
    assert not list(in_the_village.glob("out*"))
