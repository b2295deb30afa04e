"""The second reading of the definitions (`reference/`): it names definitions that are there, it agrees with the built
program on drawn cases, and it notices a wrong reading."""

import os
import re
import subprocess
import sys
from pathlib import Path
from typing import Callable

import pytest

ROOT = Path(__file__).resolve().parents[2]
sys.path.insert(0, str(ROOT))
from reference import compare, edits, files, layer, overlays, plane  # noqa: E402

ANSWERS = 50_000 if os.environ.get("GANDOVEL_FULL") else 3_000
SQUARE = [(0, 0), (100, 0), (100, 100), (0, 100)]


@pytest.fixture(name="tool")
def program() -> str:
    """The built program."""
    return os.environ["GANDOVEL_TOOL"]


def test_each_definition_that_it_names_is_there() -> None:
    named = []
    for path in (ROOT / "reference").glob("*.py"):
        for crate, words in re.findall(
            r"(\w+) ((?:`\w+`(?:, )?)+)", " ".join(path.read_text().split("Definition:")[1:])
        ):
            folder = ROOT / "crates" / crate / "specs"
            if folder.is_dir():
                texts = "".join(it.read_text() for it in folder.rglob("*.antt"))
                named += [(crate, word, texts) for word in re.findall(r"`(\w+)`", words)]
    assert len(named) > 30
    for crate, word, texts in named:
        assert re.search(rf"^(abbrev |unfoldable )?pub (record )?{word}\b", texts, re.M), f"{crate} has no {word}"


def test_the_program_agrees_with_it(tool: str) -> None:
    ran = subprocess.run(
        [sys.executable, "-m", "reference", "--answers", str(ANSWERS), "--jobs", "2"],
        cwd=ROOT,
        env={**os.environ, "GANDOVEL_TOOL": tool},
        capture_output=True,
        text=True,
        check=False,
    )
    assert ran.returncode == 0, ran.stdout + ran.stderr
    assert " 0 cases differ" in ran.stdout


@pytest.mark.parametrize(
    "where, name, wrong, kind",
    [
        (edits, "flat_at", lambda ring, corner: True, "session"),
        (edits, "from_least", lambda ring: ring, "session"),
        (compare, "locate", lambda rows, p: layer.locate(rows, (p[0] + 1, p[1])), "layer"),
        (
            compare,
            "pairs",
            lambda rows, zones: {(z, n): it for (n, z), it in overlays.pairs(zones, rows).items()},
            "overlay",
        ),
        (compare, "read_layer", lambda main, index, unit: files.read_layer(main, None, unit), "files"),
        (compare, "clerk_file", lambda data: edits.clerk_file(data.replace(b"  ", b" ")), "clerk"),
    ],
)
def test_a_wrong_reading_is_noticed(
    where: object,
    name: str,
    wrong: Callable[..., object],
    kind: str,
    tool: str,
    tmp_path: Path,
    monkeypatch: pytest.MonkeyPatch,
) -> None:
    monkeypatch.setattr(where, name, wrong)
    judge = compare.Judge(tool, tmp_path)
    assert any(compare.judge_one(judge, kind, seed) for seed in range(100))


def test_the_worked_example_of_the_edits() -> None:
    rings = [(1, [(0, 0), (60, 0), (60, 100), (0, 100)]), (2, [(60, 0), (100, 0), (100, 100), (60, 100)])]
    fabric = edits.Fabric(layer.load(SQUARE, rings))
    lines = ["insert 0 0 60 0 30 0", "insert 0 100 60 100 30 100", "split 1 30 0 30 100", "split 1 30 0 30 100"]
    lines += ["merge 3 4", "straighten 30 0", "straighten 60 0", "straighten 0 0", "straighten 50 50"]
    asked = [edits.edit_of(line.encode()) for line in lines]
    answers = [compare.ok_line(fabric, it) for it in asked if it is not None]
    assert answers[2:5] == ["ok 3 out 1 new 3 4", "refused E2 1 3", "ok 4 out 3 4 new 5"]
    assert answers[5:] == ["ok 5 out 5 new 5", "refused E12 2", "refused E12 5", "refused E11"]
    assert fabric.rows[5] == [(0, 0), (60, 0), (60, 100), (30, 100), (0, 100)]
    assert fabric.refined == [(0, 0), (60, 0), (100, 0), (100, 100), (60, 100), (30, 100), (0, 100)]


def test_areas_of_crossing_rings() -> None:
    one, other = [(0, 0), (100, 0), (100, 100), (50, 51)], [(0, 0), (100, 100), (0, 100)]
    assert plane.common_area2(one, other) == 100
    assert plane.common_area2(SQUARE, [(200, 0), (300, 0), (300, 9)]) == 0
    assert plane.common_area2(SQUARE, SQUARE) == 20_000
