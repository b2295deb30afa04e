"""The folder of layers with exact answers: the program and the package have them right, and a wrong answer is seen."""
from __future__ import annotations

import json
import os
import subprocess
import sys
from pathlib import Path
from typing import Any, Dict, List

ROOT = Path(__file__).resolve().parents[2]
TOOL = str(Path(os.environ.get("GANDOVEL_TOOL", ROOT / "crates/parcel_tool/out/parcel_tool")).resolve())
CASES: List[Dict[str, Any]] = [json.loads(it) for it in (ROOT / "conformance/cases.jsonl").read_text().splitlines()]


def run(*words: str) -> "subprocess.CompletedProcess[str]":
    environment = {**os.environ, "GANDOVEL_TOOL": TOOL}
    command = [sys.executable, "-m", "conformance.run", *words]
    return subprocess.run(command, cwd=ROOT, env=environment, capture_output=True, text=True, timeout=1200)


def test_ours_are_right() -> None:
    """Nothing is wrong; not asked are the areas of gaps and overlaps of layers that do not tile."""
    ran = run("--", sys.executable, "-m", "conformance.gandovel_answers")
    assert ran.returncode == 0, ran.stdout + ran.stderr
    torn = sum(1 for it in CASES if it["answer"].get("tiles") is False)
    assert f"tiles: {sum(1 for it in CASES if it['kind'] == 'exact')} right, 0 wrong, 0 not answered" in ran.stdout
    assert f"overlaps_area2: {len(CASES) - 14 - torn} right, 0 wrong, {torn} not answered" in ran.stdout
    assert "faults: 14 right, 0 wrong, 0 not answered" in ran.stdout


def test_wrong_answers_are_seen() -> None:
    """A program that says that all tiles, and of no area, is wrong where that is wrong, and has status 1."""
    says = "import json; print(json.dumps({'tiles': True, 'area2': {'1': '0'}, 'points': []}))"
    ran = run("--only", "gap", "--", sys.executable, "-c", says)
    assert ran.returncode == 1
    assert "tiles: 0 right, 1 wrong" in ran.stdout and "area2: 0 right, 1 wrong" in ran.stdout
    assert "gaps_area2: 0 right, 0 wrong, 1 not answered" in ran.stdout


def test_answers_are_their_generators() -> None:
    """The exact cases are what `conformance.make` makes today, file by file."""
    sys.path.insert(0, str(ROOT))
    try:
        from conformance import make
    finally:
        sys.path.remove(str(ROOT))
    for name, _, outline, parcels, zones in [*make.drawn_by_hand(), *make.drawn_at_random()]:
        case = next(it for it in CASES if it["case"] == name)
        assert json.loads(json.dumps(make.exact_answer(outline, parcels, zones))) == case["answer"]
        for role, rings in (("city", [outline]), ("parcels", parcels), ("zones", zones)):
            if rings:
                main, index = make.write_layer(list(rings))
                path = ROOT / "conformance/layers" / f"{name}_{role}.shp"
                assert (path.read_bytes(), path.with_suffix(".shx").read_bytes()) == (main, index)
