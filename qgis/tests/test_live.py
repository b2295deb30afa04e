"""Live checking agrees with the whole program, and takes no longer than a clerk waits."""
from __future__ import annotations

import json
import os
import subprocess
from pathlib import Path
from typing import Any, Dict

import pytest
from conftest import ROOT, environment

LONG = bool(os.environ.get("GANDOVEL_LONG"))
EDITS = 500 if LONG else 50
"""Edits of each of two layers."""


def edits(folder: Path, *words: str) -> Dict[str, Any]:
    """What `live_edits.py` prints, run by the package's own Python."""
    python = os.environ.get("GANDOVEL_PYTHON", "/usr/bin/python3")
    command = [python, str(ROOT / "qgis/tests/live_edits.py"), *words]
    ended = subprocess.run(command, env=environment(folder), capture_output=True, text=True, timeout=3000, check=False)
    assert ended.returncode == 0, ended.stderr[-3000:]
    found: Dict[str, Any] = json.loads(ended.stdout)
    return found


@pytest.mark.parametrize("city", [[], ["city"]])
def test_random_edits_agree_with_the_whole_program(tmp_path: Path, city: list[str]) -> None:
    """Kinds, exact areas and parcels of all faults: 1,000 edits with GANDOVEL_LONG, else 100."""
    told = edits(tmp_path, "agree", "20", str(EDITS), str(tmp_path), *city)
    assert told["compared"] == EDITS // 5 and told["most"] > 5
    assert told["again"] <= EDITS // 5


@pytest.mark.parametrize("side, most", [(71, 0.2), *([(200, 1.0)] if LONG else [])])
def test_a_change_is_checked_at_once(tmp_path: Path, side: int, most: float) -> None:
    """In seconds of a processor: 0.2 among 5,000 parcels, and with GANDOVEL_LONG 1 among 40,000."""
    told = edits(tmp_path, "speed", str(side), str(tmp_path))
    assert told["change"] < most and told["faults"] > 0
