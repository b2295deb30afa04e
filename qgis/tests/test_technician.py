"""A technician edits a layer of 900 parcels, with GANDOVEL_LONG of 40,000, with the dock open."""
from __future__ import annotations

import os
import statistics
from pathlib import Path
from typing import Any, Dict

import pytest
from driving import driven, screen, with_plugin
from layers_made import make_town

LONG = bool(os.environ.get("GANDOVEL_LONG"))
SIDE, EDITS, PLANTED = (200, 100, 40) if LONG else (30, 4, 6)
MOST, MOST_OF_SMALL = 1.0, 0.2
"""Seconds until a fault is seen, on the clock of a machine that has nothing else to do; of a processor here."""


@pytest.fixture(scope="module")
def seen(tmp_path_factory: pytest.TempPathFactory) -> Dict[str, Any]:
    """What `window_technician.py` saw, and what was planted."""
    folder: Path = tmp_path_factory.mktemp("technician")
    with_plugin(folder)
    counts = make_town(folder / "town.gpkg", SIDE, SIDE, PLANTED)
    with screen() as display:
        more = {"GANDOVEL_TOWN": str(folder / "town.gpkg"), "GANDOVEL_EDITS": str(EDITS), "GANDOVEL_WAIT": "1200"}
        found = driven(display, folder, "window_technician.py", seconds=7200, **more)
    clock, processor = ([one[name] for one in found["edits"]] for name in ("seconds", "processor"))
    print(
        f"\n{SIDE * SIDE} parcels, {len(found['edits'])} edits: a fault is seen after {statistics.median(clock):.2f} s "
        f"on the clock ({max(clock):.2f} at most), {statistics.median(processor):.3f} s of a processor "
        f"({max(processor):.3f} at most); first check {found['check']:.1f} s, "
        f"live checking ready after {found['loaded']:.1f} s more"
    )
    return {**found, "counts": counts}


def test_the_planted_faults_are_found(seen: Dict[str, Any]) -> None:
    """All of them, and no other."""
    said, counts = seen["first"]
    assert counts == seen["counts"] and sum(counts.values()) >= PLANTED // 2 and "do not tile" in said


def test_each_fault_is_seen_at_once(seen: Dict[str, Any]) -> None:
    """It lies where the parcel was edited."""
    assert len(seen["edits"]) == EDITS
    for one in seen["edits"]:
        assert one["faults"] > 0 and one["there"], one
        assert one["processor"] < (MOST if LONG else MOST_OF_SMALL), one
        if os.environ.get("GANDOVEL_CLOCK"):
            assert one["seconds"] < MOST, one


def test_each_is_mended_without_leaving_the_canvas(seen: Dict[str, Any]) -> None:
    """By the assistant; a parcel that is lost, or one too many, by undo. Nothing is left of any edit."""
    by_assistant = [one for one in seen["edits"] if "mended" in one]
    assert all(one["left"] == 0 for one in seen["edits"])
    assert len(by_assistant) == EDITS // 2 and not [one for one in by_assistant if "undone" in one]


def test_the_planted_ones_are_mended_and_the_program_says_that_it_tiles(seen: Dict[str, Any]) -> None:
    """Live checking and the whole program agree."""
    assert seen["live"][1] == 0 and "no gaps, no overlaps" in seen["live"][0], seen["planted"]
    assert all(" 1 step, " in told for told in seen["planted"] if " step" in told)
    said, left = seen["whole"]
    assert said.startswith("town: The parcels tile the city: no gaps, no overlaps, no open gaps") and left == 0
