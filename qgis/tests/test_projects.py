"""Two projects, the batch dialog, and an exit of QGIS while a check runs."""
from __future__ import annotations

import os
import re
import subprocess
from pathlib import Path
from typing import Any, Dict

import geopandas as gpd
import pytest
from driving import driven, screen, started, with_plugin
from layers_made import CRS, make_street
from shapely.geometry import Polygon, box
from test_refusals import has_ended

THREE = [box(0, 0, 5, 10), box(5, 0, 10, 10), Polygon([(0, 10), (5, 10.41), (10, 10), (10, 20), (0, 20)])]


@pytest.fixture(scope="module")
def place(tmp_path_factory: pytest.TempPathFactory) -> Path:
    """A profile with the plugin, and two layers."""
    folder: Path = tmp_path_factory.mktemp("projects")
    with_plugin(folder)
    make_street(folder / "street.gpkg")
    frame = gpd.GeoDataFrame({"parcel_no": ["1", "2", "3"]}, geometry=THREE, crs=CRS)
    frame.to_file(folder / "three.gpkg", driver="GPKG", layer="three")
    return folder


@pytest.fixture(scope="module")
def seen(place: Path) -> Dict[str, Any]:
    """What `window_projects.py` saw."""
    with screen() as display:
        return driven(display, place, "window_projects.py")


def test_a_verdict_goes_with_its_project(seen: Dict[str, Any]) -> None:
    """The next project's layer has a verdict of its own, and so has the first one again."""
    said, rows = seen["one"]
    assert said.startswith("street: ") and "1 gap, 1 overlap, 1 open gap" in said and rows == 3
    assert seen["between"] == ["The layer that was checked is gone.", 0, True, 0]
    said, rows = seen["two"]
    assert said.startswith("three: The parcels do not tile") and rows == 1
    assert seen["again"] == seen["one"]


def test_a_check_that_runs_while_its_project_is_closed_says_nothing_of_the_next(seen: Dict[str, Any]) -> None:
    """No list, and no error."""
    assert seen["closed"] == ["The layer that was checked is gone.", 0]


def test_the_batch_dialog_checks_several_layers(seen: Dict[str, Any]) -> None:
    """Each with its own faults."""
    assert seen["batch"] == [3, 1]


@pytest.mark.skipif(not os.environ.get("GANDOVEL_LONG"), reason="part of the long run: GANDOVEL_LONG=1")
def test_an_exit_during_a_check_ends_all_that_runs(place: Path) -> None:
    """QGIS asks, and closes, and so do the package's process and the program."""
    program, began = place / "slow_tool", place / "began"
    program.write_text(f"#!/bin/sh\necho ppid $PPID >> {place}/asked\necho $$ > {began}\nexec sleep 300\n")
    program.chmod(0o755)
    with screen() as display:
        with started(display, place, "window_exit.py", GANDOVEL_TOOL=str(program)) as running:
            try:
                running.wait(600)
            except subprocess.TimeoutExpired:
                running.kill()
                raise
            assert (place / "exiting").is_file()
    assert has_ended(int(began.read_text()))
    asked = re.findall(r"ppid (\d+)", (place / "asked").read_text())
    assert asked and all(has_ended(int(parent)) for parent in asked)
