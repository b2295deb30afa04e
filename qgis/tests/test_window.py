"""The dock in the window of QGIS, under Xvfb: a clerk edits a street."""
from __future__ import annotations

import csv
from typing import Any, Dict, Iterator

import pytest
from conftest import ROOT, make_zip, metadata
from driving import PROFILE, SETTINGS, driven, screen
from layers_made import STREET_AREAS, STREET_CORNER, make_street
from models import OUTPUTS

MOST_SECONDS_OF_MANY = 2.0
MOST_SECONDS_OF_LIVE, MOST_OF_ARITHMETIC = 20.0, 0.5
"""From an edit to the list, on a machine that others use, too; and of a processor for the arithmetic."""


@pytest.fixture(scope="module")
def display() -> Iterator[str]:
    """An Xvfb of its own."""
    with screen() as number:
        yield number


@pytest.fixture(scope="module")
def seen(display: str, tmp_path_factory: pytest.TempPathFactory) -> Dict[str, Any]:
    """What `window.py` saw."""
    folder = tmp_path_factory.mktemp("window")
    for name in ("street", "street_live"):
        make_street(folder / f"{name}.gpkg")
    make_zip(folder / "gandovel.zip")
    settings = folder / PROFILE
    settings.parent.mkdir(parents=True)
    settings.write_text(SETTINGS)
    # QGIS looks for this folder when it starts: where it was not there then, a plugin is found after a restart alone.
    (folder / "profiles/default/python/plugins").mkdir(parents=True)
    return driven(display, folder, "window.py")


def test_the_zip_is_installed_in_a_fresh_profile(seen: Dict[str, Any]) -> None:
    """By QGIS's own installer, with all algorithms, icons, and the part that the package's Python runs."""
    assert seen["before"] is False
    assert seen["installed"].endswith("profiles/default/python/plugins/gandovel") and str(ROOT) not in seen["installed"]
    assert seen["version"] == metadata("version")
    assert seen["algorithms"] == sorted(OUTPUTS)
    assert seen["icons"] == [False] * (1 + len(OUTPUTS))
    assert seen["prepared"] == 12


def areas_of(rows: list[list[str]], kind: str) -> list[float]:
    """The areas of a kind of fault, as the dock lists them."""
    return [float(area.replace(",", "")) for name, area, _ in rows if name == kind]


def test_the_dock_lists_the_faults_of_an_edited_layer_largest_first(seen: Dict[str, Any]) -> None:
    """All that were planted, with their areas and numbers."""
    assert seen["number"] == "parcel_no"
    rows = seen["first"]
    for kind, planted in STREET_AREAS.items():
        assert areas_of(rows, kind) == pytest.approx(planted, abs=0.03)
    assert len(rows) == sum(map(len, STREET_AREAS.values()))
    areas = [float(area) for _, area, _ in rows]
    assert areas == sorted(areas, reverse=True)
    assert set(rows[0][2].split(", ")) == set(STREET_CORNER)
    assert "street: Which faults there are can't be told from the layer's noise: 1 gap, 1 overlap" in seen["said"]


def test_a_click_zooms_to_the_fault(seen: Dict[str, Any]) -> None:
    """The map shows less than half of what it did."""
    assert seen["zoomed"] is True


def test_the_missing_corner_is_an_edit_that_undo_takes_back(seen: Dict[str, Any]) -> None:
    """The fault goes with it, nothing was saved, and it is back after undo."""
    assert seen["inserted"] == "street: 1 corner put into parcel 7. Check again to see what is left."
    assert seen["commands"] == 1
    assert seen["changed"] == [STREET_CORNER[0]]
    assert seen["mended"] == seen["first"][1:]
    assert seen["undone"] is True
    assert seen["gone"] == "Parcels of street at this fault are no longer there: check again."


def test_a_verdict_is_of_one_layer_as_it_was_then(seen: Dict[str, Any]) -> None:
    """It names the layer; with another layer chosen, or after an edit, it is grey and says why."""
    said, grey = seen["other"]
    assert grey and said.startswith("This is of street, not of the layer that is chosen above.")
    said, grey = seen["back"]
    assert not grey and said.startswith("street: Which faults there are can't be told")
    said, grey, grey_list = seen["stale"]
    assert grey and grey_list and said.startswith("This is of street") and "street: Which faults there are" in said
    assert seen["after undo"].startswith("Out of date: street was changed after this verdict.")


def test_insert_says_what_it_will_change_and_changes_the_layer_that_was_checked(seen: Dict[str, Any]) -> None:
    """Though another layer is chosen: the layer, the parcel and the count are named before."""
    assert seen["plan"] == "Insert puts 1 corner into parcel 7 of street."
    assert seen["changed"] == ["7"] and seen["commands"] == 1


def test_insert_changes_nothing_where_corners_disagree(seen: Dict[str, Any]) -> None:
    """Two parcels agree on a corner, and that of the third is 41 cm off: two clicks change nothing."""
    same, commands, said = seen["disagree"]
    assert len(seen["three"]) == 1 and same and commands == 0
    assert "nothing was changed in three" in said or "No corner is missing here: each parcel of three" in said


def test_2000_faults_are_listed_and_marked_at_once(seen: Dict[str, Any]) -> None:
    """In less than two seconds of a processor."""
    rows, seconds = seen["many"]
    assert rows == 2000 and seconds < MOST_SECONDS_OF_MANY


def test_a_plot_that_crosses_itself_is_refused_and_selected(seen: Dict[str, Any]) -> None:
    """By its number, in the message bar too."""
    assert "P6 parcel 12" in seen["refused"]
    assert seen["selected"] == ["12"]
    assert seen["messages"] >= 1


def test_a_check_can_be_cancelled(seen: Dict[str, Any]) -> None:
    """The dock says so; a layer that is removed then is forgotten."""
    assert seen["cancelled"] == "Cancelled."
    assert seen["forgotten"] is True


def test_each_edit_is_checked_at_once(seen: Dict[str, Any]) -> None:
    """The fault that was mended leaves the list, which is not grey."""
    work = seen["live work"]
    said, listed, waited, seconds = work["live"]
    assert "Checked while you edit: no gaps, 1 overlap, 1 open gap, no slivers." in said and not work["grey"]
    assert listed == work["first"][1:]
    assert waited < MOST_SECONDS_OF_LIVE and seconds < MOST_OF_ARITHMETIC


def test_the_list_is_sorted_filtered_and_stays(seen: Dict[str, Any]) -> None:
    """By kind, by area, with keys for the next and the one before; what is chosen stays chosen."""
    found = seen["live work"]["list"]
    assert found["overlaps"] == ["overlap"]
    assert found["least first"] == sorted(found["least first"]) and len(found["least first"]) == 2
    assert found["keys"] == [True, True] and found["stays"] is True


def test_the_assistant_mends_an_overlap_in_one_step(seen: Dict[str, Any]) -> None:
    """It says what changes, shows it in the map, and does it; undo knows one step."""
    found = seen["live work"]["assistant"]
    assert found["proposed"] == ["Parcel 9 keeps it", "Parcel 8 keeps it"]
    assert found["effect"].startswith("Parcel 8: 454.500 m², then 450.000 m²")
    assert found["preview"] == 1 and found["steps"] == 1 and found["left"] == ["open_gap"]


def test_saving_is_held_while_there_are_new_faults(seen: Dict[str, Any]) -> None:
    """On before, off with the fault, and on again once it is taken back."""
    assert seen["live work"]["hold"] == [True, False, True]


def test_an_exception_has_a_reason_and_is_not_new_again(seen: Dict[str, Any]) -> None:
    """The register says so, in the list and as CSV; the program's verdict agrees with live checking."""
    work = seen["live work"]
    assert work["states"] == ["new"] * 3
    assert "reason" in work["accepted"]["without"] and "register of faults" in work["accepted"]["with"]
    assert work["whole states"] == ["accepted: a wall, by deed 17/3"] and len(work["whole"]) == 1
    assert work["saved"] == ""
    rows = {row["kind"]: row for row in csv.DictReader(work["accepted"]["csv"])}
    states = {kind: (row["state"], row["reason"]) for kind, row in rows.items()}
    assert states == {"gap": ("open", ""), "overlap": ("open", ""), "open_gap": ("accepted", "a wall, by deed 17/3")}
    assert rows["gap"]["parcels"] == "2, 3, 7" and rows["open_gap"]["decided"].endswith("Z")
