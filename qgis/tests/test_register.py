"""The live register in QGIS: edits that are drawn in the map of a running `gandovel serve`."""
from __future__ import annotations

import json
import os
import random
import re
import subprocess
import urllib.error
import urllib.request
from contextlib import contextmanager
from pathlib import Path
from typing import Any, Dict, Iterator, List, Tuple

import geopandas as gpd
import pytest
from conftest import environment
from driving import driven, screen, with_plugin
from layers_made import CRS
from shapely.geometry import box

LONG = bool(os.environ.get("GANDOVEL_LONG"))
EAST, NORTH = 600_000, 5_500_000
PYTHON = os.environ.get("GANDOVEL_PYTHON", "/usr/bin/python3")


@contextmanager
def served(folder: Path, wide: int, high: int) -> Iterator[str]:
    """The address of a register of parcels of 10 m by 20 m, in rows from the south."""
    places = [(x, y) for y in range(high) for x in range(wide)]
    shapes = [box(EAST + 10 * x, NORTH + 20 * y, EAST + 10 * x + 10, NORTH + 20 * y + 20) for x, y in places]
    columns = {"parcel_no": [f"{y + 1}/{x + 1}" for x, y in places], "owner": "town"}
    gpd.GeoDataFrame(columns, geometry=shapes, crs=CRS).to_file(folder / "plots.gpkg", driver="GPKG")
    words = [
        PYTHON,
        "-m",
        "gandovel",
        "prepare",
        folder / "plots.gpkg",
        "--number",
        "parcel_no",
        "--out",
        folder / "layer",
    ]
    subprocess.run(words, env=environment(folder), check=True, capture_output=True)
    words = [PYTHON, "-m", "gandovel", "serve", folder / "layer", "--journal", folder / "journal.txt", "--port", "0"]
    words += ["--rate", "100000"]
    with open(folder / "serve.log", "w", encoding="utf-8") as errors:
        server = subprocess.Popen(words, env=environment(folder), stdout=subprocess.PIPE, stderr=errors, text=True)
    try:
        assert server.stdout is not None
        found = re.search(r"at (http://\S+)/$", server.stdout.readline())
        assert found, (folder / "serve.log").read_text()
        yield found[1]
    finally:
        server.terminate()
        server.communicate(timeout=60)


@pytest.fixture(scope="module")
def seen(tmp_path_factory: pytest.TempPathFactory) -> Iterator[Dict[str, Any]]:
    """What `window_register.py` saw."""
    folder = tmp_path_factory.mktemp("register")
    with_plugin(folder)
    with served(folder, 4, 3) as address, screen() as display:
        yield driven(display, folder, "window_register.py", GANDOVEL_REGISTER=address)


def test_a_register_is_a_layer_that_nobody_edits_by_hand(seen: Dict[str, Any]) -> None:
    """With all its parcels; where nobody answers, the dock says so."""
    said, ended = seen["nobody"]
    assert said.startswith("The register at http://127.0.0.1:1 does not answer: ") and ended
    assert seen["connected"] == ["12 parcels after 0 entries.", 12, True]
    assert seen["ended"] == ["Not connected.", True]


def test_edits_are_checked_as_they_are_drawn(seen: Dict[str, Any]) -> None:
    """In words, click by click; a click beside a corner takes the corner, also one that the list puts in."""
    reasons, note, listed, path = seen["drawn"]
    assert reasons == [
        "Click a border.",
        "It can be posted.",
        "The path needs a corner to begin in, and another to end in.",
        "The path needs a corner to begin in, and another to end in.",
        "It can be posted.",
    ]
    assert path == seen["inserted"] and [corner[0] for corner in path] == [(EAST + 10) * 1000, EAST * 1000]
    assert listed == 2 and "one after the other" in note and "those before it stay made" in note


def test_a_list_is_posted_one_by_one(seen: Dict[str, Any]) -> None:
    """With its reason; the layer has what the register has, corner by corner."""
    answer, state, left, is_empty = seen["posted"]
    assert answer == "Made: entries 1, 2, 3." and state.startswith("13 parcels after 3 entries.")
    assert left == 0 and is_empty and seen["journal"] == ["insert", "insert", "split"] and seen["why"] == "sold in part"
    assert seen["same"] == [True, True]


def test_what_others_change_comes_in(seen: Dict[str, Any]) -> None:
    """The map follows; an edit that is drawn goes on where it is not concerned, and else says so."""
    before, after, state, number = seen["other"]
    assert before == after == "It can be posted." and number is None
    assert state.startswith("12 parcels after 4 entries. Last: Merge by ")
    said, may = seen["stale"]
    assert said == "A parcel of this edit was changed meanwhile: look at the map, and draw it again." and not may


def test_a_list_stops_at_the_first_refusal(seen: Dict[str, Any]) -> None:
    """What was made before stays; what comes after is not sent, and both stay in the list."""
    answer, entries, left = seen["refused"]
    assert answer.startswith("Made: entries 6. Split was refused (E") and "1 edit of the list was not sent" in answer
    assert entries == 6 and left == ["split", "insert"] and seen["left"] == 0


def test_a_draft_is_kept_by_the_register_with_a_corner_that_was_typed(seen: Dict[str, Any]) -> None:
    """By QGIS's advanced digitising, to the millimetre; no entry is made."""
    *path, reason = seen["typed"]
    assert path[1] == [(EAST * 1000) + 4125, (NORTH * 1000) + 31500] and reason == "It can be posted."
    answer, drafts, entries = seen["kept"]
    assert answer.startswith("Kept as a draft. It would bring ") and drafts == 1 and entries == 6


def post(address: str, body: Dict[str, Any]) -> Tuple[int, Dict[str, Any]]:
    """The answer to an edit."""
    data = json.dumps(body).encode()
    request = urllib.request.Request(f"{address}/edits", data, {"Content-Type": "application/json"})
    try:
        with urllib.request.urlopen(request) as answer:
            return int(answer.status), json.loads(answer.read())
    except urllib.error.HTTPError as fault:
        return fault.code, json.loads(fault.read())


def rings_of(address: str) -> Dict[int, Tuple[Tuple[int, int], ...]]:
    """The register's rings."""
    with urllib.request.urlopen(f"{address}/parcels?limit=1000") as answer:
        told = json.loads(answer.read())["parcels"]
    return {it["id"]: tuple((x, y) for x, y in it["ring_mm"]) for it in told}


def drawn(rings: Dict[int, Any], chance: random.Random) -> Any:
    """An edit as a clerk may draw it: corners that are there, places nearby, neighbours and others."""
    from gandovel.served.drafts import KINDS, Draft

    draft, parcel = Draft(chance.choice(KINDS), 0), chance.choice(list(rings))
    corners = [corner for ring in rings.values() for corner in ring]
    near = [one for one, ring in rings.items() if one != parcel and set(ring) & set(rings[parcel])] or list(rings)
    draft = draft.clicked(rings, parcel, (0, 0))
    if draft.needs_other:
        draft = draft.clicked(rings, chance.choice(near if chance.random() < 0.9 else list(rings)), (0, 0))
    for _ in range(chance.choice([1, 2, 2, 2, 3])):
        own = chance.choice(rings[parcel])
        x, y = own if chance.random() < 0.7 else chance.choice(corners)
        if chance.random() < 0.3:
            x, y = x + chance.choice([-5000, 1, 0, 2500]), y + chance.choice([-3000, 0, 4000])
        draft = draft.clicked(rings, parcel, (x, y))
    return draft


def test_the_program_agrees_with_what_is_said_of_a_draft(qgis: Any, tmp_path: Path) -> None:
    """Of edits at random, what can be posted is made, and what can't is refused: 1,000 with GANDOVEL_LONG, else 150."""
    chance, made, refusals = random.Random(88), 0, 0
    codes: List[str] = []
    with served(tmp_path, 5, 4) as address:
        rings = rings_of(address)
        for _ in range(1000 if LONG else 150):
            draft = drawn(rings, chance)
            reason = draft.reason(rings)
            if draft.kind in ("insert", "straighten") and not draft.path:
                assert reason
                continue
            status, answer = post(address, draft.body(rings))
            assert (status == 200) == (reason == ""), f"{draft}: {reason!r}, {status} {answer}"
            made, refusals = made + (status == 200), refusals + (status != 200)
            codes += [str(answer.get("code"))] if status != 200 else []
            rings = rings_of(address) if status == 200 else rings
            if len(rings) < 6:
                break
    assert made > 10 and refusals > 10 and set(codes) <= {f"E{at}" for at in range(1, 13)}
