"""Servers, programs and recuts of a metropolis are killed: no answered edit is lost, and no parcel is there twice."""
from __future__ import annotations

import os
import random
import signal
import time

import pytest
import requests

from gandovel.metropolis import recut
from gandovel.metropolis.edits import Edits
from gandovel.metropolis.office import Metropolis
from gandovel.program.layer_files import read_rings
from metropolis_city import A_DISTRICT, DISTRICTS, Clerk, Forked, entries_of, metropolis, parcels_of, sides_of
from metropolis_city import test_against_whole as against_whole
from served import SECONDS

KILLS = int(os.environ.get("GANDOVEL_KILLS", 6))
CLERKS, EDITS = 4, int(os.environ.get("GANDOVEL_EDITS", 8))
POINTS = {"exported": 0, "outlines": 0, "layer": 0, "synchronised": 0, "renamed": 1, "opened": 1, "exchanged": 1}
"""Where a recut is killed, and whether the new pair stands then."""


def die(*given):
    """The end of this process, at once."""
    os.kill(os.getpid(), signal.SIGKILL)


def dying_before(of, name):
    """Has the process die where a call is made."""
    setattr(of, name, die)


def dying_after(of, name):
    """Has the process die where a call has been made."""
    whole = getattr(of, name)
    setattr(of, name, lambda *given: (whole(*given), die()))


DEATHS = {
    "exported": lambda: dying_before(recut, "_pieces"),
    "outlines": lambda: dying_after(recut._Recut, "_write_outlines"),
    "layer": lambda: dying_after(recut._Recut, "_written"),
    "synchronised": lambda: dying_after(recut, "synchronise"),
    "renamed": lambda: dying_before(recut, "synchronise_folder"),
    "opened": lambda: dying_before(Metropolis, "exchange"),
    "exchanged": lambda: dying_after(Metropolis, "exchange"),
}


def between_the_halves():
    """Has the process die before the second half of an edit of two districts."""
    whole, made = Edits._submitted, []

    async def second(*given):
        made.append(given)
        return await whole(*given) if len(made) < 2 else die()

    Edits._submitted = second


def dying(prepared, journals, line, key, before):
    """A server that dies at an edit."""
    served = Forked.__new__(Forked)
    served.before = before
    served.__init__(prepared, journals)
    with served:
        with pytest.raises(requests.RequestException):
            served.edit(line, **key)
        assert served.process.wait(SECONDS) == -signal.SIGKILL


@pytest.fixture(scope="module")
def prepared(tmp_path_factory):
    """The metropolis, prepared once; it is never written to."""
    return metropolis(tmp_path_factory.mktemp("prepared") / "layer")


def neighbours_across(folder):
    """Two parcels of two districts that have a side in common, by their ids, as the files have them."""
    edges = {}
    for district in range(1, DISTRICTS + 1):
        for record, ring in enumerate(read_rings(folder / f"districts/{district}/parcels.shp"), 1):
            edges.update({(*a, *b): district * A_DISTRICT + record for a, b in sides_of(ring.tolist())})
    for (ax, ay, bx, by), one in sorted(edges.items()):
        other = edges.get((bx, by, ax, ay))
        if other is not None and one // A_DISTRICT != other // A_DISTRICT:
            return one, other
    raise AssertionError("no two districts touch")


@pytest.mark.parametrize("point", POINTS)
def test_a_recut_is_killed(prepared, tmp_path, point):
    one, other = neighbours_across(prepared)
    journals, key = tmp_path / "journals", {"Idempotency-Key": "merge"}
    dying(prepared, journals, f"merge {one} {other}", key, DEATHS[point])
    assert (journals / "recut_1").is_dir() == bool(POINTS[point])
    with Forked(prepared, journals) as served:
        assert not list(journals.glob(".recut*"))
        for parcel in (one, other):
            told = served.ask(f"/parcels/{parcel}").json()
            assert told["id"] == parcel and told["entries"].endswith(":0")
        answer = served.edit(f"merge {one} {other}", **key)
        assert answer.status_code == 200 and answer.json()["out"] == [one, other]
        ids = [it["id"] for it in parcels_of(served)]
        assert len(ids) == len(set(ids)) == 80 and not {one, other} & set(ids)
        assert [it["edit"] for it in entries_of(served)] == [f"merge {one} {other}"]


def test_a_half_made_corner_is_taken_back_after_a_kill(prepared, tmp_path):
    """A server is killed between the two halves of a corner of a border."""
    one, other = neighbours_across(prepared)
    rings = {it: read_rings(prepared / f"districts/{it // A_DISTRICT}/parcels.shp") for it in (one, other)}
    sides = {(*a, *b) for a, b in sides_of(rings[one][one % A_DISTRICT - 1].tolist())}
    ax, ay, bx, by = next(
        (*b, *a) for a, b in sides_of(rings[other][other % A_DISTRICT - 1].tolist()) if (*b, *a) in sides
    )
    x, y = (ax + bx) // 2, (ay + by) // 2
    assert not ((ax + bx) % 2 or (ay + by) % 2), "the side has no middle in whole mm: take another seed"
    journals, key = tmp_path / "journals", {"Idempotency-Key": "corner"}
    line = f"insert {ax} {ay} {bx} {by} {x} {y}"

    dying(prepared, journals, line, key, between_the_halves)
    assert len(list((journals / "pending").glob("*.json"))) == 1
    with Forked(prepared, journals) as served:
        assert not list((journals / "pending").iterdir())
        low = min(one, other) // A_DISTRICT
        assert [(it["district"], it["edit"]) for it in entries_of(served)] == [
            (low, line),
            (low, f"straighten {x} {y}"),
        ]
        answer = served.edit(line, **key)
        assert answer.status_code == 200 and len(answer.json()["also"]) == 1
        assert served.edit(line, **key).headers["gandovel-repeated"] == "true"


def test_servers_and_programs_are_killed(prepared, tmp_path):
    draw = random.Random(5)
    with Forked(prepared, tmp_path / "journals") as served:
        first = parcels_of(served)
        clerks = [Clerk(served, 100 + seed, EDITS) for seed in range(CLERKS)]
        for clerk in clerks:
            clerk.start()
        for number in range(KILLS):
            time.sleep(draw.uniform(0.5, 6.0))
            if number % 3 == 2:
                served.kill()
                served.start()
            elif served.programs:
                try:
                    os.kill(draw.choice(served.programs), signal.SIGKILL)
                except ProcessLookupError:
                    pass
        for clerk in clerks:
            clerk.join(1200)
        assert all(len(clerk.made) == EDITS for clerk in clerks), [clerk.wrong for clerk in clerks]
        against_whole(served, first, tmp_path / "whole", clerks)
        assert served.end() == 0
        served.start()
        against_whole(served, first, tmp_path / "whole", clerks)
