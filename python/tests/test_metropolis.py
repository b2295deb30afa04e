"""Districts that are edited at one address, beside one fabric of the whole."""
from __future__ import annotations

import json
import os
import shutil
import sqlite3
import time
from concurrent.futures import ThreadPoolExecutor

import numpy as np
import pytest
import requests

from gandovel import Session
from gandovel.cli import main
from gandovel.metropolis import recut
from gandovel.metropolis.manifest import is_metropolis, sums_of
from gandovel.program.layer_files import read_rings, write_rings
from metropolis_city import A_DISTRICT, DISTRICTS, Clerk, Forked, entries_of, metropolis, parcels_of, sides_of
from metropolis_city import test_against_whole as against_whole
from served import SECONDS, tokens, until

EDITS = int(os.environ.get("GANDOVEL_EDITS", 12))
"""Edits of each clerk that are accepted."""
CLERKS = 5


@pytest.fixture(scope="module")
def prepared(tmp_path_factory):
    """The metropolis, prepared once; it is never written to."""
    return metropolis(tmp_path_factory.mktemp("prepared") / "layer")


@pytest.fixture
def served(prepared, tmp_path):
    with Forked(prepared, tmp_path / "journals") as it:
        yield it


def crossing(parcels):
    """A side of two districts: its ends, the parcel on its left, and the one on its right."""
    edges = {(*a, *b): it["id"] for it in parcels for a, b in sides_of(it["ring_mm"])}
    for (ax, ay, bx, by), one in sorted(edges.items()):
        other = edges.get((bx, by, ax, ay))
        if other is not None and one // A_DISTRICT != other // A_DISTRICT and not ((ax + bx) % 2 or (ay + by) % 2):
            yield (ax, ay), (bx, by), one, other


def insert_in_the_middle(a, b):
    """A corner in the middle of a side, put in."""
    return f"insert {a[0]} {a[1]} {b[0]} {b[1]} {(a[0] + b[0]) // 2} {(a[1] + b[1]) // 2}"


def test_random_edits_beside_one_fabric_of_the_whole(served, tmp_path):
    first = parcels_of(served)
    assert len(first) == 81
    clerks = [Clerk(served, seed, EDITS) for seed in range(CLERKS)]
    for clerk in clerks:
        clerk.start()
    for clerk in clerks:
        clerk.join(1200)
    assert all(len(clerk.made) == EDITS for clerk in clerks), [clerk.wrong for clerk in clerks]
    across = [told for clerk in clerks for told in clerk.made.values() if "also" in told]
    assert across, "no corner of a border was drawn"
    against_whole(served, first, tmp_path / "whole", clerks)
    assert served.end() == 0
    served.start()
    against_whole(served, first, tmp_path / "whole", clerks)


def test_a_merge_over_a_border(served, tmp_path):
    first = parcels_of(served)
    _, _, one, other = next(crossing(first))
    took, gave = one // A_DISTRICT, other // A_DISTRICT
    path = [it for it in first if it["id"] == other][0]["ring_mm"]
    a, b = sides_of(path)[0]
    before = served.edit(insert_in_the_middle(a, b), **{"Idempotency-Key": "early"})
    assert before.status_code == 200
    answer = served.edit(f"merge {one} {other}", **{"Idempotency-Key": "merge"})
    assert answer.status_code == 200, answer.text
    made = answer.json()
    assert made["district"] in (took, gave) and made["out"] == [one, other]
    again = served.edit(f"merge {one} {other}", **{"Idempotency-Key": "merge"})
    assert again.headers["gandovel-repeated"] == "true" and again.json()["number"] == made["number"]
    early = served.edit(insert_in_the_middle(a, b), **{"Idempotency-Key": "early"})
    assert early.headers["gandovel-repeated"] == "true"
    (parcel,) = made["new"]
    told = served.ask(f"/parcels/{parcel}/lineage").json()["parcels"]
    assert {it["id"]: it["replaces"] for it in told} == {one: [], other: [], parcel: [one, other]}
    assert served.ask(f"/parcels/{other}").status_code == 410
    numbers = {it["id"]: it["number"] for it in first}
    for gone in (one, other):
        found = served.ask(f"/parcels?number={numbers[gone]}").json()["parcels"]
        assert [it["id"] for it in found] == [parcel]
    against_whole(served, first, tmp_path / "whole", [])
    (recut,) = [it for it in served.journal.iterdir() if it.name.startswith("recut_")]
    facts = json.loads((recut / "recut.json").read_text())
    for it in facts["districts"]:
        digest = (served.journal / it["from"]["journal"]).read_text().split()[5]
        assert it["from"]["layer"] == digest
    served.end()
    served.start()
    against_whole(served, first, tmp_path / "whole", [])
    new = served.edit(f"split {parcel} " + " ".join(f"{x} {y}" for x, y in path_of(served, parcel)))
    assert new.status_code == 200, new.text
    ids = [it["id"] for it in parcels_of(served)]
    assert len(ids) == len(set(ids)) == 81
    against_whole(served, first, tmp_path / "whole", [])


def path_of(served, parcel):
    """The two ends of the border that two parcels of four corners had before they were merged."""
    ring = served.ask(f"/parcels/{parcel}").json()["ring_mm"]
    return [ring[0], ring[len(ring) // 2]]


def test_parcels_that_are_no_neighbours_are_not_brought_together(served):
    parcels = parcels_of(served)
    by_district = {it["id"] // A_DISTRICT: it["id"] for it in parcels}
    pairs = {(one, other) for _, _, one, other in crossing(parcels)}
    one, other = next(
        (a, b) for a in by_district.values() for b in by_district.values() if a < b and (a, b) not in pairs | {(b, a)}
    )
    answer = served.edit(f"merge {one} {other}")
    assert (answer.status_code, answer.json()["code"]) == (409, "E4")
    assert not [it for it in served.journal.iterdir() if "recut" in it.name]
    unknown = served.edit(f"merge {one} {77 * A_DISTRICT + 1}")
    assert (unknown.status_code, unknown.json()["code"]) == (409, "E1")


def test_a_corner_of_a_border_is_put_into_both_districts_or_into_none(served, prepared, tmp_path):
    """One district has a corner that the other lacks, as where its journal was written by another program."""
    first = parcels_of(served)
    a, b, one, other = next(crossing(first))
    low, high = sorted((one // A_DISTRICT, other // A_DISTRICT))
    answer = served.edit(insert_in_the_middle(a, b))
    assert answer.status_code == 200 and answer.headers["gandovel-entries"] == f"{low}:1,{high}:1"
    x, y = (a[0] + b[0]) // 2, (a[1] + b[1]) // 2
    assert served.edit(f"straighten {x} {y}").headers["gandovel-entries"] == f"{low}:2,{high}:2"
    served.end()
    make_alone(prepared, served.journal, high, insert_in_the_middle(a, b))
    served.start()
    refused = served.edit(insert_in_the_middle(a, b))
    assert (refused.status_code, refused.json()["code"]) == (409, "E7")
    lines = [it["edit"] for it in entries_of(served) if it["district"] == low]
    assert lines[2:] == [insert_in_the_middle(a, b), f"straighten {x} {y}"]
    assert not list((served.journal / "pending").iterdir())
    ring = [it for it in parcels_of(served) if it["id"] // A_DISTRICT == low and it["id"] in (one, other)][0]
    assert [x, y] not in ring["ring_mm"]


def make_alone(prepared, journals, district, line):
    """Makes an edit in one district by the program alone."""
    folder = prepared / "districts" / str(district)
    with Session(folder / "city.shp", folder / "parcels.shp", journal=journals / f"district_{district}.txt") as session:
        session.ask(line)


def slow_recut():
    """Has a recut take two seconds more, in a server's process."""
    whole = recut._Recut.write

    def slow(self):
        time.sleep(2)
        whole(self)

    recut._Recut.write = slow


def test_questions_and_edits_while_districts_are_recut(prepared, tmp_path):
    served = Forked.__new__(Forked)
    served.before = slow_recut
    served.__init__(prepared, tmp_path / "journals")
    with served, ThreadPoolExecutor(4) as pool:
        first = parcels_of(served)
        a, b, one, other = next(crossing(first))
        apart = next(it for it in first if it["id"] // A_DISTRICT == other // A_DISTRICT and it["id"] != other)
        corners = apart["ring_mm"][0], apart["ring_mm"][2]
        line = f"split {apart['id']} " + " ".join(f"{x} {y}" for x, y in corners)
        address = {"headers": {"Content-Type": "text/plain"}, "timeout": SECONDS}
        merge = pool.submit(requests.post, served.address + "/edits", data=f"merge {one} {other}", **address)
        until((served.journal / ".recut_1").is_dir)
        split = pool.submit(requests.post, served.address + "/edits", data=line, **address)
        seen = 0
        while not merge.done():
            told = served.ask(f"/parcels/{other}")
            assert told.status_code in (200, 410)
            ids = [it["id"] for it in parcels_of(served)]
            assert len(ids) == len(set(ids)) and 80 <= len(ids) <= 82
            if not (served.journal / "recut_1").exists():
                assert not split.done() and len(ids) == 81 and told.json()["entries"].endswith(":0")
                seen += 1
        assert seen and merge.result().status_code == 200
        assert split.result().status_code == 200, split.result().text
        against_whole(served, first, tmp_path / "whole", [])


def test_versions_and_pages(served):
    first = parcels_of(served)
    one = next(it for it in first if it["id"] // A_DISTRICT == 3)
    a, c = one["ring_mm"][0], one["ring_mm"][2]
    made = served.edit(f"split {one['id']} {a[0]} {a[1]} {c[0]} {c[1]}", **{"If-Match": "3:0"})
    assert made.status_code == 200 and made.headers["gandovel-entries"] == "3:1"
    stale = served.edit(f"merge {made.json()['new'][0]} {made.json()['new'][1]}", **{"If-Match": "3:0"})
    assert stale.status_code == 412 and stale.json()["entries"] == "3:1"
    other = served.edit(f"merge {made.json()['new'][0]} {made.json()['new'][1]}", **{"If-Match": "3:1,8:4"})
    assert other.status_code == 412 and other.json()["entries"] == "8:0"
    page = served.ask("/collections/parcels/items?limit=30").json()
    seen = [it["id"] for it in page["features"]]
    served.edit(f"merge {made.json()['new'][0]} {made.json()['new'][1]}")
    while following := [it["href"] for it in page["links"] if it["rel"] == "next"]:
        page = served.ask(following[0][len(served.address) :]).json()
        seen += [it["id"] for it in page["features"]]
    assert len(seen) == len(set(seen)) == 82 and set(made.json()["new"]) <= set(seen)
    feature = served.ask(f"/collections/parcels/items/{seen[-1]}").json()
    assert feature["id"] == seen[-1]
    entries = served.ask("/entries")
    assert entries.headers["gandovel-entries"] == "3:2" and entries.json()["next"] == "3:2"
    assert served.ask("/entries?after=3:2").json()["records"] == []
    assert served.ask("/entries?after=x").status_code == 400
    (told,) = [it for it in served.ask("/districts").json()["districts"] if it["district"] == 3]
    assert told["newest"]["number"] == 2 and told["neighbours"]


def test_points_and_boxes_over_districts(served):
    parcels = parcels_of(served)
    a, b, one, other = next(crossing(parcels))
    x, y = (a[0] + b[0]) // 2, (a[1] + b[1]) // 2
    told = served.ask(f"/locate?x={x}&y={y}").json()
    assert (told["where"], told["parcels"]) == ("edge", sorted((one, other)))
    assert served.ask("/locate?x=0&y=0").json()["where"] == "outside"
    some = served.ask(f"/parcels?bbox={x - 1},{y - 1},{x + 1},{y + 1}").json()["parcels"]
    assert {one, other} <= {it["id"] for it in some}
    places = [[sum(x for x, _ in it["ring_mm"]) // 4, sum(y for _, y in it["ring_mm"]) // 4] for it in parcels]
    answers = served.ask("/locate", "POST", json={"points": places}).json()["places"]
    assert [it["parcels"] for it in answers] == [[it["id"]] for it in parcels]
    crs = "http://www.opengis.net/def/crs/EPSG/0/25832"
    box = f"{(x - 1) / 1000},{(y - 1) / 1000},{(x + 1) / 1000},{(y + 1) / 1000}"
    found = served.ask(f"/collections/parcels/items?bbox={box}&bbox-crs={crs}&crs={crs}").json()
    assert {one, other} == {it["id"] for it in found["features"]}
    degrees = served.ask(f"/collections/parcels/items?bbox=-180,-90,180,90&limit=1").json()
    assert degrees["numberMatched"] == 81


def test_districts_sleep_and_wake(prepared, tmp_path):
    with Forked(prepared, tmp_path / "journals", "--awake", "2") as served:
        assert served.ask("/health").json()["awake"] == {}
        assert served.ask("/parcels?limit=1").json()["matched"] == 81
        assert served.ask("/collections/parcels/items?limit=1").json()["numberMatched"] == 81
        assert list(served.ask("/health").json()["awake"]) == ["1"]
        parcels = parcels_of(served)
        for it in [next(it for it in parcels if it["id"] // A_DISTRICT == at) for at in range(1, DISTRICTS + 1)]:
            (a, c) = it["ring_mm"][0], it["ring_mm"][2]
            assert served.edit(f"split {it['id']} {a[0]} {a[1]} {c[0]} {c[1]}").status_code == 200
        until(lambda: len(served.ask("/health").json()["awake"]) <= 2)
        assert served.ask("/health").json()["entries"] == ",".join(f"{it}:1" for it in range(1, DISTRICTS + 1))
        assert len(entries_of(served)) == DISTRICTS
        assert len(parcels_of(served)) == 81 + DISTRICTS


def test_who_may(prepared, tmp_path):
    known = tokens(tmp_path / "tokens", eva="reader", anna="clerk")
    with Forked(prepared, tmp_path / "journals", "--tokens", str(tmp_path / "tokens")) as served:
        assert [served.ask(path).status_code for path in ("/health", "/", "/districts", "/entries")] == [
            200,
            *[401] * 3,
        ]
        served.token = known["eva"]
        one = served.ask("/parcels?number=A1").json()["parcels"][0]
        (a, c), line = (one["ring_mm"][0], one["ring_mm"][2]), f"split {one['id']}"
        assert served.ask("/", headers={"Accept": "text/html"}).text.count("<tr>") == DISTRICTS + 1
        assert served.edit(f"{line} {a[0]} {a[1]} {c[0]} {c[1]}").status_code == 403
        served.token = known["anna"]
        made = served.edit(f"{line} {a[0]} {a[1]} {c[0]} {c[1]}")
        assert made.status_code == 200 and made.json()["who"] == "anna"
        for path in (
            "/entries?after=1:x",
            "/parcels?bbox=1,2,3",
            "/parcels?limit=0",
            "/locate?x=1&y=z",
            "/parcels?z=1",
        ):
            assert served.ask(path).status_code == 400, path
        assert served.ask("/parcels/99000000001").status_code == 404
        assert served.ask("/collections/parcels/items?entries=1:77").status_code == 404


def copied(prepared, tmp_path):
    """A copy of the metropolis that may be written to."""
    shutil.copytree(prepared, tmp_path / "layer")
    return tmp_path / "layer"


def refusal_of(folder, journals, capsys):
    """Why a server does not start."""
    assert main(["serve", str(folder), "--journal", str(journals), "--port", "0"]) == 1
    said = capsys.readouterr()
    assert said.out == ""
    return said.err


def test_a_tampered_outline_is_refused(prepared, tmp_path, capsys):
    folder = copied(prepared, tmp_path)
    outlines = read_rings(folder / "districts.shp")
    outlines[3][1] += 100
    write_rings(folder / "districts.shp", outlines)
    assert "W8 district 4: the layer in" in refusal_of(folder, tmp_path / "journals", capsys)
    city = folder / "districts/4/city.shp"
    write_rings(city, [outlines[3]])
    assert f"W8 district 4: {city} is not as it was written" in refusal_of(folder, tmp_path / "journals", capsys)
    manifest = json.loads((folder / "metropolis.json").read_text())
    manifest["districts"][3]["files"] = sums_of(folder / "districts/4")
    (folder / "metropolis.json").write_text(json.dumps(manifest))
    assert "W8 the outlines of island 1 do not tile its city" in refusal_of(folder, tmp_path / "journals", capsys)


def test_a_district_with_the_layer_of_another_is_refused(prepared, tmp_path, capsys):
    folder = copied(prepared, tmp_path)
    shutil.rmtree(folder / "districts/2")
    shutil.copytree(folder / "districts/5", folder / "districts/2")
    assert "W8 district 2: the layer in" in refusal_of(folder, tmp_path / "journals", capsys)
    shutil.copy(prepared / "districts/2/city.shp", folder / "districts/2/city.shp")
    shutil.copy(prepared / "districts/2/city.shx", folder / "districts/2/city.shx")
    assert "W8 district 2:" in refusal_of(folder, tmp_path / "journals", capsys)


def test_exchanged_journals_are_refused(prepared, tmp_path, capsys):
    with Forked(prepared, tmp_path / "journals") as served:
        parcels_of(served)
        served.end()
    one, other = (tmp_path / "journals" / f"district_{at}.txt" for at in (3, 8))
    one.rename(tmp_path / "aside")
    other.rename(one)
    (tmp_path / "aside").rename(other)
    text = refusal_of(prepared, tmp_path / "journals", capsys)
    assert f"W8 district 3: the journal {one} is of district 8" in text


def test_a_second_server_and_a_file_for_a_journal_are_refused(served, prepared, tmp_path, capsys):
    assert "in use" in refusal_of(prepared, served.journal, capsys)
    (tmp_path / "file").write_text("")
    assert "W2" in refusal_of(prepared, tmp_path / "file", capsys)
    assert "W2" in refusal_of(prepared, prepared / "journals", capsys)


def test_what_prepare_writes(prepared):
    assert is_metropolis(prepared)
    manifest = json.loads((prepared / "metropolis.json").read_text())
    assert len(manifest["districts"]) == DISTRICTS
    for row in manifest["districts"]:
        for other in row["neighbours"]:
            assert row["number"] in manifest["districts"][other - 1]["neighbours"]
        assert row["parcels"] <= 10 and len(row["layer"]) == 64
    outlines = read_rings(prepared / "districts.shp")
    assert len(outlines) == DISTRICTS
    with sqlite3.connect(prepared / "numbers.sqlite") as numbers:
        assert numbers.execute("SELECT count(*) FROM numbers").fetchone()[0] == 81
    rings = [ring for at in range(1, DISTRICTS + 1) for ring in read_rings(prepared / f"districts/{at}/parcels.shp")]
    whole = read_rings(prepared / "parcels.shp")
    assert sorted(map(np.ndarray.tolist, rings)) == sorted(map(np.ndarray.tolist, whole))
