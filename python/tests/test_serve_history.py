"""What `gandovel serve` knows of parcels that were: facts after an edit, lineage both ways, any day, after a start
too."""
from __future__ import annotations

import hashlib
import time

import geopandas as gpd
import pandas as pd
import pytest
from shapely.geometry import box

import gandovel

from served import EAST, NORTH, Served, ogr, pretty, replayed
from session_register import grid_city

X, Y = EAST // 1000, NORTH // 1000


@pytest.fixture(scope="module")
def served(tmp_path_factory):
    """Six squares: 1 | 2 | 3 below, 4 | 5 | 6 above. Owners and taxes differ but for 1 and 2."""
    folder = tmp_path_factory.mktemp("history")
    cells = [(a, b) for b in range(2) for a in range(3)]
    table = {
        "parcel_no": [f"7-{at}" for at in range(1, 7)],
        "owner": ["ann", "ann", "bob", "bob", "cy", None],
        "tax": [100, 200, 300, 400, 500, 600],
        "use": ["field"] * 6,
        "bought": pd.to_datetime(["2001-02-03"] * 5 + [None]),
    }
    shapes = [box(X + 10 * a, Y + 10 * b, X + 10 * a + 10, Y + 10 * b + 10) for a, b in cells]
    frame = gpd.GeoDataFrame(table, geometry=shapes, crs=25832)
    gandovel.prepare(frame, number="parcel_no").save(folder / "work")
    with Served(folder / "work", folder / "register.txt") as served:
        for line in EDITS:
            assert served.edit(line).status_code == 200, line
            time.sleep(1.1)  # entries have times in whole seconds
        yield served
        assert served.end() == 0


def at(x, y):
    return f"{EAST + 1000 * x} {NORTH + 1000 * y}"


EDITS = [
    f"split 3 {at(20, 0)} {at(30, 10)}",  # 7, 8
    "merge 1 2",  # 9
    f"move 4 5 {at(10, 10)} {at(11, 15)} {at(10, 20)}",  # 10 from 4, 11 from 5
    "merge 7 8",  # 12
    f"split 6 {at(20, 10)} {at(30, 20)}",  # 13, 14
]


def told(served, parcel):
    return served.ask(f"/parcels/{parcel}").json()


def test_types_of_the_layer(served):
    """Days are days, numbers numbers and text text, by the schema and in GDAL."""
    types = served.ask("/collections/parcels/schema").json()["properties"]
    assert types["bought"] == {"type": "string", "format": "date"} and types["tax"] == {"type": "integer"}
    assert types["owner"] == types["use"] == {"type": "string"}
    told = ogr("ogrinfo", "-ro", "-al", "-so", f"OAPIF:{served.address}", "parcels")
    for name, kind in (("bought", "Date"), ("tax", "Integer"), ("owner", "String"), ("number", "String")):
        assert f"{name}: {kind} " in told, told


def test_halves_have_nothing_of_the_whole(served):
    for parcel in (13, 14):
        it = told(served, parcel)
        assert (it["number"], it["came_from"]) == (None, "7-6")
        assert (it["owner"], it["tax"], it["use"], it["bought"]) == (None, None, None, None)
    again = told(served, 12)  # of two halves that know nothing
    assert (again["number"], again["came_from"], again["owner"], again["tax"]) == (None, "7-3", None, None)


def test_a_merged_parcel_has_what_its_parts_agree_on(served):
    it = told(served, 9)
    assert (it["number"], it["came_from"], it["owner"], it["tax"]) == (None, "7-1,7-2", "ann", None)
    assert (it["use"], it["bought"]) == ("field", "2001-02-03")


def test_a_parcel_with_a_moved_border_stays_what_it_is(served):
    for new, number, owner, tax in ((10, "7-4", "bob", 400), (11, "7-5", "cy", 500)):
        it = told(served, new)
        assert (it["number"], it["came_from"], it["owner"], it["tax"]) == (number, number, owner, tax)


def test_lineage_goes_both_ways(served):
    for parcel in (3, 7, 12):
        answer = served.ask(f"/parcels/{parcel}/lineage")
        body = {it["id"]: it for it in answer.json()["parcels"]}
        assert answer.status_code == 200 and int(answer.headers["gandovel-entries"]) == 5
        assert set(body) == ({3, 7, 12} if parcel == 7 else {3, 7, 8, 12}), pretty(answer)
        assert body[3]["replaces"] == [] and body[3]["replaced_by"] == [7, 8] and body[3]["made_by"] is None
        assert body[7]["replaces"] == [3] and body[7]["replaced_by"] == [12]
        assert body[12]["replaces"] == [7, 8] and body[12]["taken_by"] is None and body[12]["made_by"]["number"] == 4
    moved = {it["id"]: it for it in served.ask("/parcels/11/lineage").json()["parcels"]}
    assert set(moved) == {5, 11} and moved[5]["replaced_by"] == [11]
    assert served.ask("/parcels/99/lineage").status_code == 404


def shown(served, **query):
    answer = served.ask("/collections/history/items", params={"limit": 1000, **query})
    assert answer.status_code == 200, pretty(answer)
    return {it["id"]: it["properties"] for it in answer.json()["features"]}


def test_history_is_a_collection_with_times(served):
    times = [it["time"] for it in served.ask("/entries").json()["records"]]
    assert len(set(times)) == 5
    everything = shown(served)
    assert set(everything) == set(range(1, 15))
    assert (everything[1]["since"], everything[1]["until"], everything[1]["ended_by"]) == (None, times[1], 2)
    assert (everything[8]["since"], everything[8]["until"]) == (times[0], times[3])
    assert (everything[8]["replaces"], everything[8]["replaced_by"]) == ("3", "12")
    assert (everything[14]["since"], everything[14]["until"], everything[14]["replaced_by"]) == (times[4], None, "")
    rings = replayed_rings(served)
    for number in range(6):
        moment = times[number - 1] if number else "2000-01-01T00:00:00Z"
        assert set(shown(served, datetime=moment)) == set(rings[number])
        parcels = served.ask("/collections/parcels/items", params={"datetime": moment})
        assert {it["id"] for it in parcels.json()["features"]} == set(rings[number])
        assert int(parcels.headers["gandovel-entries"]) == number
    between = set(rings[1]) | set(rings[2]) | set(rings[3])
    assert set(shown(served, datetime=f"{times[0]}/{times[2]}")) == between
    one = served.ask("/collections/history/items/1").json()
    assert one["properties"] == everything[1] and one["geometry"]["type"] == "Polygon"


def replayed_rings(served):
    """The parcels after each number of edits, as the independent model has them."""
    city = [(0, 0), (10, 0), (20, 0), (30, 0), (30, 10), (30, 20), (20, 20), (10, 20), (0, 20), (0, 10)]
    cells = [(a, b) for b in range(2) for a in range(3)]
    rings = [[(a, b), (a + 1, b), (a + 1, b + 1), (a, b + 1)] for a, b in cells]
    rings = [[(10_000 * x, 10_000 * y) for x, y in ring] for ring in rings]
    outline = [(1000 * x, 1000 * y) for x, y in city]
    return [dict(replayed(outline, rings, EDITS[:count]).rings) for count in range(6)]


def test_all_days_are_there_after_a_start(served):
    """A server that is started anew keeps the versions that it kept before."""
    before = shown(served)
    served.kill()
    served.start()
    assert served.ask("/health").json()["kept_from"] == 0
    assert shown(served) == before
    for entries in range(6):
        answer = served.ask(f"/collections/parcels/items?entries={entries}")
        assert {it["id"] for it in answer.json()["features"]} == set(replayed_rings(served)[entries])
    served.process.kill()
    served.process.wait()
    options, served.options = served.options, ("--keep", "2")
    served.start()
    assert served.ask("/health").json()["kept_from"] == 3
    assert served.ask("/collections/parcels/items?entries=2").status_code == 410
    assert served.ask("/collections/parcels/items?entries=3").json()["numberMatched"] == len(replayed_rings(served)[3])
    assert served.ask("/collections/parcels/items?datetime=2000-01-01T00:00:00Z").status_code == 410
    served.kill()
    served.options = options
    served.start()


def test_answers_tell_what_proves_them(served):
    """The digest of each entry, by SHA-256 of the chain up to it: in the list, in histories and in lineages."""
    header, *lines = served.journal.read_bytes().rstrip(b"\n").split(b"\n")
    digest = layer = header.rpartition(b" ")[2]
    digests = []
    for stamp, edit in zip(lines[::2], lines[1::2]):
        digest = hashlib.sha256(digest + stamp[:-64] + edit + b"\n").hexdigest().encode()
        digests.append(digest.decode())
    body = served.ask("/entries").json()
    assert [it["digest"] for it in body["records"]] == digests and len(digests) == 5
    proof = {"layer": layer.decode(), "entries": 5, "digest": digests[-1]}
    assert body["proof"] == proof
    for parcel, numbers in ((3, [1]), (7, [1, 4]), (11, [3])):
        told = served.ask(f"/parcels/{parcel}/history").json()
        assert [it["digest"] for it in told["history"]] == [digests[at - 1] for at in numbers] and told[
            "proof"
        ] == proof
    told = {it["id"]: it for it in served.ask("/parcels/12/lineage").json()["parcels"]}
    assert told[12]["made_by"]["digest"] == digests[3] and told[3]["taken_by"]["digest"] == digests[0]


def test_a_change_of_corners_is_no_lineage(served):
    """A corner that is put in leaves both parcels what they are: no parcel was made or taken out."""
    line = f"insert {at(0, 10)} {at(10, 10)} {at(5, 10)}"
    answer = served.edit(line, **{"Idempotency-Key": "corner"})
    entry = answer.json()
    assert answer.status_code == 200 and entry["out"] == entry["new"] and len(entry["out"]) == 2, pretty(answer)
    assert served.edit(line, **{"Idempotency-Key": "corner"}).json() == entry
    assert served.ask("/entries?after=5").json()["records"] == [entry] and len(entry["digest"]) == 64
    for parcel in entry["out"]:
        known = {it["id"]: it for it in served.ask(f"/parcels/{parcel}/lineage").json()["parcels"]}
        assert (known[parcel]["taken_by"], known[parcel]["replaced_by"]) == (None, [])
        assert served.ask(f"/parcels/{parcel}/history").json()["history"][-1] == entry
    everything = served.ask("/collections/history/items?limit=1000").json()["features"]
    assert sorted(it["id"] for it in everything) == list(range(1, 15))
    there = {it["id"]: it["properties"] for it in everything}
    assert all(there[parcel]["until"] is None for parcel in entry["out"])
