"""Drafts of `gandovel serve`: kept over a restart, seen as they would be, approved by a second clerk, and stale only
where an entry concerns one of their parcels."""
from __future__ import annotations

import json

import pytest

from served import Served, moved, prepared, pretty, replayed, tokens
from session_register import area2, grid_city

CITY, RINGS = grid_city(4, 4, 3)


@pytest.fixture
def served(tmp_path):
    given = tokens(tmp_path / "tokens", anna="clerk", bert="clerk", cleo="reader", omar="operator")
    with Served(
        prepared(tmp_path / "work", CITY, RINGS), tmp_path / "register.txt", "--tokens", str(tmp_path / "tokens")
    ) as served:
        served.tokens = given
        yield served
        if served.process.poll() is None:
            assert served.end() == 0


def by(served, name, path, method="GET", **more):
    served.token = served.tokens[name]
    return served.ask(path, method, **more)


def kept(served, name, body):
    answer = by(served, name, "/drafts", "POST", json=body)
    assert answer.status_code == 200, pretty(answer)
    return answer.json()


def split(parcel):
    ring = moved(RINGS[parcel - 1])
    return {"kind": "split", "parcel": parcel, "path": [list(ring[0]), list(ring[2])], "why": "sold"}


def test_kept_seen_and_approved(served):
    draft = kept(served, "anna", split(6))
    assert (draft["who"], draft["why"], draft["at"], draft["parcels"]) == ("anna", "sold", 0, [6])
    register = replayed(CITY, RINGS, [draft["edit"]])
    assert {it["id"] for it in draft["new"]} == {17, 18} and draft["out"] == [6] and draft["refused"] is None
    for it in draft["new"]:
        assert it["area2_mm2"] == str(area2(register.rings[it["id"]])) and set(it["zones"]) <= {"west", "east"}
        assert sorted(map(tuple, it["ring_mm"])) == sorted(register.rings[it["id"]]) and it["zones"]
    assert served.lines() == [] and by(served, "cleo", "/entries").json()["records"] == []
    assert by(served, "bert", "/edits", "POST", json={"kind": "merge", "one": 1, "other": 2}).status_code == 200
    seen = by(served, "cleo", f"/drafts/{draft['id']}").json()  # another parcel's entry does not concern it
    assert seen["stale_by"] is None and seen["entries"] == 1 and {it["id"] for it in seen["new"]} == {18, 19}
    refused = by(served, "anna", f"/drafts/{draft['id']}/approval", "POST")
    assert refused.status_code == 403 and refused.json()["code"] == "second"
    assert by(served, "cleo", f"/drafts/{draft['id']}/approval", "POST").status_code == 403
    answer = by(served, "bert", f"/drafts/{draft['id']}/approval", "POST")
    entry = answer.json()
    assert answer.status_code == 200 and (entry["number"], entry["who"]) == (2, "bert")
    assert entry["why"] == "sold (draft of anna)" and entry["edit"] == draft["edit"] and len(entry["digest"]) == 64
    assert by(served, "bert", "/drafts").json() == {"drafts": []}
    again = by(served, "bert", f"/drafts/{draft['id']}/approval", "POST")
    assert again.json() == entry and again.headers["gandovel-repeated"] == "true" and len(served.lines()) == 2


def test_a_draft_goes_stale_where_its_parcel_is_concerned(served):
    draft = kept(served, "anna", split(6))
    line = "merge 5 6"
    assert by(served, "bert", "/edits", "POST", data=line, headers={"Content-Type": "text/plain"}).status_code == 200
    (told,) = by(served, "anna", "/drafts").json()["drafts"]
    assert told["stale_by"]["edit"] == line
    seen = by(served, "anna", f"/drafts/{draft['id']}").json()
    assert seen["refused"].startswith("E2") and seen["new"] == []
    answer = by(served, "bert", f"/drafts/{draft['id']}/approval", "POST")
    assert answer.status_code == 412 and answer.json()["last"]["edit"] == line and len(served.lines()) == 1
    assert by(served, "bert", f"/drafts/{draft['id']}", "DELETE").status_code == 403
    assert by(served, "omar", f"/drafts/{draft['id']}", "DELETE").status_code == 204
    assert by(served, "anna", f"/drafts/{draft['id']}").status_code == 404


def test_drafts_are_kept_over_a_restart(served):
    first, second = kept(served, "anna", split(1)), kept(served, "bert", {"kind": "merge", "one": 3, "other": 4})
    served.kill()
    served.start()
    told = by(served, "cleo", "/drafts").json()["drafts"]
    assert [it["id"] for it in told] == [first["id"], second["id"]] and told[0]["edit"] == first["edit"]
    assert by(served, "anna", f"/drafts/{second['id']}/approval", "POST").status_code == 200
    assert by(served, "bert", f"/drafts/{first['id']}/approval", "POST").status_code == 200
    assert len(served.lines()) == 2 and json.loads(served.journal.with_name("register.txt.drafts").read_text()) == []


def test_what_is_no_draft(served):
    """An edit that could not be made is refused at once, and nothing is kept; a reader keeps none."""
    for body, status in (({"kind": "merge", "one": 1, "other": 16}, 409), ({"kind": "nothing"}, 400), ([], 400)):
        answer = by(served, "anna", "/drafts", "POST", json=body)
        assert answer.status_code == status and answer.json()["description"], pretty(answer)
    assert by(served, "cleo", "/drafts", "POST", json=split(1)).status_code == 403
    long = {**split(1), "why": "x" * 190}
    assert by(served, "anna", "/drafts", "POST", json=long).status_code == 400
    assert by(served, "anna", "/drafts").json() == {"drafts": []}
    for path, method in (("/drafts/x", "GET"), ("/drafts/x/approval", "POST"), ("/drafts/x", "DELETE")):
        assert by(served, "anna", path, method).status_code == 404


def test_a_file_that_holds_no_drafts_is_refused(served):
    served.kill()
    served.journal.with_name("register.txt.drafts").write_text("[{}]")
    with pytest.raises(AssertionError, match="has no drafts as they were written"):
        served.start()
    assert served.process.wait(30) == 1
