"""A register whose parcels do not tile is served for reading; and a backup is of a layer and its own journal."""
from __future__ import annotations

import subprocess
import sys

import geopandas as gpd
import pytest
from shapely.geometry import Polygon, box, shape

import gandovel

from served import EAST, NORTH, Served, environment, ogr, prepared, pretty
from session_register import grid_city

CITY, RINGS = grid_city(4, 4, 3)


@pytest.fixture(scope="module")
def faulty(tmp_path_factory):
    """Nine squares of which one is too small and one too large: a gap of 4 m2, and an overlap of 20 m2."""
    folder = tmp_path_factory.mktemp("faulty")
    x, y = EAST // 1000, NORTH // 1000
    shapes = {(a, b): box(x + 10 * a, y + 10 * b, x + 10 * a + 10, y + 10 * b + 10) for a in range(3) for b in range(3)}
    shapes[1, 1] = Polygon(
        [(x + 10, y + 10), (x + 20, y + 10), (x + 20, y + 18), (x + 18, y + 18), (x + 18, y + 20)] + [(x + 10, y + 20)]
    )
    shapes[0, 0] = box(x, y, x + 12, y + 10)
    frame = gpd.GeoDataFrame({"parcel_no": [f"{a}{b}" for a, b in shapes]}, geometry=list(shapes.values()), crs=25832)
    outline = gpd.GeoDataFrame(geometry=[box(x, y, x + 30, y + 30)], crs=25832)
    gandovel.prepare(frame, number="parcel_no", city=outline).save(folder / "work")
    with Served(folder / "work", folder / "register.txt") as served:
        yield served
        assert served.end() == 0
        assert "Traceback" not in (folder / "serve.log").read_text()


def test_its_faults_are_a_collection(faulty):
    told = faulty.ask("/collections").json()["collections"]
    assert [it["id"] for it in told] == ["parcels", "faults"]
    page = faulty.ask("/collections/faults/items", params={"crs": told[1]["crs"][1]})
    assert page.status_code == 200, pretty(page)
    features = page.json()["features"]
    kinds = {it["properties"]["kind"]: it for it in features}
    assert page.json()["numberMatched"] == len(features) == 2 and set(kinds) == {"gap", "overlap"}
    assert kinds["gap"]["properties"]["area_m2"] == 4 and kinds["overlap"]["properties"]["area_m2"] == 20
    assert set(kinds["overlap"]["properties"]["numbers"].split(",")) == {"00", "10"}
    assert shape(kinds["gap"]["geometry"]).equals(
        box(EAST / 1000 + 18, NORTH / 1000 + 18, EAST / 1000 + 20, NORTH / 1000 + 20)
    )
    assert faulty.ask("/collections/faults/items/1").json()["properties"] == features[0]["properties"]
    assert faulty.ask("/collections/faults/items/3").status_code == 404
    assert faulty.ask("/collections/faults/items?number=10").json()["numberMatched"] >= 1
    assert faulty.ask("/collections/faults/items?bbox=-180,-90,180,90").json()["numberMatched"] == 2
    assert faulty.ask("/collections/faults/items?bbox=-120,-60,-60,60").json()["numberMatched"] == 0
    assert faulty.ask("/collections/parcels/items").json()["numberMatched"] == 9
    for name, count in (("parcels", 9), ("faults", 2)):
        assert f"Feature Count: {count}" in ogr("ogrinfo", "-ro", "-al", "-so", f"OAPIF:{faulty.address}", name)


def test_what_it_refuses(faulty):
    """Each in words; and no journal was begun."""
    for path, method, more in (
        ("/locate?x=600000001&y=5500000001", "GET", {}),
        ("/locate", "POST", {"json": {"points": [[1, 2]]}}),
        ("/edits", "POST", {"json": {"kind": "merge", "one": 1, "other": 2}}),
        ("/overlay", "GET", {}),
        ("/parcels/1/zones", "GET", {}),
    ):
        answer = faulty.ask(path, method, **more)
        assert (answer.status_code, answer.json()["code"]) == (409, "faults"), pretty(answer)
        assert "gandovel mend" in answer.json()["description"]
    health = faulty.ask("/health")
    assert health.status_code == 200 and health.json()["state"] == "faulty"
    assert faulty.ask("/parcels/1").json()["number"] == "00"
    assert not faulty.journal.exists() and not faulty.journal.with_name("register.txt.desks").exists()
    log = faulty.journal.with_name("serve.log").read_text()
    assert log.startswith("note: the parcels have 2 faults (H2 ") and "served for reading" in log


def test_backup_of_another_layers_journal(tmp_path):
    """It is refused, and nothing is left; that of its own is taken, of one island of several, too."""
    own = prepared(tmp_path / "own", CITY, RINGS)
    other = prepared(tmp_path / "other", *grid_city(4, 4, 9))
    with Served(own, tmp_path / "register.txt") as served:
        assert served.edit("merge 1 2").status_code == 200 and served.end() == 0

    def backup(folder):
        words = [sys.executable, "-m", "gandovel", "backup", str(folder), "--journal", str(tmp_path / "register.txt")]
        return subprocess.run(
            [*words, "--out", str(tmp_path / "out")], env=environment(), capture_output=True, text=True
        )

    ended = backup(other)
    assert ended.returncode == 1 and ended.stderr.startswith("error: another layer "), ended.stderr
    assert "name the folder of its own layer" in ended.stderr and not (tmp_path / "out").exists()
    assert [it.name for it in tmp_path.iterdir() if "out" in it.name] == []
    ended = backup(own)
    assert (ended.returncode, ended.stdout) == (0, "1 edits\n"), ended.stderr


def test_a_journal_with_edits_is_not_taken_for_a_new_one(tmp_path):
    """A layer with faults, and a journal that is there: the start is refused as ever, and the journal stays."""
    own = prepared(tmp_path / "own", CITY, RINGS)
    with Served(own, tmp_path / "register.txt") as served:
        assert served.edit("merge 1 2").status_code == 200 and served.end() == 0
    before = (tmp_path / "register.txt").read_bytes()
    broken = prepared(tmp_path / "own", CITY, RINGS[:-1])
    words = [sys.executable, "-m", "gandovel", "serve", str(broken), "--journal", str(tmp_path / "register.txt")]
    ended = subprocess.run(words, env=environment(), capture_output=True, text=True, timeout=120)
    assert ended.returncode == 1 and "error: " in ended.stderr, ended.stderr
    assert (tmp_path / "register.txt").read_bytes() == before
