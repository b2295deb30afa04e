"""What `gandovel many` says without running anything: manifests that are refused, verdicts, what districts make up."""
from __future__ import annotations

import pytest

from gandovel import Refused
from gandovel.many import Result, Verdict, read_manifest, whole_of
from gandovel.many.manifest import by_depth
from gandovel.many.summary import Summary, verdict_of
from gandovel.many.tasks import task_of

HEAD = "name,city,parcels,zones,unit,edits,part_of,district\n"


def manifest(folder, text):
    """A manifest of a text."""
    path = folder / "manifest.csv"
    path.write_text(text, encoding="utf-8")
    return path


def test_a_manifest_in_any_order_and_with_quotes(tmp_path):
    rows = read_manifest(
        manifest(
            tmp_path, '\ufeffunit,name,parcels,city,edits\nm,"Bad Homburg, v.d.H.",p.shp,/x/c.shp, a.txt;b.txt\n\n'
        )
    )
    assert len(rows) == 1 and rows[0].name == "Bad Homburg, v.d.H." and rows[0].unit == "m"
    assert rows[0].parcels == str(tmp_path / "p.shp") and rows[0].city == "/x/c.shp" and rows[0].zones is None
    assert rows[0].edits == (str(tmp_path / "a.txt"), str(tmp_path / "b.txt"))


def test_districts_of_a_city(tmp_path):
    rows = read_manifest(
        manifest(
            tmp_path,
            HEAD + "three,,r.shp,,cm,,one,1\nall,c.shp,d.shp,,cm,,,\none,,p.shp,,m,,all,1\ntwo,,q.shp,,cm,,all,2\n",
        )
    )
    assert [(row.part_of, row.district) for row in rows] == [("one", 1), (None, None), ("all", 1), ("all", 2)]
    assert [row.city for row in rows] == [None, str(tmp_path / "c.shp"), None, None]
    assert [[row.name for row in level] for level in by_depth(rows)] == [["all"], ["one", "two"], ["three"]]


ROW = "a,c.shp,p.shp,,mm,,,\n"
BAD = {
    "a missing column": ("name,city,parcels\na,c.shp,p.shp\n", "P2", "no column unit"),
    "a column twice": ("name,city,parcels,unit,unit\n", "P2", "'unit'"),
    "nothing": ("", "P2", "no column name"),
    "no city": (HEAD, "P15", "has no city"),
    "no name": (HEAD + ",c.shp,p.shp,,mm,,,\n", "P3", "line 2"),
    "a name twice": (HEAD + ROW + ROW, "P3", "the name a"),
    "a name with a slash": (HEAD + "a/b,c.shp,p.shp,,mm,,,\n", "P15", "'a/b'"),
    "a hidden name": (HEAD + ".a,c.shp,p.shp,,mm,,,\n", "P15", "'.a'"),
    "a long name": (HEAD + "ä" * 101 + ",c.shp,p.shp,,mm,,,\n", "P15", "200 bytes"),
    "another unit": (HEAD + "a,c.shp,p.shp,,km,,,\n", "P15", "'km'"),
    "no shapefile": (HEAD + "a,c.shp,p.gpkg,,mm,,,\n", "P15", "'p.gpkg'"),
    "zones that are none": (HEAD + "a,c.shp,p.shp,z,mm,,,\n", "P15", "zones is to be a .shp file"),
    "too many cells": (HEAD + "a,c.shp,p.shp,,mm,,,,more\n", "P15", "line 2"),
    "no city's file": (HEAD + "a,,p.shp,,mm,,,\n", "P15", "city is to be a .shp file"),
    "a district of nothing": (HEAD + "a,c.shp,p.shp,,mm,,,3\n", "P15", "go together"),
    "district zero": (HEAD + ROW + "b,,p.shp,,mm,,a,0\n", "P15", "go together"),
    "a district with a city": (HEAD + ROW + "b,c.shp,p.shp,,mm,,a,1\n", "P15", "no city of its own"),
    "a part of what is not there": (HEAD + "a,,p.shp,,mm,,b,1\n", "P15", "no row"),
    "one district twice": (HEAD + ROW + "b,,p.shp,,mm,,a,1\nd,,p.shp,,mm,,a,1\n", "P15", "both district 1 of a"),
    "a circle": (HEAD + ROW + "b,,p.shp,,mm,,d,1\nd,,p.shp,,mm,,b,1\n", "P15", "b is a part of itself"),
    "a part of itself": (HEAD + "a,,p.shp,,mm,,a,1\n", "P15", "a is a part of itself"),
    "districts of edits": (HEAD + "a,c.shp,p.shp,,mm,e.txt,,\nb,,p.shp,,mm,,a,1\n", "P15", "districts and edits"),
    "a quote that is left open": (HEAD + '"a,c.shp', "P1", "can't be read"),
}


@pytest.mark.parametrize("name", sorted(BAD))
def test_a_manifest_is_refused(tmp_path, name):
    text, code, words = BAD[name]
    with pytest.raises(Refused) as refused:
        read_manifest(manifest(tmp_path, text))
    assert refused.value.code == code and words in str(refused.value), str(refused.value)


def test_a_manifest_with_other_columns_and_in_capitals(tmp_path):
    (row,) = read_manifest(manifest(tmp_path, "Name,CITY,Parcels,Unit,zone,remark\na,C.SHP,P.Shp,mm,x,y\n"))
    assert (row.name, row.city, row.parcels) == ("a", str(tmp_path / "C.SHP"), str(tmp_path / "P.Shp"))
    assert row.zones is None and [path for path, _ in task_of(row).inputs] == [row.city, row.parcels]


def test_a_manifest_that_is_not_there(tmp_path):
    with pytest.raises(Refused, match="P1 the manifest .*none.csv can't be read"):
        read_manifest(tmp_path / "none.csv")


def result(command, output, errors="", status=0):
    """A result of a command with these texts."""
    return Result("a", "run", {}, ("tool", command), {}, status, 1.5, 2048, output, errors)


def test_verdicts():
    found = verdict_of(result("check", "clerk 1 line 2 ok 1\nclerk 1 line 3 refused E1\ntiling 4 800\n"))
    assert (found.tiles, found.parcels, found.area2, found.edits_refused) == (True, 4, 800, 1)
    found = verdict_of(result("overlay", "entries 0\npair 1 1\npair 2 1\npair 2 2\nsplit 2\nwithin 1 1\n"))
    assert (found.tiles, found.parcels, found.area2, found.pairs, found.split) == (True, 2, None, 3, 1)
    found = verdict_of(result("check", "edge 0 0 0 5 net 1\n", "error: parcels: H2 0 0 0 5 net 1\n", 1))
    assert (found.verdict, found.code, found.layer, found.text) == ("refused", "H2", "parcels", "0 0 0 5 net 1")
    assert (found.seconds, found.memory_kb) == (1.5, 2048)
    found = verdict_of(result("check", ""))
    assert (found.verdict, found.code) == ("none", "T2")


def tiles(name, area2=None, parcels=None):
    """The verdict of a city that tiles."""
    return Verdict(name, "tiles", parcels=parcels, area2=area2)


OPEN = {
    "one missing": (tiles("all", 30, 3), [tiles("a"), tiles("b")], (), "the manifest has no row for district 3 of 3"),
    "one too many": (tiles("all", 30, 1), [tiles("a"), tiles("b")], (), "the layer has 1 district, and the manifest 2"),
    "one refused": (
        tiles("all", 30, 2),
        [tiles("a"), Verdict("b", "refused", "H2")],
        (),
        "does not tile: 1 of 2 districts tile; not b (H2)",
    ),
    "one without": (
        tiles("all", 30, 2),
        [Verdict("a", "none", "T4"), tiles("b")],
        (),
        "not judged: a (T4)",
    ),
    "their layer": (
        Verdict("all", "refused", "H2"),
        [tiles("a"), tiles("b")],
        (),
        "does not tile: the layer of districts does not (H2)",
    ),
    "no layer": (
        Verdict("all", "none", "T3"),
        [tiles("a"), tiles("b")],
        (),
        "the layer of districts has no verdict (T3)",
    ),
    "changed": (
        tiles("all", 30, 2),
        [tiles("a"), tiles("b")],
        ("b",),
        "the layer of districts changed between its check and the ring of b",
    ),
}


@pytest.mark.parametrize("name", sorted(OPEN))
def test_the_whole_does_not_tile(name):
    layer, districts, astray, said = OPEN[name]
    whole = whole_of(layer, dict(enumerate(districts, 1)), frozenset(astray), 2)
    refused = said.startswith("does not tile")
    assert (whole.name, whole.districts, whole.tiles) == ("all", 2, False)
    assert whole.said == (said if refused else f"open: {said}")
    kind = ("refused", "H2") if refused else ("open", "open")
    assert (whole.verdict.verdict, whole.verdict.code, whole.parcels, whole.area2) == (*kind, None, None)
    summary = Summary([layer, *districts], [whole])
    assert (summary.verdicts[0].verdict, summary.status) == (kind[0], 1 if refused else 3)


def test_the_whole_tiles():
    whole = whole_of(tiles("all", 30, 2), {1: tiles("a", 10, 5), 2: tiles("b", None, 6)})
    assert (whole.tiles, whole.said, whole.parcels, whole.area2) == (True, "tiles: 11 parcels of 2 districts", 11, 30)
    assert (whole.verdict.verdict, whole.verdict.parcels) == ("tiles", 11)
    whole = whole_of(tiles("all", None, 1), {1: tiles("a")})
    assert (whole.tiles, whole.said, whole.parcels) == (True, "tiles: all parcels of 1 district", None)


def test_the_summary_in_words():
    verdicts = [
        tiles("a"),
        tiles("b"),
        Verdict("c", "refused", "H2"),
        Verdict("d", "none", "T4", text="killed"),
        Verdict("e", "none", "T3"),
    ]
    summary = Summary(verdicts, kept=1, gaps=1, overlaps=2, faults_file="f.gpkg", untold=["x"])
    assert summary.lines() == [
        "5 cities: 2 tile, 1 refused (H2 1), 2 without a verdict (T3 1, T4 1); 1 kept",
        "1 gap, 2 overlaps: f.gpkg",
        "no faults are told of x: their check has no result",
    ]
    assert summary.table().splitlines()[4] == "d,none,T4,,killed,,,,,,,"
