"""A register that stays open, as frames: parcels, entries, points, edits by own numbers, transactions."""
from __future__ import annotations

import os
import signal

import geopandas as gpd
import numpy as np
import pandas as pd
import pytest
from shapely.geometry import Point, box
from shapely.affinity import translate

import gandovel as gv
from gandovel.live import transaction

CRS = 25832
pytestmark = pytest.mark.usefixtures("in_time")


def plots():
    """Three parcels in a row, whose numbers are no records and whose index is a word."""
    shapes = [box(at, 0, at + 10, 10) for at in (0, 10, 20)]
    index = pd.Index(["x", "y", "z"], name="row")
    return gpd.GeoDataFrame({"parcel_no": [7, 3, 2], "use": list("abc")}, geometry=shapes, crs=CRS, index=index)


HALVED = [gv.Insert((20, 0), (30, 0), (25, 0)), gv.Insert((20, 10), (30, 10), (25, 10))]
CUT = gv.Split(2, [(25, 0), (25, 10)])


@pytest.fixture
def register(tmp_path):
    with gv.open(plots(), tmp_path / "journal", timeout=60) as opened:
        yield opened


def test_edits_by_own_numbers_and_frames_of_now(register):
    made = register.edit(gv.Merge(7, 3), who="anna, deed 17")
    assert made == gv.Accepted(1, (1, 2), (4,)) and all(isinstance(it, gv.Id) for it in made.out + made.new)
    now = register.parcels
    assert now.came_from.tolist() == ["7,3", "2"] and now.ids.tolist() == ["4", "3"] and now.edited.tolist() == [1, 0]
    assert now.index.tolist() == ["x", "z"] and now.parcel_no.dtype == np.int64 and now.attrs["entries"] == 1
    assert now.area2_mm2.tolist() == [400_000_000, 200_000_000] and now.area2_mm2.dtype == "Int64"
    assert now.area_m2.tolist() == [200, 100] and now.crs == plots().crs and now.geometry.area.tolist() == [200, 100]
    after = gv.apply(plots(), gv.Merge(7, 3))
    assert now.drop(columns=["ids", "area2_mm2", "area_m2"]).geom_equals(after).all()
    row = register.entries.loc[1]
    assert (row.who, row.why, row.kind, row.numbers, row.out, row.new) == (
        "anna",
        "deed 17",
        "merge",
        "7,3",
        "1,2",
        "4",
    )
    assert row.edit == "merge 1 2" and row.time.tzinfo is not None and register.entries.index.name == "entry"


def test_the_journal_is_gone_on_with(tmp_path):
    with gv.open(plots(), tmp_path / "journal") as register:
        register.edit(gv.Merge(7, 3))
    with gv.open(plots(), tmp_path / "journal") as register:
        assert register.count() == 1 and register.parcels.came_from.tolist() == ["7,3", "2"]
        assert register.edit(gv.Merge(gv.Id(4), 2)).new == (5,)
    with pytest.raises(
        gv.JournalRefused, match="another layer .*/journal: it was begun with other parcels: give those"
    ):
        gv.open(plots().iloc[::-1], tmp_path / "journal")
    with pytest.raises(gv.JournalRefused, match="S1 .*no/journal: it can't be opened, made or read"):
        gv.open(plots(), tmp_path / "no/journal")
    (tmp_path / "text").write_text("merge 1 2\n")
    with pytest.raises(gv.JournalRefused, match="no journal .*/text: it is no journal: give another path"):
        gv.open(plots(), tmp_path / "text")


def test_numbers_that_are_gone_say_where_to(register):
    register.edit(gv.Merge(7, 3))
    with pytest.raises(gv.Refused, match=r"P13 parcel 7: entry 1 took it out, and brought Id\(4\)"):
        register.edit(gv.Merge(7, 2))
    with pytest.raises(gv.Refused, match="P13 parcel 99: it is not there"):
        register.edit(gv.Merge(99, 2))
    with pytest.raises(gv.RefusedEdit, match="^E4"):
        register.edit(gv.Merge(2, 2))
    with pytest.raises(TypeError, match="no edit"):
        register.edit("merge 1 2")
    assert register.count() == 1


def test_locate_many_in_any_form(register):
    register.edit(gv.Merge(7, 3))
    found = register.locate([(5, 5), (25, 5), (20, 5), (50, 5)])
    assert found["where"].tolist() == ["inside", "inside", "edge", "outside"]
    assert found.numbers.tolist() == ["", "2", "2", ""] and found.ids.tolist() == ["4", "3", "3,4", ""]
    assert found.parcel_no.isna().tolist() == [True, False, True, True] and set(found.entries) == {1}
    there = gpd.GeoDataFrame({"a": [1]}, geometry=[Point(25, 5)], crs=CRS, index=["p"]).to_crs(4326)
    assert register.locate(there).numbers.to_dict() == {"p": "2"}
    assert len(register.locate([(at % 30 + 0.5, 5) for at in range(2_500)])) == 2_500
    with pytest.raises(gv.Refused, match="P9"):
        register.locate([(5, 5), (1e300, 5)])
    assert register.locate((5, 5)).ids.tolist() == ["4"]


def test_a_transaction_makes_all_its_edits(register):
    with register.transaction("bert, deed 18") as edits:
        for edit in HALVED:
            assert edits.edit(edit) == ()
        left, right = edits.edit(CUT)
        edits.edit(gv.Merge(left, 3))
        assert register.count() == 0
    assert [made.number for made in edits.made] == [1, 2, 3, 4] and register.entries.who.tolist() == ["bert"] * 4
    now = register.parcels
    assert now.came_from.tolist() == ["7", "3,2", "2"] and now.ids.tolist() == ["1", "6", "5"]
    assert now.geometry.area.tolist() == [100, 150, 50]
    with pytest.raises(ValueError, match="has ended"):
        edits.edit(CUT)
    with pytest.raises(gv.Refused, match="P13 .* is of a transaction"):
        register.edit(gv.Merge(left, 3))
    with pytest.raises(ValueError, match="is of another transaction: name the parcel by its Id"):
        with register.transaction() as others:
            others.edit(gv.Insert((0, 0), (10, 0), (5, 0)))
            others.edit(gv.Merge(7, right))
    with pytest.raises(gv.Refused, match="P13 .* is of a transaction"):
        gv.apply(plots(), gv.Merge(left, 3))
    assert register.count() == 4


def test_a_transaction_with_a_refused_edit_makes_none(register):
    with pytest.raises(gv.RefusedEdit, match=r"^E4 3: edit 3 of 4, Merge\(one=2, other=2\)$|^E4") as refused:
        with register.transaction() as edits:
            for edit in (*HALVED, gv.Merge(2, 2), CUT):
                edits.edit(edit)
    assert not isinstance(refused.value, gv.PartlyMade) and edits.made == []
    assert register.count() == 0 and register.entries.empty and register.parcels.edited.tolist() == [0, 0, 0]


def test_a_transaction_that_is_left_by_an_exception_makes_none(register):
    with pytest.raises(KeyError):
        with register.transaction() as edits:
            edits.edit(gv.Merge(7, 3))
            raise KeyError("x")
    with register.transaction() as edits:
        pass
    with pytest.raises(TypeError, match="no edit"):
        with register.transaction() as edits:
            edits.edit(("merge", 1, 2))
    assert register.count() == 0


def other_clerk(register, monkeypatch, tries):
    """Another clerk who merges two parcels behind the last try of a transaction."""
    real, calls = type(register).tried, []

    def tried(self, edits, count):
        answers = real(self, edits, count)
        calls.append(count)
        if len(calls) <= tries:
            with gv.Desk.at(register.path("bert"), timeout=60) as bert:
                bert.insert((0, 0), (10_000, 0), (1_000 * len(calls), 0)) if tries > 1 else bert.merge(2, 3)
        return answers

    monkeypatch.setattr(type(register), "tried", tried)
    return calls


def test_edits_of_others_are_tried_with(tmp_path, monkeypatch):
    """Those that come while edits are tried: they are tried anew, and refused before any of them is made."""
    with gv.open(plots(), tmp_path / "journal", desks=["bert"], timeout=60) as register:
        calls = other_clerk(register, monkeypatch, 1)
        with pytest.raises(gv.Refused, match=r"P13 parcel 3: entry 1 took it out, and brought Id\(4\)"):
            with register.transaction() as edits:
                edits.edit(HALVED[0])
                edits.edit(gv.Merge(3, 7))
        assert calls == [0] and register.entries.clerk.tolist() == [2] and edits.made == []


@pytest.mark.parametrize("second, code", [(gv.Merge(gv.Id(3), gv.Id(2)), "E2"), (gv.Merge(2, 3), "P13")])
def test_what_comes_behind_the_last_try_is_said(second, code, tmp_path, monkeypatch):
    monkeypatch.setattr(transaction, "TRIES", 1)
    with gv.open(plots(), tmp_path / "journal", desks=["bert"], timeout=60) as register:
        other_clerk(register, monkeypatch, 1)
        with pytest.raises(gv.PartlyMade) as partly:
            with register.transaction("anna") as edits:
                edits.edit(gv.Insert((0, 0), (10, 0), (5, 0)))
                edits.edit(second)
                edits.edit(gv.Insert((0, 10), (10, 10), (5, 10)))
        fault = partly.value
        assert fault.code == code and [made.number for made in fault.made] == [2] and fault.unsure == []
        assert fault.left == [second, gv.Insert((0, 10), (10, 10), (5, 10))]
        assert "made were 1 (entries 2); 2 were not made" in str(fault) and "edit 2 of 3" in str(fault)
        assert register.entries.kind.tolist() == ["merge", "insert"] and edits.made == fault.made


def test_a_program_that_ends_between_leaves_an_edit_unsure(tmp_path, monkeypatch):
    with gv.open(plots(), tmp_path / "journal", timeout=60) as register:
        real, made = type(register).make, []

        def make(self, *words):
            if made:
                os.kill(self.session.pid, signal.SIGKILL)
            made.append(1)
            return real(self, *words)

        monkeypatch.setattr(type(register), "make", make)
        with pytest.raises(gv.PartlyMade, match="T2") as partly:
            with register.transaction() as edits:
                for edit in (*HALVED, CUT):
                    edits.edit(edit)
        fault = partly.value
        assert (len(fault.made), fault.unsure, fault.left) == (1, [HALVED[1]], [CUT])
        assert "may be in the journal" in str(fault)
        register.session.terminate()
    monkeypatch.undo()
    with gv.open(plots(), tmp_path / "journal", timeout=60) as register:
        assert register.count() == 1


def test_what_is_opened_is_named(tmp_path):
    away = plots().assign(parcel_no=[4, 5, 6]).set_geometry([translate(it, 500) for it in plots().geometry])
    towns = gpd.GeoDataFrame(pd.concat([plots(), away]), crs=CRS)
    with pytest.raises(gv.Refused, match="P13 the city has 2 parts, .* say which by island="):
        gv.open(towns)
    with pytest.raises(gv.Refused, match="P13 part 3 of the city is not there"):
        gv.open(towns, island=3)
    with gv.open(towns, island=2) as register:
        register.edit(gv.Merge(4, 5))
        assert register.parcels.came_from.tolist() == ["4,5", "6"]
        with pytest.raises(gv.Refused, match="P13 parcel 7: it is not there in this part of the city"):
            register.edit(gv.Merge(7, 3))
    with pytest.raises(gv.Refused, match="H2"):
        gv.open(plots().assign(geometry=lambda it: [box(0, 0, 11, 10), *it.geometry[1:]]))


def test_units_of_the_layer(tmp_path):
    feet = gpd.GeoDataFrame({"parcel_no": [7, 3, 2]}, geometry=[box(at, 0, at + 10, 10) for at in (0, 10, 20)])
    with gv.open(feet, unit="ft") as register:
        register.edit(gv.Insert((0, 0), (10, 0), (5, 0)))
        assert register.entries.edit[1] == "insert 0 0 3048 0 1524 0"
        assert register.locate((5, 5)).numbers.tolist() == ["7"]
    assert repr(register.session.notes) == "[]"


def test_the_area_outside_is_no_parcel():
    """With `frame` the program has one there."""
    with gv.open(plots(), frame=True) as register:
        found = register.locate([(5, 5), (-0.5, 5), (0, 5), (10, 5)])
        assert found["where"].tolist() == ["inside", "outside", "edge", "edge"]
        assert found.numbers.tolist() == ["7", "", "7", "7,3"] and found.ids.tolist() == ["1", "", "1", "1,2"]
        assert register.parcels.parcel_no.tolist() == [7, 3, 2]
        register.edit(gv.Merge(7, 3))
        assert register.parcels.came_from.tolist() == ["7,3", "2"]


def test_the_accessor_opens(tmp_path):
    with plots().gandovel.open(tmp_path / "journal") as register:
        assert repr(register).startswith("<OpenRegister: 3 parcels as given, 0 entries")
        assert register.close() == 0


def test_a_register_with_holes_and_parts(whole, tmp_path):
    """202 parcels of 226 records: each is one row, with all its ids, until an edit changes it."""
    with gv.open(whole, tmp_path / "journal", timeout=120) as register:
        now, given = register.parcels, gv.area(whole)
        assert now.area2_mm2.tolist() == given.area2_mm2.tolist() and now.index.equals(given.index)
        assert sum(len(text.split(",")) for text in now.ids) == 226 and (now.edited == 0).all()
        road = now[now.ids.str.contains(",")].iloc[0]
        with pytest.raises(gv.Refused, match=f"P13 parcel {road.parcel_no}: it has several records: name one of Id"):
            register.edit(gv.Merge(road.parcel_no, now.parcel_no.iloc[-1]))
        found = register.locate(now.representative_point())
        assert found.numbers.tolist() == now.parcel_no.astype(str).tolist()


def test_the_example_of_the_documents(tmp_path):
    """That of docs/python.md, on plots whose numbers are those of the page."""
    path = [(25, 0), (25, 10)]
    shapes = [box(at, 0, at + 10, 10) for at in (0, 10, 20, 30)]
    prepared = gv.prepare(gpd.GeoDataFrame({"parcel_no": ["1/1", "1/2", "3", "4"]}, geometry=shapes, crs=CRS))
    with gv.open(prepared, tmp_path / "register.txt") as register:
        register.edit(gv.Merge("1/1", "1/2"), who="anna, deed 17")
        with register.transaction("bert") as edits:
            for y in (0, 10):
                edits.edit(gv.Insert((20, y), (30, y), (25, y)))
            first, second = edits.edit(gv.Split("3", path))
            edits.edit(gv.Merge(second, "4"))
        assert register.entries.who.tolist() == ["anna", *["bert"] * 4]
        assert register.parcels.came_from.tolist() == ["1/1,1/2", "3", "3,4"]
