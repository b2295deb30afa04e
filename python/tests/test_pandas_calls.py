"""84 calls as users of pandas and GeoPandas write them: each runs and says what it looks like, or raises with
advice."""
from __future__ import annotations

import json
from fractions import Fraction

import geopandas as gpd
import numpy as np
import pandas as pd
import pytest
from shapely.affinity import translate
from shapely.geometry import LineString, MultiPoint, Point, Polygon, box

import gandovel as gv
from gandovel.exact.whole_numbers import texts_of, whole_numbers

CRS = 25832


def plots(**columns):
    """Four plots of 100 m2 in a row, whose numbers are in another order than their rows, and neither is the index."""
    shapes = [box(at * 10, 0, at * 10 + 10, 10) for at in range(4)]
    table = {"parcel_no": [4, 1, 3, 2], "use": list("abcd"), **columns}
    return gpd.GeoDataFrame(table, geometry=shapes, crs=CRS, index=pd.Index([11, 5, 9, 7], name="row"))


def zones(**columns):
    """Two zones whose border halves the second plot."""
    return gpd.GeoDataFrame({"plan": [100, 200], **columns}, geometry=[box(0, 0, 15, 10), box(15, 0, 40, 10)], crs=CRS)


def broken():
    """The plots with an overlap of 10 m2 between numbers 4 and 1."""
    frame = plots()
    frame.loc[5, "geometry"] = box(9, 0, 20, 10)
    return frame


def two_towns():
    """Plots in two towns apart, with numbers in one order through both."""
    frame = plots()
    away = frame.assign(parcel_no=[8, 5, 7, 6]).set_geometry([translate(it, 500) for it in frame.geometry])
    return gpd.GeoDataFrame(pd.concat([frame, away], ignore_index=True), crs=CRS)


def opened(frame, call):
    """What a call says of the frame's register, which is opened for it."""
    with gv.open(frame) as register:
        return call(register)


@pytest.fixture(scope="module")
def h():
    return plots()


@pytest.fixture(scope="module")
def pairs():
    return gv.overlay(plots(), zones(), zone="plan")


@pytest.fixture(scope="module")
def report():
    return gv.report(broken(), zones(), zone="plan")


@pytest.fixture(scope="module")
def path(tmp_path_factory):
    """The plots as a file, and beside it zones, points and a prepared folder."""
    folder = tmp_path_factory.mktemp("files")
    plots().to_file(folder / "parcels.gpkg", driver="GPKG")
    zones().to_file(folder / "zones.gpkg", driver="GPKG")
    gpd.GeoDataFrame({"a": [1]}, geometry=[Point(5, 5)], crs=CRS).to_file(folder / "points.gpkg", driver="GPKG")
    gv.prepare(plots(), zones(), zone="plan").save(folder / "work")
    return folder


def covered(frame, at):
    """The row that covers a place."""
    return frame[frame.covers(Point(*at))].iloc[0]


# The wrong results, the most harmful first.


def test_edits_name_parcels_by_their_own_numbers(h):
    merged = gv.apply(h, gv.Merge(3, 2))
    assert merged.came_from.tolist() == ["4", "1", "3,2"] and merged.edited.tolist() == [0, 0, 1]
    assert covered(merged, (35, 5)).came_from == "3,2" and merged.geometry.area.tolist() == [100, 100, 200]
    assert merged.attrs["answers"] == ["ok 1"] and merged.parcel_no.dtype == np.int64


def test_ids_are_given_as_ids(h):
    assert gv.apply(h, gv.Merge(gv.Id(1), gv.Id(2))).came_from.iloc[0] == "4,1"
    assert (repr(gv.Id(3)), f"{gv.Id(3)}", str(gv.Id(3)), gv.Id(3) + 1) == ("Id(3)", "3", "3", 4)


@pytest.mark.parametrize("three", [3, 3.0, np.int64(3), "3"])
def test_a_number_in_any_form(h, three):
    assert "3,2" in set(gv.apply(h, [gv.Merge(three, 2)]).came_from)


def test_numbers_that_are_text_are_not_ids():
    frame = plots(parcel_no=["b", "1", "2", "c"])
    assert "1,2" in set(gv.apply(frame, gv.Merge(1, 2)).came_from)
    with pytest.raises(gv.Refused, match="P13 parcel 3: it is not there .*gandovel.Id"):
        gv.apply(frame, gv.Merge(3, 2))


def test_area_has_the_frames_index(h):
    some = plots()[lambda it: it.parcel_no < 4]
    some["m2"] = gv.area(some).area_m2
    assert some.m2.tolist() == [100] * 3 and some.index.tolist() == [5, 9, 7]
    other = plots().iloc[::-1].assign(geometry=lambda it: it.geometry)
    other.loc[11, "geometry"] = box(-20, 0, 10, 10)
    other["m2"] = gv.area(other).area_m2
    assert other.m2.to_dict() == {7: 100, 9: 100, 5: 100, 11: 300}


def test_areas_are_summed_as_numbers(pairs):
    assert pairs.groupby("plan").area2_mm2.sum().to_dict() == {100: 300_000_000, 200: 500_000_000}
    assert pairs.area2_mm2.dtype == "Int64"


def test_whole_numbers_beyond_63_bits():
    large = whole_numbers([2**70, 1, None])
    assert large.dtype == object and large.iloc[0] + 1 == 2**70 + 1 and texts_of(large) == [str(2**70), "1", None]
    assert whole_numbers([1, None]).dtype == "Int64" and whole_numbers([], []).dtype == "Int64"
    assert whole_numbers([Fraction(1, 3), 2]).tolist() == [Fraction(1, 3), 2]


@pytest.mark.parametrize("call", ["report", "check", "area", "mend", "locate", "apply", "overlay", "prepare"])
def test_each_function_takes_a_path_a_frame_and_what_is_prepared(path, call):
    given = {"locate": ((5, 5),), "apply": ([gv.Merge(4, 1)],)}.get(call, ())
    options = {"zones": zones(), "zone": "plan"} if call == "overlay" else {}
    sources = [str(path / "parcels.gpkg"), path / "parcels.gpkg", plots()]
    if call != "prepare":
        ready = gv.prepare(plots(), **options)
        assert getattr(gv, call)(ready, *given) is not None
        assert getattr(gv, call)(path / "work", *given) is not None
    for source in sources:
        assert getattr(gv, call)(source, *given, **options) is not None


def test_the_own_key_merges(pairs, h):
    merged = pairs.drop(columns="geometry").merge(h, on="parcel_no")
    assert merged.use.tolist() == ["a", "b", "b", "c", "d"] and pairs.parcel_no.dtype == h.parcel_no.dtype
    assert pairs.merge(zones(name=["in", "out"]).drop(columns="geometry"), on="plan").name.notna().all()
    assert pairs.index.tolist() == [11, 5, 5, 9, 7] and pairs.index.name == "row"


def test_refused_edits_raise(h):
    edits = [gv.Merge(4, 1), gv.Merge(4, 2), gv.Merge(3, 3)]
    with pytest.raises(gv.RefusedEdit, match=r"^E2 1 1: edit 2, Merge\(one=4, other=2\); and 1 more edit") as refused:
        gv.apply(h, edits)
    assert [one.code for one in refused.value.all] == ["E2", "E4"]
    with pytest.warns(UserWarning, match="2 edits were refused: E2 .*; E4"):
        kept = gv.apply(h, edits, refused="keep")
    assert [answer.split()[0] for answer in kept.attrs["answers"]] == ["ok", "refused", "refused"] and len(kept) == 3


PLACES = [(5, 5), [5, 5], np.array([5.0, 5.0]), Point(5, 5), [(5, 5)], [Point(5, 5)], np.array([[5.0, 5.0]])]
PLACES += [gpd.GeoSeries([Point(5, 5)], crs=CRS), gpd.GeoDataFrame({"a": [1]}, geometry=[Point(5, 5)], crs=CRS)]


@pytest.mark.parametrize("place", PLACES, ids=lambda it: type(it).__name__)
def test_places_to_locate(h, place):
    found = gv.locate(h, place)
    assert (found["where"].tolist(), found.parcel_no.tolist(), found.numbers.tolist()) == (["inside"], [4], ["4"])
    assert found.parcel_no.dtype == np.int64


def test_points_in_another_projection_are_brought_to_that_of_the_parcels(h):
    there = gpd.GeoDataFrame({"a": [1, 2]}, geometry=[Point(5, 5), Point(25, 5)], crs=CRS, index=["p", "q"])
    found = gv.locate(h, there.to_crs(4326))
    assert found.index.tolist() == ["p", "q"] and found.parcel_no.tolist() == [4, 3]
    assert found.crs.to_epsg() == 4326 and set(found.moved_how) == {"measured, brought from WGS 84 to " + h.crs.name}


def test_what_is_shown_is_a_summary(report):
    assert repr(report).startswith("<Report: does not tile; 1 overlap (10.00 m2)") or "1 overlap" in repr(report)
    assert len(repr(report)) < 500 and len(repr(report.prepared)) < 500
    assert repr(report.prepared).startswith("<Prepared: 4 parcels -> 4 rings")
    for shown in (report._repr_html_(), report.prepared._repr_html_()):
        assert shown.startswith("<div><p>") and shown.count("<svg ") == 1 and len(shown) < 5_000
    assert "#cc1e6e" in report._repr_html_() and "#cc1e6e" not in report.prepared._repr_html_()


# What else is written so.

RUNS = {
    "filtered": lambda h: gv.area(h[h.use == "a"]).area_m2.iloc[0] == 100,
    "query": lambda h: gv.area(h.query("parcel_no > 2")).index.tolist() == [11, 9],
    "assign": lambda h: h.assign(m2=gv.area(h).area_m2).m2.tolist() == [100] * 4,
    "loc": lambda h: gv.area(h).loc[9, "parcel_no"] == 3,
    "sorted": lambda h: gv.area(h.sort_values("parcel_no")).index.tolist() == [5, 7, 9, 11],
    "text index": lambda h: gv.area(h.set_index("use")).loc["b", "area2_mm2"] == 2 * 10**8,
    "several levels": lambda h: gv.area(h.set_index(["use", h.index])).index.nlevels == 2,
    "twice the same label": lambda h: gv.area(h.set_axis([1, 1, 2, 2])).index.tolist() == [1, 1, 2, 2],
    "sum": lambda h: gv.area(h).area2_mm2.sum() == 8 * 10**8,
    "mean": lambda h: gv.area(h).area_m2.mean() == 100,
    "describe": lambda h: gv.area(h).area2_mm2.describe()["count"] == 4,
    "group": lambda h: gv.area(h).groupby("use").area_m2.sum().to_dict() == dict.fromkeys("abcd", 100),
    "types": lambda h: gv.area(h).dtypes.astype(str)["parcel_no"] == "int64",
    "category": lambda h: gv.area(h.astype({"parcel_no": "category"})).parcel_no.dtype == "category",
    "Int64": lambda h: gv.overlay(h.astype({"parcel_no": "Int64"}), zones()).parcel_no.dtype == "Int64",
    "text key": lambda h: gv.area(h.astype({"parcel_no": str})).parcel_no.tolist() == ["4", "1", "3", "2"],
    "a column that is no text": lambda h: 7 in gv.area(h.rename(columns={"parcel_no": 7}), number="7").columns,
    "no column": lambda h: gv.area(h, number="ROW").index.equals(h.index),
    "series": lambda h: gv.area(h.geometry).index.equals(h.index),
    "renamed geometry": lambda h: gv.area(h.rename_geometry("shape")).area_m2.sum() == 400,
    "check empty": lambda h: gv.check(h).empty,
    "check faulty": lambda h: gv.check(broken()).area2_mm2.tolist() == [20_000_000],
    "check kinds": lambda h: gv.check(broken()).kind.value_counts().to_dict() == {"overlap": 1},
    "verdict as text": lambda h: gv.report(h).verdict == "tiles",
    "verdict as truth": lambda h: gv.report(h).verdict and not gv.report(broken()).verdict,
    "verdict as type": lambda h: gv.report(broken()).verdict is gv.Verdict.DOES_NOT_TILE,
    "verdict says it": lambda h: (gv.report(h).verdict.tiles, "no gap" in gv.report(h).verdict.words) == (True, True),
    "status of parcels": lambda h: gv.report(broken()).parcels.status.to_dict()[5] == "overlap",
    "parcels of a report": lambda h: gv.report(h).parcels.merge(h, on="parcel_no").shape[0] == 4,
    "split": lambda h: gv.report(h, zones()).split.index.tolist() == [5],
    "parts": lambda h: gv.report(h, zones(), zone="plan").parts.plan.tolist() == [100, 200],
    "zones by row": lambda h: gv.overlay(h, zones()).zone.tolist() == [1, 1, 2, 2, 2],
    "one name for both": lambda h: {"id", "zone"}
    <= set(gv.overlay(h.rename(columns={"parcel_no": "id"}), zones(id=[1, 2]), number="id", zone="id").columns),
    "pivot": lambda h: gv.overlay(h, zones(), zone="plan")
    .pivot_table(index="parcel_no", columns="plan", values="area_m2")
    .loc[1, 200]
    == 50,
    "pairs split": lambda h: gv.overlay(h, zones())[lambda it: it.split].parcel_no.unique().tolist() == [1],
    "locate several": lambda h: gv.locate(h, [(5, 5), (10, 5), (50, 5)])["where"].tolist()
    == ["inside", "edge", "outside"],
    "locate merges": lambda h: gv.locate(h, [(5, 5), (50, 5)]).merge(h, on="parcel_no", how="left").use.iloc[0] == "a",
    "locate keeps columns": lambda h: gv.locate(h, gpd.GeoDataFrame({"a": [1]}, geometry=[Point(5, 5)], crs=CRS)).a[0]
    == 1,
    "locate beside": lambda h: gv.locate(
        h, gpd.GeoDataFrame({"parcel_no": [99]}, geometry=[Point(5, 5)], crs=CRS)
    ).parcel_no_[0]
    == 4,
    "mend index": lambda h: gv.mend(h).frame.index.equals(h.index) and gv.mend(h).frame.parcel_no.dtype == np.int64,
    "apply none": lambda h: gv.apply(h, []).parcel_no.tolist() == [4, 1, 3, 2],
    "apply index": lambda h: gv.apply(h, gv.Split(1, [(15, 0), (15, 10)]), refused="keep").index.is_unique,
    "apply two towns": lambda h: gv.apply(two_towns(), [gv.Merge(3, 2), gv.Merge(8, 5)]).came_from.tolist()
    == ["4", "1", "3,2", "8,5", "7", "6"],
    "apply one town": lambda h: len(gv.apply(two_towns(), gv.Merge(3, 2), island=1)) == 3,
    "accessor area": lambda h: h.gandovel.area().area_m2.sum() == 400,
    "accessor check": lambda h: h.gandovel.check().empty,
    "accessor report": lambda h: h.gandovel.report(zones()).verdict.tiles,
    "accessor overlay": lambda h: len(h.gandovel.overlay(zones())) == 5,
    "accessor locate": lambda h: h.gandovel.locate((5, 5)).parcel_no.iloc[0] == 4,
    "accessor mend": lambda h: h.gandovel.mend(1.0).verdict.tiles,
    "accessor apply": lambda h: len(h.gandovel.apply(gv.Merge(4, 1))) == 3,
    "join": lambda h: h.join(gv.area(h)[["area_m2"]]).area_m2.tolist() == [100] * 4,
    "pipe": lambda h: h.pipe(gv.area).area_m2.sum() == 400 and h.pipe(gv.check, number="parcel_no").empty,
    "as int": lambda h: gv.area(h).area2_mm2.astype(int).sum() == 8 * 10**8,
    "named aggregation": lambda h: gv.overlay(h, zones(), zone="plan")
    .groupby("plan")
    .agg(m2=("area_m2", "sum"), many=("parcel_no", "nunique"))
    .to_dict()
    == {"m2": {100: 150, 200: 250}, "many": {100: 2, 200: 3}},
    "unstack": lambda h: gv.overlay(h, zones(), zone="plan")
    .set_index(["parcel_no", "plan"])
    .area_m2.unstack(fill_value=0)
    .loc[4]
    .tolist()
    == [100, 0],
    "apply by group": lambda h: h.groupby("use").apply(lambda it: gv.area(it).area_m2.sum()).to_dict()
    == dict.fromkeys("abcd", 100),
    "explode": lambda h: gv.check(broken())
    .assign(number=lambda it: it.numbers.str.split(","))
    .explode("number")
    .number.tolist()
    == ["4", "1"],
    "faults to json": lambda h: '"numbers": "4,1"' in gv.check(broken()).to_json(),
    "own frame unchanged": lambda h: gv.area(h) is not h and "area_m2" not in h.columns,
    "centroids": lambda h: gv.locate(h, h.representative_point()).parcel_no.tolist() == h.parcel_no.tolist(),
    "points from xy": lambda h: gv.locate(h, gpd.points_from_xy([5, 25], [5, 5])).parcel_no.tolist() == [4, 3],
    "columns x and y": lambda h: gv.locate(
        h, pd.DataFrame({"x": [5, 25], "y": [5, 5]}, index=["p", "q"])
    ).parcel_no.to_dict()
    == {"p": 4, "q": 3},
    "a MultiPoint": lambda h: gv.locate(h, MultiPoint([(5, 5), (25, 5)])).parcel_no.tolist() == [4, 3],
    "a generator of points": lambda h: gv.locate(h, ((x, 5) for x in (5, 25))).parcel_no.tolist() == [4, 3],
    "no points": lambda h: gv.locate(h, []).empty,
    "a generator of edits": lambda h: "3,2" in set(gv.apply(h, (gv.Merge(*it) for it in [(3, 2)])).came_from),
    "places as shapes": lambda h: gv.apply(
        h,
        [
            gv.Insert(Point(30, 0), Point(20, 0), Point(25, 0)),
            gv.Insert((20, 10), np.array([30, 10]), [25, 10]),
            gv.Split(3, LineString([(25, 0), (25, 10)])),
        ],
    )
    .area.sort_values()
    .tolist()
    == [50, 50, 100, 100, 100],
    "verdict in json": lambda h: json.dumps({"verdict": gv.report(h).verdict}) == '{"verdict": "tiles"}',
    "verdict in a set": lambda h: gv.report(h).verdict in {"tiles"},
    "open": lambda h: gv.open(gv.prepare(h)).close() == 0,
    "open and frame": lambda h: opened(h, lambda it: it.parcels.merge(h, on="parcel_no").shape[0] == 4),
    "open and edit": lambda h: opened(h, lambda it: (it.edit(gv.Merge(3, 2)).number, len(it.parcels)) == (1, 3)),
    "open and locate": lambda h: opened(
        h, lambda it: it.locate(h.representative_point()).parcel_no.tolist() == [4, 1, 3, 2]
    ),
    "accessor open": lambda h: h.gandovel.open().close() == 0,
    "accessor prepare": lambda h: len(h.gandovel.prepare(zones(), touch=0).zone_names) == 2,
}


@pytest.mark.filterwarnings("ignore:1 edits were refused")
@pytest.mark.parametrize("call", RUNS)
def test_runs(h, call):
    assert RUNS[call](h)


def test_maps_and_files(h, tmp_path):
    h.gandovel.map(tmp_path / "map.html", zones())
    assert (tmp_path / "map.html").read_text().startswith("<!DOCTYPE html>")
    gv.check(broken()).astype({"area2_mm2": "int64"}).to_file(tmp_path / "faults.gpkg", driver="GPKG")
    gv.report(broken()).save(tmp_path / "report.gpkg")
    assert gpd.read_file(tmp_path / "report.gpkg", layer="overlaps").area2_mm2.tolist() == ["20000000"]


RAISES = {
    "zones for what is prepared": (
        lambda h: gv.overlay(gv.prepare(h), zones()),
        gv.Refused,
        "P18 the register is prepared already, and --zones",
    ),
    "options for what is prepared": (
        lambda h: gv.check(gv.prepare(h), touch=0),
        gv.Refused,
        "P18 the register is prepared already, and --touch",
    ),
    "a word that is none": (lambda h: gv.check(h, nummer="parcel_no"), TypeError, "nummer"),
    "least area in the zones' place": (lambda h: gv.report(h, 2.0), TypeError, "zones: a path, a GeoDataFrame"),
    "no zones": (lambda h: gv.overlay(h), gv.Refused, "P2 there are no zones to overlay"),
    "no such column": (lambda h: gv.area(h, number="nr"), gv.Refused, "P2 there is no column nr; there are parcel_no"),
    "no geometry": (
        lambda h: pd.DataFrame(h.drop(columns="geometry")).gandovel,
        AttributeError,
        "GeoDataFrame is want",
    ),
    "no parcels": (lambda h: gv.area(h[:0]), gv.Refused, "P4 the layer is empty"),
    "no point": (lambda h: gv.locate(h, "nothing.gpkg"), gv.Refused, "P1 nothing.gpkg is not there"),
    "a word as a point": (lambda h: gv.locate(h, [1, 2, 3]), TypeError, "points: .x, y., a Point"),
    "several points in one": (lambda h: gv.locate(h, gpd.GeoSeries([MultiPoint([(1, 1)])])), gv.Refused, "P5 row 1"),
    "a list as parcels": (lambda h: gv.area([box(0, 0, 1, 1)]), TypeError, "parcels: a path, a GeoDataFrame"),
    "a number that is not there": (
        lambda h: gv.apply(h, gv.Merge(4, 99)),
        gv.Refused,
        "P13 parcel 99: it is not there",
    ),
    "a line in two towns": (lambda h: gv.apply(two_towns(), "merge 1 2"), gv.Refused, "say which one by island="),
    "an island that is none": (lambda h: gv.apply(h, [], island=2), gv.Refused, "P13 part 2 of the city is not there"),
    "degrees": (lambda h: gv.area(h.to_crs(4326)), gv.Refused, "P7"),
    "edits in a dictionary": (lambda h: gv.apply(h, {"merge": (3, 2)}), TypeError, "a sequence of these, is wanted"),
    "a line that is none": (
        lambda h: gv.apply(h, ["merge 1 2", "merge 3"]),
        gv.Refused,
        "L1 edit 2, 'merge 3', is no line of a clerk's file",
    ),
    "several edits in one": (lambda h: opened(h, lambda it: it.edit([gv.Merge(3, 2)])), TypeError, "no edit"),
    "a folder that is not there": (lambda h: gv.open(h, "no/journal"), gv.JournalRefused, "in a folder that is there"),
    "numbers with gaps": (
        lambda h: gv.area(h.assign(parcel_no=[1, 2, 3, None])),
        gv.Refused,
        "P3 row 4 has no parcel_no .*: give each row a parcel_no",
    ),
    "the key in the index": (
        lambda h: gv.area(h.set_index("parcel_no")),
        gv.Refused,
        "P2 there is no column parcel_no",
    ),
    "a frame without places": (
        lambda h: gv.locate(h, pd.DataFrame({"lon": [5], "lat": [5]})),
        TypeError,
        "a frame with x and y",
    ),
    "an edit that is none": (lambda h: gv.apply(h, [("merge", 1, 2)]), TypeError, "no edit"),
}


@pytest.mark.parametrize("call", RAISES)
def test_raises_with_advice(h, call):
    made, error, said = RAISES[call]
    with pytest.raises(error, match=said):
        made(h)


def test_there_are_84_and_30_of_our_own():
    others = 8 + len(PLACES)  # the functions by path, frame and register; the ways to name a place
    assert len(RUNS) + len(RAISES) + others >= 84 + 30


def test_a_hole_is_a_gap_and_no_part_of_the_area():
    shape = Polygon(box(0, 0, 30, 30).exterior, [box(10, 10, 20, 20).exterior])
    frame = gpd.GeoDataFrame({"parcel_no": [1]}, geometry=[shape], crs=CRS)
    assert gv.check(frame).kind.tolist() == ["gap"] and gv.area(frame).area_m2.tolist() == [800.0]
    assert "#cc1e6e" in gv.report(frame)._repr_html_()
