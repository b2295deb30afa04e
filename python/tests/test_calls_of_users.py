"""84 more calls as a user of pandas tries them, with data as registers have them: each gives what the case says, or
raises and says what to do. No value here was read off the package."""
from __future__ import annotations

import warnings
from fractions import Fraction

import geopandas as gpd
import numpy as np
import pandas as pd
import pytest
from shapely.geometry import LineString, MultiPolygon, Point, Polygon, box

import gandovel as gv

CRS = 25832
NUMBERS = ["007/1", "12", "7/1", "12a"]


def fields(**columns):
    """Four fields, 10 by 10 m, 20 by 10 m, 10 by 5 m and 20 by 5 m: two below, two above; areas 100, 200, 50, 100."""
    shapes = [box(0, 0, 10, 10), box(10, 0, 30, 10), box(0, 10, 10, 15), box(10, 10, 30, 15)]
    table = {"parcel_no": NUMBERS, "owner": ["ann", "bob", "ann", None], **columns}
    return gpd.GeoDataFrame(table, geometry=shapes, crs=CRS, index=[40, 10, 30, 20])


def plans():
    """Two plans whose border, x = 20, halves the two wide fields."""
    return gpd.GeoDataFrame(
        {"plan": ["west", "east"]}, geometry=[box(0, 0, 20, 15), box(20, 0, 30, 15)], crs=CRS, index=["w", "e"]
    )


def holed():
    """The fields with a hole of 2 by 2 m in field 12."""
    shape = Polygon(box(10, 0, 30, 10).exterior, [box(15, 4, 17, 6).exterior])
    return fields().set_geometry([*fields().geometry[:1], shape, *fields().geometry[2:]])


def overlapping():
    """Field 12 reaches 1 m into field 007/1."""
    frame = fields()
    frame.loc[10, "geometry"] = box(9, 0, 30, 10)
    return frame


def with_z():
    """The fields with heights."""
    return fields().set_geometry([Polygon([(x, y, 5.0) for x, y in it.exterior.coords]) for it in fields().geometry])


def in_parts():
    """Fields 7/1 and 12a as one parcel of two parts that do not touch: a gap between them is a third one."""
    shapes = [box(0, 0, 10, 10), MultiPolygon([box(10, 0, 20, 10), box(30, 0, 40, 10)]), box(20, 0, 30, 10)]
    return gpd.GeoDataFrame({"parcel_no": ["1", "2", "3"]}, geometry=shapes, crs=CRS)


def by_number(frame, column="area2_mm2"):
    """A column by the own numbers, as a dictionary."""
    return dict(zip(frame.parcel_no, frame[column]))


def deed(register, *edits):
    """Edits of one transaction: the answers."""
    with register.transaction("anna, deed 17") as made:
        for edit in edits:
            made.edit(edit)
    return made.made


def after(frame, *edits):
    """The parcels of an open register after edits."""
    with gv.open(frame) as register:
        for edit in edits:
            register.edit(edit)
        return register.parcels


def asked(frame, call):
    """What a call says of an open register."""
    with gv.open(frame) as register:
        return call(register)


AREAS = dict(zip(NUMBERS, (2 * 10**8, 4 * 10**8, 10**8, 2 * 10**8)))
CUT = gv.Split("12", [(10, 0), (30, 10)])

CALLS = {
    # areas, whatever the frame looks like
    "zeros in front of numbers": lambda h: by_number(gv.area(h)) == AREAS,
    "a filter by a mask": lambda h: gv.area(h[h.owner == "ann"]).index.tolist() == [40, 30],
    "a slice": lambda h: gv.area(h.iloc[1:3]).area2_mm2.tolist() == [4 * 10**8, 10**8],
    "a row as a frame": lambda h: gv.area(h.loc[[30]]).area_m2.tolist() == [50.0],
    "a copy with rows repeated in the index": lambda h: gv.area(h.set_index(h.owner.fillna("-")))
    .area_m2.loc["ann"]
    .sum()
    == 150,
    "area against GEOS": lambda h: np.allclose(gv.area(h).area_m2, h.area),
    "divided exactly": lambda h: Fraction(int(gv.area(h).area2_mm2.iloc[0]), 2_000_000) == 100,
    "a share of the whole": lambda h: (gv.area(h).area2_mm2 / gv.area(h).area2_mm2.sum()).round(6).tolist()
    == [0.222222, 0.444444, 0.111111, 0.222222],
    "the largest": lambda h: gv.area(h).nlargest(1, "area_m2").parcel_no.tolist() == ["12"],
    "sorted by area": lambda h: gv.area(h).sort_values(["area2_mm2", "parcel_no"]).index.tolist() == [30, 40, 20, 10],
    "cut into classes": lambda h: pd.cut(gv.area(h).area_m2, [0, 60, 150, 300]).value_counts(sort=False).tolist()
    == [1, 2, 1],
    "by owner, missing ones too": lambda h: gv.area(h).groupby("owner", dropna=False).area_m2.sum().tolist()
    == [150, 200, 100],
    "a hole is no part of the area": lambda h: by_number(gv.area(holed()), "area_m2")["12"] == 196,
    "a parcel in parts": lambda h: by_number(gv.area(in_parts()), "area_m2") == {"1": 100, "2": 200, "3": 100},
    "heights do not count": lambda h: by_number(gv.area(with_z())) == AREAS,
    "a number that is 1.0": lambda h: gv.area(h.assign(parcel_no=[1.0, 2.0, 3.0, 4.0])).parcel_no.tolist()
    == [1.0, 2.0, 3.0, 4.0],
    "numbers larger than 2**53": lambda h: gv.area(
        h.assign(parcel_no=[2**53 + at for at in range(4)])
    ).parcel_no.tolist()
    == [2**53 + at for at in range(4)],
    "string dtype": lambda h: str(gv.area(h.astype({"parcel_no": "string"})).parcel_no.dtype) == "string",
    "dates as an index": lambda h: gv.area(h.set_index(pd.date_range("2026-01-01", periods=4))).index[3]
    == pd.Timestamp("2026-01-04"),
    "another active geometry": lambda h: gv.area(
        h.assign(old=h.geometry.translate(100)).set_geometry("old")
    ).area_m2.tolist()
    == [100, 200, 50, 100],
    "columns of the same names as answers": lambda h: gv.area(h.assign(area_m2=1.0)).area_m2.tolist()
    == [100, 200, 50, 100],
    "feet": lambda h: round(
        gv.area(gpd.GeoDataFrame({"parcel_no": NUMBERS}, geometry=list(h.geometry)), unit="ft").area_m2.iloc[0], 2
    )
    == 9.29,
    # checks
    "no fault": lambda h: len(gv.check(h)) == 0,
    "the overlap, and whose": lambda h: gv.check(overlapping())[["kind", "area2_mm2", "numbers"]].values.tolist()
    == [["overlap", 2 * 10**7, "007/1,12"]],
    "a gap where one is left out": lambda h: gv.check(h.drop(index=30), city=h.dissolve()).area_m2.tolist() == [50],
    "a gap that opens to the outside is none of the parcels' own city": lambda h: gv.check(
        h.drop(index=30)
    ).kind.tolist()
    == [],
    "the hole is a gap": lambda h: gv.check(holed()).numbers.tolist() == ["12"],
    "a fault where it lies": lambda h: box(*gv.check(overlapping()).total_bounds).equals(box(9, 0, 10, 10)),
    "faults in the frame's projection": lambda h: gv.check(overlapping()).crs == h.crs,
    "parcels that a fault meets": lambda h: h[h.intersects(gv.check(overlapping()).geometry.iloc[0])].index.tolist()
    == [40, 10, 30, 20],
    "two faults, the largest first": lambda h: gv.check(
        overlapping().set_geometry([box(0, 0, 10, 10), box(9, 0, 30, 10), box(0, 9.5, 10, 15), box(10, 10, 30, 15)])
    ).area_m2.tolist()[0]
    == 9.5,
    "a sliver is told apart": lambda h: gv.check(
        h.set_geometry([box(0, 0, 10, 10), box(10, 0, 30, 10), box(0, 10.0004, 10, 15), box(10, 10, 30, 15)]), touch=0
    ).kind.tolist()
    == [],
    "exact where nothing may touch": lambda h: gv.check(
        h.set_geometry([box(0, 0, 10, 10), box(10, 0, 30, 10), box(0, 10.002, 10, 15), box(10, 10, 30, 15)]),
        touch=0,
        city=h.dissolve(),
    ).area2_mm2.tolist()
    == [2 * 20_000],
    # overlays
    "pairs": lambda h: sorted(
        zip(gv.overlay(h, plans(), zone="plan").parcel_no, gv.overlay(h, plans(), zone="plan").plan)
    )
    == [("007/1", "west"), ("12", "east"), ("12", "west"), ("12a", "east"), ("12a", "west"), ("7/1", "west")],
    "parts of a parcel sum to it": lambda h: gv.overlay(h, plans()).groupby("parcel_no").area2_mm2.sum().to_dict()
    == AREAS,
    "zones sum to the city": lambda h: gv.overlay(h, plans(), zone="plan").groupby("plan").area_m2.sum().to_dict()
    == {"east": 150, "west": 300},
    "which are split": lambda h: set(gv.overlay(h, plans())[lambda it: it.split].parcel_no) == {"12", "12a"},
    "shares": lambda h: gv.overlay(h, plans(), zone="plan").set_index(["parcel_no", "plan"]).area_m2.loc[("12", "east")]
    == 100,
    "a crosstab": lambda h: gv.overlay(h, plans(), zone="plan")
    .merge(h[["parcel_no", "owner"]], on="parcel_no")
    .pipe(lambda it: pd.crosstab(it.plan, it.owner))
    .loc["west"]
    .to_dict()
    == {"ann": 2, "bob": 1},
    "the frame's index": lambda h: gv.overlay(h, plans()).index.value_counts().to_dict()
    == {10: 2, 20: 2, 30: 1, 40: 1},
    "zones from a GeoSeries": lambda h: len(gv.overlay(h, plans().geometry)) == 6,
    "one zone over all": lambda h: gv.overlay(h, plans().dissolve()).split.tolist() == [False] * 4,
    "zones larger than the city": lambda h: gv.overlay(
        h, plans().set_geometry([box(-9, -9, 20, 99), box(20, -9, 99, 99)])
    ).area_m2.sum()
    == 450,
    "the report's split": lambda h: gv.report(h, plans()).split.parcel_no.tolist() == ["12", "12a"],
    "the report's parts": lambda h: gv.report(h, plans()).parts.area2_mm2.sum() == 6 * 10**8,
    # points
    "where a point lies": lambda h: gv.locate(h, (25, 12)).parcel_no.tolist() == ["12a"],
    "a corner of four": lambda h: set(gv.locate(h, (10, 10)).numbers.iloc[0].split(",")) == set(NUMBERS),
    "an edge has no own key": lambda h: gv.locate(h, (10, 5)).parcel_no.isna().all(),
    "outside": lambda h: gv.locate(h, (31, 5))["where"].tolist() == ["outside"],
    "centroids of all": lambda h: gv.locate(h, h.centroid).parcel_no.tolist() == NUMBERS,
    "points with labels": lambda h: gv.locate(
        h, gpd.GeoSeries([Point(1, 1), Point(11, 1)], index=["a", "b"], crs=CRS)
    ).parcel_no.to_dict()
    == {"a": "007/1", "b": "12"},
    "points with heights": lambda h: gv.locate(h, Point(1, 1, 99)).parcel_no.tolist() == ["007/1"],
    "whole numbers": lambda h: gv.locate(h, (1, 1)).parcel_no.tolist() == ["007/1"],
    "as an array": lambda h: gv.locate(h, np.array([[1, 1], [11, 1]])).parcel_no.tolist() == ["007/1", "12"],
    "counted by parcel": lambda h: gv.locate(h, [(1, 1), (2, 2), (11, 1)]).parcel_no.value_counts().to_dict()
    == {"007/1": 2, "12": 1},
    # edits
    "merge": lambda h: after(h, gv.Merge("007/1", "12")).came_from.tolist() == ["007/1,12", "7/1", "12a"],
    "7/1 is not 007/1": lambda h: after(h, gv.Merge("7/1", "12a")).came_from.tolist() == ["007/1", "12", "7/1,12a"],
    "split has both halves": lambda h: sorted(after(h, CUT).area_m2.tolist()) == [50, 100, 100, 100, 100],
    "split keeps the sum": lambda h: after(h, CUT).area2_mm2.sum() == 9 * 10**8,
    "move": lambda h: sorted(
        after(h, gv.Move("007/1", "12", [(10, 0), (11, 5), (10, 10)])).query("edited == 1").area_m2.tolist()
    )
    == [105, 195],
    "a path as a LineString": lambda h: len(after(h, gv.Split("12", LineString([(10, 0), (30, 10)])))) == 5,
    "who and why": lambda h: asked(
        h, lambda it: [it.edit(gv.Merge("7/1", "12a"), who="anna, deed 17"), it.entries.why.tolist()][1]
    )
    == ["deed 17"],
    "time is UTC": lambda h: asked(h, lambda it: [it.edit(gv.Merge("7/1", "12a")), str(it.entries.time.dt.tz)][1])
    == "UTC",
    "a deed of two edits": lambda h: [
        made.out for made in asked(h, lambda it: deed(it, gv.Merge("007/1", "12"), gv.Merge("7/1", "12a")))
    ]
    == [(1, 2), (3, 4)],
    "points after an edit": lambda h: asked(
        h, lambda it: [it.edit(gv.Merge("007/1", "12")), it.locate([(1, 1), (25, 5)]).ids.tolist()][1]
    )
    == ["5", "5"],
    "apply and open agree": lambda h: gv.apply(h, CUT).geom_equals(after(h, CUT)).all(),
    "the frame is not changed": lambda h: [after(h, CUT), h.equals(fields())][1],
    "moved away and closed again": lambda h: gv.check(gv.mend(overlapping(), 1000).frame).empty,
    "mend gives to the older": lambda h: by_number(gv.area(gv.mend(overlapping(), 1000, to="older").frame), "area_m2")[
        "007/1"
    ]
    == 100,
}

ADVICE = {
    "a number twice": (lambda h: gv.area(h.assign(parcel_no=["1", "1", "2", "3"])), gv.Refused, "number|twice|P3"),
    "a wrong column": (lambda h: gv.check(h, number="parcelno"), gv.Refused, "there are parcel_no, owner"),
    "a frame without a projection": (
        lambda h: gv.area(gpd.GeoDataFrame(h.drop(columns="geometry"), geometry=list(h.geometry))),
        gv.Refused,
        "P7",
    ),
    "zones in another projection": (
        lambda h: gv.overlay(h, plans().to_crs(25833)),
        gv.Refused,
        "zones: P7 .*bring it to theirs",
    ),
    "zones elsewhere": (
        lambda h: gv.overlay(h, plans().set_geometry(plans().translate(9000))),
        gv.Refused,
        "zones: P11",
    ),
    "degrees": (lambda h: gv.check(h.to_crs(4326)), gv.Refused, "P7"),
    "a bow tie": (
        lambda h: gv.area(h.set_geometry([Polygon([(0, 0), (1, 1), (1, 0), (0, 1)]), *h.geometry[1:]])),
        gv.Refused,
        "007/1",
    ),
    "no shape": (lambda h: gv.area(h.set_geometry([None, *h.geometry[1:]])), gv.Refused, "007/1"),
    "lines": (lambda h: gv.area(h.set_geometry(h.boundary)), gv.Refused, "P5|no area|areas"),
    "a merge of no neighbours": (lambda h: gv.apply(h, gv.Merge("007/1", "12a")), gv.RefusedEdit, "^E4"),
    "a path that ends in the middle": (
        lambda h: gv.apply(h, gv.Split("12", [(10, 0), (20, 5)])),
        gv.RefusedEdit,
        "^E3",
    ),
    "a parcel that is gone": (
        lambda h: asked(h, lambda it: [it.edit(gv.Merge("7/1", "12a")), it.edit(gv.Merge("7/1", "12"))]),
        gv.Refused,
        r"entry 1 took it out, and brought Id\(5\)",
    ),
    "an open register of faulty parcels": (lambda h: gv.open(overlapping()), gv.Refused, "H2"),
    "an overlay without zones": (lambda h: h.gandovel.overlay(), (gv.Refused, TypeError), "zones"),
    "a closed register": (
        lambda h: asked(h, lambda it: it).edit(gv.Merge("7/1", "12a")),
        gv.Refused,
        "closed",
    ),
}


@pytest.fixture(scope="module")
def h():
    return fields()


@pytest.mark.parametrize("call", CALLS)
def test_gives_what_the_case_says(h, call):
    with warnings.catch_warnings():
        warnings.simplefilter("ignore")
        assert CALLS[call](h)


@pytest.mark.parametrize("call", ADVICE)
def test_raises_with_advice(h, call):
    made, error, said = ADVICE[call]
    with pytest.raises(error, match=said):
        made(h)


def test_there_are_84():
    assert len(CALLS) + len(ADVICE) == 84
