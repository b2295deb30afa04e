"""Arcs: the same chords for both neighbours, however each has digitised the arc."""
from __future__ import annotations

import math

import geopandas as gpd
import numpy as np
import pytest

import gandovel as gv
from gandovel.reading.sources import read_layer

ogr = pytest.importorskip("osgeo.ogr")
EAST, NORTH = 561_000.0, 5_934_000.0


def layer(path, texts, kind=None):
    """A layer of shapes by their texts, whose coordinates are metres from the south-west."""
    from osgeo import osr

    made = ogr.GetDriverByName("GPKG").CreateDataSource(str(path))
    system = osr.SpatialReference()
    system.ImportFromEPSG(25832)
    plots = made.CreateLayer("plots", system, ogr.wkbUnknown if kind is None else kind)
    plots.CreateField(ogr.FieldDefn("parcel_no", ogr.OFTString))
    for number, text in texts.items():
        feature = ogr.Feature(plots.GetLayerDefn())
        feature["parcel_no"] = number
        feature.SetGeometry(ogr.CreateGeometryFromWkt(text))
        plots.CreateFeature(feature)
    return path


def points(*places):
    """Corners as a text of a shape has them."""
    return ", ".join(f"{EAST + x!r} {NORTH + y!r}" for x, y in places)


def on_arc(share):
    """A place on the arc from (10, 0) by (12, 5) to (10, 10), to the centimetre."""
    radius = 7.25
    angle = math.asin(5 / radius) * (2 * share - 1)
    return round(12 - radius + radius * math.cos(angle), 2), round(5 + radius * math.sin(angle), 2)


def left(*arcs):
    """The parcel to the left of the arc, which is in pieces."""
    sides = ", ".join(f"CIRCULARSTRING ({points(*arc)})" for arc in arcs)
    return f"CURVEPOLYGON (COMPOUNDCURVE (({points((10, 10), (0, 10), (0, 0), (10, 0))}), {sides}))"


def right(*arcs):
    """The parcel to its right."""
    sides = ", ".join(f"CIRCULARSTRING ({points(*arc)})" for arc in arcs)
    return f"CURVEPOLYGON (COMPOUNDCURVE (({points((10, 0), (30, 0), (30, 10), (10, 10))}), {sides}))"


SAME = {
    "the other way": [((10, 10), (12, 5), (10, 0))],
    "by another middle": [((10, 10), on_arc(0.7), (10, 0))],
    "in two pieces": [((10, 10), on_arc(0.8), on_arc(0.6)), (on_arc(0.6), on_arc(0.2), (10, 0))],
    "in one string of three": [((10, 10), on_arc(0.9), on_arc(0.8), on_arc(0.7), on_arc(0.5), on_arc(0.3), (10, 0))],
}


@pytest.mark.parametrize("kind", [None, ogr.wkbCurvePolygon])
@pytest.mark.parametrize("how", SAME)
def test_both_neighbours_have_the_same_chords(how, kind, tmp_path):
    """Also where corners are compared exactly."""
    texts = {"left": left(((10, 0), (12, 5), (10, 10))), "right": right(*SAME[how])}
    path = layer(tmp_path / "plots.gpkg", texts, kind)
    report = gv.report(gv.prepare(path, touch=0))
    assert report.verdict == "tiles", report.summary()
    one, other = (set(shape.exterior.coords) for shape in read_layer(path, "parcels").geometry)
    assert len(one & other) == len(one) - 2 == len(other) - 2
    assert report.basis.curves[0]["arcs"] == 1 + sum((len(arc) - 1) // 2 for arc in SAME[how])
    assert f"{report.basis.curves[0]['arcs']} arcs read as " in report.basis.line()


def test_chords_are_off_their_arc_by_a_tenth_of_the_grid(tmp_path):
    texts = {"left": left(((10, 0), (12, 5), (10, 10))), "right": right(*SAME["by another middle"])}
    shape = read_layer(layer(tmp_path / "plots.gpkg", texts), "parcels").geometry[0]
    corners = np.array(shape.exterior.coords) - (EAST, NORTH)
    corners = corners[corners[:, 0] >= 10][1:]
    off = np.abs(np.hypot(*(corners - (4.75, 5)).T) - 7.25)
    middles = (corners[1:] + corners[:-1]) / 2
    assert off.max() < 1e-6 and len(corners) > 20
    assert (7.25 - np.hypot(*(middles - (4.75, 5)).T)).max() <= 0.1 * 0.01


def test_a_circle_within_a_parcel(tmp_path):
    """The one has it as one arc, that ends where it starts, the other as two."""
    circle = f"CURVEPOLYGON (CIRCULARSTRING ({points((12, 10), (8, 10), (12, 10))}))"
    hole = f"CIRCULARSTRING ({points((10, 12), (8, 10), (10, 8), (12, 10), (10, 12))})"
    square = points((0, 0), (20, 0), (20, 20), (0, 20), (0, 0))
    texts = {"island": circle, "road": f"CURVEPOLYGON (({square}), {hole})"}
    report = gv.report(gv.prepare(layer(tmp_path / "plots.gpkg", texts), touch=0))
    assert report.verdict == "tiles", report.summary()


def test_a_city_whose_outline_is_the_arc_of_two_parcels(tmp_path):
    cut = on_arc(0.5)
    low, high = points((10, 0), on_arc(0.2), cut), points(cut, on_arc(0.7), (10, 10))
    before, after = points((0, 5), (0, 0), (10, 0)), points((10, 10), (0, 10))
    lower = f"CURVEPOLYGON (COMPOUNDCURVE (({before}), CIRCULARSTRING ({low}), ({points(cut, (0, 5))})))"
    sides = points((0, 10), (0, 5), cut)
    upper = f"CURVEPOLYGON (COMPOUNDCURVE (({sides}), CIRCULARSTRING ({high}), ({after})))"
    parcels = layer(tmp_path / "plots.gpkg", {"lower": lower, "upper": upper})
    city = layer(tmp_path / "city.gpkg", {"city": left(((10, 0), on_arc(0.4), (10, 10)))})
    report = gv.report(gv.prepare(parcels, city=city, grid=10))
    assert report.verdict == "tiles", report.summary()
    assert [one["layer"] for one in report.basis.curves] == ["parcels", "city"]


def test_a_neighbour_with_chords_of_its_own_is_a_fault(tmp_path):
    """What it has in place of the arc is 2 cm off it."""
    chords = [on_arc(share) for share in (0.75, 0.5, 0.25)]
    ring = points((10, 0), (30, 0), (30, 10), (10, 10), *chords, (10, 0))
    texts = {"left": left(((10, 0), (12, 5), (10, 10))), "right": f"POLYGON (({ring}))"}
    report = gv.report(gv.prepare(layer(tmp_path / "plots.gpkg", texts)))
    assert report.verdict == "does not tile" and set(report.faults().kind) == {"overlap"}


def test_an_arc_on_a_straight_line_is_a_side(tmp_path):
    texts = {"left": left(((10, 0), (10, 4), (10, 10))), "right": right(((10, 10), (10, 5), (10, 0)))}
    frame = read_layer(layer(tmp_path / "plots.gpkg", texts), "parcels")
    assert [len(shape.exterior.coords) for shape in frame.geometry] == [5, 5]
    assert isinstance(frame, gpd.GeoDataFrame) and gv.report(gv.prepare(frame)).verdict == "tiles"


def test_several_parts_and_rows_without_a_shape_or_a_curve(tmp_path):
    two = f"MULTISURFACE ({left(((10, 0), (12, 5), (10, 10)))}, (({points((40, 0), (50, 0), (50, 10), (40, 0))})))"
    texts = {
        "two": two,
        "right": right(*SAME["in two pieces"]),
        "plain": f"POLYGON (({points((50, 0), (60, 0), (50, 10), (50, 0))}))",
    }
    frame = read_layer(layer(tmp_path / "plots.gpkg", texts), "parcels")
    assert frame.parcel_no.tolist() == ["two", "right", "plain"]
    assert [shape.geom_type for shape in frame.geometry] == ["MultiPolygon", "Polygon", "Polygon"]
    assert frame.geometry[0].is_valid and len(frame.geometry[0].geoms[0].exterior.coords) > 20


HOSTILE = {
    "flat": "CURVEPOLYGON (COMPOUNDCURVE (CIRCULARSTRING ({0}), ({1})))",
    "to itself": "CURVEPOLYGON (CIRCULARSTRING ({2}))",
}


@pytest.mark.parametrize("name", HOSTILE)
def test_what_is_no_shape_is_refused_by_its_number(name, tmp_path):
    there = points((0, 0), (5, 0), (10, 0)), points((10, 0), (0, 0)), points((3, 3), (3, 3), (3, 3))
    plain = f"POLYGON (({points((50, 0), (60, 0), (50, 10), (50, 0))}))"
    path = layer(tmp_path / "plots.gpkg", {"odd": HOSTILE[name].format(*there), "plain": plain})
    with pytest.raises(gv.Refused, match="P[456] .*odd"):
        gv.prepare(path)
    assert gv.prepare(path, skip_invalid=True).told["city"] == "parcels"
