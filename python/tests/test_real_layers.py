"""Real layers, read from Debian's packages, and what Shapely alone says of them."""
from __future__ import annotations

import os
from pathlib import Path

import geopandas as gpd
import numpy as np
import pytest
from shapely.geometry import Polygon
from shapely.ops import transform, unary_union
from shapely.strtree import STRtree

import gandovel as gv

SF = Path("/usr/lib/R/site-library/sf")
SPDATA = Path("/usr/lib/R/site-library/spData/shapes")


def rounded(frame, decimals):
    """The layer with its coordinates rounded."""
    shapes = [transform(lambda x, y: (np.round(x, decimals), np.round(y, decimals)), shape) for shape in frame.geometry]
    return gpd.GeoDataFrame(frame.drop(columns="geometry"), geometry=shapes, crs=frame.crs)


def test_olinda_in_centimetres_tiles():
    tracts = gpd.read_file(SF / "shape/olinda1.shp").to_crs(31985)
    prepared = gv.prepare(rounded(tracts, 2), number="ID")
    assert len(prepared.numbers) == 470 and prepared.told["moved"] == prepared.told["gathered"] == 0
    assert prepared.told["largest_off"] == 0 and prepared.told["grid_mm"] == 10
    assert len(gv.check(prepared)) == 0


def test_the_counties_lie_on_six_islands():
    counties = gpd.read_file(SF / "gpkg/nc.gpkg").to_crs(32119)
    prepared = gv.prepare(counties, number="FIPS")
    assert len(prepared.numbers) == 100 and len(prepared.islands) == 6
    assert 0 < prepared.told["largest_move"] <= 0.7072 and prepared.told["moved"] > 0
    assert len(gv.check(prepared)) == 0


def test_the_counties_in_degrees_are_refused():
    with pytest.raises(gv.Refused, match="P7 .*degrees"):
        gv.prepare(gpd.read_file(SF / "gpkg/nc.gpkg"), number="FIPS")


REAL = {
    "north carolina": (SF / "gpkg/nc.gpkg", 32119, None),
    "olinda": (SF / "shape/olinda1.shp", 31985, None),
    "boston": (SPDATA / "boston_tracts.shp", 26986, None),
    "wheat": (SPDATA / "wheat.shp", None, "m"),
    "columbus": (SPDATA / "columbus.shp", None, "km"),
}
"""Where a layer is, the projection to bring it to, and the unit where it has none."""


@pytest.mark.parametrize("decimals", [None, 2])
@pytest.mark.parametrize("name", REAL)
def test_gaps_and_overlaps_are_those_that_shapely_finds(name, decimals):
    path, crs, unit = REAL[name]
    frame = gpd.read_file(path)
    frame.crs = None if crs is None else frame.crs
    frame = frame if crs is None else frame.to_crs(crs)
    frame = frame if decimals is None or unit == "km" else rounded(frame, decimals)
    prepared = gv.prepare(frame, number="ROW", unit=unit)
    report = gv.report(prepared)
    width = max(prepared.told["touch"], 1.42) / prepared.scale
    found = [[shape for shape in layer.geometry if is_wide(shape, width)] for layer in (report.gaps, report.overlaps)]
    assert tuple(map(len, found)) == tuple(map(len, shapely_says(frame, width)))


@pytest.mark.parametrize("name", ["wheat", "columbus"])
def test_layers_that_name_no_projection_are_refused(name):
    frame = gpd.read_file(REAL[name][0])
    frame.crs = None
    with pytest.raises(gv.Refused, match="P7 the layer names no projection"):
        gv.prepare(frame, number="ROW")


@pytest.mark.skipif(not os.environ.get("GANDOVEL_LONG"), reason="it takes more than half a minute: GANDOVEL_LONG=1")
def test_new_york_in_feet_with_a_ring_of_8876_corners():
    boroughs = gpd.read_file(gpd.datasets.get_path("nybb"))
    prepared = gv.prepare(boroughs, number="BoroCode")
    rings = [ring for island in prepared.islands for ring in island.parcels.rings]
    assert max(map(len, rings)) <= 4096
    assert max(len(shape.exterior.coords) for part in boroughs.geometry for shape in part.geoms) > 8000
    assert abs(prepared.scale - 1_200_000 / 3937) < 1e-9
    report = gv.report(prepared)
    expected = shapely_says(boroughs, max(prepared.told["touch"], 1.42) / prepared.scale)
    assert (len(report.gaps), len(report.overlaps)) == tuple(map(len, expected))
    exact = gv.area(prepared)
    assert np.allclose(exact.area_m2, boroughs.area * (1200 / 3937) ** 2, rtol=1e-6)


def shapely_says(frame, width):
    """The gaps (holes of the union) and the overlaps (of two shapes) that are wider than `width`, by Shapely alone."""
    shapes = list(frame.geometry)
    gaps = [Polygon(ring) for part in polygons_of(unary_union(shapes)) for ring in part.interiors]
    tree, position = STRtree(shapes), {id(shape): at for at, shape in enumerate(shapes)}
    pairs = [
        (shape, other) for shape in shapes for other in tree.query(shape) if position[id(other)] > position[id(shape)]
    ]
    overlaps = [part for one, other in pairs for part in polygons_of(one.intersection(other))]
    return [gap for gap in gaps if is_wide(gap, width)], [overlap for overlap in overlaps if is_wide(overlap, width)]


def is_wide(shape, width):
    """Whether a shape is somewhere wider than `width`."""
    return not shape.buffer(-width / 2).is_empty


def polygons_of(shape):
    """The polygons among the parts of a shape."""
    return [part for part in getattr(shape, "geoms", [shape]) if part.geom_type == "Polygon" and not part.is_empty]
