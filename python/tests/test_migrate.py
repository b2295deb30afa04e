"""The template for INSPIRE: what it writes is read by GDAL with the same shapes and numbers, and what it refuses."""
from __future__ import annotations

import subprocess
import sys
from pathlib import Path
from xml.etree import ElementTree

import geopandas as gpd
import pytest
from shapely.geometry import box

pytest.importorskip("osgeo")
SCRIPT = Path(__file__).resolve().parents[2] / "examples/inspire/parcels_to_gml.py"
CP, GML = "{http://inspire.ec.europa.eu/schemas/cp/4.0}", "{http://www.opengis.net/gml/3.2}"
ORDER = ["areaValue", "beginLifespanVersion", "geometry", "inspireId", "label", "nationalCadastralReference"]
"""The elements in the order of the schema's type."""


def written(folder, frame, column="parcel_no"):
    frame.to_file(folder / "parcels.gpkg", driver="GPKG")
    words = [sys.executable, str(SCRIPT), str(folder / "parcels.gpkg"), column, "XX & co", str(folder / "out.gml")]
    return subprocess.run(words, capture_output=True, text=True, check=False)


def parcels(crs, numbers=("12-3/4", "<5> & 6")):
    shapes = [box(561000, 5934000, 561050.12, 5934040.5), box(561050.12, 5934000, 561100, 5934040.123)]
    return gpd.GeoDataFrame({"parcel_no": list(numbers)}, geometry=shapes, crs=crs)


@pytest.mark.parametrize("crs, east_first", [(25832, True), (31467, False)])
def test_gdal_reads_what_is_written(crs, east_first, tmp_path):
    """Shapes and numbers are the same, also where the projection's first axis goes to the north."""
    frame = parcels(crs)
    ran = written(tmp_path, frame)
    assert ran.returncode == 0, ran.stderr
    there = gpd.read_file(tmp_path / "out.gml")
    assert list(there["nationalCadastralReference"]) == list(frame["parcel_no"]) and there.crs.to_epsg() == crs
    assert all(a.equals(b) for a, b in zip(there.geometry, frame.geometry))
    tree = ElementTree.parse(tmp_path / "out.gml")
    (first, _) = tree.iter(f"{CP}CadastralParcel")
    assert [it.tag for it in first] == [f"{CP}{name}" for name in ORDER]
    assert first.find(f"{CP}areaValue").text == "2029.8600" and first.find(f"{CP}areaValue").get("uom") == "m2"
    corner = next(tree.iter(f"{GML}posList")).text.split()[:2]
    assert (float(corner[0]) < float(corner[1])) == east_first
    identifiers = [it.get(f"{GML}id") for it in tree.iter() if it.get(f"{GML}id")]
    assert len(set(identifiers)) == len(identifiers) == 4


def test_what_can_not_be_written_is_refused_by_name(tmp_path):
    assert "has no column number" in written(tmp_path, parcels(25832), "number").stderr
    assert "row 2 has no parcel_no" in written(tmp_path, parcels(25832, ("1", None))).stderr
    assert "no projection with an EPSG code" in written(tmp_path, parcels(None)).stderr
