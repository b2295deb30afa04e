"""The register of 202 parcels: two commands, no line of code, exactly the three planted faults."""
from __future__ import annotations

import csv
import os
import sqlite3
import subprocess
import sys
from contextlib import closing
from pathlib import Path

import geopandas as gpd
import numpy as np
import pytest
import shapefile
from shapely.geometry import Point, Polygon

import gandovel as gv
from registers import GAP, LARGE_OVERLAP, SMALL_OVERLAP, register

RUN = [sys.executable, "-m", "gandovel"]
SOURCES = Path(__file__).resolve().parents[1] / "src"


def command(*words, cwd):
    """Runs `gandovel` in a folder; what it printed and its status."""
    path = os.pathsep.join([str(SOURCES), os.environ.get("PYTHONPATH", "")])
    return subprocess.run(
        [*RUN, *map(str, words)],
        cwd=cwd,
        stdout=subprocess.PIPE,
        stderr=subprocess.PIPE,
        text=True,
        env={**os.environ, "PYTHONPATH": path},
    )


@pytest.fixture(scope="module")
def folder(tmp_path_factory):
    """A folder with the layers, prepared and reported by the two commands."""
    place = tmp_path_factory.mktemp("register")
    for name, frame in zip(("parcels", "zones"), register()):
        frame.to_file(place / f"{name}.gpkg", driver="GPKG")
    layers = ("parcels.gpkg", "--zones", "zones.gpkg", "--number", "parcel_no")
    one = command("prepare", *layers, "--out", "work", cwd=place)
    assert one.returncode == 0, one.stderr
    assert one.stdout.startswith("202 parcels -> 226 rings (24 more for holes and parts); ")
    two = command("report", "work", "--out", "report.gpkg", cwd=place)
    assert two.returncode == 1, two.stderr
    (place / "prepared.txt").write_text(one.stdout)
    (place / "said.txt").write_text(two.stdout)
    return place


def test_exactly_the_three_faults(folder):
    basis, said = (folder / "said.txt").read_text().splitlines()
    assert basis.startswith("no grid, and no noise; corners are compared exactly; ")
    assert said.startswith("1 gap (7.09 m2), 2 overlaps (762.27 m2, 0.46 m2); ")
    gaps, overlaps = (gpd.read_file(folder / "report.gpkg", layer=name) for name in ("gaps", "overlaps"))
    assert abs(gaps.area_m2.iloc[0] - GAP) < 0.01
    assert np.allclose(sorted(overlaps.area_m2), [SMALL_OVERLAP, LARGE_OVERLAP], atol=0.01)
    assert "3/3" in gaps.numbers.iloc[0].split(",")
    assert "4/10,4/11" in list(overlaps.numbers)
    for frame in (gaps, overlaps):
        assert np.allclose(frame.area, frame.area2_mm2.astype(float) / 2e6, atol=1e-5)


def test_rows_say_what_each_record_is(folder):
    rows = list(csv.DictReader(open(folder / "work/rows.csv", newline="")))
    assert list(rows[0]) == ["record", "parcel_no", "FID", "part"]
    assert len(rows) == len(shapefile.Reader(str(folder / "work/parcels.shp")).shapes()) == 226
    road = register()[0].parcel_no.iloc[-1]
    assert sum(row["parcel_no"] == road for row in rows) == 21
    assert len({row["parcel_no"] for row in rows}) == 202


def test_the_areas_of_parts_make_up_their_parcels(folder):
    lines = list(csv.DictReader(open(folder / "split.csv", newline="")))
    assert lines and all(line["areas"] == "measured" for line in lines)
    split = gpd.read_file(folder / "report.gpkg", layer="split").set_index("number")
    for number in split.index:
        parts = [line for line in lines if line["parcel_no"] == number]
        assert [line["zone"] for line in parts] == split.zones[number].split(",")
        assert abs(sum(float(line["share"]) for line in parts) - 1) < 1e-5
        assert abs(sum(float(line["area_m2"]) for line in parts) - split.geometry[number].area) < 0.3


def test_split_parcels_are_those_that_shapely_finds(folder):
    parcels, zones = register()
    split = set(gpd.read_file(folder / "report.gpkg", layer="split").number)
    clear = {}
    for number, shape in zip(parcels.parcel_no, parcels.geometry):
        areas = [area for area in (shape.intersection(zone).area for zone in zones.geometry) if area > 0]
        if min(areas) > 0.05 or len(areas) == 1:
            clear[number] = len(areas) > 1
    assert len(clear) > 195
    assert {number for number in clear if number in split} == {number for number in clear if clear[number]}


def test_the_report_has_what_a_gis_wants(folder):
    parcels = gpd.read_file(folder / "report.gpkg", layer="parcels")
    assert list(parcels.columns) == ["number", "records", "status", "use", "geometry"]
    assert parcels.crs.to_epsg() == 25832 and parcels.number.is_unique and len(parcels) == 202
    assert set(parcels.status) == {"ok", "split", "gap", "overlap"}
    zones = gpd.read_file(folder / "report.gpkg", layer="zones")
    assert list(zones.height) == [9.5, 12.0, 20.0]
    styles = gpd.read_file(folder / "report.gpkg", layer="layer_styles")
    assert {"gaps", "overlaps", "split", "parcels"} <= set(styles.f_table_name)
    assert all("renderer-v2" in style for style in styles.styleQML)


def test_changes_are_told(folder):
    changes = gpd.read_file(folder / "work/changes.gpkg")
    assert set(changes.change) == {"moved", "put in"} and set(changes.distance_how) == {"measured"}
    moved, put_in = (changes[changes.change == change] for change in ("moved", "put in"))
    assert 0.5 < moved.distance_mm.max() <= 0.7072 and 0 < put_in.distance_mm.max() < 1e-5
    there = np.column_stack([moved.geometry.x, moved.geometry.y]) * 1000
    assert np.allclose(np.hypot(*(there - moved[["x_mm", "y_mm"]].values).T), moved.distance_mm, atol=1e-4)
    said = (folder / "prepared.txt").read_text()
    assert f"; {len(put_in)} corners put in, at most {put_in.distance_mm.max():.0e} mm off (measured); " in said
    assert f"; {len(moved)} corners moved, at most {moved.distance_mm.max():.2f} mm (measured); " in said


def test_a_corner_that_is_made_to_touch_is_told():
    left = Polygon([(0, 0), (10, 0), (10, 10), (0, 10)])
    right = Polygon([(10, 0), (20, 0), (20, 10), (10, 10), (10.0004, 5)])
    layer = gpd.GeoDataFrame({"parcel_no": ["left", "right"]}, geometry=[left, right], crs=25832)
    apart, touched = gv.prepare(layer), gv.prepare(layer, touch=0.5)
    assert (apart.told["touched"], apart.told["put_in"], apart.told["largest_off"]) == (0, 1, 0)
    assert (touched.told["touched"], touched.told["put_in"], touched.told["moved"]) == (1, 0, 1)
    assert abs(touched.told["largest_touch"] - 0.4) < 1e-6 and abs(touched.told["largest_move"] - 0.4) < 1e-6
    assert abs(touched.told["closed_m2"] - 0.0004 * 10 / 2) < 1e-9
    said = "; 1 corner made to touch a border, at most 0.40 mm off (measured), which closed 0.00 m2 (measured); "
    assert said in touched.summary() and touched.summary().endswith("; 1 corner moved, at most 0.40 mm (measured)")
    rows = touched.changes_frame()
    assert list(zip(rows.change, rows.number)) == [("touched", "left"), ("moved", "left")]
    assert np.allclose(rows.distance_mm, 0.4) and set(rows.distance_how) == {"measured"}
    assert list(zip(rows.x_mm, rows.y_mm)) == [(10_000, 5_000)] * 2


def test_a_corner_that_differs_by_noise_is_told():
    east = 561234.5
    left = Polygon([(0, 0), (east, 0), (east, 10), (0, 10)])
    after = np.nextafter(east, np.inf)
    right = Polygon([(east, 0), (east + 10, 0), (east + 10, 10), (after, 10)])
    layer = gpd.GeoDataFrame({"parcel_no": ["left", "right"]}, geometry=[left, right], crs=25832)
    prepared = gv.prepare(layer)
    assert prepared.told["gathered"] == 1 and 0 < prepared.told["largest_gathered"] < 1e-6
    assert "; 1 corner made one with others, at most 1e-07 mm off (measured)" in prepared.summary()
    rows = prepared.changes_frame()
    assert list(zip(rows.change, rows.number)) == [("gathered", "right")]


MEASURED = {
    "open_gaps": "numbers",
    "split": "sliver",
    "split_parts": "area_m2, share, sliver",
    "changes": "distance_mm",
}


def test_layers_say_what_is_measured(folder):
    told = command("report", "parcels.gpkg", "--zones", "zones.gpkg", "--out", "at_once.gpkg", cwd=folder)
    assert told.stdout == (folder / "prepared.txt").read_text() + (folder / "said.txt").read_text()
    with closing(sqlite3.connect(folder / "at_once.gpkg")) as connection:
        notes = dict(connection.execute("SELECT table_name, description FROM gpkg_contents"))
    assert {"parcels", "zones", "gaps", *MEASURED} <= set(notes)
    for name, columns in MEASURED.items():
        _, measured, rest = notes[name].partition("easured")
        assert measured and columns in rest, name
    for name in ("gaps", "overlaps", "beyond"):
        assert "easured" not in notes[name] and "Exact" in notes[name], name
    layers = {name: gpd.read_file(folder / "at_once.gpkg", layer=name) for name in notes if name != "layer_styles"}
    for name in ("gaps", "overlaps"):
        rows = layers[name]
        assert set(rows.numbers_how) == {"exact"} and set(rows.area_how) <= {"exact", "within 1"}
        apart = rows.area2_most_mm2.astype(int) - rows.area2_mm2.astype(int)
        assert [how == "within 1" for how in rows.area_how] == (apart == 1).tolist() and set(apart) <= {0, 1}
    assert set(layers["split"].sliver_how) == set(layers["split_parts"].area_how) == {"measured"}
    assert len(layers["changes"]) == len(gpd.read_file(folder / "work/changes.gpkg"))


def test_the_layers_themselves_are_reported_at_once(folder):
    told = command("report", "parcels.gpkg", "--zones", "zones.gpkg", "--frame", "--out", "framed.gpkg", cwd=folder)
    assert told.returncode == 1, told.stderr
    prepared, basis, found = told.stdout.splitlines()
    assert prepared.startswith("202 parcels -> 226 rings ") and basis.startswith("no grid, ")
    assert found.startswith("1 gap (7.09 m2), 2 overlaps (762.27 m2, 0.46 m2); ")
    assert "OUT" not in set(gpd.read_file(folder / "framed.gpkg", layer="parcels").number)


def test_without_faults_all_tiles(whole):
    assert len(gv.check(whole)) == 0
    assert gv.report(whole).summary().startswith("no gaps, no overlaps; ")


def test_what_comes_back_has_each_attribute_once(whole):
    parcels = register(faults=False)[0]
    frame = gv.back(whole, whole.islands[0].parcels.rings)
    assert list(frame.columns) == ["parcel_no", "use", "came_from", "edited", "geometry"]
    assert list(frame.parcel_no) == list(parcels.parcel_no) and not frame.edited.any()
    assert (frame.geom_type == parcels.geom_type).all()
    assert [len(shape.interiors) for shape in frame.geometry if shape.geom_type == "Polygon"].count(20) == 1
    assert frame.geometry.is_valid.all() and frame.geometry.symmetric_difference(parcels.geometry).area.max() < 2


def test_edits_carry_the_numbers_of_those_they_came_from(whole):
    edits = [gv.Merge("1/1", "1/2"), gv.Merge("1/1", "1/3")]
    with pytest.raises(gv.RefusedEdit, match="^E2 1 1: edit 2, Merge"):
        gv.apply(whole, edits)
    with pytest.warns(UserWarning, match="1 edits were refused: E2"):
        frame = gv.apply(whole, edits, refused="keep")
    assert [answer.split()[0] for answer in frame.attrs["answers"]] == ["ok", "refused"]
    edited = frame[frame.edited == 1]
    assert list(edited.came_from) == ["1/1,1/2"] and len(frame) == 201


def test_a_corner_that_is_taken_out_is_given_in_millimetres(whole):
    from gandovel.program.edits import lines_of

    scale = int(whole.scale)
    assert lines_of(whole, [gv.Straighten((30.0, 0.5))]) == [f"straighten {30 * scale} {scale // 2}"]


def test_back_from_an_export(whole, tmp_path):
    whole.save(tmp_path / "work")
    (tmp_path / "edits.txt").write_text("merge 1 2\n")
    from gandovel.program.tool import export

    export(tmp_path / "work/city.shp", tmp_path / "work/parcels.shp", tmp_path / "new", [tmp_path / "edits.txt"])
    told = command("back", "new.shp", "--rows", "work/rows.csv", "--out", "new.gpkg", cwd=tmp_path)
    assert told.stdout == "201 parcels, 1 of them from edits\n", told.stderr
    assert len(gpd.read_file(tmp_path / "new.gpkg")) == 201


def test_locate_and_area(whole):
    parcels = register(faults=False)[0]
    corner = Point(parcels.geometry.iloc[0].exterior.coords[0])
    points = gpd.GeoDataFrame(geometry=[parcels.geometry.iloc[9].centroid, Point(0, 0), corner], crs=parcels.crs)
    found = gv.locate(whole, points)
    assert list(found["where"]) == ["inside", "outside", "edge"]
    assert (found.moved_mm <= 0.7072).all() and set(found.moved_how) == {"measured"}
    assert found.numbers.iloc[0] == parcels.parcel_no.iloc[9]
    assert parcels.parcel_no.iloc[0] in found.numbers.iloc[2].split(",")
    exact = gv.area(whole)
    assert np.allclose(exact.area_m2, parcels.area, atol=0.1)
    assert exact.area2_mm2.dtype == "Int64"


def test_a_pair_for_each_parcel_and_zone(whole):
    pairs = gv.overlay(whole)
    assert set(pairs.parcel_no) == set(register()[0].parcel_no)
    assert set(pairs[pairs.parcel_no == register()[0].parcel_no.iloc[-1]].zone) == {"R1", "R2", "C"}
