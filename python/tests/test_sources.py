"""Layers from wherever they are: several layers in one file, zip files, QGIS's way to name one; types and losses."""
from __future__ import annotations

import datetime
import json
import sqlite3
import subprocess
import zipfile
from contextlib import closing

import fiona
import geopandas as gpd
import numpy as np
import pandas as pd
import pytest
from shapely.geometry import LineString, MultiPolygon, Point, Polygon, box

import gandovel as gv
from gandovel.reading.sources import read_layer
from test_register import command

EAST, NORTH = 561_000, 5_934_000


def cell(x0, y0, x1, y1):
    """A rectangle where registers are."""
    return box(EAST + x0, NORTH + y0, EAST + x1, NORTH + y1)


def two(**columns):
    """Two parcels that tile their city."""
    shapes = [cell(0, 0, 10, 10), cell(10, 0, 20, 10)]
    return gpd.GeoDataFrame({"parcel_no": ["a", "b"], **columns}, geometry=shapes, crs=25832)


@pytest.fixture
def several(tmp_path):
    """A GeoPackage of a layer of points and two of parcels."""
    path = tmp_path / "several.gpkg"
    gpd.GeoDataFrame({"n": [1]}, geometry=[Point(EAST, NORTH)], crs=25832).to_file(path, layer="points", driver="GPKG")
    two().to_file(path, layer="old", driver="GPKG")
    two().iloc[:1].to_file(path, layer="new", driver="GPKG")
    return path


def test_a_layer_is_named_where_there_are_several(several):
    with pytest.raises(gv.Refused, match="P1 .* 3 layers: name one by --layer NAME, .*; there are old, new"):
        gv.prepare(several)
    assert len(gv.prepare(several, layer="old").numbers) == 2
    assert len(gv.prepare(f"{several}|layername=new").numbers) == 1
    with pytest.raises(gv.Refused, match="P1 .* has no layer none; there are points, old, new"):
        gv.prepare(several, layer="none")
    with pytest.raises(gv.Refused, match="zones: P1 .*--zones-layer"):
        gv.prepare(two(), zones=several)


def test_the_only_layer_with_areas_is_taken(tmp_path):
    path = tmp_path / "two.gpkg"
    gpd.GeoDataFrame({"n": [1]}, geometry=[Point(0, 0)], crs=25832).to_file(path, layer="points", driver="GPKG")
    two().to_file(path, layer="parcels", driver="GPKG")
    assert len(gv.prepare(path).numbers) == 2


def test_a_layer_in_a_zip_file(several, tmp_path):
    with zipfile.ZipFile(tmp_path / "layers.zip", "w") as archive:
        archive.write(several, "several.gpkg")
    assert len(gv.prepare(f"/vsizip/{tmp_path}/layers.zip/several.gpkg", layer="old").numbers) == 2


def test_a_zip_file_is_no_layer_but_its_layers_are_named(several, tmp_path):
    path = tmp_path / "layers.zip"
    with zipfile.ZipFile(path, "w") as archive:
        archive.write(several, "in/several.gpkg")
    with pytest.raises(
        gv.Refused, match=f"P1 .*: of a zip file, name the layer within: /vsizip/{path}/in/several.gpkg$"
    ):
        gv.prepare(path)
    path.write_bytes(b"PK\3\4")
    with pytest.raises(gv.Refused, match="P1 .* and is no zip file that can be read"):
        gv.prepare(path)


def test_a_layer_without_a_projection_and_without_the_column_is_told_both():
    frame = two().rename(columns={"parcel_no": "plot"})
    frame.crs = None
    with pytest.raises(gv.Refused) as refused:
        gv.prepare(frame)
    assert [one.code for one in refused.value.all] == ["P2", "P7"]
    assert "name one by --number" in str(refused.value) and "say its unit by --unit" in str(refused.value)
    with pytest.raises(gv.Refused, match="zones: P7 .*say it where it is theirs: ogr2ogr -a_srs EPSG:25832 NEW"):
        gv.prepare(two(), zones=frame)


def test_frames_series_and_paths_as_text(tmp_path):
    two().to_file(tmp_path / "p.gpkg", driver="GPKG")
    assert len(gv.check(str(tmp_path / "p.gpkg"))) == len(gv.check(two().geometry)) == len(gv.check(two())) == 0
    assert list(gv.prepare(two(), number="ROW").numbers) == ["1", "2"]
    for wrong in (7, None, [cell(0, 0, 1, 1)]):
        with pytest.raises(TypeError, match="a path, a GeoDataFrame or a GeoSeries is wanted"):
            gv.prepare(wrong)


def test_no_type_is_lost(tmp_path):
    day, moment = datetime.date(2020, 2, 29), pd.Timestamp("2021-03-04T05:06:07")
    frame = two(
        day=[day, None],
        moment=[moment, pd.NaT],
        raw=[b"\0\1", None],
        whole=pd.array([2**60 + 1, None], dtype="Int64"),
        real=[1.5, None],
        truth=pd.array([True, None], dtype="boolean"),
        kind=pd.Categorical(["x", "y"]),
        fid=[7, 8],
    )
    frame['quo"te'] = ["it's", None]
    frame[5] = [1, 2]
    gv.report(gv.prepare(frame)).save(tmp_path / "r.gpkg")
    with fiona.open(tmp_path / "r.gpkg", layer="parcels") as opened:
        types = dict(opened.schema["properties"])
        first, second = (dict(row["properties"]) for row in opened)
    assert [types[name] for name in ("day", "moment", "raw", "real", "kind")] == [
        "date",
        "datetime",
        "bytes",
        "float",
        "str",
    ]
    assert types["whole"].startswith("int") and types["5"].startswith("int")
    assert (
        first["day"] == "2020-02-29" and first["moment"].startswith("2021-03-04T05:06:07") and first["raw"] == b"\0\1"
    )
    assert first["whole"] == 2**60 + 1 and first["truth"] == 1 and first["quo'te"] == "it's" and first["fid_"] == 7
    with closing(sqlite3.connect(tmp_path / "r.gpkg")) as connection:
        assert ("truth", "BOOLEAN") in [row[1:3] for row in connection.execute("PRAGMA table_info(parcels)")]
    pytest.importorskip("osgeo")
    assert read_layer(tmp_path / "r.gpkg", "parcels", "parcels").truth.dtype == "boolean"
    assert all(second[name] is None for name in ("day", "moment", "raw", "whole", "real", "truth", "quo'te"))


def test_types_stay_through_a_folder(tmp_path):
    frame = two(day=[datetime.date(2020, 2, 29), None], whole=pd.array([3, None], dtype="Int64"))
    gv.prepare(frame).save(tmp_path / "work")
    again = gv.load(tmp_path / "work").parcels
    assert again.day[0] == datetime.date(2020, 2, 29) and again.whole.dtype == "Int64" and pd.isna(again.whole[1])


def test_what_is_lost_is_told(tmp_path):
    high = [Polygon([(x, y, 5.0) for x, y in shape.exterior.coords]) for shape in two().geometry]
    frame = gpd.GeoDataFrame({"parcel_no": ["a", "b"]}, geometry=high, crs=25832)
    frame["centre"] = gpd.GeoSeries([Point(0, 0)] * 2)
    lost = gv.prepare(frame).lost
    assert any("heights (Z)" in text for text in lost) and any("column centre" in text for text in lost)
    frame.drop(columns="centre").to_file(tmp_path / "high.gpkg", driver="GPKG")
    ended = command("check", "high.gpkg", "--json", cwd=tmp_path)
    assert "note: parcels: no use is made of heights (Z)" in ended.stderr
    assert json.loads(ended.stdout)["lost"] == lost[:0] + [text for text in lost if "heights" in text]


def test_columns_of_any_name_and_kind(tmp_path):
    columns = {"pairs": [[1], {2: 3}], "span": pd.to_timedelta([1, 2]), "range": pd.interval_range(0, 2)}
    frame = two(FID=[3, 4], Fid=[5, 6], large=np.array([1, 2**64 - 1], dtype=np.uint64), **columns)
    frame[7], frame["shape"] = [1, 2], frame.geometry
    frame["sparse"], frame["long"] = pd.arrays.SparseArray([0, 9]), np.array([1, 2.5], dtype=np.longdouble)
    frame["nul\0"] = ["x", "y"]
    prepared = gv.prepare(frame, number=7)
    assert prepared.numbers == ["1", "2"]
    gv.report(prepared).save(tmp_path / "r.gpkg")
    written = gpd.read_file(tmp_path / "r.gpkg", layer="parcels")
    assert {"parcel_no", "FID_", "Fid__", "nul", *columns} <= set(written.columns)
    assert [written[name][1] for name in ("large", "sparse", "long")] == [str(2**64 - 1), 9, 2.5]
    for lost in (
        "geometries of the column shape",
        "last digits of the column long",
        *(f"type of the column {name}" for name in columns),
    ):
        assert any(lost in text for text in prepared.lost)


def test_zones_without_names_are_told():
    zones = gpd.GeoDataFrame({"height": [1.5]}, geometry=[cell(0, 0, 20, 10)], crs=25832)
    prepared = gv.prepare(two(), zones)
    assert prepared.zone_names == ["1"] and "named by their rows" in prepared.lost[0]


def test_a_map_of_what_is_no_report(tmp_path):
    two().to_file(tmp_path / "p.gpkg", driver="GPKG")
    (tmp_path / "text.gpkg").write_text("no GeoPackage")
    for name in ("p.gpkg", "text.gpkg", "none.gpkg"):
        ended = command("map", name, "--out", "m.html", cwd=tmp_path)
        (line,) = ended.stderr.splitlines()
        assert ended.returncode == 4 and line.startswith("error: P1 ") and not (tmp_path / "m.html").exists()
    ended = command("map", "p.gpkg", "--out", "p.gpkg", cwd=tmp_path)
    assert ended.returncode == 4 and "P14 p.gpkg is read, and would be written over" in ended.stderr


def test_the_verdict_says_whence_the_city_is():
    whole = gpd.GeoDataFrame(geometry=[cell(0, 0, 20, 10)], crs=25832)
    for options, said in (
        ({}, "the city is what the parcels cover"),
        ({"city": whole}, "the city is the layer that was given"),
        ({"frame": True}, "the city is a frame around all"),
    ):
        assert gv.report(gv.prepare(two(), **options)).summary() == f"no gaps, no overlaps; {said}"


def test_curves_and_measures(tmp_path):
    corners = "561000 5934000,561010 5934010,561020 5934000,561010 5933990,561000 5934000"
    arc = f'id,WKT\n1,"CURVEPOLYGON(CIRCULARSTRING({corners}))"\n'
    (tmp_path / "arc.csv").write_text(arc)
    (tmp_path / "m.csv").write_text(
        'id,WKT\n1,"POLYGON M((561000 5934000 1,561010 5934000 1,561010 5934010 1,561000 5934000 1))"\n'
    )
    for name, kind in (("arc", "CURVEPOLYGON"), ("m", "POLYGONM")):
        options = [
            "-oo",
            "GEOM_POSSIBLE_NAMES=WKT",
            "-oo",
            "KEEP_GEOM_COLUMNS=NO",
            "-a_srs",
            "EPSG:25832",
            "-nlt",
            kind,
        ]
        subprocess.run(
            ["ogr2ogr", "-f", "GPKG", tmp_path / f"{name}.gpkg", tmp_path / f"{name}.csv", *options], check=True
        )
    pytest.importorskip("osgeo")
    frame = read_layer(tmp_path / "arc.gpkg", "parcels")
    assert frame.attrs["lost"] == []
    (told,) = gv.prepare(tmp_path / "arc.gpkg", number="id").lost
    assert told == "parcels: 2 arcs were read as 512 chords, off by 1 mm at most (a tenth of the grid)"
    centre, corners = np.array([561010.0, 5934000.0]), np.array(frame.geometry[0].exterior.coords)
    middles = (corners[1:] + corners[:-1]) / 2
    assert np.abs(np.hypot(*(corners - centre).T) - 10).max() < 1e-8
    assert 0.0001 < (10 - np.hypot(*(middles - centre).T)).max() <= 0.001
    line = gv.report(gv.prepare(tmp_path / "arc.gpkg", number="id")).basis.line()
    assert "2 arcs read as 512 chords, 1 mm off at most; " in line
    assert any("measures (M)" in text for text in read_layer(tmp_path / "m.gpkg", "parcels").attrs["lost"])


BOWTIE = Polygon([(EAST, NORTH + 20), (EAST + 2, NORTH + 22), (EAST + 2, NORTH + 20), (EAST, NORTH + 22)])


def bad():
    """A good parcel, a bow tie, an empty shape and a line."""
    shapes = [cell(0, 0, 10, 10), BOWTIE, Polygon(), LineString([(EAST, NORTH), (EAST + 1, NORTH)])]
    return gpd.GeoDataFrame({"parcel_no": ["good", "tie", "none", "line"]}, geometry=shapes, crs=25832)


def test_all_that_is_invalid_is_told_at_once():
    with pytest.raises(gv.Refused) as refused:
        gv.prepare(bad())
    assert [(one.code, one.number) for one in refused.value.all] == [("P6", "tie"), ("P4", "none"), ("P5", "line")]
    line = str(refused.value)
    assert "3 rows are refused" in line and "Self-intersection at (561001.000, 5934021.000)" in line
    assert "--skip-invalid" in line and "\n" not in line


def test_skip_invalid_goes_on_and_says_so(tmp_path):
    bad().iloc[:2].to_file(tmp_path / "bad.gpkg", driver="GPKG")
    ended = command("report", "bad.gpkg", "--skip-invalid", "--out", "r.gpkg", cwd=tmp_path)
    assert ended.returncode == 0 and ended.stdout.splitlines()[-1].startswith(
        "without 1 invalid row (parcel tie); no gaps"
    )
    skipped = gpd.read_file(tmp_path / "r.gpkg", layer="skipped")
    assert list(skipped.number) == ["tie"] and "Self-intersection" in skipped.reason[0]
    assert list(gpd.read_file(tmp_path / "r.gpkg", layer="parcels").status) == ["ok", "skipped"]
    told = json.loads(command("check", "bad.gpkg", "--json", cwd=tmp_path).stdout)
    assert [(one["code"], one["number"]) for one in told["refused"]] == [("P6", "tie")]


def test_what_is_skipped_may_be_no_shape_or_a_line_or_infinite(tmp_path):
    far = Polygon([(EAST, NORTH), (np.inf, NORTH), (EAST, NORTH + 1)])
    numbers, shapes = [*bad().parcel_no, "far", "missing"], [*bad().geometry, far, None]
    frame = gpd.GeoDataFrame({"parcel_no": numbers}, geometry=shapes, crs=25832)
    report = gv.report(gv.prepare(frame, skip_invalid=True))
    report.save(tmp_path / "r.gpkg")
    skipped = gpd.read_file(tmp_path / "r.gpkg", layer="skipped")
    assert list(skipped.number) == ["tie", "none", "line", "far", "missing"]
    written = gpd.read_file(tmp_path / "r.gpkg", layer="parcels")
    assert list(written.status) == ["ok", *["skipped"] * 5] and written.geometry[3].geom_type == "LineString"
    with pytest.raises(gv.Refused, match="P6 .*parcel far: .*Invalid Coordinate"):
        gv.prepare(frame)
    frame = frame.iloc[[0, 5]]
    gv.report(gv.prepare(frame, skip_invalid=True)).save(tmp_path / "r.gpkg")
    assert list(gpd.read_file(tmp_path / "r.gpkg", layer="skipped").number) == ["missing"]


def test_numbers_that_are_missing_or_twice_are_all_told():
    frame = two().assign(parcel_no=pd.array([1, None], dtype="Int64"))
    with pytest.raises(gv.Refused, match="P3 row 2 has no parcel_no"):
        gv.prepare(frame)
    assert gv.prepare(two().assign(parcel_no=pd.Categorical(["x", "y"]))).numbers == ["x", "y"]
    with pytest.raises(gv.Refused, match="P2 .*--number ROW"):
        gv.prepare(two(), number="nr")


def test_what_sqlite_can_not_take_is_refused(tmp_path):
    report = gv.report(gv.prepare(two(owner=["x", "\ud800"])))
    with pytest.raises(gv.Refused, match="P14 .*r.gpkg can't be written: .*surrogates"):
        report.save(tmp_path / "r.gpkg")
    assert not list(tmp_path.iterdir())


def test_heights_stay_as_they_were_given(tmp_path):
    high = [Polygon([(x, y, 5.0) for x, y in shape.exterior.coords]) for shape in two().geometry]
    gv.report(gv.prepare(gpd.GeoDataFrame({"parcel_no": ["a", "b"]}, geometry=high, crs=25832))).save(
        tmp_path / "r.gpkg"
    )
    with fiona.open(tmp_path / "r.gpkg", layer="parcels") as opened:
        assert opened.schema["geometry"] == "3D Polygon"
    assert gpd.read_file(tmp_path / "r.gpkg", layer="parcels").geometry[0].exterior.coords[0][2] == 5.0


def test_many_rows_are_read_as_few_are(tmp_path, monkeypatch):
    frame = two(whole=pd.array([3, None], dtype="Int64"), real=[0.5, None], text=["x", None])
    frame.to_file(tmp_path / "p.gpkg", driver="GPKG")
    few = read_layer(tmp_path / "p.gpkg", "parcels")
    monkeypatch.setattr("gandovel.large.reading.MANY", 1)
    many = read_layer(tmp_path / "p.gpkg", "parcels")
    assert few.dtypes.to_dict() == many.dtypes.to_dict() and few.crs == many.crs
    assert few.geometry.equals(many.geometry) and few.drop(columns="geometry").equals(many.drop(columns="geometry"))


@pytest.mark.parametrize("name", ["r.shp", "r.geojson", "r", "none/r.gpkg"])
def test_a_report_is_a_geopackage(tmp_path, name):
    two().to_file(tmp_path / "p.gpkg", driver="GPKG")
    ended = command("report", "p.gpkg", "--out", name, cwd=tmp_path)
    assert ended.returncode == 4 and "error: P14" in ended.stderr and not (tmp_path / name).exists()
    with pytest.raises(gv.Refused, match="P14"):
        gv.report(gv.prepare(two())).save(tmp_path / name)


def test_a_program_that_says_nothing_is_not_believed(tmp_path, monkeypatch):
    monkeypatch.setenv("GANDOVEL_TOOL", "/bin/true")
    with pytest.raises(gv.Refused, match="T2 /bin/true is no parcel_tool"):
        gv.check(two())
    silent = tmp_path / "silent"
    for version, said in (("2.0.0", "gave no verdict"), ("1.1.0", "version 2 is wanted")):
        silent.write_text(f'#!/bin/sh\n[ "$1" = --version ] && echo "parcel_tool {version} (x)"\nexit 0\n')
        silent.chmod(0o755)
        monkeypatch.setenv("GANDOVEL_TOOL", str(silent))
        with pytest.raises(gv.Refused, match=f"T2 .*{said}"):
            gv.check(two())


def test_open_gaps_are_told():
    shapes = [cell(0, 0, 10, 10), cell(10.05, 0, 20, 10)]
    report = gv.report(gv.prepare(gpd.GeoDataFrame({"parcel_no": ["a", "b"]}, geometry=shapes, crs=25832)))
    assert report.verdict == "open" and report.summary().startswith("2 islands; no gaps, no overlaps; 1 gap open to")
    assert list(zip(report.open_gaps.area2_mm2, report.open_gaps.numbers)) == [(1_000_000, "a,b")]
    notched = cell(0, 0, 20, 10).difference(cell(-1, 5, 6, 5.05))
    frame = gpd.GeoDataFrame({"parcel_no": ["a"]}, geometry=[notched], crs=25832)
    assert list(gv.report(gv.prepare(frame)).open_gaps.area2_mm2) == [600_000]
    assert len(gv.check(frame, narrow=0.01)) == 0
    whole = gpd.GeoDataFrame(geometry=[cell(0, 0, 20, 10)], crs=25832)
    assert list(gv.check(frame, city=whole).kind) == ["gap"]


def test_projections_and_units():
    with pytest.raises(gv.Refused, match="P7 the layer names no projection: say its unit by --unit"):
        gv.prepare(gpd.GeoDataFrame({"parcel_no": ["a", "b"]}, geometry=list(two().geometry)))
    mercator = gpd.GeoDataFrame({"parcel_no": ["a"]}, geometry=[box(1e6, 6.8e6, 1e6 + 10, 6.8e6 + 10)], crs=3857)
    with pytest.raises(gv.Refused, match=r"P7 areas in the projection .* are 2\.6"):
        gv.prepare(mercator)
    assert gv.prepare(mercator, unit="m").unit.area_factor == pytest.approx(2.634, abs=1e-3)
    feet = gpd.GeoDataFrame({"parcel_no": ["a", "b"]}, geometry=list(two().geometry))
    exact = gv.area(gv.prepare(feet, unit="ft"))
    assert exact.area_m2.tolist() == pytest.approx([100 * 0.3048**2] * 2)
    for none in ("furlong", "-1", "nan"):
        with pytest.raises(gv.Refused, match="P7 .* is no unit"):
            gv.prepare(two(), unit=none)


def test_the_accessor():
    assert two().gandovel.report().verdict == "tiles" and len(two().gandovel.check()) == 0
    with pytest.raises(AttributeError):
        pd.DataFrame({"a": [1]}).gandovel


def test_json_and_csv_on_standard_output(tmp_path):
    two().to_file(tmp_path / "p.gpkg", driver="GPKG")
    zones = gpd.GeoDataFrame({"zone": ["Z"]}, geometry=[MultiPolygon([cell(0, 0, 20, 10)])], crs=25832)
    zones.to_file(tmp_path / "z.gpkg", driver="GPKG")
    told = json.loads(command("check", "p.gpkg", "--json", cwd=tmp_path).stdout)
    assert told["verdict"] == "tiles" and told["counts"]["gaps"] == 0 and told["program"].startswith("parcel_tool ")
    pairs = json.loads(command("overlay", "p.gpkg", "--zones", "z.gpkg", "--json", cwd=tmp_path).stdout)["pairs"]
    areas = {"area2_mm2": "200000000", "area_m2": 100.0, "area_how": "proved"}
    assert pairs == [{"number": number, "zone": "Z", "split": False, **areas} for number in "ab"]
    where = command("locate", "p.gpkg", "--at", EAST + 5, NORTH + 5, "--csv", cwd=tmp_path).stdout
    assert where.splitlines() == ["x,y,where,numbers,moved_mm", "561005.0,5934005.0,inside,a,0.0"]
    assert np.isclose(gv.area(two()).area_m2.sum(), 200)
