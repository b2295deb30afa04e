"""Layers that are no files here: a database of PostgreSQL, and files behind a URL."""
from __future__ import annotations

import os
import shutil
import subprocess
import sys
import tempfile
import zipfile
from pathlib import Path

import geopandas as gpd
import pytest
import shapely.wkb
from shapely.geometry import Point

import gandovel as gv
from test_register import command
from test_sources import two

POSTGRES = max(Path("/usr/lib/postgresql").glob("*/bin"), default=Path("/usr/bin"))
SERVER = Path(__file__).with_name("range_server.py")
PLAIN = {"PATH": os.environ["PATH"], "LC_ALL": "C"}


@pytest.fixture(scope="module")
def database():
    """What GDAL opens: a PostgreSQL of its own, without PostGIS, with a table `plots` of two parcels."""
    folder = Path(tempfile.mkdtemp(prefix="gv"))
    # PostgreSQL refuses to be root's.
    user = ["runuser", "-u", "postgres", "--"] if os.geteuid() == 0 else []
    if user:
        shutil.chown(folder, "postgres")

    def run(program, *words):
        subprocess.run([*user, POSTGRES / program, *words], check=True, stdout=subprocess.DEVNULL, env=PLAIN)

    run("initdb", "-D", folder / "data", "-A", "trust", "-U", "gis", "--no-sync")
    options = f"-c listen_addresses='' -c unix_socket_directories={folder} -c fsync=off"
    run("pg_ctl", "-D", folder / "data", "-w", "-o", options, "-l", folder / "log", "start")
    try:
        rows = ", ".join(
            f"('{number}', decode('{shapely.wkb.dumps(shape, hex=True)}', 'hex'))"
            for number, shape in zip(two().parcel_no, two().geometry)
        )
        table = "create table plots (fid serial primary key, parcel_no text, wkb_geometry bytea)"
        filled = f"insert into plots (parcel_no, wkb_geometry) values {rows}"
        run("psql", "-h", folder, "-U", "gis", "-d", "postgres", "-c", f"{table}; {filled}")
        yield f"PG:host={folder} user=gis dbname=postgres"
    finally:
        run("pg_ctl", "-D", folder / "data", "-m", "immediate", "stop")
        shutil.rmtree(folder)


def test_a_table_of_postgresql(database, tmp_path):
    prepared = gv.prepare(database, layer="plots", unit="m")
    assert prepared.numbers == ["a", "b"] and len(gv.check(prepared)) == 0
    with pytest.raises(gv.Refused, match="P1 PG:.* has no layer none; there are .*plots"):
        gv.prepare(database, layer="none", unit="m")
    ended = command("check", database, "--layer", "plots", "--unit", "m", cwd=tmp_path)
    assert ended.returncode == 0 and "no gaps, no overlaps" in ended.stdout


def test_a_database_that_is_not_there(tmp_path):
    ended = command("check", f"PG:host={tmp_path} dbname=none", cwd=tmp_path)
    assert ended.returncode == 4 and ended.stdout == ""
    (line,) = ended.stderr.splitlines()
    assert line.startswith("error: parcels: P1 PG:host=") and "can't be read" in line


@pytest.fixture
def served(tmp_path):
    """A folder of files and the address that they are served at."""
    words = [sys.executable, SERVER, tmp_path]
    with subprocess.Popen(words, stdout=subprocess.PIPE, stderr=subprocess.DEVNULL, text=True) as server:
        yield tmp_path, f"http://127.0.0.1:{server.stdout.readline().strip()}"
        server.kill()


def test_files_behind_a_url(served):
    folder, address = served
    two().to_file(folder / "plots.geojson", driver="GeoJSON")
    two().to_file(folder / "plots.gpkg", driver="GPKG")
    two().to_file(folder / "plots.shp")
    with zipfile.ZipFile(folder / "plots.zip", "w") as archive:
        for path in folder.glob("plots.[sdcp]*"):
            archive.write(path, path.name)
    for source in (
        f"{address}/plots.geojson",
        f"{address}/plots.gpkg",
        f"/vsicurl/{address}/plots.gpkg",
        f"/vsizip//vsicurl/{address}/plots.zip/plots.shp",
        f"/vsizip/{folder}/plots.zip",
    ):
        assert gv.prepare(source).numbers == ["a", "b"], source
    with pytest.raises(gv.Refused, match="P1 http://.*/none.gpkg can't be read"):
        gv.prepare(f"{address}/none.gpkg")


def test_no_layer_that_is_read_is_written_over(tmp_path):
    two().to_file(tmp_path / "p.gpkg", driver="GPKG")
    before = (tmp_path / "p.gpkg").read_bytes()
    for words in (("report", "p.gpkg"), ("mend", "p.gpkg"), ("report", "p.gpkg", "--city", "p.gpkg")):
        ended = command(*words, "--out", tmp_path / "p.gpkg", cwd=tmp_path)
        assert ended.returncode == 4 and "error: P14" in ended.stderr and "give another name" in ended.stderr
    assert (tmp_path / "p.gpkg").read_bytes() == before and len(list(tmp_path.iterdir())) == 1


def test_points_from_any_source(tmp_path):
    points = gpd.GeoDataFrame({"n": [1, 2]}, geometry=[shape.centroid for shape in two().geometry], crs=25832)
    two().to_file(tmp_path / "all.gpkg", layer="plots", driver="GPKG")
    points.to_file(tmp_path / "all.gpkg", layer="points", driver="GPKG")
    ended = command("locate", "all.gpkg", "--layer", "plots", "--points", "all.gpkg", "--csv", cwd=tmp_path)
    assert [line.split(",")[3] for line in ended.stdout.splitlines()] == ["numbers", "a", "b"], ended.stderr
    for source in (points, points.geometry, f"{tmp_path}/all.gpkg|layername=points"):
        assert list(gv.locate(two(), source).numbers) == ["a", "b"]


def test_what_is_no_point_is_refused_at_once():
    shapes = [Point(561_005, 5_934_005), two().geometry[0], None, Point(), Point(1e300, 0)]
    with pytest.raises(gv.Refused) as refused:
        gv.locate(two(), gpd.GeoDataFrame(geometry=shapes, crs=25832))
    assert [one.code for one in refused.value.all] == ["P5", "P4", "P4", "P9"]
    assert "row 2 is a Polygon and no point" in str(refused.value) and "one in each row" in str(refused.value)
    for place, said in ((("nan", 5), "are no numbers"), (("1e300", 5), "more than 100,000 km")):
        with pytest.raises(gv.Refused, match=f"points: P9 row 1 .*{said}"):
            gv.locate(two(), gpd.GeoDataFrame(geometry=[Point(*map(float, place))], crs=25832))
