"""What is refused, in the QGIS of this process: errors by name, the features selected, nothing left behind."""
from __future__ import annotations

import os
import subprocess
import sys
import tempfile
import threading
import time
import zipfile
from pathlib import Path
from typing import Any, Dict, Iterator, List

import geopandas as gpd
import pytest
from conftest import ROOT, metadata
from layers_made import BAD, CRS, make_bad
from models import OUTPUTS
from shapely.geometry import LineString, MultiPoint, Point, Polygon, box

M = "TEMPORARY_OUTPUT"


def run(name: str, feedback: Any = None, **parameters: Any) -> Dict[str, Any]:
    """Runs an algorithm of the plugin."""
    import processing

    given = {key: str(value) if isinstance(value, Path) else value for key, value in parameters.items()}
    results: Dict[str, Any] = processing.run(f"gandovel:{name}", given, feedback=feedback)
    return results


def refused(name: str, **parameters: Any) -> str:
    """The text of the error of an algorithm that has to be refused."""
    from qgis.core import QgsProcessingException

    with pytest.raises(QgsProcessingException) as caught:
        run(name, **parameters)
    return str(caught.value)


def written(path: Path, shapes: List[Any], crs: Any = CRS, **columns: Any) -> Path:
    """A layer of these shapes."""
    gpd.GeoDataFrame(columns, geometry=shapes, crs=crs).to_file(path, driver="GPKG")
    return path


@pytest.fixture
def project(qgis: Any) -> Iterator[Any]:
    """The project, emptied behind the test."""
    from qgis.core import QgsProject

    yield QgsProject.instance()
    QgsProject.instance().clear()


def test_a_bad_feature_is_selected_in_the_layer_of_the_project(project: Any, tmp_path: Path) -> None:
    """By its number, and told with its place."""
    from qgis.core import QgsVectorLayer

    make_bad(tmp_path / "bad.gpkg")
    layer = QgsVectorLayer(str(tmp_path / "bad.gpkg"), "bad", "ogr")
    project.addMapLayer(layer)
    text = refused("checkparcels", INPUT=layer.id(), NUMBER_FIELD="parcel_no", FAULTS=M)
    selected = {layer.getFeature(one)["parcel_no"] for one in layer.selectedFeatureIds()}
    assert selected and selected <= set(BAD)
    assert any(f"parcel {number}: " in text for number in selected)


@pytest.mark.parametrize("number", BAD if os.environ.get("GANDOVEL_LONG") else ["nothing"])
def test_each_kind_of_bad_feature_is_refused_by_its_number(qgis: Any, tmp_path: Path, number: str) -> None:
    """One at a time, beside good ones; without GANDOVEL_LONG one kind, since all at once are tried, too."""
    shapes = [box(100, 0, 110, 10), box(110, 0, 120, 10), BAD[number]]
    path = written(tmp_path / "one.gpkg", shapes, parcel_no=["a", "b", number])
    text = refused("checkparcels", INPUT=path, NUMBER_FIELD="parcel_no", FAULTS=M)
    assert f"parcel {number}: " in text


def test_numbers_that_are_missing_or_stand_twice(project: Any, tmp_path: Path) -> None:
    """P3, and both features are selected."""
    from qgis.core import QgsVectorLayer

    path = written(tmp_path / "twice.gpkg", [box(at, 0, at + 1, 1) for at in range(3)], parcel_no=["1", "2", "2"])
    layer = QgsVectorLayer(str(path), "twice", "ogr")
    project.addMapLayer(layer)
    assert "P3 parcel 2: " in refused("checkparcels", INPUT=layer.id(), NUMBER_FIELD="parcel_no", FAULTS=M)
    assert layer.selectedFeatureCount() == 2
    none = written(tmp_path / "none.gpkg", [box(at, 0, at + 1, 1) for at in range(2)], parcel_no=["1", None])
    layer = QgsVectorLayer(str(none), "none", "ogr")
    project.addMapLayer(layer)
    assert "P3" in refused("checkparcels", INPUT=layer.id(), NUMBER_FIELD="parcel_no", FAULTS=M)
    assert layer.selectedFeatureIds() == [2]


def test_degrees_no_projection_and_no_unit(qgis: Any, tmp_path: Path) -> None:
    """P7; and a plane without a unit, which is not asked for at all."""
    degrees = written(tmp_path / "degrees.gpkg", [box(9, 50, 9.1, 50.1)], crs=4326)
    assert "P7" in refused("checkparcels", INPUT=degrees, FAULTS=M)
    town = ROOT / "examples/town/parcels.shp"
    assert "no projection" in refused("checkparcels", INPUT=town, FAULTS=M)
    assert run("checkparcels", INPUT=town, UNIT="cm", FAULTS=M)["VERDICT"] == "tiles"


def selected_in(layer: Any) -> List[Any]:
    """The names of the features that are selected in a layer."""
    return [layer.getFeature(one)["name"] for one in layer.selectedFeatureIds()]


def test_bad_zones_city_and_points_are_selected_in_their_own_layers(project: Any, tmp_path: Path) -> None:
    """Each feature that is refused, by its name; of points all, by their rows."""
    from qgis.core import QgsVectorLayer

    good = written(tmp_path / "good.gpkg", [box(0, 0, 10, 10), box(10, 0, 20, 10)], parcel_no=["1", "2"])
    bow = Polygon([(0, 0), (10, 10), (10, 0), (0, 10)])
    points = [Point(1, 1), None, MultiPoint([(2, 2), (3, 3)]), MultiPoint([(4, 4)]), Point(1e13, 0)]
    layers = {
        "OVERLAY": written(tmp_path / "zones.gpkg", [box(0, 0, 20, 5), bow], name=["A", "B"]),
        "CITY": written(tmp_path / "city.gpkg", [bow], name=["city"]),
        "POINTS": written(tmp_path / "points.gpkg", points, name=["a", "b", "c", "d", "e"]),
    }
    given = {name: QgsVectorLayer(str(path), name, "ogr") for name, path in layers.items()}
    for layer in given.values():
        project.addMapLayer(layer)
    common = {"INPUT": good, "NUMBER_FIELD": "parcel_no"}
    zones = {"OVERLAY": given["OVERLAY"].id(), "OVERLAY_FIELD": "name", "SPLIT": M, "PARTS": M, "TABLE": M}
    assert "zones: P6 zone B: " in refused("overlayzones", **common, **zones)
    assert selected_in(given["OVERLAY"]) == ["B"]
    assert "city: P6" in refused("checkparcels", **common, CITY=given["CITY"].id(), FAULTS=M)
    assert selected_in(given["CITY"]) == ["city"]
    text = refused("locatepoints", **common, POINTS=given["POINTS"].id(), OUTPUT=M)
    assert text.startswith("points: P4 point in row 2: it has no geometry") and "2 more" in text
    assert sorted(selected_in(given["POINTS"])) == ["b", "c", "e"]


def test_points_keep_their_columns_heights_and_kind(qgis: Any, tmp_path: Path) -> None:
    """Columns that are named as those that are added, too."""
    good = written(tmp_path / "good.gpkg", [box(0, 0, 10, 10), box(10, 0, 20, 10)], parcel_no=["1", "2"])
    points = [MultiPoint([Point(5, 5)]), MultiPoint([Point(10, 5)])]
    columns = {"Numbers": ["x", "y"], "where": ["here", "there"]}
    source = written(tmp_path / "points.gpkg", points, **columns)
    results = run("locatepoints", INPUT=good, NUMBER_FIELD="PARCEL_NO", POINTS=source, OUTPUT=M)
    rows = [dict(zip(it.fields().names(), it.attributes())) for it in results["OUTPUT"].getFeatures()]
    assert [(row["Numbers_"], row["where_"], row["where"], row["numbers"]) for row in rows] == [
        ("x", "here", "inside", "1"),
        ("y", "there", "edge", "1,2"),
    ]
    assert [it.geometry().asMultiPoint()[0].x() for it in results["OUTPUT"].getFeatures()] == [5, 10]
    assert (results["INSIDE_COUNT"], results["EDGE_COUNT"], results["OUTSIDE_COUNT"]) == (1, 1, 0)
    renderer = results["OUTPUT"].renderer()
    assert [renderer.classAttribute(), len(renderer.categories())] == ["where", 3]


def no_file(path: Path) -> None:
    """Nothing."""


def torn(path: Path) -> None:
    """The first half of a layer."""
    written(path, [box(0, 0, 10, 10)], parcel_no=["1"])
    path.write_bytes(path.read_bytes()[: path.stat().st_size // 2])


def other_fields(path: Path) -> None:
    """A layer without the field of numbers."""
    written(path, [box(0, 0, 10, 10)], other=["1"])


def without_projection(path: Path) -> None:
    """A layer that does not say where it lies."""
    written(path, [box(0, 0, 10, 10)], crs=None, parcel_no=["1"])


def without_features(path: Path) -> None:
    """A layer of no feature."""
    gpd.GeoDataFrame({"parcel_no": ["1"]}, geometry=[box(0, 0, 1, 1)], crs=CRS)[:0].to_file(
        path, driver="GPKG", schema={"geometry": "Polygon", "properties": {"parcel_no": "str"}}
    )


def lines(path: Path) -> None:
    """Lines in place of polygons."""
    written(path, [LineString([(0, 0), (10, 10)])], parcel_no=["1"])


def in_degrees(path: Path) -> None:
    """A layer that is not projected."""
    written(path, [box(9, 50, 9.1, 50.1)], crs=4326, parcel_no=["1"])


def too_far_out(path: Path) -> None:
    """Coordinates that no register has."""
    written(path, [box(1e12, 0, 1e12 + 10, 10)], parcel_no=["1"])


def number_twice(path: Path) -> None:
    """Two parcels of one number."""
    written(path, [box(0, 0, 10, 10), box(10, 0, 20, 10)], parcel_no=["1", "1"])


def only_empty(path: Path) -> None:
    """A feature without a shape."""
    written(path, [box(0, 0, 10, 10), None], parcel_no=["1", "2"])


SOON = [
    (no_file, "Could not load source layer"),
    (torn, "Could not load source layer"),
    (other_fields, "has no field parcel_no: choose one of"),
    (without_projection, "has no projection: give it one"),
    (without_features, "has no feature: choose another"),
]
"""Layers that the plugin refuses itself."""
LATER = [(lines, "P5"), (in_degrees, "P7"), (too_far_out, "P9"), (number_twice, "P3"), (only_empty, "P4")]
"""Layers that the package refuses."""
LONG = bool(os.environ.get("GANDOVEL_LONG"))


@pytest.mark.parametrize("name", sorted(OUTPUTS) if LONG else ["checkparcels", "locatepoints"])
@pytest.mark.parametrize("make, said", SOON + LATER if LONG else SOON)
def test_bad_layers_by_each_algorithm(qgis: Any, tmp_path: Path, name: str, make: Any, said: str) -> None:
    """One sentence that says what and where, and no output; with GANDOVEL_LONG by each algorithm, and each kind."""
    make(tmp_path / "bad.gpkg")
    good = written(tmp_path / "zones.gpkg", [box(0, 0, 10, 10)], name=["A"])
    written(tmp_path / "points.gpkg", [Point(1, 1)], name=["a"])
    (tmp_path / "edits.txt").write_text("merge 1 2\n")
    more: Dict[str, Dict[str, Any]] = {
        "overlayzones": {"OVERLAY": good, "OVERLAY_FIELD": "name"},
        "locatepoints": {"POINTS": tmp_path / "points.gpkg"},
        "applyedits": {"EDITS": tmp_path / "edits.txt"},
        "comparesession": {"DESK": str(tmp_path / "nobody"), "TIMEOUT": 1},
    }
    before = set(tmp_path.iterdir())
    outputs = {output: tmp_path / f"out_{output}.gpkg" for output in OUTPUTS[name]}
    text = refused(name, INPUT=tmp_path / "bad.gpkg", NUMBER_FIELD="parcel_no", **more.get(name, {}), **outputs)
    assert said in text and "Traceback" not in text and len(text.splitlines()) <= 2  # QGIS puts a line of its own first
    assert {path for path in tmp_path.iterdir() if path.suffix != ".gpkg-shm"} <= before | {tmp_path / "bad.gpkg"}


def test_fields_that_a_geopackage_has_of_its_own(qgis: Any, tmp_path: Path) -> None:
    """A number in `fid`, and columns that differ in case alone."""
    shapes = [box(0, 0, 10, 10), box(10, 0, 20, 10), box(19, 0, 29, 10)]
    path = tmp_path / "fields.geojson"
    columns = {"fid": ["7", "8", "9"], "Name": [1, 2, 3], "NAME": ["a", "b", "c"], "geom": [1.5, 2.5, 3.5]}
    gpd.GeoDataFrame(columns, geometry=shapes, crs=CRS).to_file(path, driver="GeoJSON")
    results = run("checkparcels", INPUT=path, NUMBER_FIELD="fid", FAULTS=M)
    assert results["OVERLAP_COUNT"] == 1
    fault = next(results["FAULTS"].getFeatures())
    assert fault["numbers"] == "8,9"
    assert run("prepare", INPUT=path, NUMBER_FIELD="Name", OUTPUT=M, CHANGES=M)["OUTPUT"].featureCount() == 3


def test_edits_that_are_no_file_or_no_edits(qgis: Any, tmp_path: Path) -> None:
    """P1 and L1, by the line."""
    path = written(tmp_path / "two.gpkg", [box(0, 0, 10, 10), box(10, 0, 20, 10)], parcel_no=["1", "2"])
    common = {"INPUT": path, "NUMBER_FIELD": "parcel_no", "OUTPUT": M, "ANSWERS": M}
    binary = tmp_path / "binary.txt"
    binary.write_bytes(b"\xff\xfe\x00")
    assert "P1" in refused("applyedits", EDITS=binary, **common)
    wrong = tmp_path / "wrong.txt"
    wrong.write_text("merge 1 2\nmerge one two\n")
    assert "L1" in refused("applyedits", EDITS=wrong, **common)
    assert "part 2 of the city" in refused("applyedits", EDITS=wrong, ISLAND=2, **common)


def test_no_package_and_no_program_are_one_sentence_each(qgis: Any, monkeypatch: pytest.MonkeyPatch) -> None:
    """They say what to do, and where."""
    town = {"INPUT": ROOT / "examples/town/parcels.shp", "UNIT": "cm", "FAULTS": M}
    monkeypatch.setenv("GANDOVEL_PYTHON", "/bin/false")
    text = refused("checkparcels", **town)
    assert text.startswith("The Python package gandovel was not found, or GeoPandas") and "Settings > Options" in text
    monkeypatch.undo()
    monkeypatch.setenv("GANDOVEL_TOOL", "/nowhere/parcel_tool")
    text = refused("checkparcels", **town)
    assert text.startswith("The program parcel_tool was not found: install it") and "Settings > Options" in text


def test_a_cancel_ends_every_process_and_leaves_no_file(
    qgis: Any, register: Any, tmp_path: Path, monkeypatch: pytest.MonkeyPatch
) -> None:
    """While the package's process sleeps in a program of its own."""
    from qgis.core import QgsProcessingFeedback

    program, began = tmp_path / "parcel_tool", tmp_path / "began"
    program.write_text(f"#!/bin/sh\necho $$ > {began}\nsleep 300\n")
    program.chmod(0o755)
    monkeypatch.setenv("GANDOVEL_TOOL", str(program))
    monkeypatch.setattr(tempfile, "tempdir", str(tmp_path / "temporary"))
    (tmp_path / "temporary").mkdir()
    feedback = QgsProcessingFeedback()
    threading.Thread(target=cancel_when, args=(feedback, began)).start()
    begun = time.monotonic()
    town = {"INPUT": ROOT / "examples/town/parcels.shp", "UNIT": "cm"}
    run("checkparcels", feedback, **town, FAULTS=tmp_path / "faults.gpkg")
    assert time.monotonic() - begun < 200
    assert not (tmp_path / "faults.gpkg").exists()
    assert list((tmp_path / "temporary").glob("gandovel-*")) == []
    assert has_ended(int(began.read_text()))


def has_ended(process: int) -> bool:
    """Whether a process of another's has ended, though its parent may not have asked for its status yet."""
    end = time.monotonic() + 20
    state = Path(f"/proc/{process}/stat")
    while time.monotonic() < end:
        try:
            if state.read_text().rpartition(")")[2].split()[0] == "Z":
                return True
        except OSError:
            return True
        time.sleep(0.05)
    return False


def cancel_when(feedback: Any, began: Path) -> None:
    """Cancels once the program has begun."""
    end = time.monotonic() + 120
    while not (began.exists() and began.read_text().endswith("\n")) and time.monotonic() < end:
        time.sleep(0.05)
    feedback.cancel()


def test_a_missing_corner_is_found_and_no_other(qgis: Any) -> None:
    """A gap and an overlap at a junction; a strip between two shapes with corners of their own has none."""
    from gandovel.missing_corner import missing_corners
    from qgis.core import QgsGeometry

    def shape(polygon: Polygon) -> QgsGeometry:
        return QgsGeometry.fromWkt(polygon.wkt)

    below = {1: Polygon([(0, 0), (5, 0), (5, 9.9), (0, 10)]), 2: Polygon([(5, 0), (10, 0), (10, 10), (5, 9.9)])}
    shapes = {key: shape(polygon) for key, polygon in {**below, 3: box(0, 10, 10, 20)}.items()}
    found = missing_corners(shape(Polygon([(0, 10), (5, 9.9), (10, 10)])), shapes, 0.00075)
    assert found is not None and found.feature == 3 and found.agreed
    assert [(corner.x(), corner.y()) for corner in found.corners] == [(5, 9.9)]
    high = {key: polygon for key, polygon in shapes.items()}
    high[1] = QgsGeometry.fromWkt("PolygonZ((0 0 1, 5 0 2, 5 9.9 3, 0 10 4, 0 0 1))")
    found = missing_corners(shape(Polygon([(0, 10), (5, 9.9), (10, 10)])), high, 0.00075)
    assert found is not None and [corner.z() for corner in found.corners] == [3]
    strip = {1: shape(box(0, 0, 5, 10)), 2: shape(box(5.1, 0, 9, 10))}
    assert missing_corners(shape(box(5, 0, 5.1, 10)), strip, 0.00075) is None


def test_the_zip_has_the_plugin_and_the_same_bytes_each_time(tmp_path: Path) -> None:
    """With what QGIS asks of it."""
    for name in ("one.zip", "two.zip"):
        subprocess.run([sys.executable, ROOT / "packaging/qgis_plugin.py", tmp_path / name, "1700000000"], check=True)
    assert (tmp_path / "one.zip").read_bytes() == (tmp_path / "two.zip").read_bytes()
    with zipfile.ZipFile(tmp_path / "one.zip") as archive:
        names = archive.namelist()
        about = archive.read("gandovel/metadata.txt").decode()
    assert {"gandovel/__init__.py", "gandovel/package_side/answer.py", "gandovel/styles/faults.qml"} <= set(names)
    assert "hasProcessingProvider=yes" in about and "qgisMinimumVersion=3.22" in about
    files = [path for path in (ROOT / "qgis/gandovel").rglob("*") if path.is_file() and path.suffix != ".pyc"]
    own = [name for name in names if not name.startswith("gandovel/package/") and name != "gandovel/help.md"]
    assert sorted(own) == sorted(str(path.relative_to(ROOT / "qgis")) for path in files)
    assert "gandovel/package/gandovel/__init__.py" in names and "{home}" not in about
    links = [line for line in about.splitlines() if line.startswith(("homepage=", "tracker=", "repository="))]
    assert len(links) == 3 and all("=https://" in line for line in links)
    package = (ROOT / "python/pyproject.toml").read_text()
    assert f'version = "{metadata("version")}"' in package
