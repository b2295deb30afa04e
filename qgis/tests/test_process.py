"""Each algorithm by `qgis_process.bin`: on the town, on 2,000 parcels, on bad features."""
from __future__ import annotations

import json
import os
import subprocess
from pathlib import Path
from typing import Any, Dict, Iterator, List

import geopandas as gpd
import pytest
from conftest import TOWN, environment
from layers_made import make_bad
from models import OUTPUTS, write_model
from shapely.geometry import Point

LONG = bool(os.environ.get("GANDOVEL_LONG"))
TOWN_EDITS = "insert 0 40000 50000 40000 25000 40000\nmerge 4 5\nmerge 4 1\n"


@pytest.fixture(scope="module")
def place(tmp_path_factory: pytest.TempPathFactory) -> Path:
    """A folder with a profile in which the plugin is enabled."""
    folder: Path = tmp_path_factory.mktemp("process")
    process(folder, "plugins", "enable", "gandovel")
    return folder


def process(folder: Path, *words: str) -> subprocess.CompletedProcess[str]:
    """Runs `qgis_process.bin`."""
    words = ("qgis_process.bin", *words)
    return subprocess.run(words, env=environment(folder), capture_output=True, text=True, timeout=900, check=False)


def run(folder: Path, algorithm: str, **parameters: Any) -> Dict[str, Any]:
    """The results of an algorithm, or a model."""
    given = [f"{name}={value}" for name, value in parameters.items()]
    ended = process(folder, "--json", "run", algorithm, "--", *given)
    assert ended.returncode == 0, ended.stderr[-3000:]
    results: Dict[str, Any] = json.loads(ended.stdout)["results"]
    return results


def session(folder: Path, city: Path, parcels: Path, unit: str) -> subprocess.Popen[str]:
    """A session with the desk `folder`/anna."""
    for end in ("in", "out"):
        os.mkfifo(folder / f"anna.{end}", 0o600)
    words = [
        os.environ["GANDOVEL_TOOL"],
        "session",
        str(city),
        str(parcels),
        "--unit",
        unit,
        "--desk",
        str(folder / "anna"),
    ]
    running = subprocess.Popen(words, stdin=subprocess.PIPE, stdout=subprocess.PIPE, text=True)
    assert running.stdout is not None and running.stdout.readline() == "ready 0\n"
    return running


@pytest.fixture
def town_session(tmp_path: Path) -> Iterator[Path]:
    """The folder of a session of the town."""
    running = session(tmp_path, TOWN / "city.shp", TOWN / "parcels.shp", "cm")
    yield tmp_path
    running.terminate()
    running.communicate()


def run_all(place: Path, folder: Path, **given: Any) -> None:
    """Runs each algorithm once, as one model; its layers are `folder`/ALGORITHM_LAYER.gpkg."""
    write_model(folder / "all.model3", list(OUTPUTS))
    outputs = {**OUTPUTS, "counted": ["OUTPUT"]}
    layers = {f"{it}:{it}_{output}": folder / f"{it}_{output}.gpkg" for it in outputs for output in outputs[it]}
    run(place, str(folder / "all.model3"), **given, **layers)


def read(folder: Path, name: str) -> gpd.GeoDataFrame:
    """A layer that a run wrote."""
    return gpd.read_file(folder / f"{name}.gpkg")


def test_the_installed_plugin_lists_its_algorithms(place: Path) -> None:
    """All of them, with the provider's name, by the command line too."""
    listed = process(place, "--json", "list")
    provider = json.loads(listed.stdout)["providers"]["gandovel"]
    assert provider["name"] == "Gandovel" and set(provider["algorithms"]) == {f"gandovel:{name}" for name in OUTPUTS}


def test_each_on_the_town(qgis: Any, place: Path, town_session: Path) -> None:
    """In centimetres, compared exactly, without a projection and without numbers, as the program's own example is."""
    folder = town_session
    points = gpd.GeoDataFrame({"name": ["in", "edge"]}, geometry=[Point(1000, 1000), Point(9000, 5000)])
    points.to_file(folder / "points.shp")
    (folder / "edits.txt").write_text(TOWN_EDITS)
    given = {"zones": TOWN / "zones.shp", "points": folder / "points.shp", "edits": folder / "edits.txt"}
    given.update(parcels=TOWN / "parcels_with_a_gap.shp", whole=TOWN / "parcels.shp", city=TOWN / "city.shp")
    run_all(place, folder, **given, unit="cm", touch=0, desk=folder / "anna")
    assert read(folder, "counted_OUTPUT")["counts"].tolist() == ["1 0 0 0 0 does not tile"]
    for name in ("checkparcels", "districts", "overlayzones"):
        gap = read(folder, f"{name}_FAULTS")
        assert gap["area2_mm2"].tolist() == ["1000000"] and gap["kind"].tolist() == ["gap"]
        assert set(gap["numbers"][0].split(",")) >= {"4", "5"}
    assert read(folder, "overlayzones_SPLIT")["number"].tolist() == ["2", "4"]
    assert len(read(folder, "overlayzones_PARTS")) == 4
    table = read(folder, "overlayzones_TABLE")
    pairs = ((1, 1), (2, 1), (2, 2), (3, 1), (4, 1), (4, 2), (5, 2))
    assert list(zip(table["number"], table["zone"])) == [(str(parcel), str(zone)) for parcel, zone in pairs]
    assert set(table["zone_how"]) == {"exact"} and set(table["area_how"]) == {"measured"}
    found = read(folder, "overlayzones_PAIRS")
    assert list(zip(found["number"], found["zone"], found["split"])) == [
        (str(parcel), str(zone), int(parcel in (2, 4))) for parcel, zone in pairs
    ]
    assert read(folder, "prepare_OUTPUT")["records"].tolist() == ["1", "2", "3", "4", "5"]
    assert read(folder, "locatepoints_OUTPUT")["numbers"].tolist() == ["1", "4,5"]
    assert read(folder, "applyedits_ANSWERS")["made"].tolist() == [1, 1, 0]
    assert sorted(read(folder, "applyedits_OUTPUT")["came_from"]) == ["1", "2", "3", "4,5"]
    assert read(folder, "comparesession_OUTPUT")["state"].tolist() == ["same"] * 5


def test_areas_in_zones_are_proved_where_the_layers_tile(place: Path, tmp_path: Path) -> None:
    """The numbers of the program: they sum to the parcels' twice-areas in mm2."""
    given = {"INPUT": TOWN / "parcels.shp", "OVERLAY": TOWN / "zones.shp", "CITY": TOWN / "city.shp", "UNIT": "cm"}
    outputs = {name: tmp_path / f"{name}.gpkg" for name in ("SPLIT", "PARTS", "TABLE", "PAIRS")}
    run(place, "gandovel:overlayzones", **given, **outputs)
    table, parts, pairs = (read(tmp_path, name) for name in ("TABLE", "PARTS", "PAIRS"))
    areas = [4_000_000_000, 1_575_000_000, 2_625_000_000, 4_000_000_000, 1_625_000_000, 2_375_000_000, 3_000_000_000]
    assert table["area2_mm2"].tolist() == pairs["area2_mm2"].tolist() == [str(area2) for area2 in areas]
    assert table["area_m2"].tolist() == [area2 / 2e6 for area2 in areas]
    assert set(table["area_how"]) == set(parts["area_how"]) == {"proved"}
    assert parts["area2_mm2"].tolist() == [str(areas[at]) for at in (1, 2, 4, 5)]
    assert table["share"].tolist() == [1.0, 0.375, 0.625, 1.0, 0.40625, 0.59375, 1.0]


def test_each_on_2000_parcels_with_planted_faults(
    qgis: Any, place: Path, register: Any, whole: Any, tmp_path: Path
) -> None:
    """The planted faults, and no other."""
    words = ["/usr/bin/python3", "-m", "gandovel", "prepare", str(whole.parcels), "--out", str(tmp_path / "work")]
    subprocess.run(words, env=environment(place), check=True, capture_output=True)
    running = session(tmp_path, tmp_path / "work/city.shp", tmp_path / "work/parcels.shp", "mm")
    try:
        (tmp_path / "edits.txt").write_text("merge 1 2\n")
        given = {
            "parcels": register.parcels,
            "whole": whole.parcels,
            "zones": register.zones,
            "points": register.points,
        }
        given.update(edits=tmp_path / "edits.txt", desk=tmp_path / "anna")
        run_all(place, tmp_path, **given, number="parcel_no", zone="zone")
    finally:
        running.terminate()
        running.communicate()
    assert set(read(tmp_path, "counted_OUTPUT")["counts"]) == {"3 2 0 0 0 does not tile"}
    for name in ("checkparcels", "districts", "overlayzones"):
        faults = read(tmp_path, f"{name}_FAULTS")
        for kind, areas in register.areas.items():
            found = sorted(faults.loc[faults["kind"] == kind, "area_m2"], reverse=True)
            assert found == pytest.approx(areas, abs=0.05)
        assert len(faults) == sum(map(len, register.areas.values()))
    split, parts = read(tmp_path, "overlayzones_SPLIT"), read(tmp_path, "overlayzones_PARTS")
    assert set(split["number"]) == set(parts["number"]) and len(split) > 30
    assert parts.groupby("number")["share"].sum().tolist() == pytest.approx([1.0] * len(split))
    table, pairs = read(tmp_path, "overlayzones_TABLE"), read(tmp_path, "overlayzones_PAIRS")
    assert len(table) == 2000 + len(split)
    exact = table[table["zone_how"] == "exact"]
    assert sorted(zip(exact["number"], exact["zone"])) == sorted(zip(pairs["number"], pairs["zone"]))
    assert pairs.groupby("number").size().gt(1).sum() == len(split) and len(exact) >= 1990
    assert len(read(tmp_path, "prepare_OUTPUT")) == 2000
    assert read(tmp_path, "locatepoints_OUTPUT")["where"].tolist() == ["inside", "inside", "outside"]
    assert len(read(tmp_path, "applyedits_OUTPUT")) == 1999
    assert read(tmp_path, "comparesession_OUTPUT")["state"].tolist() == ["same"] * 2000


def test_bad_features_are_errors_by_number(place: Path, tmp_path: Path) -> None:
    """With GANDOVEL_LONG by each algorithm, else by the check; nothing is written."""
    numbers = make_bad(tmp_path / "bad.gpkg")
    (tmp_path / "edits.txt").write_text("merge 1 2\n")
    bad, out = tmp_path / "bad.gpkg", tmp_path / "out.gpkg"
    more: Dict[str, List[str]] = {
        "overlayzones": [f"OVERLAY={bad}", "OVERLAY_FIELD=parcel_no"],
        "locatepoints": [f"POINTS={make_points(tmp_path)}"],
        "applyedits": [f"EDITS={tmp_path / 'edits.txt'}"],
        "comparesession": [f"DESK={tmp_path / 'nobody'}"],
    }
    for name in OUTPUTS if LONG else ("checkparcels",):
        outputs = [f"{output}={out}" for output in OUTPUTS[name]]
        words = [f"INPUT={bad}", "NUMBER_FIELD=parcel_no", *more.get(name, []), *outputs]
        ended = process(place, "run", f"gandovel:{name}", "--", *words)
        assert ended.returncode != 0
        assert "Traceback" not in ended.stderr
        for number in numbers:
            assert f"parcel {number}: " in ended.stderr
        assert not out.exists()


def make_points(folder: Path) -> Path:
    """A layer of one point."""
    path = folder / "points.gpkg"
    gpd.GeoDataFrame({"name": ["a"]}, geometry=[Point(105, 5)], crs=25832).to_file(path, driver="GPKG")
    return path
