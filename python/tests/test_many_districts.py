"""A city of districts by `gandovel many`: rings cut out of the layer of districts, and what the districts make up."""
from __future__ import annotations

import csv
import os
import random
import struct
import subprocess
from pathlib import Path
from typing import Any, Dict, List, Sequence

import fiona
import geopandas as gpd
import numpy as np
import pytest
from shapely.geometry import Polygon

from gandovel.program.layer_files import read_rings, write_rings
from gandovel.many import run_many
from gandovel.many.rings import DistrictLayer, NoRing
from gandovel.many.summary import Verdict, whole_of
from many_cities import GAP, SIDE, TOOL, box, calls, names_in, program, told, verdicts, write_city

LARGE = int(os.environ.get("GANDOVEL_MANY", "100")) >= 1000
MM = {"mm": 1, "cm": 10, "m": 1000}
BENT = 777
"""How far the border between two districts is bent, in mm."""


def write_manifest(folder: Path, rows: Sequence[Dict[str, Any]]) -> Path:
    """A manifest of rows; what a row lacks is left empty, but for its unit, mm."""
    columns = ["name", "city", "parcels", "zones", "unit", "part_of", "district"]
    with open(folder / "manifest.csv", "w", newline="") as file:
        writer = csv.DictWriter(file, columns, restval="")
        writer.writeheader()
        writer.writerows({"unit": "mm", **row} for row in rows)
    return folder / "manifest.csv"


def row_of_districts(folder: Path, count: int, name: str = "metropolis", at: int = 0) -> List[Dict[str, Any]]:
    """A city of so many districts in a row, from (`at`, 0), each of two by two parcels, with its rows of a manifest."""
    folder.mkdir(exist_ok=True)
    side = 2 * SIDE
    write_rings(folder / "city.shp", [box(at, 0, at + count * side, side)])
    write_rings(folder / "districts.shp", [box(at + i * side, 0, at + (i + 1) * side, side) for i in range(count)])
    rows = [{"name": name, "city": folder / "city.shp", "parcels": folder / "districts.shp"}]
    for i in range(count):
        write_city(folder / f"d{i}", at=at + i * side)
        rows.append({"name": f"d{i}", "parcels": folder / f"d{i}/parcels.shp", "part_of": name, "district": i + 1})
    return rows


def test_a_metropolis(run, tmp_path):
    count = 16 if LARGE else 4
    manifest, out = write_manifest(tmp_path, row_of_districts(tmp_path / "in", count)), tmp_path / "out"
    summary = run(manifest, out)
    assert summary.lines() == [
        f"{count + 1} cities: {count + 1} tile",
        f"metropolis: tiles: {4 * count} parcels of {count} districts",
    ]
    (whole,) = summary.wholes
    assert (whole.tiles, whole.districts, whole.parcels, whole.area2) == (
        True,
        count,
        4 * count,
        2 * count * 4 * SIDE * SIDE,
    )
    for at in range(count):
        (ring,) = read_rings(out / f"rings/d{at}/ring_mm.shp")
        assert {*map(tuple, ring.tolist())} == {
            (x, y) for x in (2 * at * SIDE, 2 * (at + 1) * SIDE) for y in (0, 2 * SIDE)
        }
    write_city(tmp_path / "in/d2", gap=True, at=4 * SIDE)
    summary = run(manifest, out, resume=True)
    assert (
        summary.kept == count
        and summary.lines()[1] == f"metropolis: does not tile: {count - 1} of {count} districts tile; not d2 (H2)"
    )
    assert summary.wholes[0].parcels is None and summary.gaps == 1


def test_a_ring_is_its_record_in_the_layer(tmp_path):
    rows = row_of_districts(tmp_path / "in", 2)
    run_many(write_manifest(tmp_path, rows), tmp_path / "out")
    folder = tmp_path / "out/rings/d1"
    assert names_in(folder) == {"ring_mm.shp", "ring_mm.shx"}
    record = (tmp_path / "in/districts.shp").read_bytes()[-128:]
    assert (folder / "ring_mm.shp").read_bytes()[108:] == record
    assert list(told(tmp_path / "out", "d1")["inputs"])[:2] == [
        str(folder / "ring_mm.shp"),
        str(folder / "ring_mm.shx"),
    ]
    assert told(tmp_path / "out", "metropolis")["inputs"][str(rows[0]["parcels"])]


def strips(count: int, seed: int) -> List[np.ndarray]:
    """Strips side by side, (0, 0) to (count SIDE, SIDE), with borders bent at nine places, all on whole mm."""
    pick = random.Random(seed)
    heights = [0, *sorted(pick.sample(range(1, SIDE), 9)), SIDE]
    bends = [
        [pick.randint(-BENT, BENT) if 0 < at < count and 0 < y < SIDE else 0 for y in heights]
        for at in range(count + 1)
    ]
    borders = [[(at * SIDE + bend, y) for bend, y in zip(line, heights)] for at, line in enumerate(bends)]
    return [np.array([*right, *left[::-1]], dtype=np.int64) for left, right in zip(borders, borders[1:])]


def in_unit(path: Path, rings: Sequence[np.ndarray], unit: str) -> None:
    """Writes rings in mm as a shapefile in another unit, as a GIS does, and without an index."""
    gpd.GeoDataFrame({"number": range(len(rings))}, geometry=[Polygon(ring / MM[unit]) for ring in rings]).to_file(path)
    path.with_suffix(".shx").unlink()


@pytest.mark.parametrize("layer, parcels", [("m", "mm"), ("mm", "m"), ("cm", "cm"), ("m", "m"), ("cm", "mm")])
def test_units(tmp_path, layer, parcels):
    whole_cm = "cm" in (layer, parcels)
    rings = [box(at * SIDE, 0, (at + 1) * SIDE, SIDE) for at in range(3)] if whole_cm else strips(3, 5)
    in_unit(tmp_path / "city.shp", [box(0, 0, 3 * SIDE, SIDE)], layer)
    in_unit(tmp_path / "districts.shp", rings, layer)
    rows = [{"name": "all", "city": "city.shp", "parcels": "districts.shp", "unit": layer}]
    for at, ring in enumerate(rings):
        in_unit(tmp_path / f"p{at}.shp", [ring], parcels)
        rows.append({"name": f"d{at}", "parcels": f"p{at}.shp", "unit": parcels, "part_of": "all", "district": at + 1})
    summary = run_many(write_manifest(tmp_path, rows), tmp_path / "out")
    assert summary.lines() == ["4 cities: 4 tile", "all: tiles: 3 parcels of 3 districts"]
    assert names_in(tmp_path / "out/rings/d1") == {f"ring_{parcels}.shp", f"ring_{parcels}.shx"}
    assert run_many(tmp_path / "manifest.csv", tmp_path / "out", resume=True).kept == 4


def test_a_layer_of_districts_off_the_grid(tmp_path):
    rows = row_of_districts(tmp_path / "in", 2)
    in_unit(tmp_path / "in/districts.shp", [box(0, 0, 2, 2), box(2, 0, 4, 2)], "mm")
    data = bytearray((tmp_path / "in/districts.shp").read_bytes())
    data[156:164] = struct.pack("<d", 0.25)
    (tmp_path / "in/districts.shp").write_bytes(data)
    for row in rows[1:]:
        row["unit"] = "cm"
    summary = run_many(write_manifest(tmp_path, rows), tmp_path / "out", retries=0)
    assert summary.verdicts[0].verdict == "open" and summary.verdicts[1].code == "T10"
    assert summary.verdicts[1].text == "its ring is not there: the layer of districts is not on the grid of its unit"


def test_a_ring_in_another_unit(tmp_path):
    ring = np.array([(0, 0), (123_457, -7), (99_999_999_999, 10**11)], dtype=np.int64)
    write_rings(tmp_path / "ring.shp", [ring])
    DistrictLayer(str(tmp_path / "ring.shp")).write(1, "mm", "m", tmp_path / "d")
    with fiona.open(str(tmp_path / "d/ring_m.shp")) as layer:
        assert layer.bounds == (0, -0.007, 99_999_999.999, 10**8)
    shape = gpd.read_file(tmp_path / "d/ring_m.shp").geometry[0]
    assert set(shape.exterior.coords) == {(x / 1000, y / 1000) for x, y in ring.tolist()}
    back = DistrictLayer(str(tmp_path / "d/ring_m.shp"))
    back.write(1, "m", "mm", tmp_path / "back")
    assert (tmp_path / "back/ring_mm.shp").read_bytes() == (tmp_path / "ring.shp").read_bytes()
    assert (tmp_path / "back/ring_mm.shx").read_bytes() == (tmp_path / "ring.shx").read_bytes()
    for record, words in ((2, "H4 2"), (0, "H4 0")):
        with pytest.raises(NoRing, match=words):
            back.write(record, "m", "m", tmp_path / "none")


def test_a_layer_of_districts_that_does_not_tile(tmp_path):
    rows = row_of_districts(tmp_path / "in", 3)
    write_rings(
        tmp_path / "in/districts.shp",
        [box(2 * i * SIDE, 0, 2 * (i + 1) * SIDE - GAP * (i == 1), 2 * SIDE) for i in range(3)],
    )
    summary = run_many(write_manifest(tmp_path, rows), tmp_path / "out", retries=0)
    expected = {"metropolis": ("refused", "H2"), "d0": ("tiles", ""), "d1": ("refused", "H2"), "d2": ("tiles", "")}
    assert verdicts(summary) == expected and summary.status == 1
    assert summary.lines() == [
        "4 cities: 2 tile, 2 refused (H2 2)",
        "metropolis: does not tile: the layer of districts does not (H2); 2 of 3 districts tile; not d1 (H2)",
        f"1 gap, 1 overlap: {tmp_path}/out/faults.gpkg",
    ]


def test_districts_that_the_layer_or_the_manifest_lacks(tmp_path):
    rows = row_of_districts(tmp_path / "in", 3)
    run = run_many(write_manifest(tmp_path, rows[:-1]), tmp_path / "out", retries=0)
    assert run.wholes[0].said == "open: the manifest has no row for district 3 of 3" and run.status == 3
    assert (
        "metropolis,open,open,,the manifest has no row for district 3 of 3,"
        in (tmp_path / "out/summary.csv").read_text()
    )
    more = {**rows[-1], "name": "d3", "district": 4}
    run = run_many(write_manifest(tmp_path, [*rows, more]), tmp_path / "out", retries=0, resume=True)
    assert run.kept == 3 and verdicts(run)["d3"] == ("none", "T10")
    assert run.without[0].text == "its ring is not there: districts: H4 4"
    assert run.wholes[0].said == "open: not judged: d3 (T10)"
    run = run_many(write_manifest(tmp_path, [*rows[:-1], more]), tmp_path / "out", retries=0, resume=True)
    assert run.wholes[0].said == "open: the manifest has no row for district 3 of 3"


def number_them(path: Path, numbers: Sequence[str]) -> None:
    """Gives a shapefile a .dbf with a column parcel_no."""
    rings = read_rings(path)
    shapes = [Polygon(ring) for ring in rings]
    gpd.GeoDataFrame({"parcel_no": numbers}, geometry=shapes).to_file(path.with_name("numbered.shp"))
    (path.with_name("numbered.dbf")).rename(path.with_suffix(".dbf"))


def test_numbers_of_districts(tmp_path):
    rows = row_of_districts(tmp_path / "in", 2)
    for at, numbers in enumerate((["a", "b", "c", "d"], ["e", "f", "g", "a"])):
        number_them(tmp_path / f"in/d{at}/parcels.shp", numbers)
    manifest = write_manifest(tmp_path, rows)
    summary = run_many(manifest, tmp_path / "out")
    assert summary.wholes[0].said == "open: parcels have the same number: a (d0, d1)" and summary.status == 3
    parcels = read_rings(tmp_path / "in/d0/parcels.shp")
    parcels[1][parcels[1][:, 0] == 2 * SIDE, 0] += GAP
    write_rings(tmp_path / "in/d0/parcels.shp", parcels)
    summary = run_many(manifest, tmp_path / "out")
    assert summary.wholes[0].said == (
        "does not tile: 1 of 2 districts tile; not d0 (H2); parcel b crosses districts d0 and d1; "
        "parcels have the same number: a (d0, d1)"
    )
    frame = gpd.read_file(tmp_path / "out/faults.gpkg", layer="overlaps")
    assert frame[["city", "records", "numbers"]].values.tolist() == [["d0", "2", "b"]]
    beside = read_rings(tmp_path / "in/d1/parcels.shp")
    beside[0][beside[0][:, 0] == 2 * SIDE, 0] += GAP
    write_rings(tmp_path / "in/d1/parcels.shp", beside)
    summary = run_many(manifest, tmp_path / "out")
    assert summary.wholes[0].said == (
        "all parcels tile, and the filing is wrong: the edges of d0, d1 cancel one another: parcel b of d0 lies in d1; "
        "parcels have the same number: a (d0, d1)"
    )
    assert summary.gaps == summary.overlaps == 0
    (crossing,) = gpd.read_file(tmp_path / "out/faults.gpkg", layer="crossings").itertuples()
    assert (crossing.city, crossing.district, crossing.other, crossing.number) == ("metropolis", "d0", "d1", "b")
    assert crossing.geometry.equals(Polygon(parcels[1] / 1000))
    assert summary.lines()[-1].startswith("1 parcel across districts: ")


PLANTED = {
    "exchanged": (
        "all parcels tile, and the filing is wrong: the edges of d0, d1 cancel one another: "
        "parcel record 1 of d0 lies in d1",
        1,
    ),
    "moved": ("does not tile: 2 of 3 districts tile; not d1 (H2); parcel record 2 crosses districts d1 and d2", 1),
    "a centimetre in the layer of districts": ("does not tile: the layer of districts does not (H2); 2 of 3", 1),
    "doubled": ("does not tile: 2 of 3 districts tile; not d1 (H2); parcel record 1 crosses districts d1 and d0", 1),
    "missing": ("open: the manifest has no row for district 2 of 3", 3),
    "a T junction at a border": ("tiles: 13 parcels of 3 districts", 0),
}


@pytest.mark.parametrize("kind", sorted(PLANTED))
def test_planted_faults_of_districts(tmp_path, kind):
    rows = row_of_districts(tmp_path / "in", 3)
    here = tmp_path / "in/d1/parcels.shp"
    if kind == "exchanged":
        rows[1]["district"], rows[2]["district"] = 2, 1
    elif kind == "moved":
        write_rings(here, [ring + 10 for ring in read_rings(here)])
    elif kind == "doubled":
        rows[2]["parcels"] = rows[1]["parcels"]
    elif kind == "missing":
        del rows[2]
    elif kind == "a T junction at a border":
        rings = read_rings(here)
        rings[0] = box(2 * SIDE, 0, 3 * SIDE, SIDE - 7)
        rings.append(box(2 * SIDE, SIDE - 7, 3 * SIDE, SIDE))
        write_rings(here, rings)
    else:
        rings = [box(2 * i * SIDE, 0, 2 * (i + 1) * SIDE - 10 * (i == 1), 2 * SIDE) for i in range(3)]
        write_rings(tmp_path / "in/districts.shp", rings)
    summary = run_many(write_manifest(tmp_path, rows), tmp_path / "out", retries=0)
    (whole,) = summary.wholes
    said, status = PLANTED[kind]
    assert whole.said.startswith(said) and summary.status == status, whole.said
    assert (summary.gaps + summary.overlaps > 0) == (whole.kind == "refused")
    assert (summary.crossings > 0) == ("crosses" in said or " lies in " in said)


def test_numbers_are_unique_over_all_levels(tmp_path):
    rows = row_of_districts(tmp_path / "in", 2, "country")
    quarters = [box(2 * SIDE, 0, 3 * SIDE, 2 * SIDE), box(3 * SIDE, 0, 4 * SIDE, 2 * SIDE)]
    rows[2].update(parcels=tmp_path / "in/quarters.shp")
    write_rings(tmp_path / "in/quarters.shp", quarters)
    number_them(tmp_path / "in/d0/parcels.shp", ["a", "b", "c", "d"])
    for at, ring in enumerate(quarters):
        write_rings(tmp_path / f"in/q{at}.shp", [ring])
        number_them(tmp_path / f"in/q{at}.shp", ["bx"[at]])
        rows.append({"name": f"q{at}", "parcels": tmp_path / f"in/q{at}.shp", "part_of": "d1", "district": at + 1})
    summary = run_many(write_manifest(tmp_path, rows), tmp_path / "out")
    said = {whole.name: whole.said for whole in summary.wholes}
    assert said["country"] == "open: parcels have the same number: b (d0, q0)" and said["d1"].startswith("tiles: 2")


def with_zones(folder: Path, count: int) -> List[Dict[str, Any]]:
    """A city of districts in a row with three zones, whose borders lie within districts, and slant; none of theirs."""
    rows = row_of_districts(folder, count)
    wide, high = 2 * SIDE * count, 2 * SIDE
    one, other = wide // 3, 2 * wide // 3 - 1_234
    corners = [(0, 0), (one, 0), (one + 777, high), (0, high)], [(one, 0), (other, 0), (other, high), (one + 777, high)]
    zones = [*corners, [(other, 0), (wide, 0), (wide, high), (other, high)]]
    shapes = [Polygon(it) for it in zones]
    gpd.GeoDataFrame({"zone": ["A", "B", "C"]}, geometry=shapes).to_file(folder / "zones.shp")
    write_rings(folder / "zones.shp", [np.array(it, dtype=np.int64) for it in zones])
    rows[0]["zones"] = folder / "zones.shp"
    for at in range(count):
        number_them(folder / f"d{at}/parcels.shp", [f"{at}-{number}" for number in "abcd"])
    return rows


def pairs_of_one_layer(folder: Path, count: int) -> Any:
    """The pairs that the program says of all parcels in one layer, as the table has them."""
    files = [folder / f"d{at}/parcels.shp" for at in range(count)]
    write_rings(folder / "all.shp", [ring for path in files for ring in read_rings(path)])
    words = [TOOL, "overlay", folder / "city.shp", folder / "all.shp", folder / "zones.shp", "--unit", "mm"]
    text = subprocess.check_output(list(map(str, words)), universal_newlines=True)
    pairs = [tuple(map(int, line.split()[1:])) for line in text.splitlines() if line.startswith("pair ")]
    return {(f"{(a - 1) // 4}-{'abcd'[(a - 1) % 4]}", "ABC"[b - 1]) for a, b in pairs}


def table_of(out: Path) -> List[Dict[str, str]]:
    with open(out / "pairs.csv", newline="") as file:
        return list(csv.DictReader(file))


def test_pairs_across_districts_are_one_table(run, tmp_path):
    """Whole zones, parcels of districts: as one run of all parcels says."""
    rows, out = with_zones(tmp_path / "in", 4), tmp_path / "out"
    manifest = write_manifest(tmp_path, rows)
    summary = run(manifest, out)
    expected, table = pairs_of_one_layer(tmp_path / "in", 4), table_of(out)
    assert {(it["number"], it["zone"]) for it in table} == expected and len(table) == len(expected) > 16
    split = {number for number, _ in expected if sum(it == number for it, _ in expected) > 1}
    assert {it["number"] for it in table if it["split"]} == split and split
    assert {(it["city"], it["district"]) for it in table} == {("metropolis", f"d{at}") for at in range(4)}
    (whole,) = summary.wholes
    assert (whole.kind, whole.pairs, whole.split) == ("tiles", len(expected), len(split))
    assert whole.said == (
        f"tiles: 16 parcels of 4 districts; {len(expected)} pairs with zones, {len(split)} parcels split"
    )
    assert not (out / "frames").exists()
    again = run(manifest, out, resume=True)
    assert again.wholes == summary.wholes and table_of(out) == table
    assert told(out, "0-d1", "overlays")["run"] == told(out, "d1")["run"], "what is kept is not overlaid again"
    write_city(tmp_path / "in/d2", gap=True, at=4 * SIDE)
    refused = run(manifest, out, resume=True)
    assert refused.wholes[0].kind == "refused" and refused.wholes[0].pairs is None
    assert {it["district"] for it in table_of(out)} == {"d0", "d1", "d3"}


def test_an_overlay_that_has_no_answer_leaves_the_city_open(tmp_path, monkeypatch):
    program(tmp_path, monkeypatch, 'case "$1 $2" in overlay*/frames/d1/*) kill -9 $$;; esac')
    summary = run_many(write_manifest(tmp_path, with_zones(tmp_path / "in", 3)), tmp_path / "out", retries=0)
    assert summary.wholes[0].said == "open: not overlaid: d1 (T4 the program was killed by signal 9)"
    assert summary.status == 3 and verdicts(summary)["d1"] == ("tiles", "")
    monkeypatch.undo()
    summary = run_many(tmp_path / "manifest.csv", tmp_path / "out", resume=True)
    assert summary.wholes[0].tiles and summary.wholes[0].pairs == len(pairs_of_one_layer(tmp_path / "in", 3))


def test_a_disk_that_has_no_room_for_overlays(tmp_path, monkeypatch):
    """The verdicts of districts are told all the same, and why the city is open."""
    from gandovel.many import pairs

    def full(*words: Any) -> Any:
        raise OSError(28, "No space left on device")

    monkeypatch.setattr(pairs, "write_overlay", full)
    summary = run_many(write_manifest(tmp_path, with_zones(tmp_path / "in", 2)), tmp_path / "out", retries=0)
    assert verdicts(summary) == {"metropolis": ("open", "open"), "d0": ("tiles", ""), "d1": ("tiles", "")}
    said = summary.wholes[0].said
    assert said.startswith("open: not overlaid: d0 (P14 ") and "No space left on device" in said
    assert (tmp_path / "out/summary.csv").is_file()


def test_a_layer_that_changes_before_it_is_overlaid(tmp_path, monkeypatch):
    rows = with_zones(tmp_path / "in", 2)
    changes = f'"{TOOL}" "$@"; echo >> {tmp_path}/in/d0/parcels.shp; exit'
    program(tmp_path, monkeypatch, f'case "$1 $3" in "check "*/d1/*) {changes};; esac')
    summary = run_many(write_manifest(tmp_path, rows), tmp_path / "out", retries=0, jobs=1)
    assert summary.wholes[0].said == "open: not overlaid: d0 (T5 a layer changed)"


def cut_zones(folder: Path, count: int) -> List[Dict[str, Any]]:
    """The same, with zones cut along the districts, each piece under its zone's number."""
    rows = with_zones(folder, count)
    whole = [Polygon(ring) for ring in read_rings(folder / "zones.shp")]
    for at, row in enumerate(rows[1:]):
        ring = Polygon(box(2 * at * SIDE, 0, 2 * (at + 1) * SIDE, 2 * SIDE))
        pieces = [(name, zone.intersection(ring)) for name, zone in zip("ABC", whole)]
        some = [(name, piece) for name, piece in pieces if piece.area]
        row["zones"] = folder / f"d{at}/pieces.shp"
        gpd.GeoDataFrame({"zone": [name for name, _ in some]}, geometry=[it for _, it in some]).to_file(row["zones"])
        write_rings(row["zones"], [np.rint(np.asarray(it.exterior.coords)[:-1]).astype(np.int64) for _, it in some])
    return rows


def test_zones_that_were_cut_make_up_their_zone(tmp_path):
    rows, out = cut_zones(tmp_path / "in", 3), tmp_path / "out"
    summary = run_many(write_manifest(tmp_path, rows), out)
    expected = pairs_of_one_layer(tmp_path / "in", 3)
    assert summary.wholes[0].tiles and {(it["number"], it["zone"]) for it in table_of(out)} == expected
    frame = gpd.read_file(tmp_path / "in/d1/pieces.shp")
    frame.assign(zone=frame.zone.tolist()[::-1]).to_file(tmp_path / "other.shp")
    (tmp_path / "other.dbf").rename(tmp_path / "in/d1/pieces.dbf")
    summary = run_many(tmp_path / "manifest.csv", out)
    assert summary.wholes[0].kind == "open" and summary.status == 3
    assert summary.wholes[0].said.startswith("open: the pieces in its districts do not make up zones: A, C")


def test_rings_are_the_programs_where_the_layer_tiles(tmp_path):
    """`part` puts in the neighbours' corners; of a layer that does not tile each ring is its record, byte for byte."""
    rows = row_of_districts(tmp_path / "in", 2)
    bent = [
        np.array([(0, 0), (2 * SIDE, 0), (2 * SIDE, 2 * SIDE), (0, 2 * SIDE)], dtype=np.int64),
        np.array([(2 * SIDE, 0), (4 * SIDE, 0), (4 * SIDE, 2 * SIDE), (2 * SIDE, 2 * SIDE), (2 * SIDE, SIDE)]),
    ]
    write_rings(tmp_path / "in/districts.shp", bent)
    summary = run_many(write_manifest(tmp_path, rows), tmp_path / "out")
    (ring,) = read_rings(tmp_path / "out/rings/d0/ring_mm.shp")
    assert summary.wholes[0].tiles and len(ring) == 5 and (2 * SIDE, SIDE) in map(tuple, ring.tolist())
    bent[1][4] += 3
    write_rings(tmp_path / "in/districts.shp", bent)
    summary = run_many(tmp_path / "manifest.csv", tmp_path / "out")
    (ring,) = read_rings(tmp_path / "out/rings/d0/ring_mm.shp")
    assert len(ring) == 4 and summary.wholes[0].kind == "refused" and verdicts(summary)["d0"] == ("tiles", "")
    assert names_in(tmp_path / "out/rings") == {"d0", "d1"}


def test_areas_that_do_not_add_up_leave_a_city_open():
    layer = Verdict("all", "tiles", parcels=2, area2=20)
    districts = {at: Verdict(f"d{at}", "tiles", parcels=3, area2=10) for at in (1, 2)}
    assert whole_of(layer, districts).tiles
    whole = whole_of(layer, {**districts, 2: Verdict("d2", "tiles", parcels=3, area2=12)})
    assert (whole.kind, whole.said) == ("open", "open: the districts have twice 22 mm2, and the city 20")


def test_a_country_of_cities_of_districts(tmp_path):
    rows = row_of_districts(tmp_path / "in", 3, "country")
    rows[2].update(parcels=tmp_path / "in/quarters.shp")
    write_rings(
        tmp_path / "in/quarters.shp", [box(2 * SIDE, 0, 3 * SIDE, 2 * SIDE), box(3 * SIDE, 0, 4 * SIDE, 2 * SIDE)]
    )
    for at in range(2):
        write_rings(
            tmp_path / f"in/q{at}.shp",
            [box((2 + at) * SIDE, i * SIDE, (3 + at) * SIDE, (i + 1) * SIDE) for i in range(2)],
        )
        rows.insert(0, {"name": f"q{at}", "parcels": tmp_path / f"in/q{at}.shp", "part_of": "d1", "district": at + 1})
    summary = run_many(write_manifest(tmp_path, rows), tmp_path / "out")
    assert summary.lines() == [
        "6 cities: 6 tile",
        "country: tiles: 12 parcels of 3 districts",
        "d1: tiles: 4 parcels of 2 districts",
    ]
    write_rings(tmp_path / "in/q1.shp", [box(3 * SIDE, 0, 4 * SIDE, SIDE)])
    summary = run_many(tmp_path / "manifest.csv", tmp_path / "out", resume=True)
    assert summary.lines()[:3] == [
        "6 cities: 3 tile, 3 refused (H2 3); 5 kept",
        "country: does not tile: 2 of 3 districts tile; not d1 (H2)",
        "d1: does not tile: 1 of 2 districts tile; not q1 (H2)",
    ]


def test_a_layer_of_districts_that_changes_between_ring_and_check(tmp_path, monkeypatch):
    rows = row_of_districts(tmp_path / "in", 2)
    write_rings(tmp_path / "other.shp", read_rings(tmp_path / "in/districts.shp")[::-1])
    program(
        tmp_path,
        monkeypatch,
        f'case "$1 $city" in "check "*/d0) cp {tmp_path}/other.shp {tmp_path}/in/districts.shp;; esac',
    )
    summary = run_many(write_manifest(tmp_path, [*rows[1:], rows[0]]), tmp_path / "out", jobs=1)
    assert summary.wholes[0].said == "open: the layer of districts changed between its check and the ring of d0, d1"
    assert not run_many(tmp_path / "manifest.csv", tmp_path / "out", jobs=1, resume=True).wholes[0].tiles


DAMAGES = {
    "gone": "rm ring_mm.shp",
    "torn": "truncate -s -8 ring_mm.shp",
    "longer": "echo >> ring_mm.shp",
    "an index that is torn": "truncate -s 100 ring_mm.shx",
}


@pytest.mark.parametrize("how", sorted(DAMAGES))
def test_a_ring_that_is_damaged_is_cut_out_again(tmp_path, monkeypatch, how):
    program(tmp_path, monkeypatch, "")
    manifest = write_manifest(tmp_path, row_of_districts(tmp_path / "in", 2))
    run_many(manifest, tmp_path / "out")
    files = [tmp_path / f"out/rings/d1/ring_mm.{ending}" for ending in ("shp", "shx")]
    before, contents = calls(tmp_path), [path.read_bytes() for path in files]
    subprocess.check_call(DAMAGES[how], shell=True, cwd=tmp_path / "out/rings/d1")
    summary = run_many(manifest, tmp_path / "out", resume=True)
    assert summary.kept == 3 and summary.wholes[0].tiles and calls(tmp_path) == before
    assert [path.read_bytes() for path in files] == contents


def test_what_is_killed_is_tried_again(run, tmp_path, monkeypatch):
    program(tmp_path, monkeypatch, "once killed && kill -9 $$")
    summary = run(write_manifest(tmp_path, row_of_districts(tmp_path / "in", 3)), tmp_path / "out")
    assert summary.wholes[0].tiles and names_in(tmp_path / "out/rings") == {"d0", "d1", "d2"}
    assert (tmp_path / "in/killed").exists()


def cut(pick: random.Random, x0: int, y0: int, x1: int, y1: int, count: int) -> List[np.ndarray]:
    """A rectangle in mm cut into so many, at random."""
    rings = [(x0, y0, x1, y1)]
    while len(rings) < count:
        a, b, c, d = rings.pop(
            max(range(len(rings)), key=lambda i: max(rings[i][2] - rings[i][0], rings[i][3] - rings[i][1]))
        )
        if c - a >= d - b:
            at = pick.randint(a + 1, c - 1)
            rings += [(a, b, at, d), (at, b, c, d)]
        else:
            at = pick.randint(b + 1, d - 1)
            rings += [(a, b, c, at), (a, at, c, d)]
    return [box(*ring) for ring in rings]


def test_what_the_districts_make_up_is_what_all_parcels_do(tmp_path):
    """At random: where all districts tile, the program says of all parcels in one layer that they tile the city."""
    rows: List[Dict[str, Any]] = []
    wrong = {}
    for city in range(12):
        pick, folder = random.Random(city), tmp_path / f"in{city}"
        folder.mkdir()
        districts = cut(pick, 0, 0, SIDE, SIDE, pick.randint(2, 5))
        parcels = [cut(pick, *ring[0].tolist(), *ring[2].tolist(), pick.randint(1, 6)) for ring in districts]
        wrong[city] = pick.randrange(len(districts)) if city % 3 == 2 else None
        if wrong[city] is not None:
            parcels[wrong[city]][0][0] += 1
        write_rings(folder / "city.shp", [box(0, 0, SIDE, SIDE)])
        write_rings(folder / "districts.shp", districts)
        write_rings(folder / "all.shp", [ring for rings in parcels for ring in rings])
        rows.append({"name": f"c{city}", "city": folder / "city.shp", "parcels": folder / "districts.shp"})
        for at, rings in enumerate(parcels):
            write_rings(folder / f"p{at}.shp", rings)
            rows.append(
                {"name": f"c{city}d{at}", "parcels": folder / f"p{at}.shp", "part_of": f"c{city}", "district": at + 1}
            )
    summary = run_many(write_manifest(tmp_path, rows), tmp_path / "out")
    for city, whole in enumerate(summary.wholes):
        assert whole.tiles == (wrong[city] is None), whole
        folder = tmp_path / f"in{city}"
        asked = subprocess.run(
            [TOOL, "check", str(folder / "city.shp"), str(folder / "all.shp"), "--unit", "mm"],
            stdout=subprocess.PIPE,
            stderr=subprocess.PIPE,
            universal_newlines=True,
        )
        assert (asked.stdout == f"tiling {whole.parcels} {whole.area2}\n") == whole.tiles
