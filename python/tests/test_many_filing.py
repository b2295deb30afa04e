"""Parcels that lie in the file of another district: the whole tiles, and the filing is wrong."""
from __future__ import annotations

import json

import geopandas as gpd
import pytest

from gandovel.many import run_many
from gandovel.program.layer_files import read_rings, write_rings
from many_cities import SIDE
from test_many_districts import row_of_districts, write_manifest


def numbered(folder, names):
    """Writes the table of numbers that `prepare` writes beside a layer."""
    lines = ["record,parcel_no,FID,part", *(f"{at},{name},{at - 1},0" for at, name in enumerate(names, 1))]
    (folder / "rows.csv").write_text("\n".join(lines) + "\n")


def exchange(folder, one, other):
    """Exchanges the files of two districts."""
    for suffix in (".shp", ".shx"):
        first, second = (folder / f"{name}/parcels{suffix}" for name in (one, other))
        first.rename(folder / "aside")
        second.rename(first)
        (folder / "aside").rename(second)


def test_two_exchanged_files(tmp_path):
    rows = row_of_districts(tmp_path / "in", 3)
    exchange(tmp_path / "in", "d0", "d2")
    summary = run_many(write_manifest(tmp_path, rows), tmp_path / "out")
    (whole,) = summary.wholes
    assert (whole.kind, whole.tiles, summary.status) == ("misfiled", False, 1)
    assert whole.said.startswith(
        "all parcels tile, and the filing is wrong: the edges of d0, d2 cancel one another: "
        "parcel record 1 of d0 lies in d2"
    )
    assert summary.lines()[0] == "4 cities: 1 tile, 2 refused (H2 2), 1 misfiled"
    assert (summary.gaps, summary.overlaps, summary.crossings) == (0, 0, 8)
    assert summary.untold == []
    facts = json.loads((tmp_path / "out/summary.json").read_text())
    assert facts["misfiled"] == 1 and facts["wholes"][0]["verdict"] == "misfiled"


def test_one_parcel_in_the_file_beside(tmp_path):
    rows = row_of_districts(tmp_path / "in", 3)
    left, right = (tmp_path / f"in/d{at}/parcels.shp" for at in (0, 1))
    parcels, others = read_rings(left), read_rings(right)
    write_rings(left, [*parcels, others[0]])
    write_rings(right, others[1:])
    summary = run_many(write_manifest(tmp_path, rows), tmp_path / "out")
    assert summary.wholes[0].kind == "misfiled" and "parcel record 5 of d0 lies in d1" in summary.wholes[0].said


@pytest.mark.parametrize("how", ["doubled", "gone", "shifted"])
def test_what_does_not_cancel_is_not_misfiled(tmp_path, how):
    rows = row_of_districts(tmp_path / "in", 3)
    exchange(tmp_path / "in", "d0", "d2")
    path = tmp_path / "in/d0/parcels.shp"
    rings = read_rings(path)
    changed = {"doubled": [*rings, rings[0]], "gone": rings[1:], "shifted": [rings[0] + [1, 0], *rings[1:]]}
    write_rings(path, changed[how])
    summary = run_many(write_manifest(tmp_path, rows), tmp_path / "out")
    assert summary.wholes[0].kind == "refused" and summary.wholes[0].said.startswith("does not tile")
    assert summary.gaps + summary.overlaps > 0


def test_a_gap_on_a_border_has_the_parcels_of_both_sides(tmp_path):
    rows = row_of_districts(tmp_path / "in", 2)
    for at in range(2):
        numbered(tmp_path / f"in/d{at}", [f"{'ab'[at]}{number}" for number in range(1, 5)])
    path = tmp_path / "in/d0/parcels.shp"
    rings = read_rings(path)
    x = 2 * SIDE
    rings[1] = rings[1].copy()
    rings[1][rings[1][:, 0] == x, 0] = x - 250
    write_rings(path, rings)
    summary = run_many(write_manifest(tmp_path, rows), tmp_path / "out")
    assert summary.gaps == 1 and summary.wholes[0].kind == "refused"
    (gap,) = gpd.read_file(tmp_path / "out/faults.gpkg", layer="gaps").to_dict("records")
    assert gap["city"] == "d0" and set(gap["numbers"].split(",")) == {"a2", "a4", "b1"}
