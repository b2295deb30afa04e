"""Repairs and the register of faults, in the QGIS of this process."""
from __future__ import annotations

import csv
import json
import os
import sqlite3
import subprocess
from pathlib import Path
from typing import Any, Dict, List, Tuple

import pytest
from shapely.geometry import Polygon, box
from test_refusals import M, project, run, written  # noqa: F401

NEAR = 0.00075


def layer_of(folder: Path, *shapes: Polygon) -> Any:
    """A layer of shapes that are numbered from 1, being edited."""
    from qgis.core import QgsVectorLayer

    numbers = [str(at) for at in range(1, len(shapes) + 1)]
    layer = QgsVectorLayer(str(written(folder / "parcels.gpkg", list(shapes), parcel_no=numbers)), "parcels", "ogr")
    assert layer.isValid() and layer.startEditing()
    return layer


def faults_of(layer: Any) -> List[Any]:
    """The faults of a layer as it is in the window, the largest first."""
    from gandovel.check_task import Fault
    from qgis.core import QgsGeometry

    found = run("checkparcels", INPUT=layer, NUMBER_FIELD="parcel_no", FAULTS=M)["FAULTS"]
    faults = [
        Fault(
            it["kind"],
            it["layer"],
            it["numbers"].split(","),
            it["area_m2"],
            it["area2_mm2"],
            QgsGeometry(it.geometry()),
        )
        for it in found.getFeatures()
    ]
    return sorted(faults, key=lambda fault: -fault.exact_area)


def candidates_of(layer: Any, fault: Any) -> List[Any]:
    """What can be done about a fault."""
    from gandovel.missing_corner import shapes_of
    from gandovel.repairs import candidates

    ids = {feature["parcel_no"]: feature.id() for feature in layer.getFeatures()}
    names = {feature: number for number, feature in ids.items()}
    return candidates(fault, shapes_of(layer, [ids[it] for it in fault.numbers]), names.__getitem__, NEAR)


def areas_of(layer: Any) -> Dict[str, float]:
    """The areas of parcels by their numbers."""
    return {feature["parcel_no"]: round(feature.geometry().area(), 6) for feature in layer.getFeatures()}


ODD = (
    box(0, 0, 5, 10),
    box(5, 0, 10, 10),
    Polygon([(0, 10), (5, 10.41), (10, 10), (10, 20), (0, 20)]),
)
STRIP = (box(0, 0, 5, 10), box(5.2, 0, 9, 10), box(0, 10, 9, 20), box(0, -5, 9, 0))
LAPPED = (box(0, 0, 5.3, 10), box(5, 0, 9, 10), box(0, 10, 9, 20), box(0, -5, 9, 0))
LAPPED_BEFORE = {"1": 53.0, "2": 40.0}


@pytest.mark.parametrize(
    "shapes, rule, title, after",
    [
        (ODD, "odd", "Move the odd corner of parcel 3 to where the others agree", {"1": 50.0, "2": 50.0, "3": 100.0}),
        (STRIP, "longest", "Give it to parcel 1, whose border there is 10.00 long", {"1": 52.0, "2": 38.0}),
        (STRIP, "give", "Give it to parcel 2, whose border there is 10.00 long", {"1": 50.0, "2": 40.0}),
        (LAPPED, "keep", "Parcel 1 keeps it", {"1": 53.0, "2": 37.0}),
        (LAPPED, "keep", "Parcel 2 keeps it", {"1": 50.0, "2": 40.0}),
    ],
)
def test_a_repair_is_one_step_and_the_program_says_that_it_tiles(
    qgis: Any, tmp_path: Path, shapes: Tuple[Polygon, ...], rule: str, title: str, after: Dict[str, float]
) -> None:
    """With the areas that it said before; undo takes it back."""
    from gandovel.repairs import apply

    layer = layer_of(tmp_path, *shapes)
    before = areas_of(layer)
    fault = faults_of(layer)[0]
    one = next(it for it in candidates_of(layer, fault) if it.title.startswith(title.split(",")[0]))
    assert one.rule in (rule, "longest", "give") and layer.undoStack().count() == 0
    assert apply(layer, one.title, one.changes) == len(one.changes) == len(one.areas)
    assert {number: areas_of(layer)[number] for number in after} == pytest.approx(after)
    assert layer.undoStack().count() == 1
    assert run("checkparcels", INPUT=layer, NUMBER_FIELD="parcel_no", FAULTS=M)["VERDICT"] == "tiles"
    layer.undoStack().undo()
    assert areas_of(layer) == before


def test_the_odd_corner_is_what_is_proposed_first_and_how_far_it_moves(qgis: Any, tmp_path: Path) -> None:
    """41 cm; and nothing that bends a sound parcel stands before it."""
    layer = layer_of(tmp_path, *ODD)
    found = candidates_of(layer, faults_of(layer)[0])
    assert found[0].rule == "odd" and found[0].moves == pytest.approx(0.41, abs=0.001)


def test_all_gaps_of_a_kind_are_one_step(qgis: Any, tmp_path: Path) -> None:
    """Two strips, each to the neighbour with the longest border."""
    from gandovel.repairs import apply_all

    more = [box(0, 20, 3, 30), box(3.1, 20, 9, 30), box(0, 30, 9, 40)]
    layer = layer_of(tmp_path, *STRIP, *more)
    faults = faults_of(layer)
    assert [fault.kind for fault in faults] == ["gap", "gap"]
    assert apply_all(layer, "longest", "all", faults, lambda fault: candidates_of(layer, fault)) == 2
    assert layer.undoStack().count() == 1
    assert run("checkparcels", INPUT=layer, NUMBER_FIELD="parcel_no", FAULTS=M)["VERDICT"] == "tiles"


def test_the_register_keeps_what_was_decided(qgis: Any, tmp_path: Path) -> None:
    """An exception stays one, with its reason; what is gone is mended; all of it is exported, and QGIS reads it."""
    from gandovel.fault_register import Register, RegisterFault, path_for
    from qgis.core import QgsVectorLayer

    more = [box(0, 20, 3, 30), box(3.1, 20, 9, 30), box(0, 30, 9, 40)]
    layer = layer_of(tmp_path, *STRIP, *more)
    large, small = faults_of(layer)
    path = path_for(layer.source())
    assert path == tmp_path / "parcels.gpkg"
    register = Register(path, layer.name())
    assert register.entries() == {}
    register.seen([large, small])
    register.accept(small, "a wall, by deed 17/3")
    register.seen([small])
    states = {fault: (entry.state, entry.reason) for fault, entry in register.entries().items()}
    assert states == {large.identity: ("mended", ""), small.identity: ("accepted", "a wall, by deed 17/3")}
    assert register.export(tmp_path / "faults.csv") == 2
    with open(tmp_path / "faults.csv", newline="", encoding="utf-8") as file:
        rows = {row["fault"]: row for row in csv.DictReader(file)}
    assert rows[small.identity]["reason"] == "a wall, by deed 17/3" and rows[small.identity]["decided"].endswith("Z")
    assert rows[large.identity]["area2_mm2"] == large.area2_mm2
    assert faults_of(layer)[0].identity == large.identity
    table = QgsVectorLayer(f"{path}|layername=gandovel_faults", "register", "ogr")
    assert table.isValid() and table.featureCount() == 2
    with pytest.raises(RegisterFault):
        Register(tmp_path / "no/such/place.gpkg", "parcels").seen([large])


def test_a_register_of_another_format_is_beside_the_layer(qgis: Any, tmp_path: Path) -> None:
    """A GeoPackage of its own; a layer in memory has none."""
    from gandovel.fault_register import Register, path_for
    from qgis.core import QgsVectorLayer

    (tmp_path / "parcels.geojson").write_text("{}")
    path = path_for(str(tmp_path / "parcels.geojson"))
    assert path == tmp_path / "parcels.faults.gpkg"
    assert path_for("Polygon?crs=EPSG:25832") is None
    layer = layer_of(tmp_path, *STRIP)
    Register(path, "parcels").seen(faults_of(layer))
    assert QgsVectorLayer(f"{path}|layername=gandovel_faults", "register", "ogr").featureCount() == 1
    with sqlite3.connect(path) as connection:
        assert connection.execute("PRAGMA integrity_check").fetchone() == ("ok",)


def test_a_fault_has_the_identity_that_known_takes(qgis: Any, tmp_path: Path) -> None:
    """Of all kinds, in metres and in feet: `--known` of what the package prints knows what the dock lists."""
    from gandovel.check_task import CheckTask
    from qgis.core import QgsVectorLayer

    lens = Polygon([(0, 40), (9, 40), (9, 50), (0, 50)], [[(3, 43), (3, 46), (6, 46), (6, 43)]])
    shapes = [*STRIP, box(0, 20, 3.3, 30), box(3, 20, 9, 30), box(0, 30, 9, 40), lens]
    for crs in (25832, 2263):
        path = written(tmp_path / f"{crs}.gpkg", shapes, crs=crs, parcel_no=[str(at) for at in range(len(shapes))])
        found: List[Any] = []
        layer = QgsVectorLayer(str(path), "parcels", "ogr")
        task = CheckTask(layer, "parcel_no", None, "", found.append)
        assert task.run() and task.outcome.refused == ""
        command = [os.environ["GANDOVEL_PYTHON"], "-m", "gandovel", "check", path, "--number", "parcel_no", "--json"]
        printed = subprocess.run(command, capture_output=True, text=True, check=False)
        told = {fault["id"]: fault["kind"] for fault in json.loads(printed.stdout)["faults"]}
        assert {fault.identity: fault.kind for fault in task.outcome.faults} == told and len(told) >= 3


def test_the_faults_of_a_town_are_mended_by_a_rule_for_each_kind(qgis: Any, tmp_path: Path) -> None:
    """Gaps to the neighbour with the longest border, overlaps to either, where corners lie beside borders by rounding:
    two steps, no sliver is left of them, and the program says that it tiles."""
    from gandovel.repairs import apply_all
    from layers_made import make_town
    from qgis.core import QgsVectorLayer

    counts = make_town(tmp_path / "town.gpkg", 12, 12, 12)
    layer = QgsVectorLayer(str(tmp_path / "town.gpkg"), "town", "ogr")
    assert layer.startEditing() and min(counts.values()) > 3
    faults = faults_of(layer)
    for kind, rule in (("gap", "longest"), ("overlap", "keep")):
        some = [fault for fault in faults if fault.kind == kind]
        assert apply_all(layer, rule, kind, some, lambda fault: candidates_of(layer, fault)) == len(some) > 2
    assert layer.undoStack().count() == 2
    assert run("checkparcels", INPUT=layer, NUMBER_FIELD="parcel_no", FAULTS=M)["VERDICT"] == "tiles"


def test_a_corner_that_lies_on_a_border_but_for_rounding_is_not_missing(qgis: Any) -> None:
    """Half a millimetre off, beside a gap: to put it in would mend nothing, so it is not proposed; nor is a move that
    slides a corner along its own border."""
    from gandovel.check_task import Fault
    from gandovel.repairs import candidates
    from qgis.core import QgsGeometry

    upper = Polygon([(0, 10), (20, 10), (20, 20), (0, 20)])
    shapes = [box(0, 0, 9.7, 10.0005), Polygon([(10, 0), (20, 0), (20, 10), (10, 10.0005)]), upper]
    them = {at: QgsGeometry.fromWkt(shape.wkt) for at, shape in enumerate(shapes, 1)}
    gap = QgsGeometry.fromWkt(Polygon([(9.7, 0), (10, 0), (10, 10), (9.7, 10)]).wkt)
    found = candidates(Fault("gap", "parcels", ["1", "2", "3"], 3.0, "6000000", gap), them, str, 0.0015)
    assert [one.rule for one in found] == ["longest", "give"]
    for one in found:
        assert sum(abs(after - before) for _, before, after in one.areas) == pytest.approx(3.0, abs=0.01)


def test_a_corner_that_is_off_sideways_goes_back_to_where_the_others_agree(qgis: Any, tmp_path: Path) -> None:
    """It overlaps three neighbours: one move mends all that it overlaps."""
    from gandovel.repairs import apply

    first = Polygon([(0, 0), (5, 0), (5.2, 10.1), (0, 10)])
    layer = layer_of(tmp_path, first, box(5, 0, 10, 10), box(0, 10, 5, 20), box(5, 10, 10, 20))
    faults = faults_of(layer)
    one = candidates_of(layer, faults[0])[0]
    assert (
        faults[0].numbers == ["1", "2", "3", "4"]
        and one.rule == "odd"
        and one.moves == pytest.approx(0.2236, abs=0.001)
    )
    apply(layer, one.title, one.changes)
    assert run("checkparcels", INPUT=layer, NUMBER_FIELD="parcel_no", FAULTS=M)["VERDICT"] == "tiles"
