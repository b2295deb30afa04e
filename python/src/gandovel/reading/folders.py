"""A prepared register as a folder: written, and loaded again."""
from __future__ import annotations

import csv
import json
import os
import shutil
from dataclasses import asdict
from pathlib import Path
from typing import Any, Callable, Dict, List, Optional, Tuple, Union

import geopandas as gpd
import numpy as np

from ..errors import Refused
from ..exact.city import OpenGap
from ..faults.neighbours import Neighbour
from ..out import descriptions
from ..out.gpkg import Table, read_layer_of, read_table_of, write_layers
from ..program.layer_files import read_rings, write_rings
from .loops import ROLES
from .prepared import Prepared, test_own
from .rows import CHANGES, TOUCHED, Changes, Island, Rows, Skipped
from .units import Unit


def save(prepared: Prepared, work: Path, more: Optional[Callable[[Path], object]] = None) -> None:
    """Writes the folder whole or not at all. One that was there is replaced where `prepare` made it, else P14.

    `more` writes what else is to stand in it.
    """
    test_own(work)
    aside = work.with_name(f".{os.getpid()}.{work.name}")
    try:
        aside.mkdir(parents=True)
        _write(prepared, aside)
        if more is not None:
            more(aside)
        _put_in_place(aside, work)
    except OSError as fault:
        raise Refused("P14", f"{work} can't be written: {fault}") from fault
    finally:
        shutil.rmtree(aside, ignore_errors=True)


def _write(prepared: Prepared, folder: Path) -> None:
    for island, place in zip(prepared.islands, prepared.folders(folder)):
        place.mkdir(exist_ok=True)
        write_rings(place / "city.shp", [island.city])
        write_rings(place / "parcels.shp", island.parcels.rings)
        _write_rows(place / "rows.csv", island.parcels, prepared.number, prepared.number_of)
        if island.zones is not None:
            write_rings(place / "zones.shp", island.zones.rings)
            _write_rows(place / "zone_rows.csv", island.zones, prepared.zone or "zone", prepared.zone_of)
    write_layers(folder / "changes.gpkg", [("changes", prepared.changes_table())], notes=descriptions.CHANGES)
    layers: List[Tuple[str, Union[gpd.GeoDataFrame, Table]]] = [("parcels", prepared.parcels_table)]
    if prepared.zones is not None:
        layers.append(("zones", prepared.zones))
    write_layers(folder / "register.gpkg", layers)
    (folder / "prepared.json").write_text(json.dumps(_facts(prepared)))


def _facts(prepared: Prepared) -> Dict[str, Any]:
    """What `prepared.json` has: all that the layers of the folder have not."""
    return {
        "number": prepared.number,
        "zone": prepared.zone,
        "unit": asdict(prepared.unit),
        "islands": len(prepared.islands),
        "zones": prepared.zones is not None,
        "crs": prepared.crs.to_wkt() if prepared.crs is not None else None,
        "numbers": prepared.numbers,
        "zone_names": prepared.zone_names,
        "told": prepared.told,
        "open_gaps": [gap.told() for gap in prepared.open_gaps],
        "skipped": [asdict(one) for one in prepared.skipped],
        "lost": prepared.lost,
        "neighbours": [one.told() for one in prepared.neighbours],
    }


def _write_rows(path: Path, rows: Rows, number: str, named: Any) -> None:
    with open(path, "w", newline="", encoding="utf-8") as file:
        writer = csv.writer(file)
        writer.writerow(["record", number, "FID", "part"])
        writer.writerows(
            (record, named(source), source, part)
            for record, (source, part) in enumerate(zip(rows.source, rows.part), 1)
        )


def _put_in_place(aside: Path, work: Path) -> None:
    former = work.with_name(f".{os.getpid()}.former.{work.name}")
    if work.exists():
        os.replace(work, former)
    os.replace(aside, work)
    shutil.rmtree(former, ignore_errors=True)


def load(work: Path) -> Prepared:
    """What `Prepared.save` wrote. Refused P1 where the folder is no such one, or is torn."""
    try:
        facts = json.loads((work / "prepared.json").read_text())
        register = work / "register.gpkg"
        parcels = read_table_of(register, "parcels")
        zones = read_layer_of(register, "zones") if facts["zones"] else None
        prepared = Prepared(
            parcels,
            facts["numbers"],
            facts["number"],
            Unit(**facts["unit"]),
            [],
            zones,
            facts["zone_names"],
            facts["zone"],
            Changes(),
            facts["told"],
            [OpenGap.of(gap) for gap in facts["open_gaps"]],
            [Skipped(**one) for one in facts["skipped"]],
            facts["lost"],
            [Neighbour.of(one) for one in facts.get("neighbours", [])],
        )
        folders = [work] if facts["islands"] == 1 else [work / f"island_{at + 1}" for at in range(facts["islands"])]
        prepared.islands = [_island(folder, facts["zones"]) for folder in folders]
        if facts["told"]["touched"]:
            prepared.changes = _touched_of(work / "changes.gpkg", prepared)
        return prepared
    except Refused:
        raise
    except Exception as fault:
        raise Refused("P1", f"{work} is no folder that prepare made, or is torn: {fault}") from fault


def _touched_of(path: Path, prepared: Prepared) -> Changes:
    """The corners of `changes.gpkg` that were made to touch."""
    frame = read_layer_of(path, "changes", CHANGES[TOUCHED])
    layer = np.array([ROLES.index(role) for role in frame["layer"]], dtype=np.int64)
    names_of: List[List[str]] = [prepared.numbers, prepared.zone_names, []]
    positions: List[Dict[str, int]] = [
        {name: row for row, name in reversed(list(enumerate(names)))} for names in names_of
    ]
    row = [positions[at].get(number, -1) for at, number in zip(layer.tolist(), frame["number"])]
    return Changes(
        np.full(len(frame), TOUCHED),
        np.column_stack([frame.geometry.x, frame.geometry.y]),
        frame[["x_mm", "y_mm"]].to_numpy(dtype=np.int64),
        frame["distance_mm"].to_numpy(dtype=float),
        layer,
        np.array(row, dtype=np.int64),
        frame["closed_m2"].to_numpy(dtype=float) * 1e6,
    )


def _island(folder: Path, zones: bool) -> Island:
    city = read_rings(folder / "city.shp")
    return Island(
        city[0],
        _rows(folder, "parcels.shp", "rows.csv"),
        _rows(folder, "zones.shp", "zone_rows.csv") if zones else None,
    )


def _rows(folder: Path, main: str, table: str) -> Rows:
    rings = read_rings(folder / main)
    with open(folder / table, newline="", encoding="utf-8") as file:
        lines = list(csv.reader(file))[1:]
    if len(lines) != len(rings):
        raise Refused("P1", f"{folder / table} has {len(lines)} rows, and {main} {len(rings)} records")
    return Rows(rings, [int(line[2]) for line in lines], [int(line[3]) for line in lines])
