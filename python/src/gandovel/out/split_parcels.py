"""The parcels of a report, those that zones split, and their parts in zones."""
from __future__ import annotations

import math
from collections import defaultdict
from typing import Any, Dict, List, Optional, Tuple, Union

import geopandas as gpd
import numpy as np
import pandas as pd
from shapely.geometry import Polygon
from shapely.ops import unary_union

from ..arrays import Array
from ..large.shares import in_shares
from ..program.zone_areas import SQUARE_METRE, Member, area_columns, common, shares_of, summed
from ..reading.prepared import Prepared
from ..shapes import MULTIPOLYGON, PLAIN, PLAIN_HEAD, POLYGON, array_of, box_of, kind_of, multipolygon_wkb
from ..shapes import plain_wkb, polygon_wkb, rings_of, shapes_of, wkb_of
from .gpkg import Table


def parts_of(prepared: Prepared, pairs: Dict[Tuple[int, str], List[Member]], min_area: float) -> Table:
    """The parts of split parcels in zones; GEOS makes their shapes on the grid, near the origin, and measures the
    rest."""
    zone_rows = {name: row for row, name in reversed(list(enumerate(prepared.zone_names)))}
    keys = sorted(pairs, key=lambda key: (key[0], zone_rows.get(key[1], -1)))
    owner = np.repeat(np.arange(len(keys)), [len(pairs[key]) for key in keys])
    members = [pair for key in keys for pair in pairs[key]]
    placed, measured = _cuts(prepared, members)
    doubled = [summed(pairs[key]) for key in keys]
    areas = area_columns(doubled, (np.bincount(owner, weights=measured, minlength=len(keys)) / SQUARE_METRE).tolist())
    pieces: List[List[bytes]] = [[] for _ in keys]
    for at, polygons in zip(owner.tolist(), placed):
        pieces[at] += polygons
    rows = [row for row, _ in keys]
    columns = pd.DataFrame(
        {
            "number": [prepared.number_of(row) for row in rows],
            "zone": [zone for _, zone in keys],
            **areas,
            "share": np.array(shares_of(rows, doubled, areas["area_m2"].tolist()), dtype=float),
            "sliver": (areas["area_m2"] < min_area).astype(np.int64),
        }
    )
    columns = _with_attributes(columns, prepared.parcels_table, rows, prepared.number, "")
    of_zones = [zone_rows.get(zone, -1) for _, zone in keys]
    columns = _with_attributes(columns, prepared.zones, of_zones, prepared.zone, "zone_")
    around = prepared.parcels_table.bounds if keys else (math.nan,) * 4
    return Table(columns, [multipolygon_wkb(some) for some in pieces], prepared.crs, around)


def _cuts(prepared: Prepared, members: List[Member]) -> Tuple[List[List[bytes]], Array]:
    """What each parcel and zone have in common, as `_in_place` says it, and its area in mm2, by GEOS."""

    def cut(begin: int, end: int) -> Tuple[List[List[bytes]], Array]:
        some = members[begin:end]
        parts, areas = common(prepared, some)
        return _in_place(prepared, some, parts), areas

    shares = in_shares(cut, len(members), len(prepared.numbers))
    return [placed for some, _ in shares for placed in some], np.concatenate([areas for _, areas in shares])


def _in_place(prepared: Prepared, members: List[Member], blobs: List[bytes]) -> List[List[bytes]]:
    """The polygons of each common part, in the layer's projection, as WKB; lines and points of it are left out."""
    origins = [island.city[0] for island in prepared.islands]
    plain = [at for at, blob in enumerate(blobs) if blob.startswith(PLAIN)]
    bodies = [blobs[at][PLAIN_HEAD:] for at in plain]
    sizes = np.array([len(body) // 16 for body in bodies], dtype=np.int64)
    shifts = np.array([origins[members[at][0]] for at in plain], dtype=np.int64).reshape(-1, 2)
    corners = np.frombuffer(b"".join(bodies), "<f8").reshape(-1, 2) + np.repeat(shifts, sizes, axis=0)
    placed = dict(zip(plain, plain_wkb(prepared.in_units(corners), np.concatenate([[0], np.cumsum(sizes)]))))
    return [
        [placed[at]] if at in placed else _polygons_in_place(prepared, origins[members[at][0]], blob)
        for at, blob in enumerate(blobs)
    ]


def _polygons_in_place(prepared: Prepared, origin: Array, blob: bytes) -> List[bytes]:
    """As `_in_place`, of a common part of any kind."""
    if kind_of(blob) not in (POLYGON, MULTIPOLYGON):
        parts = getattr(shapes_of([blob])[0], "geoms", [])
        kept = wkb_of(part for part in parts if part.geom_type == "Polygon" and not part.is_empty)
        blob = multipolygon_wkb([part for part in kept if part is not None])
    return [polygon_wkb([prepared.in_units(ring + origin) for ring in rings]) for rings in rings_of(blob) if rings]


def _with_attributes(
    columns: pd.DataFrame, source: Union[gpd.GeoDataFrame, Table, None], rows: Any, number: str, prefix: str
) -> pd.DataFrame:
    """Columns with the attributes of rows of a layer behind them, each once."""
    if source is None:
        return columns
    if isinstance(source, Table):
        known = source.columns
    else:
        known = pd.DataFrame(source.drop(columns=source.geometry.name))
    attributes = known.drop(columns=[number], errors="ignore")
    rows = np.asarray(rows, dtype=np.int64)
    taken = attributes.take(np.where(rows < 0, 0, rows)) if len(attributes) else attributes
    used = {str(column).lower() for column in columns.columns} | {"fid", "geom", "ogc_fid", "geometry"}
    result = columns.copy()
    for column in taken.columns:
        name = f"{prefix}{column}"
        while name.lower() in used:
            name += "_"
        used.add(name.lower())
        values = taken[column].reset_index(drop=True)
        result[name] = values.where(pd.Series(rows >= 0), None).values if (rows < 0).any() else values.values
    return result


def split_of(prepared: Prepared, rows: List[int], zones_of: Dict[int, List[str]], parts: pd.DataFrame) -> Table:
    counts = parts[["number", "sliver"]].groupby("number")["sliver"].agg(["sum", "size"])
    slivers: Dict[str, bool] = dict(zip(counts.index, counts["sum"] >= counts["size"] - 1))
    measured = set(parts.loc[parts["area_how"] != "proved", "number"])
    numbers = [prepared.number_of(row) for row in rows]
    columns = pd.DataFrame(
        {
            "number": numbers,
            "zones": [",".join(zones_of[row]) for row in rows],
            "zone_count": [len(zones_of[row]) for row in rows],
            "sliver": [int(slivers[number]) for number in numbers],
            "sliver_how": ["measured" if number in measured else "proved" for number in numbers],
        }
    )
    parcels = prepared.parcels_table
    blobs = [parcels.blobs[row] for row in rows]
    columns = _with_attributes(columns, parcels, rows, prepared.number, "")
    shapes = None if parcels.shapes is None else [parcels.shapes[row] for row in rows]
    return Table(columns, blobs, prepared.crs, box_of(blobs), shapes)


def parcels_of(prepared: Prepared, at_fault: Dict[int, str]) -> Table:
    records: Dict[int, List[str]] = defaultdict(list)
    several = len(prepared.islands) > 1
    for at, island in enumerate(prepared.islands, 1):
        for record, row in enumerate(island.parcels.source, 1):
            records[row].append(f"{at}:{record}" if several else str(record))
    count = len(prepared.numbers)
    columns = pd.DataFrame(
        {
            "number": prepared.numbers,
            "records": [",".join(records[row]) for row in range(count)],
            "status": [at_fault.get(row, "ok") for row in range(count)],
        }
    )
    parcels = prepared.parcels_table
    columns = _with_attributes(columns, parcels, range(count), prepared.number, "")
    return Table(columns, parcels.blobs, prepared.crs, parcels.bounds, parcels.shapes)


def zones_of_report(prepared: Prepared) -> Optional[gpd.GeoDataFrame]:
    if prepared.zones is None:
        return None
    shapes: Dict[int, List[Polygon]] = defaultdict(list)
    for island in prepared.islands:
        for ring, row in zip(island.rows_of_zones().rings, island.rows_of_zones().source):
            shapes[row].append(prepared.polygon(ring))
    rows = [row for row in range(len(prepared.zone_names)) if shapes[row]]
    joined = [
        shapes[row][0] if len(shapes[row]) == 1 else unary_union([it.buffer(0) for it in shapes[row]]) for row in rows
    ]
    columns = pd.DataFrame({"number": [prepared.zone_of(row) for row in rows]})
    columns = _with_attributes(columns, prepared.zones, rows, prepared.zone, "")
    return gpd.GeoDataFrame(columns, geometry=array_of(joined, prepared.crs))
