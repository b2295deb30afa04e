"""From an export of the program back to the user's projection, numbers and attributes."""
from __future__ import annotations

import tempfile
from collections import defaultdict
from pathlib import Path
from typing import Dict, List, Optional, Sequence, Tuple, Union

import geopandas as gpd
import numpy as np
import pandas as pd
from shapely.geometry import MultiPolygon, Polygon

from ..arrays import Array
from ..errors import Refused
from ..program.layer_files import read_rings, write_rings
from ..program.tool import areas, overlay_pairs
from ..program.untiled_overlays import area_polygons
from ..reading.prepared import OUT_ROW, Island, Prepared, load
from . import descriptions
from .gpkg import write_layers
from .own_frames import parcels_as_given


Row = Tuple[int, List[int], List[str], int]
"""A parcel that comes back: the row of the layer whose attributes it has, its rings, came_from, edited."""


def back_from_files(export: Union[str, Path], rows: Union[str, Path], out: Union[str, Path]) -> gpd.GeoDataFrame:
    """Reads an export and the `rows.csv` of its parcels, writes the layer as it comes back (`back`), and returns it."""
    rows, export = Path(rows), Path(export)
    for path in (rows, export):
        if not path.is_file():
            raise Refused("P1", f"{path} is not there")
    folder = rows.resolve().parent
    work = folder if (folder / "prepared.json").is_file() else folder.parent
    prepared = load(work)
    at = [place.resolve() for place in prepared.folders(work)].index(folder)
    frame = back(prepared, read_rings(export), at)
    write_layers(out, [("parcels", frame)], notes=descriptions.BACK)
    return frame


def back(
    prepared: Prepared, rings: Sequence[Array], at: int = 0, ids: Optional[Sequence[int]] = None
) -> gpd.GeoDataFrame:
    """The rings (k, 2) int64 mm of an island, number `at` from 0, after edits, as parcels in the layer's projection.

    Rows that are as they were make up their parcel again, holes and parts and all. Each other row is a parcel of its
    own (`edited` 1), with the attributes of the parcel that it overlaps most (measured) and its index label;
    `came_from` has the numbers of all parcels that it overlaps, by the program. Each attribute stands once. Where the
    rings' `ids` in the program are given, the column `ids` has each parcel's (text, comma separated).

    Parameters
    ----------
    prepared : Prepared
        The register as it was before the edits.
    rings : sequence of arrays
        What `gandovel.program.layer_files.read_rings` reads of an export.

    Returns
    -------
    GeoDataFrame
        In the layer's projection and unit.

    Raises
    ------
    Refused
        H2: rings that do not tile the island.

    Examples
    --------
    >>> import geopandas, gandovel
    >>> from shapely.geometry import box
    >>> plots = geopandas.GeoDataFrame({"parcel_no": [7]}, geometry=[box(0, 0, 10, 10)], crs=25832)
    >>> prepared = gandovel.prepare(plots)
    >>> gandovel.back(prepared, prepared.islands[0].parcels.rings).came_from.tolist()
    ['7']
    """
    rows = _sorted(prepared, *_rows(prepared, rings, at))
    frame = _frame(prepared, rings, rows)
    if ids is not None:
        frame["ids"] = [",".join(str(ids[new]) for new in news) for _, news, _, _ in rows]
    return frame


def back_all(prepared: Prepared, rings: Dict[int, Sequence[Array]]) -> gpd.GeoDataFrame:
    """As `back`, of all islands: `rings` has those of islands (from 0) that were edited, the others are as they were.

    A parcel with parts in several islands is one row again.
    """
    joined: List[Array] = []
    rows: List[Row] = []
    whole: Dict[int, List[int]] = defaultdict(list)
    for at, island in enumerate(prepared.islands):
        begin, edited = len(joined), rings.get(at)
        same: Dict[int, List[int]] = {}
        joined += island.parcels.rings if edited is None else edited
        if edited is not None:
            made, same = _rows(prepared, edited, at)
            rows += [(main, [new + begin for new in news], came_from, 1) for main, news, came_from, _ in made]
        else:
            for record, row in enumerate(island.parcels.source):
                same.setdefault(row, []).append(record)
        for row, news in same.items():
            whole[row] += [new + begin for new in news]
    return _frame(prepared, joined, _sorted(prepared, rows, whole))


def _rows(prepared: Prepared, rings: Sequence[Array], at: int) -> Tuple[List[Row], Dict[int, List[int]]]:
    """The rows that edits made, and of each parcel the rings that are as they were."""
    island = prepared.islands[at]
    origins, same = _origins(island, rings)
    whole: Dict[int, List[int]] = defaultdict(list)
    rows: List[Row] = []
    for new, olds in enumerate(origins):
        sources = list(dict.fromkeys(island.parcels.source[old] for old in olds))
        if same[new]:
            whole[sources[0]].append(new)
        elif sources != [OUT_ROW]:
            main = _most(island, rings[new], olds)
            rows.append((main, [new], [prepared.number_of(it) for it in sources if it != OUT_ROW], 1))
    return rows, whole


def _sorted(prepared: Prepared, rows: List[Row], whole: Dict[int, List[int]]) -> List[Row]:
    same: List[Row] = [(it, news, [prepared.number_of(it)], 0) for it, news in whole.items() if it != OUT_ROW]
    return sorted([*rows, *same], key=lambda row: (row[0], row[1]))


def _origins(island: Island, rings: Sequence[Array]) -> Tuple[List[List[int]], List[bool]]:
    """For each new row the old ones that it overlaps, by the program, and whether it covers just what one did."""
    with tempfile.TemporaryDirectory() as name:
        folder = Path(name)
        for layer, content in (("city", [island.city]), ("new", rings), ("old", island.parcels.rings)):
            write_rings(folder / f"{layer}.shp", content)
        pairs = overlay_pairs(folder / "city.shp", folder / "new.shp", folder / "old.shp") - 1
        new_areas, old_areas = areas(folder / "new.shp"), areas(folder / "old.shp")
    origins: List[List[int]] = [[] for _ in rings]
    for new, old in pairs.tolist():
        origins[new].append(old)
    same = [len(olds) == 1 and new_areas[new + 1] == old_areas[olds[0] + 1] for new, olds in enumerate(origins)]
    return origins, same


def _most(island: Island, ring: Array, olds: List[int]) -> int:
    """The row of the layer that a ring overlaps most, measured by GEOS."""
    shift = island.city[0]
    area: Dict[int, float] = defaultdict(float)
    shape = Polygon(ring - shift)
    for old in olds:
        if island.parcels.source[old] != OUT_ROW:
            area[island.parcels.source[old]] += shape.intersection(Polygon(island.parcels.rings[old] - shift)).area
    return max(area, key=lambda row: area[row])


def _frame(prepared: Prepared, rings: Sequence[Array], rows: List[Row]) -> gpd.GeoDataFrame:
    shapes = [_united(prepared, [rings[new] for new in news]) for _, news, _, _ in rows]
    sources = [row[0] for row in rows]
    parcels = parcels_as_given(prepared)
    attributes = pd.DataFrame(parcels.drop(columns=parcels.geometry.name)).take(sources)
    for name, values in (("came_from", [",".join(row[2]) for row in rows]), ("edited", [row[3] for row in rows])):
        attributes[name] = values
    return gpd.GeoDataFrame(attributes, geometry=shapes, crs=prepared.crs)


def _united(prepared: Prepared, rings: Sequence[Array]) -> Union[Polygon, MultiPolygon]:
    """Rings that touch along their cuts as the polygons that they were, exactly."""
    if len(rings) == 1:
        return prepared.polygon(rings[0])
    polygons = [prepared.polygon(outer, holes) for outer, holes in area_polygons(rings)]
    return polygons[0] if len(polygons) == 1 else MultiPolygon(polygons)
