"""The program's commands on GeoDataFrames: each takes a register, or parcels with the options of `prepare`."""
from __future__ import annotations

import tempfile
from collections import defaultdict
from contextlib import contextmanager
from pathlib import Path
from typing import Any, Dict, Iterator, List, Optional, Sequence, Tuple, Unpack

import geopandas as gpd
import numpy as np

from ..arrays import Array
from ..errors import Refused
from ..exact.whole_numbers import whole_numbers
from ..large import is_large
from ..large.verdict import areas_of_island, locate_in_island, overlaid_island
from ..out.own_frames import free_name, parcels_as_given, with_own_keys
from ..out.report import report
from ..reading.keys import keys_at
from ..reading.points import on_grid, points_of
from ..reading.prepared import OUT_ROW, Island, Prepared
from ..reading.register import Options, Register, register_of
from ..reading.sources import Source
from . import tool
from .verdicts import named, tiling_overlaid, write_island
from .zone_areas import Member, told_areas

Pair = Tuple[int, str]
"""A row of the parcels, and a zone's name."""


@contextmanager
def islands_on_disk(prepared: Prepared) -> Iterator[List[Tuple[Path, Island]]]:
    """The islands, each with a folder that has its layers as the program reads them, while this holds."""
    with tempfile.TemporaryDirectory() as name:
        folders = []
        for at, island in enumerate(prepared.islands):
            folder = Path(name) / str(at)
            folder.mkdir()
            write_island(folder, island)
            folders.append((folder, island))
        yield folders


def check(parcels: Register, zones: Optional[Source] = None, **options: Unpack[Options]) -> gpd.GeoDataFrame:
    """The faults of a register, and of its zones where it has some, the largest area first; no row where all tiles.

    Parameters
    ----------
    parcels : Prepared, path, GeoDataFrame or GeoSeries
        The register; with `zones` and the options of `prepare` where it is not prepared yet.

    Returns
    -------
    GeoDataFrame
        Columns: kind (`gap` | `overlap` | `beyond` | `open_gap` | `sliver`), layer, island, area2_mm2 and
        area2_most_mm2 (twice the area in mm2: a whole number, or the two that it lies between), area_m2, area_how, area
        and unit (in the layer's unit), depth (how often too much is covered), numbers (text: of a gap those that border
        it, of an overlap those that cover it), numbers_how (`exact` | `measured`), touched (corners of it that were
        made to touch), geometry. `.attrs["basis"]` says what the verdict stands on.

    Raises
    ------
    Refused
        H1, H3, F.., P...

    Examples
    --------
    >>> import geopandas, gandovel
    >>> from shapely.geometry import box
    >>> plots = geopandas.GeoDataFrame(
    ...     {"parcel_no": [7, 8]}, geometry=[box(0, 0, 10, 10), box(9, 0, 20, 10)], crs=25832
    ... )
    >>> gandovel.check(plots)[["kind", "area2_mm2", "numbers"]].values.tolist()
    [['overlap', 20000000, '7,8']]
    """
    judged = report(parcels, zones, **options)
    found = judged.faults()
    found.attrs["basis"] = judged.basis
    return found


def area(parcels: Register, zones: Optional[Source] = None, **options: Unpack[Options]) -> gpd.GeoDataFrame:
    """The parcels as they were given, with their areas.

    Returns
    -------
    GeoDataFrame
        The parcels with their own index, and the columns area2_mm2 (whole number: twice the area in mm2 on the grid,
        exact) and area_m2 (half of it in m2, rounded to a float), which replace columns of these names.

    Raises
    ------
    Refused
        F.., P...

    Examples
    --------
    >>> import geopandas, gandovel
    >>> from shapely.geometry import box
    >>> plots = geopandas.GeoDataFrame({"parcel_no": [7]}, geometry=[box(0, 0, 10, 10)], crs=25832, index=["a"])
    >>> gandovel.area(plots).area2_mm2
    a    200000000
    Name: area2_mm2, dtype: Int64
    """
    prepared = register_of(parcels, zones, **options)
    doubled: Dict[int, int] = defaultdict(int)
    with islands_on_disk(prepared) as folders:
        for folder, island in folders:
            for record, value in areas_of_island(island, folder).items():
                doubled[island.parcels.source[record - 1]] += value
    gone = {one.row for one in prepared.skipped if one.role == "parcels"}
    values = [None if row in gone else doubled[row] for row in range(len(prepared.numbers))]
    frame = parcels_as_given(prepared)
    return frame.assign(
        area2_mm2=whole_numbers(values, frame.index),
        area_m2=[np.nan if value is None else value / 2_000_000 for value in values],
    )


def overlay(parcels: Register, zones: Optional[Source] = None, **options: Unpack[Options]) -> gpd.GeoDataFrame:
    """The pairs of a parcel and a zone whose interiors have a common point, in the order of the parcels.

    Returns
    -------
    GeoDataFrame
        One row for each pair, with the index label of its parcel. Columns: the parcels' own column of numbers and the
        zones' own column of names, with their own types (`zone` where both have one name, or the zones none); split
        (whether the parcel lies in two zones or more); area2_mm2 (whole number: twice the area that both have in common
        in mm2), area_m2, area_how; geometry (the parcel's, as given). With area_how `proved` an area2_mm2 is at most 1
        away from the exact one, and those of a parcel sum to its own; else it is missing, and area_m2 `measured`.

    Raises
    ------
    Refused
        H2 where parcels or zones do not tile the city (`report` answers there, too), H1, H3, F.., P...

    Examples
    --------
    >>> import geopandas, gandovel
    >>> from shapely.geometry import box
    >>> plots = geopandas.GeoDataFrame({"parcel_no": [7]}, geometry=[box(0, 0, 10, 10)], crs=25832)
    >>> zones = geopandas.GeoDataFrame({"zone": ["A"]}, geometry=[box(-1, -1, 11, 11)], crs=25832)
    >>> gandovel.overlay(plots, zones)[["parcel_no", "zone", "split", "area2_mm2"]].values.tolist()
    [[7, 'A', False, 200000000]]
    """
    prepared = register_of(parcels, zones, **options)
    frame, rows = pairs_of(prepared)
    positions = {name: row for row, name in reversed(list(enumerate(prepared.zone_names)))}
    return with_own_keys(prepared, frame, rows, [positions.get(name, -1) for name in frame["zone"]])


def pairs_of(prepared: Prepared) -> Tuple[gpd.GeoDataFrame, List[int]]:
    """`overlay` with texts: number, zone, split, area2_mm2, area_m2, area_how, geometry; and the parcels' rows."""
    if prepared.zones is None:
        raise Refused("P2", "there are no zones to overlay: give them to `prepare`, or with the parcels", "zones")
    found: Dict[Pair, List[Member]] = defaultdict(list)
    with islands_on_disk(prepared) as folders:
        for at, (folder, island) in enumerate(folders):
            overlaid = _overlaid(prepared, folder, island)
            for (parcel, part), area2 in zip(overlaid.pairs.tolist(), overlaid.area2):
                if island.parcels.source[parcel] != OUT_ROW:
                    key = island.parcels.source[parcel], prepared.zone_of(island.rows_of_zones().source[part])
                    found[key].append(Member(at, parcel, part, area2))
    count: Dict[int, int] = defaultdict(int)
    for row, _ in found:
        count[row] += 1
    rows = sorted(found)
    table = {
        "number": [prepared.number_of(row) for row, _ in rows],
        "zone": [zone for _, zone in rows],
        "split": [count[row] > 1 for row, _ in rows],
        **told_areas(prepared, [found[key] for key in rows]),
        "geometry": list(prepared.parcels.geometry.iloc[[row for row, _ in rows]]),
    }
    return gpd.GeoDataFrame(table, geometry="geometry", crs=prepared.crs), [row for row, _ in rows]


def _overlaid(prepared: Prepared, folder: Path, island: Island) -> tool.Overlaid:
    try:
        if island.zones is not None and (is_large(island.parcels.rings) or is_large(island.zones.rings)):
            return overlaid_island(island)
        return tiling_overlaid(folder, island)
    except Refused as refused:
        raise named(prepared, island, refused, refused.role) from refused


def locate(
    parcels: Register, points: Any, *, zones: Optional[Source] = None, **options: Unpack[Options]
) -> gpd.GeoDataFrame:
    """In which parcels points lie.

    Parameters
    ----------
    points : (x, y), Point, a sequence of these, GeoSeries, GeoDataFrame or path
        Points in the layer's unit. A frame in another projection is brought to that of the parcels, which is measured.

    Returns
    -------
    GeoDataFrame
        The points as they were given, with their own index, and the columns `where` (`inside` | `edge` | `outside`),
        the parcels' own column (of the parcel that a point lies inside; missing on an edge and outside), `numbers`
        (text: all, comma separated), `moved_mm` and `moved_how`: a point is asked for at the whole millimetre nearest
        to it, `moved_mm` away (measured).

    Raises
    ------
    Refused
        H2 where the parcels do not tile the city; P4, P5, P9 what is no point, all at once; P7 where the points'
        projection has no way to that of the parcels.

    Examples
    --------
    >>> import geopandas, gandovel
    >>> from shapely.geometry import box
    >>> plots = geopandas.GeoDataFrame({"parcel_no": [7]}, geometry=[box(0, 0, 10, 10)], crs=25832)
    >>> gandovel.locate(plots, (5, 5))[["where", "parcel_no"]].values.tolist()
    [['inside', 7]]
    """
    prepared = register_of(parcels, zones, **options)
    given, here, note = points_of(points, prepared)
    whole, moved = on_grid(here, prepared)
    where, rows = located(prepared, whole)
    own = keys_at(prepared.parcel_key, [of[0] if at == "inside" else -1 for at, of in zip(where, rows)])
    added = ("where", "numbers", "moved_mm", "moved_how")
    name = free_name(own.name, [*map(str, given.columns), *added])
    numbers = [",".join(prepared.number_of(row) for row in of) for of in rows]
    values = {"where": where, name: own.array, "numbers": numbers, "moved_mm": moved, "moved_how": note}
    result = given.copy()
    for column, value in values.items():
        result[column] = value
    return result


def located(prepared: Prepared, whole: Array) -> Tuple[List[str], List[List[int]]]:
    """Where points in mm (n, 2) lie (`inside` | `edge` | `outside`), and the rows of the parcels there, each once."""
    where = ["outside"] * len(whole)
    rows: List[Dict[int, None]] = [{} for _ in range(len(whole))]
    with islands_on_disk(prepared) as folders:
        for folder, island in folders:
            for at, (kind, records) in enumerate(_located(prepared, folder, island, whole)):
                if kind != "outside":
                    where[at] = kind
                    sources = (island.parcels.source[record - 1] for record in records)
                    rows[at].update(dict.fromkeys(row for row in sources if row != OUT_ROW))
    # In the area outside, which `frame` adds, there is no parcel.
    return [kind if of or kind != "inside" else "outside" for kind, of in zip(where, rows)], [list(of) for of in rows]


def _located(prepared: Prepared, folder: Path, island: Island, whole: Array) -> Sequence[Tuple[str, List[int]]]:
    try:
        if is_large(island.parcels.rings):
            return locate_in_island(island, whole.tolist())
        return tool.locate_points(folder / "city.shp", folder / "parcels.shp", whole.tolist())
    except Refused as refused:
        raise named(prepared, island, refused, "parcels") from refused
