"""Narrow faults closed: each piece goes to one neighbour, and the program checks what comes of it.

All is in whole numbers, by the planar graph (`pieces`): nothing but the pieces changes hands. What is left is reported,
and the verdict on the layer that comes of it is the program's.
"""
from __future__ import annotations

import tempfile
from collections import defaultdict
from dataclasses import dataclass, field
from pathlib import Path
from typing import Any, Dict, List, Optional, Tuple, Union, Unpack

import geopandas as gpd
import pandas as pd
from shapely.geometry import MultiPolygon

from ..arrays import Array
from ..errors import Refused
from ..out.gpkg import Table, test_name, write_layers
from ..out.own_frames import parcels_as_given
from ..out.report import Report, report
from ..out.verdict import Verdict
from ..program.untiled_overlays import area_polygons
from ..program.verdicts import checked, layer_faults, write_island
from ..reading.prepared import Island, Prepared
from ..reading.register import Options, Register, register_of
from ..reading.sources import Source
from .pieces import CHOICES, MendedRows, Piece, mended_rows
from .polygons import Fault, fault_area

NOTES = {
    "parcels": "The parcels without their narrow faults, on the grid of whole millimetres, checked by the program.",
    "changes": "The pieces that changed hands: kind (gap, overlap, beyond), number of the parcel that has it now (none "
    "has what was beyond the city), lost_by (who had it), area2_mm2 and area2_most_mm2 (twice the area in mm2: the "
    "whole number, or the two that it lies between). Exact, but for a border that ended at a crossing and was rounded.",
}
COLUMNS = ("kind", "number", "lost_by", "area2_mm2", "area2_most_mm2", "area_m2", "x", "y")
PASSES = 3
"""So often a part of the city is passed over at most."""
UNNAMED = "MENDED-"
"""How rows are numbered that have what goes to no parcel (`none`), from 1."""


@dataclass
class Mended:
    """A register without its narrow faults: `frame` has the parcels, `closed` each piece that changed hands.

    `left` are the pieces that were to be closed and were not, each with a reason. `report` is the report on the parcels
    of `frame`, and `verdict` its verdict.
    """

    frame: gpd.GeoDataFrame
    report: Report
    closed: List[Dict[str, Any]] = field(default_factory=list)
    left: List[Dict[str, Any]] = field(default_factory=list)

    @property
    def verdict(self) -> Verdict:
        """The verdict on what comes of it: `tiles`, `does not tile`, or `open`."""
        return self.report.verdict

    def summary(self) -> str:
        """One line: how many pieces were closed and left, and the verdict on what comes of it."""
        area = sum(float(one["area_m2"]) for one in self.closed)
        count = len(self.closed)
        left = f"{len(self.left)} left; " if self.left else ""
        pieces = f"{count or 'no'} piece{'' if count == 1 else 's'}"
        return f"{pieces} closed ({area:.6f} m2); {left}now {self.report.summary()}"

    def save(self, path: Union[str, Path]) -> None:
        """Writes the layer `parcels`, and `changes` (points), as a GeoPackage, whole or not at all."""
        test_name(path)
        columns = pd.DataFrame({name: [one[name] for one in self.closed] for name in COLUMNS[:-2]})
        places = gpd.points_from_xy([one["x"] for one in self.closed], [one["y"] for one in self.closed])
        frame = gpd.GeoDataFrame(columns, geometry=places, crs=self.frame.crs)
        changes = Table.of(frame)
        changes.kind = "Point"
        write_layers(path, [("parcels", self.frame), ("changes", changes)], notes=NOTES)


def mend(
    parcels: Register,
    width: float = 1.0,
    to: str = "border",
    *,
    zones: Optional[Source] = None,
    **options: Unpack[Options],
) -> Mended:
    """Closes the faults of the parcels that are nowhere wider than a width; nothing wider is touched.

    Parameters
    ----------
    parcels : Prepared, path, GeoDataFrame or GeoSeries
        The register; with `zones` and the options of `prepare` where it is not prepared yet.
    width : float
        In mm, above 0 and up to 1000.
    to : {"border", "larger", "older", "none"}
        Each piece goes to the parcel that has the longest border with it, is the largest beside it, stands first in the
        layer, or becomes a row of its own.

    Returns
    -------
    Mended
        The parcels (`frame`), what was closed and what was left, and the program's `verdict` on them.

    Raises
    ------
    Refused
        P8: no such width or choice. Else as `report`.

    Examples
    --------
    >>> import geopandas, gandovel
    >>> from shapely.geometry import box
    >>> plots = geopandas.GeoDataFrame(
    ...     {"parcel_no": [7, 8]}, geometry=[box(0, 0, 10.02, 10), box(10, 0, 20, 10)], crs=25832
    ... )
    >>> mended = gandovel.mend(plots, 50)
    >>> len(mended.closed), str(mended.verdict)
    (1, 'tiles')
    """
    if not 0 < width <= 1000:
        raise Refused("P8", f"a width of {width} mm is none: give millimetres, above 0 and up to 1000")
    if to not in CHOICES:
        raise Refused("P8", f"{to} says not to whom a piece goes: give one of {', '.join(CHOICES)}")
    prepared = register_of(parcels, zones, **options)
    first_new = len(prepared.numbers)
    islands, found = [], []
    for island in prepared.islands:
        now, done = _mended_island(prepared, island, width, to, first_new)
        first_new += sum(piece.to is not None and piece.to >= first_new for one in done for piece in one.closed)
        islands.append(now)
        found += done
    again = _with_islands(prepared, islands, first_new)
    answer = report(again)
    closed = [_told(again, piece) for done in found for piece in done.closed]
    is_whole = answer.verdict != "does not tile"  # what is left went where borders were rounded to the grid
    left = [] if is_whole else [_told(again, piece) for done in found if done.is_last for piece in done.left]
    return Mended(parcels_as_given(again), answer, closed, left)


def _mended_island(
    prepared: Prepared, island: Island, width: float, to: str, first_new: int
) -> Tuple[Island, List[MendedRows]]:
    """An island without its narrow faults, and what came of them; what one pass leaves or rounds apart is tried
    anew."""
    found: List[MendedRows] = []
    for _ in range(PASSES):
        faults = _narrow(prepared, island, width)
        if not faults:
            break
        done = mended_rows(island, faults, to, first_new)
        first_new += sum(piece.to is not None and piece.to >= first_new for piece in done.closed)
        island = Island(island.city, done.rows, None)
        found.append(done)
        if not done.closed:
            break
    for done in found[-1:]:
        done.is_last = True
    return Island(island.city, island.parcels, None), found


def _narrow(prepared: Prepared, island: Island, width: float) -> List[Fault]:
    """The faults of an island's parcels that are nowhere wider than `width`."""
    with tempfile.TemporaryDirectory() as folder:
        write_island(Path(folder), island)
        found = layer_faults(checked(prepared, Path(folder), island), island.city, island.parcels)
    return [fault for fault in found.faults if fault.is_narrow(width)]


def _told(prepared: Prepared, piece: Piece) -> Dict[str, Any]:
    """A piece as the table of changes has it."""
    x, y = prepared.in_units([tuple(map(float, piece.inside))])[0].tolist()
    return {
        "kind": piece.kind,
        "number": None if piece.to is None else prepared.numbers[piece.to],
        "lost_by": ",".join(prepared.number_of(row) for row in piece.former if row != piece.to),
        **fault_area(piece.area2),
        "x": x,
        "y": y,
        "why": piece.why,
    }


def _with_islands(prepared: Prepared, islands: List[Island], rows: int) -> Prepared:
    """The register with other islands, without zones, whose layer has the parcels of these, and so many rows."""
    new = rows - len(prepared.numbers)
    numbers = [*prepared.numbers, *(f"{UNNAMED}{at}" for at in range(1, new + 1))]
    rings: Dict[int, List[Array]] = defaultdict(list)
    for island in islands:
        for ring, row in zip(island.parcels.rings, island.parcels.source):
            rings[row].append(ring)
    shapes = [_shape(prepared, rings[row]) if row in rings else None for row in range(rows)]
    columns = pd.DataFrame(prepared.parcels.drop(columns=prepared.parcels.geometry.name)).reindex(range(rows))
    if new and prepared.number in columns:
        columns[prepared.number] = [*columns[prepared.number].tolist()[: rows - new], *numbers[rows - new :]]
    frame = gpd.GeoDataFrame(columns, geometry=shapes, crs=prepared.crs)
    told = {**prepared.told, "touched": 0}
    again = Prepared(frame, numbers, prepared.number, prepared.unit, islands, told=told)
    again.open_gaps, again.skipped, again.lost = prepared.open_gaps, prepared.skipped, prepared.lost
    if not new:
        again.given_keys["parcels"] = prepared.parcel_key
    return again


def _shape(prepared: Prepared, rings: List[Array]) -> Any:
    """A row's rings as the polygons that they make, in the layer's unit."""
    if len(rings) == 1:
        return prepared.polygon(rings[0])
    polygons = [prepared.polygon(outer, holes) for outer, holes in area_polygons(rings)]
    return polygons[0] if len(polygons) == 1 else MultiPolygon(polygons)
