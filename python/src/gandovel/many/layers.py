"""A manifest's layers as they are told of: their rings in millimetres, and their parcels' own numbers."""
from __future__ import annotations

import csv
from pathlib import Path
from typing import Any, Dict, List, NamedTuple, Optional, Sequence, Set

import fiona
import numpy as np
from shapely.geometry import Polygon
from shapely.prepared import prep

from ..arrays import Array
from ..large.cutting import boxes_of
from .manifest import Row
from .rings import MM_PER_UNIT, DistrictLayer, NoRing, corners_mm

ROWS = {"parcels": "rows.csv", "zones": "zone_rows.csv"}
"""The table of numbers that `gandovel prepare` writes beside a layer."""

DEFAULT = {"parcels": "parcel_no", "zones": "zone"}


def numbers_of(path: Path, role: str, column: Optional[str] = None) -> Optional[List[str]]:
    """The numbers of a layer's records, in order: of the table beside it, else of its .dbf; None where it has none."""
    table, attributes = path.with_name(ROWS[role]), path.with_suffix(".dbf")
    try:
        if table.is_file() and path.name == f"{role}.shp":
            with open(table, newline="", encoding="utf-8") as file:
                return [line[1] for line in csv.reader(file)][1:]
        if not attributes.is_file():
            return None
        with fiona.open(str(path)) as layer:
            name = column or DEFAULT[role]
            if name not in layer.schema["properties"]:
                return None
            return [str(feature["properties"][name]) for feature in layer]
    except (OSError, ValueError, IndexError, fiona.errors.FionaError):
        return None


def rings_of(path: str, unit: str) -> Optional[List[Array]]:
    """The rings of a layer, each (k, 2) int64 in mm without its first corner again; None where it is no longer so."""
    try:
        layer = DistrictLayer(path)
        found = [corners_mm(layer.content(at), MM_PER_UNIT[unit]) for at in range(1, len(layer) + 1)]
    except NoRing:
        return None
    if any(corners is None for corners in found):
        return None
    return [np.array(corners, dtype=np.int64).reshape(-1, 2)[:-1] for corners in found]


class Cover:
    """Which records of a layer a fault concerns, measured by GEOS near the layer's first corner."""

    def __init__(self, row: Row, path: str, role: str) -> None:
        self.rings = rings_of(path, row.unit) or []
        self.numbers = numbers_of(Path(path), role, row.number if role == "parcels" else None)
        self.boxes = boxes_of(self.rings)
        self.origin = self.rings[0][0] if self.rings else np.zeros(2, dtype=np.int64)

    def polygon(self, at: int) -> Polygon:
        """A record's polygon, from 0, measured from the origin."""
        return Polygon((self.rings[at] - self.origin).astype(float))

    def of(self, outer: Sequence[Any], holes: Sequence[Any], is_gap: bool) -> List[int]:
        """The records, from 1, that border a gap, or that cover a part of an overlap."""
        x, y = self.origin.tolist()
        loops = [[(float(a - x), float(b - y)) for a, b in loop] for loop in (outer, *holes)]
        shape = Polygon(loops[0], loops[1:])
        low, high = self.origin + shape.bounds[:2], self.origin + shape.bounds[2:]
        near = np.flatnonzero((self.boxes[:, :2] <= high).all(axis=1) & (self.boxes[:, 2:] >= low).all(axis=1))
        found = []
        for at in near.tolist():
            relation = self.polygon(at).relate(shape)
            if (relation[4] == "1" and relation[0] != "2") if is_gap else relation[0] == "2":
                found.append(at + 1)
        return found

    def told(self, records: Sequence[int]) -> str:
        """The numbers of records, or the records themselves where there are no numbers, with commas between."""
        numbers = self.numbers
        return ",".join(
            numbers[at - 1] if numbers is not None and at <= len(numbers) else f"record {at}" for at in records
        )


def shared_numbers(districts: Sequence[Row]) -> List[str]:
    """Numbers that stand in two districts or twice in one, each with where: `12 (North, South)`."""
    where: Dict[str, List[str]] = {}
    for row in districts:
        for number in numbers_of(Path(row.parcels), "parcels", row.number) or []:
            where.setdefault(number, []).append(row.name)
    return [f"{number} ({', '.join(dict.fromkeys(names))})" for number, names in where.items() if len(names) > 1]


class Crossing(NamedTuple):
    """A parcel, by its number and its record from 1, that reaches from its district into another one."""

    number: str
    district: str
    other: str
    record: int = 0


def crossings(districts: Sequence[Row], refused: Set[str]) -> List[Crossing]:
    """Parcels of refused districts that reach into other districts.

    Measured by GEOS: a part of the parcel's inside lies outside its district's ring and within the other's.
    """
    rings: Dict[str, Array] = {}
    for row in districts:
        some = rings_of(row.city, row.unit) if row.city else None
        if some:
            rings[row.name] = some[0]
    names, boxes = list(rings), boxes_of(list(rings.values()))
    found = []
    for row in districts:
        if row.name not in refused or row.name not in rings:
            continue
        cover = Cover(row, row.parcels, "parcels")
        own = prep(Polygon((rings[row.name] - cover.origin).astype(float)))
        for at in range(len(cover.rings)):
            parcel = cover.polygon(at)
            if own.covers(parcel):
                continue
            mine = cover.boxes[at]
            near = (boxes[:, :2] < mine[2:]).all(axis=1) & (boxes[:, 2:] > mine[:2]).all(axis=1)
            for name in (names[place] for place in np.flatnonzero(near).tolist()):
                other = Polygon((rings[name] - cover.origin).astype(float))
                if name != row.name and parcel.relate(other)[0] == "2":
                    found.append(Crossing(cover.told([at + 1]), row.name, name, at + 1))
    return found
