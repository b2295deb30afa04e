"""Layers for the tests, made by GeoPandas: 2,000 parcels with planted faults, a street, bad features."""
from __future__ import annotations

import math
from dataclasses import dataclass
from pathlib import Path
from typing import Any, Dict, List, Tuple

import geopandas as gpd
from shapely.affinity import affine_transform
from shapely.geometry import MultiPolygon, Point, Polygon, box

CRS = 25832
ROWS, COLUMNS, HIGH = 40, 50, 30.0
GAPS = {101: 0.31, 777: 0.05, 1500: 1.2}
"""By how many metres a parcel, by its position, ends too far to the west: gaps."""
OVERLAPS = {333: 0.42, 1212: 0.07}
"""By how many metres a parcel reaches too far to the east: overlaps."""
ANGLE, EAST, NORTH = math.radians(11.0), 432_100.25, 5_611_200.75


@dataclass
class Made:
    """The paths of a register's layers, and the areas (m2) of its planted faults by kind, largest first."""

    parcels: Path
    zones: Path
    points: Path
    city: Path
    areas: Dict[str, List[float]]


def turned(shape: Any) -> Any:
    """The shape turned and moved to where registers are."""
    c, s = math.cos(ANGLE), math.sin(ANGLE)
    return affine_transform(shape, [c, -s, s, c, EAST, NORTH])


def widths(row: int) -> List[float]:
    """The widths (m) of the parcels of a row; rows differ, so that corners lie inside their neighbours' sides."""
    return [18.0 + 4.0 * math.sin(1.7 * row + 0.9 * column) for column in range(COLUMNS)]


def cells(faults: bool) -> Tuple[List[Polygon], Polygon]:
    """The parcels, row by row, not yet turned, and their city: each row is stretched to the same length."""
    length = 900.0
    made: List[Polygon] = []
    for row in range(ROWS):
        own = widths(row)
        left = 0.0
        for column, width in enumerate(own):
            right = length if column == COLUMNS - 1 else left + width * length / sum(own)
            at = len(made)
            end = right + (OVERLAPS.get(at, 0.0) - GAPS.get(at, 0.0) if faults else 0.0)
            made.append(box(left, row * HIGH, end, (row + 1) * HIGH))
            left = right
    return made, box(0, 0, length, ROWS * HIGH)


def make_register(folder: Path, faults: bool = True) -> Made:
    """Writes parcels.gpkg, zones.gpkg, points.gpkg and city.gpkg to a folder."""
    shapes, city = cells(faults)
    numbers = [f"{at // COLUMNS + 1}/{at % COLUMNS + 1}" for at in range(len(shapes))]
    columns = {"parcel_no": numbers, "owner": [f"owner {at}" for at in range(len(shapes))]}
    zones = [
        Polygon([(0, 0), (430, 0), (510, 1200), (0, 1200)]),
        Polygon([(430, 0), (900, 0), (900, 1200), (510, 1200)]),
    ]
    points = [Point(9, 15), Point(450, 600), Point(-30, 4)]
    frames = {
        "parcels": gpd.GeoDataFrame(columns, geometry=[turned(shape) for shape in shapes], crs=CRS),
        "zones": gpd.GeoDataFrame({"zone": ["W", "E"]}, geometry=[turned(it) for it in zones], crs=CRS),
        "points": gpd.GeoDataFrame({"name": ["a", "b", "c"]}, geometry=[turned(it) for it in points], crs=CRS),
        "city": gpd.GeoDataFrame({"name": ["city"]}, geometry=[turned(city)], crs=CRS),
    }
    folder.mkdir(parents=True, exist_ok=True)
    for name, frame in frames.items():
        frame.to_file(folder / f"{name}.gpkg", driver="GPKG", layer=name)
    areas = {
        kind: sorted((HIGH * wide for wide in planted.values()), reverse=True)
        for kind, planted in (("gap", GAPS), ("overlap", OVERLAPS))
    }
    paths = {name: folder / f"{name}.gpkg" for name in frames}
    return Made(areas=areas if faults else {"gap": [], "overlap": []}, **paths)


BAD = {
    "crossing": Polygon([(0, 0), (10, 10), (10, 0), (0, 10)]),
    "flat": Polygon([(20, 0), (30, 0), (40, 0)]),
    "nothing": None,
    "hole outside": Polygon([(0, 20), (9, 20), (9, 29), (0, 29)], [[(20, 20), (21, 20), (21, 21)]]),
    "parts that overlap": MultiPolygon([box(40, 20, 50, 30), box(45, 25, 55, 35)]),
    "spike": Polygon([(60, 0), (70, 0), (70, 10), (75, 10), (70, 10), (60, 10)]),
}
"""Features that no check can take, by their numbers."""


def make_bad(path: Path) -> List[str]:
    """Writes a layer with a bad feature of every kind among good ones; the numbers of the bad ones."""
    good = {f"good {at}": box(100 + 10 * at, 0, 110 + 10 * at, 10) for at in range(3)}
    both = {**good, **BAD}
    frame = gpd.GeoDataFrame({"parcel_no": list(both)}, geometry=list(both.values()), crs=CRS)
    frame.to_file(path, driver="GPKG", layer="bad")
    return list(BAD)


STREET_AREAS = {"Gap": [6.0], "Overlap": [4.5], "Open gap": [1.5]}
"""The faults of the street's plots, in m2: a missing corner, a plot that is too wide, and one that is too narrow."""
STREET_CORNER = ("7", "2", "3")
"""The long plot that lacks a corner, and the two that meet there."""


def make_street(path: Path) -> None:
    """Writes twelve plots of a street: plots 2 and 3 meet 0.4 m short of the long plot 7, which has no corner there."""
    low = [(0, 15), (15, 30), (30, 45), (45, 60), (60, 75), (75, 90)]
    plots: Dict[str, Polygon] = {str(at): box(x0, 0, x1, 30) for at, (x0, x1) in enumerate(low, 1)}
    plots["2"] = Polygon([(15, 0), (30, 0), (30, 29.6), (15, 30)])
    plots["3"] = Polygon([(30, 0), (45, 0), (45, 30), (30, 29.6)])
    plots["5"] = box(60, 0, 74.95, 30)
    for number, (x0, x1) in zip(("7", "8", "9"), ((15, 45), (45, 60), (60, 90))):
        plots[number] = box(x0, 30, x1, 60)
    plots["8"] = box(45, 30, 60.15, 60)
    plots["10"], plots["11"] = box(0, 30, 15, 60), box(0, 60, 45, 75)
    plots["12"] = box(45, 60, 90, 75)
    frame = gpd.GeoDataFrame({"parcel_no": list(plots)}, geometry=[turned(it) for it in plots.values()], crs=CRS)
    frame.to_file(path, driver="GPKG", layer="street")


def make_town(path: Path, rows: int, columns: int, planted: int) -> Dict[str, int]:
    """Writes rows of parcels whose sides do not meet, in whole millimetres, with so many faults: gaps and overlaps 30
    cm wide, and lower parcels that meet 40 cm short of the upper one, which has no corner there. How many of each kind.
    """
    wide, deep = 17.0, 0.4
    cuts = [
        [0.0, *(wide * (at + 0.3 * ((row * 7 + at * 3) % 5) / 5) for at in range(1, columns)), wide * columns]
        for row in range(rows)
    ]
    every, counts = max(1, rows * columns // max(1, planted)), {"gap": 0, "overlap": 0}
    shapes: List[Polygon] = []
    low: Dict[int, float] = {}
    for row in range(rows):
        for column, (left, right) in enumerate(zip(cuts[row], cuts[row][1:])):
            at, top, bottom = len(shapes), (row + 1) * HIGH, row * HIGH
            corners = [(left, bottom), (right, bottom), (right, top - low.pop(at, 0.0)), (left, top)]
            inside = 0 < column < columns - 2 and 0 < row < rows - 1
            if at - 1 in low:  # the neighbour before meets this one short of the row above
                corners[3] = (left, top - low.pop(at - 1))
            if inside and planted and at % every == every // 2:
                kind = (at // every) % 3
                if kind == 2:
                    corners[2] = (right, top - deep)
                    low[at] = deep
                else:
                    shift = -0.3 if kind == 0 else 0.3
                    corners[1:3] = [(right + shift, bottom), (right + shift, top)]
                counts["overlap" if kind == 1 else "gap"] += 1
            shapes.append(turned(Polygon(corners)))
    whole = [Polygon([(round(x, 3), round(y, 3)) for x, y in it.exterior.coords[:-1]]) for it in shapes]
    numbers = [f"{at // columns + 1}/{at % columns + 1}" for at in range(len(shapes))]
    gpd.GeoDataFrame({"parcel_no": numbers}, geometry=whole, crs=CRS).to_file(path, driver="GPKG", layer=path.stem)
    return counts
