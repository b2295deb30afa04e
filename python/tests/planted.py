"""Registers whose truth is known: random ones of 50 to 500 parcels with gaps and overlaps planted, kept as registers
are.

`CASES` names the ways in which a register is kept: rounded to a decimal grid or to 5, 25 or 50 mm, with one corner
finer than the others, reprojected, in a File Geodatabase, in degrees with seven decimals, in feet, with a curve, with
arcs that two parcels share. `case(name, seed, folder)` makes one, `Case.judged` says what of the planted was found, and
what was found that is not there.

Run as a program it writes one layer: `planted.py NAME SEED FOLDER` makes FOLDER/parcels.gpkg and FOLDER/truth.csv.
"""
from __future__ import annotations

import csv
import math
import random
import subprocess
import sys
from dataclasses import dataclass, field
from pathlib import Path
from typing import Any, Callable, Dict, Iterable, List, Optional, Sequence, Tuple

import geopandas as gpd
import numpy as np
from pyproj import Transformer
from shapely.geometry import Polygon
from shapely.geometry.base import BaseGeometry

from slanted import Planted, slanted

METRIC, OTHER, FEET = 25832, 25833, 2263
"""UTM zone 32, where the registers lie; its neighbour; New York's plane in feet of the United States survey."""
GEODATABASE_OF_FEET = ("XYSCALE=3048.00609601219", "XORIGIN=-117608900", "YORIGIN=-91881400", "XYTOLERANCE=0.00328083")
"""The resolution that an Esri geodatabase gives a layer in feet by default: a tenth of a millimetre, and its origin."""
WIDEST, NARROWEST = 8.0, 2.2
"""How wide planted faults are: in distances that the way of keeping explains. None is narrower than twice that."""


Corner = Tuple[float, float]


@dataclass
class Case:
    """A layer to be judged: `source` is a frame or a path; `planted` what is wrong with it; `distance` (mm) how far a
    corner may be off its border by the way in which the layer is kept."""

    name: str
    source: Any
    planted: List[Planted]
    distance: float
    crs: int = METRIC
    options: Dict[str, Any] = field(default_factory=dict)
    there: Callable[[gpd.GeoDataFrame], gpd.GeoDataFrame] = lambda frame: frame

    def matched(self, told: Iterable[Tuple[str, Sequence[str], Optional[BaseGeometry]]]) -> List[Optional[int]]:
        """Of each fault that was reported, as kind, numbers and place (None where none is reported), which planted one
        it is; None where it is none.

        It is one where kind, parcels and place are its own, and no other was before it.
        """
        left = {at: fault for at, fault in enumerate(self.planted)}
        shapes = gpd.GeoDataFrame(geometry=[it.shape for it in self.planted], crs=METRIC)
        places = list(self.there(shapes).geometry) if self.planted else []
        apart = 2 * self.distance / (304.8 if self.crs == FEET else 1000.0)
        found: List[Optional[int]] = []
        for kind, numbers, place in told:
            same = (at for at, it in left.items() if it.kind == kind and set(it.numbers) <= set(numbers))
            found.append(next((at for at in same if place is None or places[at].distance(place) <= apart), None))
            left.pop(found[-1], None)
        return found

    def judged(self, told: Iterable[Tuple[str, Sequence[str], Optional[BaseGeometry]]]) -> "Counts":
        """How many of the planted faults were reported, how many not, and how many that are none."""
        found = self.matched(told)
        count = sum(it is not None for it in found)
        return Counts(count, len(self.planted) - count, len(found) - count)

    def kept_area(self, at: int, kept: gpd.GeoDataFrame) -> float:
        """The area of a planted fault in the layer as it is kept: of the ring of those corners of its two parcels that
        lie nearest to where it was planted."""
        fault = self.planted[at]
        rows = kept[kept["parcel_no"].isin(fault.numbers)].geometry
        parts = [part for shape in rows for part in getattr(shape, "geoms", [shape])]
        corners = np.concatenate([np.asarray(part.exterior.coords)[:, :2] for part in parts])
        planted = self.there(gpd.GeoDataFrame(geometry=[fault.shape], crs=METRIC)).geometry.iloc[0].exterior.coords
        nearest = [corners[np.hypot(*(corners - corner).T).argmin()] for corner in np.asarray(planted)[:-1, :2]]
        return Polygon(nearest).area


@dataclass
class Counts:
    """Of planted faults how many were found and missed, and how many were told that are none."""

    found: int = 0
    missed: int = 0
    false: int = 0

    def __add__(self, other: "Counts") -> "Counts":
        return Counts(self.found + other.found, self.missed + other.missed, self.false + other.false)


def drawn(seed: int, distance: float, faults: Optional[int] = None) -> Tuple[gpd.GeoDataFrame, List[Planted]]:
    """A register of 50 to 500 parcels as floats, in metres, with up to six faults, each wider than twice `distance`
    (mm)."""
    pick = random.Random(seed)
    bands = pick.randint(5, 20)
    cells = max(-(-50 // bands), min(500 // bands, pick.randint(5, 40)))
    inner = [band * cells + at for band in range(1, bands - 1) for at in range(1, cells - 2)]
    count = pick.randint(0, min(6, len(inner) // 12)) if faults is None else faults
    moves: Dict[int, float] = {}
    for at in pick.sample(inner, len(inner)):
        if len(moves) == count:
            break
        if not _beside(moves, at, cells):
            moves[at] = pick.choice([-1, 1]) * min(pick.uniform(NARROWEST, WIDEST) * distance / 1000.0, 6.0)
    return slanted(seed, bands, cells, None, moves)


def _beside(moves: Dict[int, float], at: int, cells: int) -> bool:
    """Whether one of these faults lies beside the place: two that touch are told as one."""
    return any(abs(at // cells - it // cells) <= 1 and abs(at % cells - it % cells) <= 3 for it in moves)


def reshaped(frame: gpd.GeoDataFrame, change: Callable[[np.ndarray], np.ndarray], crs: Any = None) -> gpd.GeoDataFrame:
    """A frame with each ring's corners (n, 2) changed."""

    def changed(shape: Polygon) -> Polygon:
        rings = [change(np.asarray(ring.coords)[:, :2]) for ring in (shape.exterior, *shape.interiors)]
        return Polygon(rings[0], rings[1:])

    shapes = [changed(shape) for shape in frame.geometry]
    return gpd.GeoDataFrame(frame.drop(columns="geometry"), geometry=shapes, crs=crs or frame.crs)


def rounded(frame: gpd.GeoDataFrame, step: float) -> gpd.GeoDataFrame:
    """A frame with each coordinate rounded to a multiple of `step`, in its unit, and then as a decimal number is."""
    return reshaped(frame, lambda corners: np.round(np.round(corners / step) * step, 9))


def projected(frame: gpd.GeoDataFrame, *systems: int) -> gpd.GeoDataFrame:
    """A frame taken to other projections by PROJ, one after another."""
    for one, other in zip((frame.crs.to_epsg(), *systems), systems):
        way = Transformer.from_crs(one, other, always_xy=True)
        frame = reshaped(frame, lambda corners: np.column_stack(way.transform(*corners.T)), other)
    return frame


def with_a_finer_corner(frame: gpd.GeoDataFrame, seed: int) -> gpd.GeoDataFrame:
    """A frame in centimetres with one corner moved by some millimetres, in each parcel that has it."""
    pick = random.Random(seed)
    x, y = pick.choice(list(frame.geometry.iloc[pick.randrange(len(frame))].exterior.coords))
    to = round(x + pick.choice([-3, -2, 2, 3]) / 1000, 3), round(y + pick.choice([-4, -1, 1, 4]) / 1000, 3)

    def change(corners: np.ndarray) -> np.ndarray:
        return np.where((corners == (x, y)).all(axis=1)[:, None], to, corners)

    return reshaped(frame, change)


def through(frame: gpd.GeoDataFrame, folder: Path, name: str, *options: str, driver: str) -> Path:
    """A frame as a file that `ogr2ogr` wrote, by a driver of GDAL."""
    folder.mkdir(parents=True, exist_ok=True)
    plain, path = folder / "plain.gpkg", folder / name
    frame.to_file(plain, layer="parcels", driver="GPKG")
    subprocess.run(["ogr2ogr", "-f", driver, *options, str(path), str(plain), "parcels"], check=True)
    return path


def _grid(step: float) -> Callable[[int, Path], Case]:
    """Rounded to multiples of `step` (mm)."""

    def made(seed: int, folder: Path) -> Case:
        frame, planted = drawn(seed, 1.42 * step)
        return Case("", rounded(frame, step / 1000), planted, 1.42 * step)

    return made


def _finer_corner(seed: int, folder: Path) -> Case:
    frame, planted = drawn(seed, 14.2)
    return Case("", with_a_finer_corner(rounded(frame, 0.01), seed), planted, 14.2)


def _projected(*systems: int) -> Callable[[int, Path], Case]:
    """In centimetres, and then taken to other projections."""

    def made(seed: int, folder: Path) -> Case:
        frame, planted = drawn(seed, 14.5)
        there = lambda some: projected(some, *systems)
        return Case("", there(rounded(frame, 0.01)), planted, 14.5, systems[-1], there=there)

    return made


def _geodatabase(seed: int, folder: Path) -> Case:
    frame, planted = drawn(seed, 14.2)
    path = through(rounded(frame, 0.01), folder, "parcels.gdb", driver="OpenFileGDB")
    return Case("", path, planted, 14.2)


def _degrees(seed: int, folder: Path) -> Case:
    """In centimetres, then in degrees with seven decimals (11 mm to the north), then in metres again."""
    frame, planted = drawn(seed, 30.0)
    degrees = ("-t_srs", "EPSG:4326", "-lco", "COORDINATE_PRECISION=7")
    path = through(rounded(frame, 0.01), folder, "parcels.geojson", *degrees, driver="GeoJSON")
    back = folder / "back.gpkg"
    subprocess.run(["ogr2ogr", "-t_srs", f"EPSG:{METRIC}", str(back), str(path)], check=True)
    return Case("", back, planted, 30.0)


def _feet(step: Optional[float]) -> Callable[[int, Path], Case]:
    """In feet, rounded to `step` (feet; None: not), at the resolution of a geodatabase."""

    def made(seed: int, folder: Path) -> Case:
        distance = 1.42 * max(1.0, (step or 0.0) * 304.8006096) + 0.2
        frame, planted = drawn(seed, distance)
        foot = 0.3048006096
        there = lambda some: reshaped(some, lambda it: (it - (561_000, 5_934_000)) / foot + (980_000, 200_000), FEET)
        kept = there(frame) if step is None else rounded(there(frame), step)
        options = [word for one in GEODATABASE_OF_FEET for word in ("-lco", one)]
        path = through(kept, folder, "parcels.gdb", *options, driver="OpenFileGDB")
        return Case("", path, planted, distance, FEET, there=there)

    return made


def _curve(seed: int, folder: Path) -> Case:
    """In centimetres, but for one parcel at the outline, one side of which is an arc, at its floats."""
    frame, planted = drawn(seed, 14.2)
    frame = rounded(frame, 0.01)
    texts = [shape.wkt for shape in frame.geometry]
    texts[0] = _arc_of(list(frame.geometry.iloc[0].exterior.coords))
    return Case("", _with_curves(frame, texts, folder), planted, 14.2)


def _arcs(seed: int, folder: Path) -> Case:
    """In centimetres, with every third border of two parcels an arc, that each of them has digitised on its own."""
    frame, planted = drawn(seed, 14.2)
    frame = rounded(frame, 0.01)
    pick = random.Random(seed)
    rings = [list(shape.exterior.coords) for shape in frame.geometry]
    faulty = {int(number[1:]) for fault in planted for number in fault.numbers}
    right: Dict[int, str] = {}
    left: Dict[int, str] = {}
    for at, ring in enumerate(rings[:-1]):
        b, c = ring[1], ring[2]
        is_shared = (rings[at + 1][3], rings[at + 1][0]) == (c, b)
        if is_shared and not {at, at + 1} & faulty and pick.random() < 1 / 3:
            right[at], left[at + 1] = _two_ways(b, c, pick.choice([-1, 1]) * pick.uniform(0.4, 2.0), pick)
    texts = [_sides(ring, right.get(at), left.get(at)) for at, ring in enumerate(rings)]
    return Case("", _with_curves(frame, texts, folder), planted, 14.2)


def _two_ways(b: Corner, c: Corner, bulge: float, pick: random.Random) -> Tuple[str, str]:
    """One arc between two corners, as two parcels have it: each with a middle of its own, one of them at times in two
    pieces."""
    (bx, by), (cx, cy) = b, c
    length = math.hypot(cx - bx, cy - by)
    radius = (length**2 / 4 + bulge**2) / (2 * bulge)
    nx, ny = (by - cy) / length, (cx - bx) / length

    def on_it(share: float) -> Corner:
        along = (share - 0.5) * length
        up = math.copysign(math.sqrt(radius**2 - along**2), radius) - (radius - bulge)
        x, y = (bx + cx) / 2 + along * (cx - bx) / length + up * nx, (by + cy) / 2 + along * (
            cy - by
        ) / length + up * ny
        return round(x, 2), round(y, 2)

    one = [b, on_it(pick.uniform(0.35, 0.65)), c]
    other = [c, on_it(pick.uniform(0.35, 0.65)), b]
    if pick.random() < 0.3:
        other = [c, on_it(0.8), on_it(0.6), on_it(0.3), b]
    return tuple(", ".join(f"{x!r} {y!r}" for x, y in points) for points in (one, other))


def _sides(ring: List[Corner], right: Optional[str], left: Optional[str]) -> str:
    """A ring of four sides, of which the second and the fourth may be arcs."""
    words = [", ".join(f"{x!r} {y!r}" for x, y in ring[at : at + 2]) for at in range(4)]
    sides = [f"({words[0]})", f"CIRCULARSTRING ({right})" if right else f"({words[1]})", f"({words[2]})"]
    sides += [f"CIRCULARSTRING ({left})" if left else f"({words[3]})"]
    return f"CURVEPOLYGON (COMPOUNDCURVE ({', '.join(sides)}))"


def _with_curves(frame: gpd.GeoDataFrame, texts: List[str], folder: Path) -> Path:
    """A layer of curves, the shapes of which are these texts."""
    from osgeo import ogr, osr

    folder.mkdir(parents=True, exist_ok=True)
    path = folder / "parcels.gpkg"
    made = ogr.GetDriverByName("GPKG").CreateDataSource(str(path))
    system = osr.SpatialReference()
    system.ImportFromEPSG(METRIC)
    layer = made.CreateLayer("parcels", system, ogr.wkbCurvePolygon)
    layer.CreateField(ogr.FieldDefn("parcel_no", ogr.OFTString))
    for number, text in zip(frame["parcel_no"], texts):
        feature = ogr.Feature(layer.GetLayerDefn())
        feature["parcel_no"] = number
        feature.SetGeometry(ogr.CreateGeometryFromWkt(text))
        layer.CreateFeature(feature)
    del layer, made
    return path


def _arc_of(corners: List[Corner]) -> str:
    """A ring whose first side, which is on the register's outline, is an arc that bulges outwards."""
    (ax, ay), (bx, by) = corners[:2]
    middle = (ax + bx) / 2 + 0.137 * (by - ay), (ay + by) / 2 - 0.137 * (bx - ax)
    arc = ", ".join(f"{x!r} {y!r}" for x, y in ((ax, ay), middle, (bx, by)))
    line = ", ".join(f"{x!r} {y!r}" for x, y in corners[1:])
    return f"CURVEPOLYGON (COMPOUNDCURVE (CIRCULARSTRING ({arc}), ({line})))"


CASES: Dict[str, Callable[[int, Path], Case]] = {
    "millimetres": _grid(1),
    "centimetres": _grid(10),
    "decimetres": _grid(100),
    "5 mm": _grid(5),
    "25 mm": _grid(25),
    "50 mm": _grid(50),
    "one corner finer": _finer_corner,
    "reprojected": _projected(OTHER),
    "reprojected and back": _projected(4326, METRIC),
    "File Geodatabase": _geodatabase,
    "degrees": _degrees,
    "feet": _feet(None),
    "hundredths of feet": _feet(0.01),
    "a curve": _curve,
    "arcs between neighbours": _arcs,
}
"""The ways in which registers are kept."""


def case(name: str, seed: int, folder: Path) -> Case:
    """A random register that is kept in one of these ways; files, where there are some, are in the folder."""
    made = CASES[name](seed, folder)
    made.name = name
    return made


def main() -> None:
    """Writes a case as a layer and its truth."""
    name, seed, folder = sys.argv[1], int(sys.argv[2]), Path(sys.argv[3])
    folder.mkdir(parents=True, exist_ok=True)
    made = case(name, seed, folder)
    if isinstance(made.source, gpd.GeoDataFrame):
        made.source.to_file(folder / "parcels.gpkg", driver="GPKG")
    with open(folder / "truth.csv", "w", newline="", encoding="utf-8") as file:
        writer = csv.writer(file)
        writer.writerow(["kind", "first", "second", "area_m2"])
        writer.writerows((it.kind, *it.numbers, f"{it.area:.6f}") for it in made.planted)


if __name__ == "__main__":
    main()
