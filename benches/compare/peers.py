"""The other programs: what each is asked, and what it says of a layer.

Each gets the layer as a GeoPackage and the distance by which its corners may be off their borders, which its user would
have to know; Gandovel is not given it. Each answers the gaps and overlaps that it found, with the parcels beside each,
its place and its area where the program says them.

A program is measured in a process of its own (`compare.measure`), so that its processor's seconds and its memory are
its own, too.
"""

from __future__ import annotations

import json
import math
import os
import subprocess
import sys
import tempfile
from collections import defaultdict
from dataclasses import dataclass
from fractions import Fraction
from pathlib import Path
from typing import Callable, Dict, Iterable, List, NamedTuple, Optional, Sequence, Tuple

import geopandas as gpd
import numpy as np
from shapely import wkb
from shapely.geometry import Point, Polygon
from shapely.geometry.base import BaseGeometry
from shapely.ops import unary_union
from shapely.strtree import STRtree

from compare.database import Database

ROOT = Path(__file__).resolve().parents[2]
BESIDE = 0.001
"""How near a parcel lies to a gap that it is beside, in the layer's unit: a program that says no parcels is asked for
those within this."""
SIDE = 30.0
"""How long the sides of these parcels are, in metres: what their user would know."""


class Said(NamedTuple):
    """A fault that a program reports: kind, parcels, place, and area in the square of the layer's unit."""

    kind: str
    numbers: Tuple[str, ...]
    place: Optional[BaseGeometry] = None
    area: Optional[float] = None


@dataclass(frozen=True)
class Peer:
    """A program as its user runs it."""

    name: str
    asks: str
    """What its user gives it, and in how many commands."""
    run: Callable[[Path, float, Path], List[Said]]
    """Of a layer, the distance in its unit, and the folder of the built programs and the database."""
    is_here: bool = False
    """Whether it runs in this process, and not in those that it starts."""
    reads_curves: bool = False
    """Whether it is given the layer as it is kept; the others get its curves as the chords that GDAL makes."""


def command(words: Sequence[object], given: str = "", **environment: str) -> str:
    """What a program prints; a failure is an error with its last words."""
    ran = subprocess.run(
        [str(it) for it in words],
        input=given,
        capture_output=True,
        text=True,
        check=False,
        env={**os.environ, **environment},
    )
    if ran.returncode not in (0, 1):
        raise RuntimeError(f"{words[0]} ended with {ran.returncode}: {ran.stderr[-400:]}")
    return ran.stdout


def gandovel(layer: Path, distance: float, built: Path) -> List[Said]:
    """`gandovel check`, which learns the rounding from the layer."""
    said = json.loads(
        command([sys.executable, "-m", "gandovel", "check", layer, "--json"], PYTHONPATH=str(ROOT / "python/src"))
    )
    unit = said["unit"]["metres"]
    return [
        Said(
            it["kind"],
            tuple(it["numbers"]),
            Point(it["x"], it["y"]),
            float(Fraction(it["area2_mm2"]) / 2_000_000) / unit**2,
        )
        for it in said["faults"]
    ]


class Near:
    """A tree of shapes, of Shapely 1.8 or 2."""

    def __init__(self, shapes: Sequence[BaseGeometry]) -> None:
        self.shapes, self.tree = shapes, STRtree(shapes)
        self.places = {id(shape): at for at, shape in enumerate(shapes)}

    def meeting(self, shape: BaseGeometry) -> List[int]:
        """The places of the shapes that have a point in common with one."""
        near = [it if isinstance(it, (int, np.integer)) else self.places[id(it)] for it in self.tree.query(shape)]
        return sorted(int(at) for at in near if self.shapes[at].intersects(shape))


def geos(layer: Path, distance: float, built: Path) -> List[Said]:
    """GeoPandas on GEOS: each pair whose intersection has an area, and the holes of the union."""
    frame = gpd.read_file(layer)
    found: List[Said] = []
    shapes, numbers = list(frame.geometry), list(frame["parcel_no"])
    tree = Near(shapes)
    for one, shape in enumerate(shapes):
        for other in tree.meeting(shape):
            common = shape.intersection(shapes[other]) if one < other else Polygon()
            if common.area > 0:
                found.append(Said("overlap", (numbers[one], numbers[other]), common, common.area))
    whole = unary_union(shapes)
    for part in getattr(whole, "geoms", [whole]):
        for hole in map(Polygon, part.interiors):
            beside = tuple(numbers[at] for at in tree.meeting(hole.buffer(BESIDE)))
            found.append(Said("gap", beside, hole, hole.area))
    return found


def jts(layer: Path, distance: float, built: Path) -> List[Said]:
    """`JtsFaults.java`, over the layer's shapes as hexadecimal well-known binary."""
    frame = gpd.read_file(layer)
    given = "".join(f"{number} {shape.wkb_hex}\n" for number, shape in zip(frame["parcel_no"], frame.geometry))
    path = f"{built}:/usr/share/java/jts-core.jar"
    return lines_of(command(["java", "-XX:+UseSerialGC", "-cp", path, "JtsFaults", distance], given))


def qgis(layer: Path, distance: float, built: Path) -> List[Said]:
    """`qgis_checker.cpp`: the checks *gap* and *overlap* of the plugin Geometry Checker, with its tolerance, which is
    so many decimals."""
    decimals = max(0, math.ceil(-math.log10(distance)))
    numbers = {str(fid): number for fid, number in numbers_by_fid(layer).items()}
    said = lines_of(command([built / "qgis_checker", layer, decimals], QT_QPA_PLATFORM="offscreen"))
    return [it._replace(numbers=tuple(numbers[fid] for fid in it.numbers)) for it in said]


def numbers_by_fid(layer: Path) -> Dict[int, str]:
    """The parcels' numbers by GDAL's identifiers."""
    import sqlite3

    with sqlite3.connect(layer) as file:
        return dict(file.execute("SELECT fid, parcel_no FROM parcels").fetchall())


def lines_of(text: str) -> List[Said]:
    """The faults that the small programs here print: `KIND NUMBER,NUMBER.. AREA SHAPE`, a line each."""
    return rows_said(line.split(" ") for line in text.splitlines())


def rows_said(rows: Iterable[Sequence[str]]) -> List[Said]:
    """Faults of rows of kind, numbers, area, and shape as hexadecimal well-known binary."""
    return [
        Said(kind, tuple(numbers.split(",")) if numbers else (), wkb.loads(shape, hex=True), float(area))
        for kind, numbers, area, shape in rows
    ]


def grass(layer: Path, distance: float, built: Path) -> List[Said]:
    """`v.in.ogr snap=`: areas without a category are gaps, areas with several are overlaps."""
    with tempfile.TemporaryDirectory(prefix="compare-grass-") as name:
        place = Path(name) / "place"
        command(["grass", "-c", layer, "-e", place])
        base = ["grass", place / "PERMANENT", "--exec"]
        command([*base, "v.in.ogr", f"input={layer}", "output=p", f"snap={distance}", "--quiet", "--overwrite"])
        return areas_of(base, "p", Path(name))


def grass_clean(layer: Path, distance: float, built: Path) -> List[Said]:
    """`v.in.ogr` as it is, then `v.clean tool=rmarea`: areas below the distance times a parcel's side are given to the
    neighbour with the longest border; what is left is read as above."""
    unit = gpd.read_file(layer, rows=1).crs.axis_info[0].unit_conversion_factor
    least = distance * unit * SIDE
    with tempfile.TemporaryDirectory(prefix="compare-grass-") as name:
        place = Path(name) / "place"
        command(["grass", "-c", layer, "-e", place])
        base = ["grass", place / "PERMANENT", "--exec"]
        command([*base, "v.in.ogr", f"input={layer}", "output=raw", "--quiet", "--overwrite"])
        command([*base, "v.clean", "input=raw", "output=p", "tool=rmarea", f"threshold={least}", "--quiet"])
        return areas_of(base, "p", Path(name))


def areas_of(base: Sequence[object], name: str, folder: Path) -> List[Said]:
    """What the areas of a map of GRASS say: those of no parcel, and those of several."""
    numbers = dict(
        line.split(",")[:2]
        for line in command([*base, "v.db.select", name, "columns=cat,parcel_no", "-c", "separator=,"]).splitlines()
    )
    exported = folder / "areas.gpkg"
    command([*base, "v.out.ogr", "-c", f"input={name}", f"output={exported}", "format=GPKG", "type=area", "--quiet"])
    areas = gpd.read_file(exported)
    tree, owners = Near(list(areas.geometry)), defaultdict(list)
    for shape, cat in zip(areas.geometry, areas["cat"]):
        owners[shape.wkb].append((shape, None if np.isnan(cat) else numbers.get(str(int(cat)))))
    found = []
    for rows in owners.values():
        shape, names = rows[0][0], sorted({number for _, number in rows if number})
        if len(names) > 1:
            found.append(Said("overlap", tuple(names), shape, shape.area))
        elif not names:
            near = (areas["cat"].iloc[at] for at in tree.meeting(shape.buffer(BESIDE)))
            beside = {numbers[str(int(cat))] for cat in near if not np.isnan(cat)}
            found.append(Said("gap", tuple(sorted(beside)), shape, shape.area))
    return found


def plain(layer: Path, distance: float, built: Path) -> List[Said]:
    """Two statements of SQL in PostGIS over the layer as it is."""
    return rows_said(Database(built).faults_by_sql(BESIDE))


def topology(layer: Path, distance: float, built: Path) -> List[Said]:
    """PostGIS's `toTopoGeom` with a tolerance: faces of no parcel are gaps, faces of several are overlaps."""
    return rows_said(Database(built).faults_by_topology(distance))


PEERS = [
    Peer("Gandovel", "the layer; one command", gandovel, reads_curves=True),
    Peer("GEOS 3.11", "the layer; ten lines of Python", geos, is_here=True),
    Peer("JTS 1.19", "the layer and the distance; 100 lines of Java", jts),
    Peer("QGIS 3.22, Geometry Checker", "the layer and the distance as decimals; two checks in a window", qgis),
    Peer("PostGIS 3.3, SQL", "the layer; two statements", plain),
    Peer("PostGIS 3.3, topology", "the layer and the distance; five statements", topology),
    Peer("GRASS 8.2, `v.in.ogr snap=`", "the layer and the distance; four commands", grass),
    Peer("GRASS 8.2, `v.clean`", "the layer and the least area of a fault; five commands", grass_clean),
]
"""All that are compared."""
