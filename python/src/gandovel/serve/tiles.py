"""Vector tiles of parcels and zones, made by GDAL for the tiles that are asked for: Web Mercator, as most maps are.

They are for drawing: GDAL rounds corners to a grid of 4,096 steps a tile. What is exact is asked for elsewhere.
"""
from __future__ import annotations

import asyncio
import math
import struct
from collections import OrderedDict
from concurrent.futures import ThreadPoolExecutor
from dataclasses import dataclass
from typing import Any, Dict, List, Optional, Sequence, Tuple

import numpy as np

from .crs import MERCATOR, RADIUS, Projection
from .entries import Row
from .faults import NoSuchThing, NotServing
from .features import Collections
from .views import View

DEEPEST = 24
"""The last level of zoom: a tile is 2.4 m wide there."""
EDGE = math.pi * RADIUS
"""Half the side of Web Mercator's square, in metres."""
STEPS, MARGIN = 4096, 80
"""Steps of a tile's grid, and by how many of them it reaches into its neighbours: GDAL's own."""
LEAST = 2.0
"""Pixels (of 256 a tile): what is narrower and lower is left out, so that no tile has more than some 16,000 shapes."""
MOST_KEPT = 512
MOST_BYTES = 4 << 20
"""Of a tile, before GDAL leaves out what it has least room for."""
MOST_WAITING = 64
"""Tiles that wait to be made."""


@dataclass(frozen=True)
class Tile:
    """A tile as it is since entry `since`: Mapbox Vector Tile, version 2. Empty where nothing is there."""

    content: bytes
    since: int
    known_to: int


Named = Tuple[str, int, int, int]
"""Collection, level, row and column of a tile."""


class Tiles:
    """The vector tiles of a register. Each is kept until an entry changes a shape in it."""

    def __init__(self, collections: Collections, projection: Projection) -> None:
        self._collections, self._projection = collections, projection
        self._kept: "OrderedDict[Named, Tile]" = OrderedDict()
        self._making = ThreadPoolExecutor(1, "tiles")
        self._waiting = 0

    async def tile(self, name: str, level: int, row: int, column: int) -> Tuple[Tile, int]:
        """A tile of the newest version, and which that is. Raises `NoSuchThing`, `NotServing`."""
        if name not in self._collections.tiled:
            raise NoSuchThing("collection", f"tiles are of {' and '.join(self._collections.tiled)}")
        if not 0 <= level <= DEEPEST or not 0 <= row < 2**level or not 0 <= column < 2**level:
            raise NoSuchThing("tile", f"levels are 0 to {DEEPEST}, rows and columns 0 to 2^level - 1")
        view = await self._collections.view(name, None)
        key = (name, level, row, column)
        kept = self._kept.pop(key, None)
        if kept is None or kept.known_to < view.entries and self._is_changed(view, kept, key):
            content = await self._made(view, key)
            kept = Tile(content, view.entries, view.entries)
        self._kept[key] = Tile(kept.content, kept.since, view.entries)
        while len(self._kept) > MOST_KEPT:
            self._kept.popitem(last=False)
        return self._kept[key], view.entries

    def first_level(self) -> int:
        """The first level at which a parcel of usual size is drawn."""
        view = self._collections.now("parcels")
        sizes = view.versions.sizes(view.places()) if view is not None else np.zeros(0)
        usual = float(np.median(sizes)) / 1000 if len(sizes) else 1.0
        return max(0, min(DEEPEST, math.ceil(math.log2(LEAST * 2 * EDGE / 256 / max(usual / self._stretch, 0.1)))))

    @property
    def _stretch(self) -> float:
        """How many metres of the ground a metre of Web Mercator is, in the register's middle."""
        return math.cos(math.radians((self._projection.south + self._projection.north) / 2))

    def _is_changed(self, view: View, kept: Tile, key: Named) -> bool:
        """Whether an entry since then took out or brought a shape in a tile."""
        if key[0] == "zones":
            return False
        area = self._projection.area(box_of(*key[1:], MARGIN / STEPS), MERCATOR)
        bounds = None if area is None or area.is_empty else area.bounds
        if area is not None and area.is_empty:
            return False
        return view.versions.changed(kept.known_to, view.entries, bounds)

    async def _made(self, view: View, key: Named) -> bytes:
        name, level, row, column = key
        area = self._projection.area(box_of(level, row, column, MARGIN / STEPS), MERCATOR)
        if area is not None and area.is_empty:
            return b""
        least = LEAST * 2 * EDGE / 256 / 2**level * self._stretch * 1000
        places = view.places(None if area is None else area.bounds)
        places = places[view.versions.sizes(places) >= least]
        rows = [view.versions.row(at) for at in places.tolist()]
        if not rows:
            return b""
        if self._waiting >= MOST_WAITING:
            raise NotServing("busy", f"{MOST_WAITING} tiles wait to be made: ask again")
        self._waiting += 1
        try:
            facts = [view.properties(row) for row in rows]
            work = asyncio.get_running_loop().run_in_executor(
                self._making, _written, name, (level, row, column), rows, facts, self._projection
            )
            return await work
        finally:
            self._waiting -= 1


def box_of(level: int, row: int, column: int, margin: float = 0.0) -> Tuple[float, float, float, float]:
    """The box of a tile in Web Mercator, in metres: west, south, east, north, wider by a part of its side."""
    side = 2 * EDGE / 2**level
    west, north = column * side - EDGE, EDGE - row * side
    return west - margin * side, north - side - margin * side, west + side + margin * side, north + margin * side


_TOLD = ("number", "came_from", "name", "area_m2")


def _written(
    name: str, place: Tuple[int, int, int], rows: Sequence[Row], facts: List[Dict[str, Any]], projection: Projection
) -> bytes:
    """A tile of these rows, by GDAL, in a thread of its own."""
    from osgeo import gdal, ogr, osr

    gdal.UseExceptions()
    level, row, column = place
    folder = f"/vsimem/gandovel_{name}_{level}_{row}_{column}"
    options = ["FORMAT=DIRECTORY", f"MINZOOM={level}", f"MAXZOOM={level}", "COMPRESS=NO", f"MAX_SIZE={MOST_BYTES}"]
    options += [f"EXTENT={STEPS}", f"BUFFER={MARGIN}", "TILE_EXTENSION=pbf"]
    try:
        mercator = osr.SpatialReference()
        mercator.ImportFromEPSG(3857)
        dataset = gdal.GetDriverByName("MVT").Create(folder, 0, 0, 0, gdal.GDT_Unknown, options)
        layer = dataset.CreateLayer(name, mercator, ogr.wkbPolygon)
        layer.CreateField(ogr.FieldDefn("id", ogr.OFTInteger64))
        told = [it for it in _TOLD if it in facts[0]]
        for it in told:
            layer.CreateField(ogr.FieldDefn(it, ogr.OFTReal if it == "area_m2" else ogr.OFTString))
        corners = projection.coordinates(np.concatenate([it.ring for it in rows]), MERCATOR)
        rings = np.split(corners, np.cumsum([len(it.ring) for it in rows])[:-1])
        for shape, ring, fact in zip(rows, rings, facts):
            feature = ogr.Feature(layer.GetLayerDefn())
            feature.SetGeometryDirectly(ogr.CreateGeometryFromWkb(_wkb(ring)))
            feature.SetFID(shape.id)
            feature.SetField("id", shape.id)
            for at in told:
                if fact[at] is not None:
                    feature.SetField(at, fact[at])
            layer.CreateFeature(feature)
        layer = dataset = None
        return _read(gdal, f"{folder}/{level}/{column}/{row}.pbf")
    finally:
        gdal.RmdirRecursive(folder)


def _read(gdal: Any, path: str) -> bytes:
    found = gdal.VSIStatL(path)
    if found is None:
        return b""
    file = gdal.VSIFOpenL(path, "rb")
    try:
        return bytes(gdal.VSIFReadL(1, found.size, file))
    finally:
        gdal.VSIFCloseL(file)


def _wkb(ring: Any) -> bytes:
    """A ring of coordinates as WKB of a polygon."""
    closed = np.concatenate([ring, ring[:1]])
    content: bytes = closed.astype("<f8").tobytes()
    return struct.pack("<BIII", 1, 3, 1, len(closed)) + content


def matrices_of(last: int = DEEPEST) -> List[Dict[str, Any]]:
    """The levels of WebMercatorQuad, as OGC's Two Dimensional Tile Matrix Set has them."""
    return [
        {
            "id": str(level),
            "scaleDenominator": 2 * EDGE / 256 / 2**level / 0.00028,
            "cellSize": 2 * EDGE / 256 / 2**level,
            "pointOfOrigin": [-EDGE, EDGE],
            "tileWidth": 256,
            "tileHeight": 256,
            "matrixWidth": 2**level,
            "matrixHeight": 2**level,
        }
        for level in range(last + 1)
    ]


def limits_of(projection: Projection) -> List[Dict[str, Any]]:
    """Which rows and columns of each level have something of the register."""
    west, south, east, north = projection.extent
    if west > east:
        west, east = -180.0, 180.0
    low, high = _mercator(west, south), _mercator(east, north)
    found = []
    for level in range(DEEPEST + 1):
        side = 2 * EDGE / 2**level
        columns = [min(2**level - 1, max(0, int((x + EDGE) // side))) for x in (low[0], high[0])]
        rows = [min(2**level - 1, max(0, int((EDGE - y) // side))) for y in (high[1], low[1])]
        found.append(
            {
                "tileMatrix": str(level),
                "minTileRow": rows[0],
                "maxTileRow": rows[1],
                "minTileCol": columns[0],
                "maxTileCol": columns[1],
            }
        )
    return found


def _mercator(longitude: float, latitude: float) -> Tuple[float, float]:
    held = max(-85.06, min(85.06, latitude))
    return math.radians(longitude) * RADIUS, math.asinh(math.tan(math.radians(held))) * RADIUS


def tile_number(text: str) -> Optional[int]:
    """A number of a tile's address; None where it is none."""
    return int(text) if text.isascii() and text.isdigit() and len(text) < 12 else None
