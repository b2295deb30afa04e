"""The faults of all cities as one GeoPackage: gaps, overlaps, parcels across districts, and rings that are refused."""
from __future__ import annotations

import json
from collections import defaultdict
from pathlib import Path
from typing import Any, Dict, List, Optional, Sequence, Tuple

import fiona
import geopandas as gpd
import numpy as np
from pyproj import CRS
from pyproj.exceptions import CRSError
from shapely.affinity import scale
from shapely.geometry import Polygon, shape

from ..arrays import Array
from ..faults.polygons import fault_area, faults_of
from ..out.gpkg import write_layers
from ..out.styles import STYLES
from .layers import Cover, Crossing
from .manifest import Row
from .results import Result

SQUARE_METRE = 1_000_000
MM_PER_UNIT = {"mm": 1, "cm": 10, "m": 1000}
FAULT_COLUMNS = (
    "city",
    "layer",
    "area2_mm2",
    "area2_most_mm2",
    "area_m2",
    "area_how",
    "depth",
    "records",
    "numbers",
    "numbers_how",
    "geometry",
)
COLUMNS = {
    "gaps": FAULT_COLUMNS,
    "overlaps": FAULT_COLUMNS,
    "rings": ("city", "layer", "record", "number", "fault", "geometry"),
    "crossings": ("city", "district", "other", "record", "number", "geometry"),
}


class Faults:
    """Collects the faults of cities, layer by layer of a GeoPackage; one of its own for each projection."""

    def __init__(self) -> None:
        self.rows: Dict[Optional[str], Dict[str, List[Dict[str, Any]]]] = defaultdict(lambda: defaultdict(list))
        self._covers: Dict[str, Tuple[Cover, Array]] = {}
        """The parcels of districts beside a gap, and the box of their ring."""

    def count(self, kind: str) -> int:
        """How many `gaps`, `overlaps`, `rings` or `crossings` there are."""
        return sum(len(layers[kind]) for layers in self.rows.values())

    def add(self, row: Row, result: Result, others: Sequence[Row] = ()) -> None:
        """Takes the faults that a check of all faults told of a city's parcels or zones.

        `others` are the districts of the same city: a gap on a border has the numbers of their parcels there, too.
        """
        words = [line.split() for line in result.output.splitlines()]
        path = result.command[3]
        role = "zones" if path == row.zones and path != row.parcels else "parcels"
        edges = [[*map(int, line[1:5]), int(line[6])] for line in words if line[:1] == ["edge"]]
        rings = {int(line[1]): " ".join(line[2:]) for line in words if line[:1] == ["ring"]}
        if not edges and not rings:
            return
        projection, unit = _place(Path(path))
        layers, cover = self.rows[projection], Cover(row, path, role)
        for fault in faults_of(np.array(edges, dtype=np.int64).reshape(-1, 5)):
            records = cover.of(fault.outer, fault.holes, fault.depth < 0)
            numbers = [cover.told(records)] if records else []
            if fault.depth < 0 and role == "parcels":
                numbers += self._beside(fault.outer, fault.holes, others)
            outer, *holes = (np.asarray(loop, dtype=float) / unit for loop in (fault.outer, *fault.holes))
            layers["gaps" if fault.depth < 0 else "overlaps"].append(
                {
                    "city": row.name,
                    "layer": role,
                    **fault_area(fault.area2),
                    "depth": fault.depth,
                    "records": ",".join(map(str, records)),
                    "numbers": ",".join(numbers),
                    "numbers_how": "measured",
                    "geometry": Polygon(outer, holes),
                }
            )
        for record, why in rings.items():
            ring = _ring(Path(path), record, MM_PER_UNIT[row.unit] / unit)
            if ring is not None:
                layers["rings"].append(
                    {
                        "city": row.name,
                        "layer": role,
                        "record": record,
                        "number": cover.told([record]),
                        "fault": why,
                        "geometry": ring,
                    }
                )

    def _beside(self, outer: Sequence[Any], holes: Sequence[Any], others: Sequence[Row]) -> List[str]:
        """The numbers of the parcels of other districts that border a gap, by district."""
        loop = np.array(outer, dtype=np.int64)
        found = []
        for row in others:
            cover, box = self._cover_of(row)
            if (loop.min(axis=0) <= box[2:]).all() and (loop.max(axis=0) >= box[:2]).all():
                records = cover.of(outer, holes, True)
                found += [cover.told(records)] if records else []
        return found

    def _cover_of(self, row: Row) -> Tuple[Cover, Array]:
        """A district's parcels, and the box that they are in, each read once."""
        if row.name not in self._covers:
            cover = Cover(row, row.parcels, "parcels")
            low, high = cover.boxes[:, :2].min(axis=0, initial=2**62), cover.boxes[:, 2:].max(
                axis=0, initial=-(2**62)
            )
            self._covers[row.name] = cover, np.concatenate([low, high])
        return self._covers[row.name]

    def add_crossing(self, city: str, row: Row, it: Crossing) -> None:
        """Takes a parcel of a city's district that reaches into another one."""
        projection, unit = _place(Path(row.parcels))
        ring = _ring(Path(row.parcels), it.record, MM_PER_UNIT[row.unit] / unit)
        if ring is not None:
            told = {"city": city, "district": it.district, "other": it.other, "record": it.record, "number": it.number}
            self.rows[projection]["crossings"].append({**told, "geometry": ring})

    def save(self, path: Path) -> bool:
        """Writes the GeoPackage; False where there is no fault, and no file. Refused P14 where the disk is full."""
        layers, styles = [], {}
        for at, (projection, kinds) in enumerate(self.rows.items(), 1):
            crs = None if projection is None else CRS.from_user_input(projection)
            for kind, columns in COLUMNS.items():
                if kinds[kind]:
                    name = kind if len(self.rows) == 1 else f"{kind}_{_short(crs, at)}"
                    layers.append(
                        (name, gpd.GeoDataFrame(kinds[kind], columns=list(columns), geometry="geometry", crs=crs))
                    )
                    if kind in STYLES:
                        styles[name] = STYLES[kind]
        if layers:
            write_layers(path, layers, styles)
        return bool(layers)


def _short(crs: Optional[CRS], at: int) -> str:
    code = None if crs is None else crs.to_epsg()
    return "without_projection" if crs is None else f"EPSG{code}" if code else f"projection_{at}"


def _place(path: Path) -> Tuple[Optional[str], float]:
    """The projection of a layer, and how many millimetres its unit has; None and metres where no projection is told.

    It is that of its .prj, else of the folder that `gandovel prepare` wrote.
    """
    try:
        told = path.with_suffix(".prj")
        if told.is_file():
            return _named(CRS.from_wkt(told.read_text(encoding="utf-8", errors="replace"))), 1000.0
        for folder in (path.parent, path.parent.parent):
            if (folder / "prepared.json").is_file():
                facts = json.loads((folder / "prepared.json").read_text(encoding="utf-8"))
                return facts["crs"] and _named(CRS.from_wkt(facts["crs"])), float(facts["scale"])
    except (OSError, CRSError, ValueError, KeyError):
        pass
    return None, 1000.0


def _named(crs: CRS) -> str:
    """A projection by its EPSG number, where it has one: two texts of it are one projection."""
    code = crs.to_epsg()
    return f"EPSG:{code}" if code else crs.to_wkt()


def _ring(path: Path, record: int, factor: float) -> Optional[Any]:
    """A record of a layer as GDAL reads it, in the unit of its projection; None where the file is gone by now."""
    try:
        with fiona.open(str(path)) as layer:
            return scale(shape(layer[record - 1]["geometry"]), factor, factor, origin=(0, 0))
    except (fiona.errors.FionaError, OSError, ValueError, LookupError, TypeError):
        return None
