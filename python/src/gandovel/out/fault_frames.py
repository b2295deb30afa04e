"""Faults of a register as frames: what each is, its exact area, its shape, the numbers that it concerns."""
from __future__ import annotations

from typing import Any, Dict, List, Sequence, Set, Tuple

import geopandas as gpd
import numpy as np
from shapely.geometry import Polygon

from ..arrays import Array
from ..exact.noding import LEAST
from ..exact.rings import Number
from ..exact.whole_numbers import texts_of, whole_numbers
from ..faults.neighbours import Neighbour, overlaps_with
from ..faults.polygons import fault_area
from ..large.cutting import boxes_of
from ..program.verdicts import LayerFaults, numbers_at
from ..reading.prepared import OUT_ROW, Prepared, Rows
from ..reading.units import Unit

AREAS = ("area2_mm2", "area2_most_mm2")
"""The columns of faults that are whole numbers, and text in a file."""
LAYERS = {"gap": "gaps", "overlap": "overlaps", "beyond": "beyond"}
"""The report's layer of each kind of fault."""
FAULT_COLUMNS = [
    "layer",
    "island",
    "area2_mm2",
    "area2_most_mm2",
    "area_m2",
    "area_how",
    "area",
    "unit",
    "depth",
    "numbers",
    "numbers_how",
    "touched",
    "geometry",
]


def as_texts(faults: gpd.GeoDataFrame) -> gpd.GeoDataFrame:
    """Faults as a file has them: their areas in mm2 are texts, which have no end."""
    return faults.assign(**{name: texts_of(faults[name].tolist()) for name in AREAS})


def tell_faults(
    prepared: Prepared,
    at: int,
    role: str,
    rows: Rows,
    found: LayerFaults,
    faults: Dict[str, List[Dict[str, Any]]],
    at_fault: Dict[int, str],
    touched: Set[Tuple[int, int]],
    neighbour: Sequence[str] = (),
) -> None:
    """Adds the faults of a layer of island `at` to `faults`, and what they are to the parcels to `at_fault`.

    The name of a neighbouring city is given where they are what parcels cover of it.
    """
    width = prepared.told["touch" if role == "parcels" else "touch_of_zones"]
    for fault, concerned in zip(found.faults, found.rows):
        kind = fault.kind
        is_sliver = width >= LEAST and fault.is_narrow(width)
        corners = {corner for loop in (fault.outer, *fault.holes) for corner in loop}
        faults["slivers" if is_sliver else LAYERS[kind]].append(
            {
                "what": kind,
                "layer": "neighbours" if neighbour else role,
                "island": at,
                **area_columns_of(fault.area2, prepared.unit),
                "depth": fault.depth,
                "numbers": ",".join([*numbers_at(prepared, rows, concerned, role), *neighbour]),
                "numbers_how": "exact",
                "touched": len(corners & touched),
                "geometry": prepared.polygon(fault.outer, fault.holes),
            }
        )
        if role == "parcels" and not is_sliver:
            for row in concerned:
                if kind != "gap" or rows.source[row] not in at_fault:
                    at_fault[rows.source[row]] = kind


def with_neighbour(neighbour: Neighbour, rows: Rows) -> LayerFaults:
    """What parcels cover of a neighbouring city."""
    own = [at for at, row in enumerate(rows.source) if row != OUT_ROW]
    found = overlaps_with(neighbour, [rows.rings[at] for at in own])
    return LayerFaults([fault for fault, _ in found], [[own[at] for at in some] for _, some in found])


def area_columns_of(area2: Number, unit: Unit) -> Dict[str, Any]:
    """An area as a fault's columns have it: `area` is in the squares of the layer's unit."""
    return {**fault_area(area2), "area": float(area2) / 2 / unit.millimetres**2, "unit": f"{unit.symbol}2"}


def open_gaps_of(prepared: Prepared) -> gpd.GeoDataFrame:
    """The gaps that are open to the outside, with the parcels that lie at most 2 mm from them (measured)."""
    rows = []
    boxes = [boxes_of(island.parcels.rings) for island in prepared.islands] if prepared.open_gaps else []
    for gap in prepared.open_gaps:
        x0, y0 = (int(value) for value in gap.outer[0])
        outer, *holes = ([(float(x - x0), float(y - y0)) for x, y in ring] for ring in (gap.outer, *gap.holes))
        shape = Polygon(outer, holes)
        numbers: Dict[str, None] = {}
        islands = []
        for at, island in enumerate(prepared.islands, 1):
            beside = _beside(shape, np.array([x0, y0]), island.parcels, boxes[at - 1])
            numbers.update(dict.fromkeys(numbers_at(prepared, island.parcels, beside, "parcels")))
            islands += [at] * bool(beside)
        rows.append(
            {
                "layer": "parcels",
                "island": min(islands, default=1),
                **area_columns_of(gap.area2, prepared.unit),
                "depth": -1,
                "numbers": ",".join(numbers),
                "numbers_how": "measured",
                "touched": 0,
                "geometry": prepared.polygon(gap.outer, gap.holes),
            }
        )
    return fault_frame(rows, FAULT_COLUMNS, prepared)


def fault_frame(rows: List[Dict[str, Any]], columns: List[str], prepared: Prepared) -> gpd.GeoDataFrame:
    frame = gpd.GeoDataFrame(rows, columns=columns, geometry="geometry", crs=prepared.crs)
    for name in AREAS:
        frame[name] = whole_numbers([int(row[name]) for row in rows])
    return frame


def _beside(shape: Polygon, origin: Array, rows: Rows, boxes: Array) -> List[int]:
    """The rows (from 0; their boxes) at most 2 mm from a shape, which is given from an origin on."""
    low, high = np.array(shape.bounds).reshape(2, 2) + origin
    near = np.flatnonzero((boxes[:, :2] <= high + 2).all(axis=1) & (boxes[:, 2:] >= low - 2).all(axis=1))
    return [row for row in near.tolist() if Polygon(rows.rings[row] - origin).distance(shape) <= 2]
