"""Registers with slanted streets and T junctions, drawn as floats, with faults planted, and rounded.

Bands of parcels between lines of different slopes, all turned and far from the origin. Each band is cut elsewhere, so
nearly every corner lies inside a side of a parcel of the next band. A fault is planted by moving a side that two
parcels of a band share, for one of them alone, along the band's two lines.
"""
from __future__ import annotations

import math
import random
from dataclasses import dataclass
from typing import Dict, List, Optional, Tuple

import geopandas as gpd
import numpy as np
from shapely.geometry import Polygon

EAST, NORTH = 561_234.567, 5_934_567.891


@dataclass
class Planted:
    """A fault that is there: gap or overlap, the two parcels, its area in m2 before the rounding, its circumference,
    and its shape where the register lies."""

    kind: str
    numbers: Tuple[str, str]
    area: float
    around: float
    shape: Polygon


def slanted(
    seed: int, bands: int, cells: int, decimals: Optional[int], faults: Dict[int, float]
) -> Tuple[gpd.GeoDataFrame, List[Planted]]:
    """A register of bands times cells parcels; `faults` maps a parcel's position to how far its right side is moved
    (m).

    The last parcel of a band has none. A move to the left is a gap, one to the right an overlap. Without `decimals` the
    coordinates are floats as they were computed.
    """
    pick = random.Random(seed)
    angle = math.radians(pick.uniform(5, 85))
    width = 30.0 * cells
    lines = [(25.0 * band, pick.uniform(-4, 4) / width if 0 < band < bands else 0.0) for band in range(bands + 1)]
    shapes, planted = [], []
    for band in range(bands):
        inner = [30.0 * at + pick.uniform(-9, 9) for at in range(1, cells)]
        cuts = [0.0, *inner, width]
        for at, (left, right) in enumerate(zip(cuts, cuts[1:])):
            number = band * cells + at
            moved = faults.get(number, 0.0) if at < cells - 1 else 0.0
            shapes.append(_turned(_corners(lines[band], lines[band + 1], left, right + moved), angle))
            if moved:
                strip = Polygon(_turned(_corners(lines[band], lines[band + 1], right, right + moved), angle))
                kind = "gap" if moved < 0 else "overlap"
                planted.append(Planted(kind, (f"n{number}", f"n{number + 1}"), strip.area, strip.length, strip))
    rounded = [Polygon(corners if decimals is None else np.round(corners, decimals)) for corners in shapes]
    numbers = [f"n{at}" for at in range(len(shapes))]
    return gpd.GeoDataFrame({"parcel_no": numbers}, geometry=rounded, crs=25832), planted


def _corners(
    low: Tuple[float, float], high: Tuple[float, float], left: float, right: float
) -> List[Tuple[float, float]]:
    def on(line: Tuple[float, float], x: float) -> Tuple[float, float]:
        return x, line[0] + line[1] * x

    return [on(low, left), on(low, right), on(high, right), on(high, left)]


def _turned(corners: List[Tuple[float, float]], angle: float) -> np.ndarray:
    c, s = math.cos(angle), math.sin(angle)
    return np.array([(c * x - s * y + EAST, s * x + c * y + NORTH) for x, y in corners])
