"""What a notebook shows of a register: one line of text, and a small drawing."""
from __future__ import annotations

from html import escape
from typing import Any, Iterator, List, Optional

import geopandas as gpd
import numpy as np

from ..reading.prepared import Prepared

WIDE, HIGH = 480, 300
"""The most pixels of a drawing, across and down."""
MOST_DRAWN = 2_000
"""The most parcels that are drawn; of more, their cities' outlines."""
GROUND, LINE, FAULT = "#e8ecef", "#8a9299", "#cc1e6e"


def html_of(prepared: Prepared, text: str, faults: Optional[gpd.GeoDataFrame] = None) -> str:
    """A line of text and a drawing of the parcels, as HTML that refers to nothing; faults in red."""
    return f"<div><p>{escape(text)}</p>{_drawing(prepared, faults)}</div>"


def _drawing(prepared: Prepared, faults: Optional[gpd.GeoDataFrame]) -> str:
    cities = [island.city for island in prepared.islands]
    corners = np.concatenate(cities)
    low, size = corners.min(axis=0), np.maximum(corners.max(axis=0) - corners.min(axis=0), 1)
    scale = min(WIDE / size[0], HIGH / size[1])
    width, height = (size * scale).tolist()

    def path(rings: "list[Any]") -> str:
        texts = []
        for ring in rings:
            xs, ys = ((np.asarray(ring, dtype=float) - low) * scale).T
            texts.append("M" + "L".join(f"{x:.1f},{height - y:.1f}" for x, y in zip(xs, ys)) + "Z")
        return "".join(texts)

    rings = [ring for island in prepared.islands for ring in island.parcels.rings]
    shown = rings if len(rings) <= MOST_DRAWN else cities
    marks = "".join(
        f'<path d="{path(loops)}" fill="{FAULT}" fill-rule="evenodd" stroke="{FAULT}" stroke-width="2"/>'
        for loops in _loops_of(faults, prepared.scale)
    )
    return (
        f'<svg xmlns="http://www.w3.org/2000/svg" width="{width + 4:.0f}" height="{height + 4:.0f}" '
        f'viewBox="-2 -2 {width + 4:.1f} {height + 4:.1f}">'
        f'<path d="{path(shown)}" fill="{GROUND}" stroke="{LINE}" stroke-width="0.5"/>{marks}</svg>'
    )


def _loops_of(faults: Optional[gpd.GeoDataFrame], scale: float) -> Iterator[List[Any]]:
    """The loops of each fault, in mm; of the largest ones, where there are many."""
    for shape in [] if faults is None else faults.geometry.iloc[:MOST_DRAWN]:
        for polygon in getattr(shape, "geoms", [shape]):
            yield [np.asarray(loop.coords)[:, :2] * scale for loop in (polygon.exterior, *polygon.interiors)]
