"""Made registers. Run as a program it writes one of 202 parcels: `registers.py FOLDER` makes parcels.gpkg, zones.gpkg.

The register: a road with 20 blocks as its holes, 10 or 11 plots a block, two plots with an enclave, two parcels of two
parts, all turned by 17 degrees and far from the origin, in metres, as floats; three zones, wider than the register.
Plots have corners where their neighbours have none. Three faults are planted, of known areas.
"""
from __future__ import annotations

import math
import sys
from pathlib import Path
from typing import List, Tuple

import geopandas as gpd
from shapely.affinity import affine_transform
from shapely.geometry import MultiPolygon, Polygon, box

CRS = 25832
ROAD, WIDE, HIGH = 9.0, 50.0, 60.0
ROWS = (12.0, 12.0, 12.0, 12.0, 12.0), (10.4, 13.1, 12.5, 11.3, 12.7)
GAP, SMALL_OVERLAP, LARGE_OVERLAP = 7.09, 0.46, 762.27
ANGLE, EAST, NORTH = math.radians(17.0), 561234.567, 5934567.891


def turned(shape):
    """The shape turned by 17 degrees and moved to where registers are."""
    c, s = math.cos(ANGLE), math.sin(ANGLE)
    return affine_transform(shape, [c, -s, s, c, EAST, NORTH])


def _block(left: float, low: float) -> List[Polygon]:
    plots = []
    for column, heights in enumerate(ROWS):
        bottom = low
        for height in heights:
            top = low + HIGH if height is heights[-1] and len(plots) % 5 == 4 else bottom + height
            plots.append(box(left + 25 * column, bottom, left + 25 * (column + 1), top))
            bottom = top
    return plots


def plots_and_road() -> Tuple[List, Polygon]:
    """The plots, block by block, and the road with 20 holes, not yet turned."""
    plots, holes = [], []
    for row in range(4):
        for column in range(5):
            left, low = ROAD + column * (WIDE + ROAD), ROAD + row * (HIGH + ROAD)
            plots += _block(left, low)
            holes.append(list(box(left, low, left + WIDE, low + HIGH).exterior.coords))
    return plots, Polygon(box(0, 0, 5 * (WIDE + ROAD) + ROAD, 4 * (HIGH + ROAD) + ROAD).exterior, holes)


def _extended(plot: Polygon, left: float = 0, low: float = 0, right: float = 0, high: float = 0) -> Polygon:
    x0, y0, x1, y1 = plot.bounds
    return box(x0 - left, y0 - low, x1 + right, y1 + high)


def register(faults: bool = True) -> Tuple[gpd.GeoDataFrame, gpd.GeoDataFrame]:
    """Parcels (parcel_no, use, geometry) and zones (zone, height, geometry), with the three faults or without."""
    plots, road = plots_and_road()
    x0, y0, x1, y1 = plots[199].bounds
    plots[199:] = [box(x0, y0, x0 + 11.7, y1), box(x0 + 11.7, y0, x1, y1)]
    enclaves = [plots[17].centroid.buffer(3, 2), plots[123].centroid.buffer(2.5, 3)]
    for at, enclave in zip((17, 123), enclaves):
        plots[at] = plots[at].difference(enclave)
    if faults:
        plots[42] = _extended(plots[42], right=-GAP / 12.0)
        plots[70] = _extended(plots[70], high=SMALL_OVERLAP / 25.0)
        plots[150] = _extended(plots[150], high=LARGE_OVERLAP / 25.0)
    plots[3] = MultiPolygon([plots[3], plots[60]])
    plots[88] = MultiPolygon([plots[88], plots[161]])
    kept = [plot for at, plot in enumerate(plots) if at not in (60, 161)]
    shapes = [turned(shape) for shape in [*kept, *enclaves, road]]
    numbers = [f"{at // 20 + 1}/{at % 20 + 1}" for at in range(len(shapes))]
    use = ["plot"] * len(kept) + ["enclave"] * 2 + ["road"]
    parcels = gpd.GeoDataFrame({"parcel_no": numbers, "use": use}, geometry=shapes, crs=CRS)
    return parcels, zones()


def zones() -> gpd.GeoDataFrame:
    """Three zones, with slanting borders, that reach beyond the register by 30 m."""
    a, b, c, d = (-30.0, -30.0), (95.3, -30.0), (131.9, 320.0), (-30.0, 320.0)
    e, f, g = (340.0, -30.0), (340.0, 160.7), (340.0, 320.0)
    cut = (95.3 + (131.9 - 95.3) * 175.0 / 350.0, 145.0)
    shapes = [Polygon([a, b, cut, c, d]), Polygon([b, e, f, cut]), Polygon([cut, f, g, c])]
    columns = {"zone": ["R1", "R2", "C"], "height": [9.5, 12.0, 20.0]}
    return gpd.GeoDataFrame(columns, geometry=[turned(it) for it in shapes], crs=CRS)


def main() -> None:
    """Writes the register's two layers to a folder."""
    folder = Path(sys.argv[1])
    folder.mkdir(parents=True, exist_ok=True)
    for name, frame in zip(("parcels", "zones"), register()):
        frame.to_file(folder / f"{name}.gpkg", driver="GPKG")


if __name__ == "__main__":
    main()
