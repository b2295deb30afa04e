"""A small report: six parcels, two zones, a gap, an overlap, a split parcel; made by hand, without the program."""
from __future__ import annotations

from pathlib import Path
from typing import Union

import geopandas as gpd
from shapely.geometry import box

from gandovel.out.gpkg import write_layers
from gandovel.out.styles import STYLES

CRS = 25832


def _frame(shapes, **columns) -> gpd.GeoDataFrame:
    return gpd.GeoDataFrame(columns, geometry=shapes, crs=CRS)


def write_small_report(path: Union[str, Path]) -> None:
    """Writes the layers of a report: parcels, zones, gaps, overlaps, split, and the styles."""
    cells = [box(x, y, x + 10, y + 10) for y in (0, 10) for x in (0, 10, 20)]
    parcels = [box(0, 0, 9, 10), *cells[1:4], box(8, 10, 20, 20), cells[5]]
    numbers = [f"P{at}" for at in range(1, 7)]
    layers = [
        (
            "parcels",
            _frame(
                parcels,
                number=numbers,
                records=[str(at) for at in range(1, 7)],
                status=["gap", "gap", "ok", "overlap", "overlap", "split"],
            ),
        ),
        ("zones", _frame([box(0, 0, 25, 20), box(25, 0, 30, 20)], number=["west", "east"])),
        ("gaps", _frame([box(9, 0, 10, 10)], area2_mm2=["20000000"], area_m2=[10.0], numbers=["P1,P2"])),
        ("overlaps", _frame([box(8, 10, 10, 20)], area2_mm2=["40000000"], area_m2=[20.0], numbers=["P4,P5"])),
        ("split", _frame([cells[5]], number=["P6"], zones=["west,east"], zone_count=[2], sliver=[0])),
    ]
    write_layers(path, layers, STYLES)
