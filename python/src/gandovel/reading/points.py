"""Points that are asked for: tested, and put on the grid of whole millimetres."""
from __future__ import annotations

import logging
import numbers
import os
from typing import Any, List, Optional, Sequence, Tuple

import geopandas as gpd
import numpy as np
import pandas as pd
from pyproj.exceptions import CRSError, ProjError
from shapely.geometry import MultiPoint, Point

from ..arrays import Array
from ..errors import Refused, raise_all
from ..program.limits import FARTHEST
from .loops import same_projection
from .prepared import Prepared
from .sources import frame_of

LOG = logging.getLogger("gandovel")
ADVICE = "give a layer of points, one in each row"


def points_at(places: Sequence[Sequence[float]], crs: Any) -> gpd.GeoDataFrame:
    """A layer of points at places (x, y) in a projection."""
    return gpd.GeoDataFrame(geometry=[Point(*place) for place in places], crs=crs)


def points_of(points: Any, prepared: Prepared) -> Tuple[gpd.GeoDataFrame, gpd.GeoDataFrame, str]:
    """Points as a frame: as they were given, then in the parcels' projection, and how that was done.

    `points` is (x, y), a Point, a sequence or an array of these, a frame with columns `x` and `y` in the parcels'
    projection, or a layer as `prepare` takes it. Refused P7 where
    there is no way from their projection to that of the parcels; TypeError for what is no point.
    """
    if isinstance(points, gpd.GeoSeries):
        given = gpd.GeoDataFrame(geometry=points, crs=points.crs)
    elif isinstance(points, gpd.GeoDataFrame):
        given = points
    elif isinstance(points, pd.DataFrame) and {"x", "y"} <= set(points.columns):
        given = gpd.GeoDataFrame(points, geometry=gpd.points_from_xy(points["x"], points["y"]), crs=prepared.crs)
    elif isinstance(points, (str, os.PathLike)):
        given = frame_of(points, "points")
    else:
        given = gpd.GeoDataFrame(geometry=_places(points), crs=prepared.crs)
    if given.crs is None or prepared.crs is None or same_projection(given.crs, prepared.crs):
        return given, given, "measured"
    try:
        there = given.to_crs(prepared.crs)
    except (ProjError, CRSError) as fault:
        raise Refused("P7", f"their projection can't be brought to that of the parcels: {fault}", "points") from fault
    note = f"measured, brought from {given.crs.name} to {prepared.crs.name}"
    LOG.info("points: %s", note)
    return given, there, note


def _places(points: Any) -> List[Point]:
    """Points of one place, or of several."""
    if isinstance(points, Point):
        return [points]
    if isinstance(points, MultiPoint):
        return list(points.geoms)
    listed = list(points) if hasattr(points, "__iter__") else [points]
    if len(listed) == 2 and all(isinstance(value, numbers.Real) for value in listed):
        return [Point(*listed)]
    try:
        return [place if isinstance(place, Point) else Point(*map(float, place)) for place in listed]
    except (TypeError, ValueError) as fault:
        raise TypeError(
            "points: (x, y), a Point, several of them, a frame with x and y, or a layer of points is wanted"
        ) from fault


def on_grid(points: gpd.GeoDataFrame, prepared: Prepared) -> Tuple[Array, Array]:
    """The whole millimetres (n, 2) nearest to points, int64, and how far away they are, in mm.

    Refused, all at once: what is no point (P5), is none (P4) or lies too far out (P9).
    """
    tested = (_fault(row, shape, prepared.scale) for row, shape in enumerate(points.geometry, 1))
    raise_all([fault for fault in tested if fault is not None], ADVICE)
    places = np.array([(shape.x, shape.y) for shape in points.geometry], dtype=float).reshape(-1, 2) * prepared.scale
    whole = np.floor(places + 0.5)
    return whole.astype(np.int64), np.hypot(*(whole - places).T)


def _fault(row: int, shape: Any, scale: float) -> Optional[Refused]:
    """Why a row's shape can't be asked for; None where it can."""
    if shape is None or shape.is_empty:
        return Refused("P4", f"row {row} has no geometry", "points")
    if shape.geom_type != "Point":
        return Refused("P5", f"row {row} is a {shape.geom_type} and no point", "points")
    if not np.isfinite([shape.x, shape.y]).all():
        return Refused("P9", f"row {row} has the coordinates ({shape.x}, {shape.y}), which are no numbers", "points")
    if max(abs(shape.x), abs(shape.y)) * scale > FARTHEST:
        return Refused("P9", f"row {row} lies more than 100,000 km from the origin", "points")
    return None
