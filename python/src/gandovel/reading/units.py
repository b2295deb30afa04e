"""Units and projections: how many millimetres a coordinate is, and whether square metres of it are square metres.

A projection whose areas are off by more than one in a hundred where the layer lies (Web Mercator, say) is refused, as
degrees are, and as a layer is that names none, unless its unit is told.
"""
from __future__ import annotations

import math
from dataclasses import dataclass
from typing import Any, Dict, List, Optional, Sequence, Union

import numpy as np
from pyproj import CRS, Transformer

from ..errors import Refused

MILLIMETRES: Dict[str, float] = {
    "mm": 1.0,
    "cm": 10.0,
    "dm": 100.0,
    "m": 1000.0,
    "km": 1_000_000.0,
    "in": 25.4,
    "ft": 304.8,
    "us-ft": 1_200_000 / 3937,
    "yd": 914.4,
}
"""How many millimetres a unit is that may be told by its name."""
FORCED = "force:"
"""In front of a unit that is told against the projection's own."""
MOST_DISTORTION = 0.01
TOLD = "say its unit by --unit: m, mm, cm, dm, km, ft, us-ft, yd, in, or how many metres it is"

UNDEFINED = "Undefined "
"""So the two entries are called by which a GeoPackage says that a layer has no projection (OGC 12-128r18, srs_id 0,
-1)."""


@dataclass(frozen=True)
class Unit:
    """A layer's unit: its name, its length in mm, where it is from (`projection` or `told`).

    `area_factor` is how many times too large the projection's areas are where the layer lies: measured, 1 where it is
    not known.
    """

    name: str
    millimetres: float
    how: str
    area_factor: float = 1.0

    @property
    def is_metre(self) -> bool:
        """Whether its squares are square metres."""
        return abs(self.millimetres - 1000.0) < 1e-9

    @property
    def symbol(self) -> str:
        """Its short name: that of `MILLIMETRES` where it is one of them."""
        near = (name for name, length in MILLIMETRES.items() if abs(length - self.millimetres) < 1e-9 * length)
        return next(near, "units")


def names_projection(crs: Any) -> bool:
    """Whether a layer names a projection: a GeoPackage says by one of its own that it names none."""
    return crs is not None and not str(CRS.from_user_input(crs).name).startswith(UNDEFINED)


def unit_of(crs: Any, told: Union[str, float, None], bounds: Sequence[float], role: str) -> Unit:
    """The unit of a layer with this projection (or None) and these bounds (x, y, x, y), or the one that is told.

    Refused P7: no projection and no unit; degrees; areas that are off by more than 1 in 100, and no unit; a unit that
    is none.
    """
    system = CRS.from_user_input(crs) if names_projection(crs) else None
    if system is not None and (system.is_geographic or system.is_geocentric or not system.axis_info):
        if told is None or np.abs(np.asarray(bounds)).max() <= 400:
            text = f"the projection {system.name} is in degrees: project the layer first (a UTM zone, say)"
            raise Refused("P7", text, role=role)
        system = None
    if told is not None:
        forced = str(told).startswith(FORCED)
        name, length = _told(str(told)[len(FORCED) :] if forced else told, role)
        factor = area_factor(system, bounds)
        if system is not None and not forced:
            _test_told(system, factor, (name, length), role)
        return Unit(name, length, "told", factor)
    if system is None:
        raise Refused("P7", f"the layer names no projection: {TOLD}", role=role)
    axis = system.axis_info[0]
    factor = area_factor(system, bounds)
    if abs(factor - 1) > MOST_DISTORTION:
        text = (
            f"areas in the projection {system.name} are {factor:.3f} times what they are on the ground here (measured):"
            f" project the layer anew, or {TOLD} (here {axis.unit_conversion_factor / math.sqrt(factor):.6f})"
        )
        raise Refused("P7", text, role=role)
    return Unit(str(axis.unit_name), axis.unit_conversion_factor * 1000.0, "projection", factor)


def _test_told(system: CRS, factor: float, told: "tuple[str, float]", role: str) -> None:
    """Refuses (P7) a unit that is told where the projection has another, in which its areas are right."""
    axis = system.axis_info[0]
    own = axis.unit_conversion_factor * 1000.0
    if abs(factor - 1) <= MOST_DISTORTION and abs((told[1] / own) ** 2 - 1) > MOST_DISTORTION:
        text = f"the projection {system.name} is in {axis.unit_name}, and --unit says {told[0]}"
        raise Refused("P7", f"{text}: leave --unit out, or say --unit {FORCED}{told[0].split()[0]}", role=role)


def _told(told: Union[str, float], role: str) -> "tuple[str, float]":
    """The unit's name and its length in mm. Refused P7 where it is none."""
    if str(told) in MILLIMETRES:
        return str(told), MILLIMETRES[str(told)]
    try:
        metres = float(told)
    except ValueError:
        metres = math.nan
    if not (1e-6 <= metres <= 1e6):
        raise Refused("P7", f"{told} is no unit: {TOLD}", role=role)
    return f"{metres:g} m", metres * 1000.0


def area_factor(system: Optional[CRS], bounds: Sequence[float]) -> float:
    """How many times too large areas of a projection are: the most, at the middle and the corners of the bounds.

    Measured on the projection's ellipsoid, by squares of 100 m. 1 where nothing is known.
    """
    if system is None or system.geodetic_crs is None or not np.isfinite(np.asarray(bounds)).all():
        return 1.0
    x0, y0, x1, y1 = bounds
    side = 100.0 / system.axis_info[0].unit_conversion_factor
    geod, there = system.get_geod(), Transformer.from_crs(system, system.geodetic_crs, always_xy=True)
    if geod is None:
        return 1.0
    factors: List[float] = []
    for x, y in (((x0 + x1) / 2, (y0 + y1) / 2), (x0, y0), (x0, y1), (x1, y0), (x1, y1)):
        corners = np.array([(x, y), (x + side, y), (x + side, y + side), (x, y + side)]).T
        longitudes, latitudes = there.transform(*corners)
        if np.isfinite(longitudes).all() and np.isfinite(latitudes).all():
            area = abs(geod.polygon_area_perimeter(longitudes, latitudes)[0])
            if area > 0:
                factors.append(float(1e4 / area))
    return float(max(factors, key=lambda factor: abs(math.log(float(factor))), default=1.0))
