"""The layers of a register as they are read: tested, with their numbers and their unit."""
from __future__ import annotations

from dataclasses import dataclass
from typing import Any, Callable, Dict, List, Optional, Sequence, Tuple, TypeVar, Union

import geopandas as gpd
import numpy as np

from ..arrays import Array
from ..errors import Refused, SeveralRefused, place, raise_all
from ..program.limits import FARTHEST
from ..shapes import bounds_of
from .curves import Chords
from .loops import ROLES, ROW, bad_geometries, numbers_of, same_projection
from .prepared import Skipped
from .units import Unit, names_projection, unit_of

ADVICE = "mend them in the GIS, or go on without them by --skip-invalid"
First = TypeVar("First")
Second = TypeVar("Second")
Labels = Tuple[List[str], List[str]]
"""The numbers of the parcels' rows and the names of the zones'."""


@dataclass
class Layers:
    """The layers as they are read, their numbers, the unit, and what is left out of them."""

    parcels: gpd.GeoDataFrame
    zones: Optional[gpd.GeoDataFrame]
    city: Optional[gpd.GeoDataFrame]
    number: str
    zone: str
    labels: Labels
    unit: Unit
    skipped: List[Skipped]
    lost: List[str]

    @property
    def scale(self) -> float:
        """Millimetres per unit."""
        return self.unit.millimetres

    @property
    def chords(self) -> Dict[str, Chords]:
        """What became of the arcs of each layer that had some, by its role."""
        layers = zip(ROLES, (self.parcels, self.zones, self.city))
        return {role: it.attrs["chords"] for role, it in layers if it is not None and "chords" in it.attrs}

    def shapes(self, layer: int) -> Optional[List[Any]]:
        """The shapes of a layer, None for those left out; None where there is no such layer."""
        frame = (self.parcels, self.zones, self.city)[layer]
        if frame is None:
            return None
        gone = {one.row for one in self.skipped if one.role == ROLES[layer]}
        return [None if row in gone else shape for row, shape in enumerate(frame.geometry.to_numpy())]


def tested_layers(
    parcels: gpd.GeoDataFrame,
    zones: Optional[gpd.GeoDataFrame],
    city: Optional[gpd.GeoDataFrame],
    number: str,
    zone: Optional[str],
    unit: Union[str, float, None],
    skip_invalid: bool,
) -> Layers:
    """The layers with their numbers and their unit; refuses bad geometries, mixed projections, extents apart."""
    for frame, role in ((parcels, "parcels"), (zones, "zones"), (city, "city")):
        if frame is not None and not len(frame):
            raise Refused(
                "P4", "the layer is empty: `ogrinfo -so FILE` says which layers a file has, and how many rows", role
            )
    around = box_around(parcels)
    names, told = _both(
        lambda: numbers_of(parcels, number, "parcels", unique=True),
        lambda: unit_of(parcels.crs, unit, around.tolist(), "parcels"),
    )
    lost = [
        text
        for frame, role in zip((parcels, zones, city), ROLES)
        if frame is not None
        for text in (*_curved(frame, role), *frame.attrs.get("lost", ()))
    ]
    zone, zone_names = _zone_names(zones, zone, number)
    if zones is not None and zone == ROW and ROW not in zones.columns:
        lost.append("zones: they are named by their rows, from 1, since no column has their names (--zone)")
    _test_far(around, told, "parcels")
    skipped: List[Skipped] = []
    for frame, role, labels in ((parcels, "parcels", names), (zones, "zones", zone_names), (city, "city", None)):
        if frame is not None:
            if frame is not parcels:
                test_beside(frame, role, parcels, around, told)
            rows = labels or [str(row + 1) for row in range(len(frame))]
            skipped += _skipped(frame, rows, role, skip_invalid and role != "city")
    return Layers(parcels, zones, city, number, zone, (names, zone_names), told, skipped, lost)


def _curved(frame: gpd.GeoDataFrame, role: str) -> List[str]:
    """What became of a layer's arcs; none where it has none."""
    return [f"{role}: {frame.attrs['chords'].text()}"] if "chords" in frame.attrs and frame.attrs["chords"].arcs else []


def _both(first: Callable[[], First], second: Callable[[], Second]) -> Tuple[First, Second]:
    """What two calls answer. Where both refuse, both are raised at once."""
    try:
        one = first()
    except Refused as fault:
        try:
            second()
        except Refused as other:
            if not isinstance(fault, SeveralRefused):
                raise SeveralRefused([fault, other], "Mend both") from fault
        raise
    return one, second()


def _skipped(frame: gpd.GeoDataFrame, labels: Sequence[str], role: str, skip_invalid: bool) -> List[Skipped]:
    """The rows that are left out. Refused, all at once, where none may be."""
    bad = bad_geometries(frame, labels, role)
    if not skip_invalid:
        raise_all(list(bad.values()), ADVICE if role != "city" else "mend it in the GIS")
    if len(bad) == len(frame):
        raise Refused("P4", f"no row is left: all {len(bad)} are invalid: mend them in the GIS", role=role)
    return [Skipped.of(row, refused) for row, refused in bad.items()]


def box_around(frame: gpd.GeoDataFrame) -> Array:
    """The box (x, y, x, y) around the shapes of a layer whose coordinates are numbers; NaN where there are none."""
    box = np.array(bounds_of(frame.geometry.to_numpy()))
    if np.isfinite(box).all():
        return box
    boxes = frame.bounds.to_numpy()
    boxes = boxes[np.isfinite(boxes).all(axis=1)]
    if not len(boxes):
        return np.full(4, np.nan)
    return np.concatenate([boxes[:, :2].min(axis=0), boxes[:, 2:].max(axis=0)])


def _test_far(around: Array, unit: Unit, role: str) -> None:
    """Refuses a layer that lies too far out (P9), by the box around it."""
    if np.abs(around).max() * unit.millimetres > FARTHEST:
        raise Refused("P9", "the layer lies more than 100,000 km from the origin", role=role)


def test_beside(frame: gpd.GeoDataFrame, role: str, parcels: gpd.GeoDataFrame, around: Array, unit: Unit) -> None:
    """Refuses a layer whose projection is not that of the parcels (P7), or that lies too far out (P9) or elsewhere
    (P11)."""
    unnamed = unit.how == "told" and (frame.crs is None or parcels.crs is None)
    if not unnamed and not same_projection(parcels.crs, frame.crs):
        names = f"{_name(frame.crs)}, {_name(parcels.crs)}"
        way = "-t_srs" if names_projection(frame.crs) else "-a_srs"
        what = "bring it to theirs" if way == "-t_srs" else "say it where it is theirs"
        advice = f"{what}: ogr2ogr {way} {_code(parcels.crs)} NEW.gpkg OLD.gpkg"
        raise Refused("P7", f"its projection is not that of the parcels: {names}: {advice}", role=role)
    here, there = around, box_around(frame)
    _test_far(there, unit, role)
    if (here[:2] > there[2:]).any() or (there[:2] > here[2:]).any():
        places = f"{place(*there[:2])}, they {place(*here[:2])}"
        advice = "see that both are of one place, and that each has the projection that it names"
        raise Refused("P11", f"it lies elsewhere than the parcels: {places}: {advice}", role=role)


def _zone_names(zones: Optional[gpd.GeoDataFrame], zone: Optional[str], number: str) -> Tuple[str, List[str]]:
    if zones is None:
        return "", []
    found: str = next((name for name in ("zone", number) if name in zones.columns), ROW)
    column = zone if zone else found
    return column, numbers_of(zones, column, "zones", unique=False)


def _code(crs: Any) -> str:
    """A projection as `ogr2ogr -t_srs` takes it."""
    code = None if crs is None else crs.to_epsg()
    return f"EPSG:{code}" if code else "PROJECTION"


def _name(crs: Any) -> str:
    return "none" if crs is None else str(crs.name)
