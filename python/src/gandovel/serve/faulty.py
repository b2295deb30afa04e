"""A register whose parcels do not tile: it is served for reading, with its faults as a collection to work off."""
from __future__ import annotations

from dataclasses import dataclass
from pathlib import Path
from typing import Any, Dict, List, Mapping, Optional, Tuple

import numpy as np
from shapely.geometry import mapping
from shapely.geometry.base import BaseGeometry
from shapely.ops import transform

from ..live.answers import Overlaps, Place
from ..errors import Refused
from ..out.report import report
from .crs import Projection
from .entries import Asked, Entry
from .faults import Faulty
from .layer import Layer, twice_area
from .register import Register

_HOW = "mend them (gandovel mend, or in QGIS), prepare the layer anew, and start the server again"


@dataclass(frozen=True)
class FaultRow:
    """A fault of the layer, its shape in the layer's unit."""

    id: int
    shape: BaseGeometry
    properties: Dict[str, Any]

    def is_of(self, number: str) -> bool:
        """Whether it is of a parcel with this number."""
        return number in self.properties["numbers"].split(",")

    def geometry(self, projection: Projection, crs: str) -> Mapping[str, Any]:
        """Its shape as GeoJSON, in a projection."""

        def place(xs: Any, ys: Any) -> Tuple[Any, Any]:
            corners = np.column_stack([np.asarray(xs, dtype=float), np.asarray(ys, dtype=float)]) * projection.scale
            first, second = projection.coordinates(corners, crs).T
            return first.tolist(), second.tolist()

        told: Mapping[str, Any] = mapping(transform(place, self.shape))
        return told


def faults_of(layer: Layer, island: int) -> List[FaultRow]:
    """The faults of an island of a layer, the largest first, as the proved program and `gandovel report` tell them."""
    frame = report(layer.prepared).faults()
    found: List[FaultRow] = []
    for row in frame[frame["island"] == island].to_dict("records"):
        numbers = row["numbers"] if isinstance(row["numbers"], str) else ",".join(map(str, row["numbers"]))
        told = {"id": len(found) + 1, "kind": row["kind"], "layer": row["layer"], "numbers": numbers}
        told |= {"area2_mm2": _known(row["area2_mm2"]), "area_m2": _known(row["area_m2"])}
        found.append(FaultRow(len(found) + 1, row["geometry"], told))
    return found


def _known(value: Any) -> Any:
    return None if value is None or value != value else value


def is_of_layer(fault: Refused) -> bool:
    """Whether a start was refused since the parcels do not tile the city."""
    return fault.code in ("H1", "H2", "H3") and fault.role == "parcels"


class FaultyRegister(Register):
    """The rows of a layer as they are, without a session: no edit is taken, and no place looked up."""

    def __init__(self, layer: Layer, journal: Path, island: int) -> None:
        """Raises as `report` does."""
        super().__init__(layer, journal)
        self.faults = faults_of(layer, island)

    async def start(self) -> None:
        """Takes the layer's rows as the one version that there is."""
        rings = self.layer.island.parcels.rings
        self.versions.begin(0, [(at, 0, twice_area(ring), ring) for at, ring in enumerate(rings, 1)])
        self.state = "faulty"

    async def close(self) -> None:
        """Ends it: there is nothing to be kept."""
        self.state = "closed"
        self.published.close()

    async def submit(self, asked: Asked, at: Optional[int] = None) -> Tuple[Entry, bool]:
        """Raises `Faulty`: it takes no edit."""
        raise self._refusal("no edit is taken")

    async def locate_line(self, x: int, y: int) -> bytes:
        """Raises `Faulty`: a place may lie in several parcels, or in none."""
        raise self._refusal("no place is looked up")

    async def locate(self, x: int, y: int) -> Place:
        """Raises `Faulty`, as `locate_line`."""
        raise self._refusal("no place is looked up")

    async def overlaps(self) -> Overlaps:
        """Raises `Faulty`: `gandovel report` tells of zones."""
        raise self._refusal("zones are told by gandovel report")

    def _refusal(self, what: str) -> Faulty:
        assert self.faults is not None
        count = len(self.faults)
        text = f"the parcels have {count} fault{'s' * (count != 1)} (/collections/faults): {what}: {_HOW}"
        return Faulty("faults", text)
