"""Faults as they are told: each with its kind, parcels, areas and shape, and by a key that stays while it stays."""
from __future__ import annotations

import hashlib
from typing import Any, Dict, List, Sequence, Tuple

import numpy as np
from gandovel.faults.polygons import fault_area
from shapely import wkb
from shapely.geometry import Polygon

Array = Any
Record = Dict[str, Any]
BESIDE = 2.0
"""How near to an open gap, in mm, a parcel is beside it."""


class Records:
    """What is told of the faults of a neighbourhood."""

    def __init__(self, place: Any) -> None:
        self.place = place
        self.told: Dict[str, Record] = {}

    def renew(self, faults: Sequence[Tuple[Any, Any]], boxes: Array) -> Tuple[List[str], List[Record]]:
        """Takes the faults as they are now, where parcels changed within boxes: the keys that went, and what came."""
        before, self.told = self.told, {}
        for fault, owners in faults:
            loops = [fault.outer, *fault.holes]
            key = _key(f"{fault.kind} {fault.depth}", loops)
            old = before.get(key)
            self.told[key] = old if old is not None and not _meets(loops[0], boxes) else self._of(key, fault, owners)
        for gap in self.place.open_gaps():
            loops = [gap.outer, *gap.holes]
            key = _key("open", loops)
            old = before.get(key)
            keep = old is not None and not _meets(loops[0], boxes)
            self.told[key] = old if keep and old is not None else self._of_open(key, gap)
        gone = [key for key, record in before.items() if self.told.get(key) != record]
        came = [record for key, record in self.told.items() if before.get(key) != record]
        return gone, came

    def _of(self, key: str, fault: Any, owners: Any) -> Record:
        width, found = self.place.sliver, self._bordering(fault) if owners is None else owners
        kind = "sliver" if width and fault.is_narrow(width) else fault.kind
        return self._record(key, kind, fault.area2, [fault.outer, *fault.holes], found)

    def _of_open(self, key: str, gap: Any) -> Record:
        return self._record(key, "open_gap", gap.area2, [gap.outer, *gap.holes], self._beside(gap.outer, gap.holes))

    def _record(self, key: str, kind: str, area2: Any, loops: Sequence[Any], owners: Sequence[Any]) -> Record:
        scale, area = self.place.scale, fault_area(area2)
        rings = [np.array([(float(x), float(y)) for x, y in loop]) / scale for loop in loops]
        return {
            "key": key,
            "kind": kind,
            **{name: area[name] for name in ("area2_mm2", "area_m2")},
            "numbers": list(dict.fromkeys(owner.number for owner in owners)),
            "features": [owner.feature for owner in owners],
            "shape": wkb.dumps(Polygon(rings[0], rings[1:]), hex=True),
            "millimetres": float(scale),
        }

    def _bordering(self, fault: Any) -> List[Any]:
        """The parcels that have an edge of a gap as a side."""
        wanted = {frozenset((edge[:2], edge[2:])) for edge in fault.edges}
        found = []
        for owner in self.place.near(_box(fault.outer, 1.0)):
            for loop in owner.grid:
                corners = list(map(tuple, loop.tolist()))
                if any(frozenset(side) in wanted for side in zip(corners, corners[1:] + corners[:1])):
                    found.append(owner)
                    break
        return found

    def _beside(self, outer: Sequence[Any], holes: Sequence[Any]) -> List[Any]:
        """The parcels at most `BESIDE` from an open gap (GEOS says)."""
        x0, y0 = (int(value) for value in outer[0])
        shape = Polygon(
            [(float(x - x0), float(y - y0)) for x, y in outer],
            [[(float(x - x0), float(y - y0)) for x, y in hole] for hole in holes],
        )
        near = self.place.near(_box(outer, 1.0 + BESIDE))
        return [it for it in near if any(one.distance(shape) <= BESIDE for one in _polygons(it, np.array([x0, y0])))]


def _polygons(owner: Any, origin: Array) -> List[Polygon]:
    """The polygons of a parcel on the grid, from an origin on."""
    found: List[List[Any]] = []
    for loop, hole in zip(owner.grid, owner.holes):
        ring = loop - origin
        if hole:
            found[-1].append(ring)
        elif len(ring) > 2:
            found.append([ring])
    return [Polygon(rings[0], rings[1:]) for rings in found]


def _key(what: str, loops: Sequence[Any]) -> str:
    """By what a fault is known, as long as it is as it is, wherever its first corner is."""
    told = sorted(";".join(sorted(f"{x},{y}" for x, y in loop)) for loop in loops)
    return hashlib.sha256("|".join([what, *told]).encode()).hexdigest()[:16]


def _box(outer: Sequence[Any], more: float) -> Tuple[float, float, float, float]:
    xs, ys = zip(*outer)
    return float(min(xs)) - more, float(min(ys)) - more, float(max(xs)) + more, float(max(ys)) + more


def _meets(outer: Sequence[Any], boxes: Array) -> bool:
    x0, y0, x1, y1 = _box(outer, BESIDE)
    return bool(((boxes[:, 0] <= x1) & (boxes[:, 1] <= y1) & (boxes[:, 2] >= x0) & (boxes[:, 3] >= y0)).any())
