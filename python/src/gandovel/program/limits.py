"""What the program takes at most of a ring. (A layer of more rings, or of more corners in all, is cut: `large`.)"""
from __future__ import annotations

from typing import Optional

from shapely.geometry import Point

from ..errors import Refused, place
from ..reading.prepared import OUT, Island, Prepared, Rows

MOST_CORNERS = 4_096
FARTHEST = 100_000_000_000
"""How far from the origin, in mm, a coordinate may lie."""


def too_large(prepared: Prepared) -> Optional[Refused]:
    """The refusal (P10) of a register with a ring or an outline of more corners than the program takes; else None."""
    for island in prepared.islands:
        for role, rows in (("parcels", island.parcels), ("zones", island.zones or Rows())):
            refused = _too_many(prepared, rows, role)
            if refused is not None:
                return refused
        if len(island.city) > MOST_CORNERS:
            return _outline_too_large(island)
    return None


def _too_many(prepared: Prepared, rows: Rows, role: str) -> Optional[Refused]:
    for ring, row in zip(rows.rings, rows.source):
        if len(ring) > MOST_CORNERS:
            x, y = prepared.in_units(ring[0])
            text = f"a ring with {len(ring)} corners {place(x, y)} can't be cut, and {MOST_CORNERS} are the most"
            number = OUT if row < 0 else (prepared.numbers if role == "parcels" else prepared.zone_names)[row]
            return Refused("P10", text, role, number=number, geometry=Point(x, y))
    return None


def _outline_too_large(island: Island) -> Refused:
    text = f"the outline has {len(island.city)} corners, and {MOST_CORNERS} are the most: say --frame"
    return Refused("P10", text, role="city")
