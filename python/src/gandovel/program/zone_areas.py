"""How much of each parcel lies in each zone: by the program where it has told it, else measured by GEOS."""
from __future__ import annotations

import math
from collections import defaultdict
from typing import Any, Dict, List, NamedTuple, Optional, Sequence, Tuple

import numpy as np

from ..arrays import Array
from ..reading.prepared import Prepared
from ..shapes import common_parts, rings_wkb

SQUARE_METRE = 1_000_000
ROUNDED = 2**26
"""Areas are proved to be within 1 where a parcel's corners times those of all its zones are fewer."""


class Member(NamedTuple):
    """A parcel and a zone that overlap: their island and their rows in it, from 0, and twice the area in common in mm2.

    The area is None where the program has told none.
    """

    island: int
    parcel: int
    zone: int
    area2: Optional[int]


def proved(
    pairs: Array, area2: Sequence[Optional[int]], parcels: Sequence[Array], zones: Sequence[Array]
) -> List[Optional[int]]:
    """The areas of pairs of rows, from 0, of rings; None for those of a parcel with too many corners."""
    counts = [np.array([len(ring) for ring in rings], dtype=np.int64) for rings in (parcels, zones)]
    of_zones = np.bincount(pairs[:, 0], weights=counts[1][pairs[:, 1]], minlength=len(parcels))
    few = (counts[0] * of_zones < ROUNDED)[pairs[:, 0]]
    return [doubled if kept else None for doubled, kept in zip(area2, few.tolist())]


def summed(members: Sequence[Member]) -> Optional[int]:
    """Twice the area of members together, if it is known of each."""
    total = 0
    for member in members:
        if member.area2 is None:
            return None
        total += member.area2
    return total


def area_columns(doubled: Sequence[Optional[int]], measured: Sequence[float]) -> Dict[str, Any]:
    """The columns of areas: proved ones (twice, in mm2), and where there is none (None) measured ones (m2)."""
    areas = [area if area2 is None else area2 / (2 * SQUARE_METRE) for area2, area in zip(doubled, measured)]
    return {
        "area2_mm2": [None if area2 is None else str(area2) for area2 in doubled],
        "area_m2": np.array(areas, dtype=float),
        "area_how": ["measured" if area2 is None else "proved" for area2 in doubled],
    }


def shares_of(owners: Sequence[int], doubled: Sequence[Optional[int]], square_metres: Sequence[float]) -> List[float]:
    """Of areas of owners, which part each is of all of its owner's: of the proved ones where each of them is."""
    known: Dict[int, int] = defaultdict(int)
    total: Dict[int, float] = defaultdict(float)
    unknown = {owner for owner, area2 in zip(owners, doubled) if area2 is None}
    for owner, area2, area in zip(owners, doubled, square_metres):
        known[owner] += area2 or 0
        total[owner] += area
    return [
        area / (total[owner] or math.nan) if area2 is None or owner in unknown else area2 / known[owner]
        for owner, area2, area in zip(owners, doubled, square_metres)
    ]


def common(prepared: Prepared, members: Sequence[Member]) -> Tuple[List[bytes], Array]:
    """What each parcel and zone have in common, as WKB from a corner of their island's city, and its area, by GEOS."""
    sides, at = [], []
    for role, column in (("parcels", 1), ("zones", 2)):
        rows = list(dict.fromkeys((member.island, member[column]) for member in members))
        islands = (prepared.islands[island] for island, _ in rows)
        rings = [getattr(island, role).rings[row] - island.city[0] for island, (_, row) in zip(islands, rows)]
        position = {row: at for at, row in enumerate(rows)}
        sides.append(rings_wkb(rings))
        at.append([position[member.island, member[column]] for member in members])
    return common_parts(sides[0], sides[1], zip(at[0], at[1]))


def told_areas(prepared: Prepared, groups: Sequence[Sequence[Member]]) -> Dict[str, Any]:
    """The columns of areas of groups of members; what is not known of a group is measured."""
    doubled = [summed(group) for group in groups]
    unknown = [at for at, area2 in enumerate(doubled) if area2 is None]
    measured = [0.0] * len(groups)
    if unknown:
        _, areas = common(prepared, [member for at in unknown for member in groups[at]])
        sizes = np.cumsum([0, *(len(groups[at]) for at in unknown)])
        for at, begin, end in zip(unknown, sizes[:-1].tolist(), sizes[1:].tolist()):
            measured[at] = float(areas[begin:end].sum()) / SQUARE_METRE
    return area_columns(doubled, measured)
