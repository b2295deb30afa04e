"""The overlay of parcels with zones: which interiors meet, and how much they have in common."""

from __future__ import annotations

from fractions import Fraction
from typing import Dict, List, Tuple

from reference.plane import Ring, common_area2

Pair = Tuple[int, int]


def pairs(rows: Dict[int, Ring], zones: Dict[int, Ring]) -> Dict[Pair, Fraction]:
    """Each parcel and zone whose interiors have a common point, with twice the area that they have in common.

    Interiors are open: they have a common point exactly where the common area is positive.

    Definition: zone_tables `IsOverlapTable`.
    """
    shared = {(n, z): common_area2(ring, zone) for n, ring in rows.items() for z, zone in zones.items()}
    return {key: shared[key] for key in sorted(shared) if shared[key] > 0}


def report(entries: int, met: Dict[Pair, Fraction]) -> List[str]:
    """The lines of an overlay, but for its areas.

    Definition: zone_tables `IsReport`.
    """
    lines = [f"entries {entries}"] + [f"pair {n} {z}" for n, z in met]
    parcels = sorted({n for n, _ in met})
    of = {n: [z for m, z in met if m == n] for n in parcels}
    lines += [f"split {n}" for n in parcels if len(of[n]) > 1]
    return lines + [f"within {n} {of[n][0]}" for n in parcels if len(of[n]) == 1]
