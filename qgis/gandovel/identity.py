"""By what a fault is known again: as the package knows it (`gandovel.faults.identity`, and `--known`), step by step.

It is made of the kind, the layer, and the corners of the fault in whole millimetres; not of numbers, which registers
shift. A neighbour's new corner on the fault's border changes nothing.
"""
from __future__ import annotations

import hashlib
from math import floor
from typing import Any, List, Sequence, Tuple

MOST_DIGITS = 16
Corner = Tuple[int, int]


def identity_of(kind: str, layer: str, shape: Any, millimetres: float) -> str:
    """The identity of a fault of this kind in a layer (parcels, zones); its shape is in a unit of so many mm."""
    polygon = shape.asMultiPolygon()[0] if shape.isMultipart() else shape.asPolygon()
    rings = [_plain([_whole(corner, millimetres) for corner in ring[:-1]]) for ring in polygon]
    parts = [kind, layer, *map(_text, [rings[0], *sorted(ring for ring in rings[1:] if ring)])]
    return hashlib.sha256(";".join(parts).encode()).hexdigest()[:MOST_DIGITS]


def _whole(corner: Any, millimetres: float) -> Corner:
    """A corner in whole millimetres, halves up."""
    return floor(corner.x() * millimetres + 0.5), floor(corner.y() * millimetres + 0.5)


def _plain(ring: Sequence[Corner]) -> List[Corner]:
    """A ring without straight corners, counterclockwise, from its least corner on. Empty where it has no area."""
    kept = list(ring)
    while len(kept) > 2:
        straight = next((at for at in range(len(kept)) if _is_straight(kept, at)), None)
        if straight is None:
            break
        del kept[straight]
    if len(kept) < 3:
        return []
    doubled = sum(a[0] * b[1] - a[1] * b[0] for a, b in zip(kept, [*kept[1:], kept[0]]))
    kept = kept if doubled > 0 else kept[::-1]
    at = kept.index(min(kept))
    return kept[at:] + kept[:at]


def _is_straight(ring: Sequence[Corner], at: int) -> bool:
    """Whether a corner lies straight between its neighbours, or stands twice in a row."""
    a, b, c = ring[at - 1], ring[at], ring[(at + 1) % len(ring)]
    return (b[0] - a[0]) * (c[1] - b[1]) == (b[1] - a[1]) * (c[0] - b[0])


def _text(ring: Sequence[Corner]) -> str:
    return ",".join(f"{x} {y}" for x, y in ring)
