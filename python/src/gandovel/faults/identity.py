"""What makes a fault the same in a later report: its kind, its layer, and where it lies. Parcels' numbers don't.

A register is checked again and again, and most of its faults are known. To say which are new, each fault has an
identity: 16 hexadecimal digits, the first of the SHA-256 of a text. Whoever wants to compute it elsewhere does this:

1. Take each ring in whole millimetres: coordinates in the layer's unit, times the millimetres in a unit, rounded to the
   nearest (halves up).
2. Leave out each corner that lies straight between its neighbours, and those that stand twice in a row: a neighbour's
   new corner on the fault's border changes nothing.
3. Turn the ring so that it runs counterclockwise, and begins with its least corner (by x, then by y).
4. The text is: kind, layer, and the rings, the outer one first and the holes in order of their corners, separated by
   `;`. A ring is its corners as `x y`, separated by `,`.

So it is the same after parcels are numbered anew, in another order, or split somewhere else; and another one as soon as
a corner of the fault itself moves by a millimetre.
"""
from __future__ import annotations

import hashlib
from typing import Any, List, Sequence, Tuple

import numpy as np

DIGITS = 16
Corner = Tuple[int, int]


def identity_of(kind: str, layer: str, shape: Any, millimetres: float) -> str:
    """The identity of a fault: `kind` (gap, overlap, ..), `layer` (parcels or zones), and its polygon in a unit of so
    many millimetres."""
    rings = [_whole(ring.coords, millimetres) for ring in (shape.exterior, *shape.interiors)]
    plain = [_plain(ring) for ring in rings]
    parts = [kind, layer, *map(_text, [plain[0], *sorted(ring for ring in plain[1:] if ring)])]
    return hashlib.sha256(";".join(parts).encode()).hexdigest()[:DIGITS]


def _whole(corners: Any, millimetres: float) -> List[Corner]:
    """A ring's corners in whole millimetres, without the first again."""
    whole = np.floor(np.asarray(corners, dtype=float)[:-1, :2] * millimetres + 0.5)
    return [(int(x), int(y)) for x, y in whole.tolist()]


def _plain(ring: Sequence[Corner]) -> List[Corner]:
    """A ring without straight corners, counterclockwise, from its least corner on. Empty where it has no area."""
    kept = list(ring)
    while len(kept) > 2:
        turns = [_cross(kept[at - 1], kept[at], kept[(at + 1) % len(kept)]) for at in range(len(kept))]
        straight = next((at for at, turn in enumerate(turns) if turn == 0), None)
        if straight is None:
            break
        del kept[straight]
    if len(kept) < 3:
        return []
    doubled = sum(a[0] * b[1] - a[1] * b[0] for a, b in zip(kept, [*kept[1:], kept[0]]))
    kept = kept if doubled > 0 else kept[::-1]
    least = kept.index(min(kept))
    return kept[least:] + kept[:least]


def _cross(a: Corner, b: Corner, c: Corner) -> int:
    """Twice the area of the triangle: 0 where b is straight between the others."""
    return (b[0] - a[0]) * (c[1] - b[1]) - (b[1] - a[1]) * (c[0] - b[0])


def _text(ring: Sequence[Corner]) -> str:
    return ",".join(f"{x} {y}" for x, y in ring)
