"""How far off corners lie from the borders that they nearly touch, and where noise ends and faults begin.

A layer that was reprojected, or read from degrees, has no grid. But the rounding that it once had is still there: each
corner that belongs on a neighbour's border lies a little off it. Over all such near pairs these distances make a heap,
with nothing beyond its edge but faults. Where that edge is clear, corners within it touch. All of it is measured.
"""
from __future__ import annotations

from dataclasses import dataclass, field
from typing import Any, Dict, List, Optional

import numpy as np

from ..arrays import Array
from ..exact.junctions import near_pairs
from .loops import Loops

FARTHEST, MOST = 300.0, 150.0
"""Pairs are looked at up to the first, in mm; no noise is taken to be more than the second (a decimetre's rounding)."""
EXACT = 1e-4
"""What is less, in mm, is the noise of floating point."""
ENOUGH, EXCEPTIONS = 20, 5
"""An edge is clear with so many pairs below it, and at most a fifth as many beyond it."""
RARE, CURVED = 20, 0.05
"""With one in so many beyond it an edge is clear, unless all below is less than so much (mm): by as much a straight
border is curved in another projection, and that is not the noise of a rounding."""
APART = 2.0
"""Beyond a clear edge there is nothing as far as twice the distance."""
COMMON, CHANCE = 30.0, 0.1
"""Pairs beyond an edge are a heap of their own where it is no wonder, by that chance, that none is nearer; up to so far
(mm)."""
EDGES = (1e-4, 1e-3, 0.01, 0.1, 0.2, 0.5, 1.0, 2.0, 5.0, 10.0, 15.0, 20.0, 30.0, 50.0, 100.0, 150.0, 300.0)
PROPOSED = 4
USUAL = (1.42, 14.2, 142.0)
"""How far off corners lie that were rounded to millimetres, centimetres or decimetres."""
REACHING = 0.04
"""The least share of a noise's pairs in the upper half of its distances. Chosen beside one register, in which corners
of faults, 0.02 of all pairs, had passed for the edge. In 125 others, tried afterwards, it changed nothing: what was
taken had 0.05 to 0.49."""


@dataclass
class Noise:
    """What near pairs say of a layer without a grid.

    `distance` (mm): the farthest that a corner lies off its border by noise; None where the edge is not clear. `counts`
    are the pairs up to each of `EDGES`, and `proposed` the distances that may be told by `--touch` where it is not.
    """

    distance: Optional[float]
    counts: List[int] = field(default_factory=list)
    proposed: List[Dict[str, Any]] = field(default_factory=list)

    def histogram(self) -> List[Dict[str, Any]]:
        """The pairs by distance, as `--json` and reports have them."""
        return [{"up_to_mm": edge, "pairs": count} for edge, count in zip(EDGES, self.counts)]


def noise_of_pairs(loops: Loops, points: Array, floor: float, made: Optional[Array] = None) -> Noise:
    """The noise of a layer's loops (of point indices); `floor` (mm) is what floating point may have moved a corner.

    `made` marks the points that are ends of chords, which are no corners of the layer.
    """
    wanted = np.unique(loops.corners)
    off = np.sort(near_pairs(loops, points, FARTHEST, wanted if made is None else wanted[~made[wanted]]))
    exact = max(EXACT, floor)
    counts = np.diff(np.searchsorted(off, [0.0, *EDGES], side="right"), prepend=0)[1:]
    found = Noise(None, counts.tolist())
    found.counts[0] += int((off == 0).sum()) if len(off) else 0
    blurred = False
    for distance in _edges(off, exact):
        below = int(np.searchsorted(off, distance, side="right"))
        is_reached = distance <= exact or _is_reached(off[:below], distance)
        if not blurred and is_reached and _is_clear(off[below:], below, distance, exact):
            found.distance = 0.0 if distance <= exact else float(distance)
            return found
        blurred = blurred or _is_sharp(off[below:], below)
    found.proposed = _proposed(off, [_rounded_up(distance) for distance in _edges(off, exact)[1:]])
    return found


def _proposed(off: Array, edges: List[float]) -> List[Dict[str, Any]]:
    """Exactly, the last edges, and the usual roundings where no edge is near: how many pairs touch, how many do not."""
    edges = edges[-PROPOSED:]
    usual = [distance for distance in USUAL if not any(0.5 < distance / edge < 2 for edge in edges)]
    counts = [(distance, int((off <= distance).sum()) if distance else 0) for distance in sorted([0.0, *edges, *usual])]
    near = int((off <= MOST).sum())
    return [{"touch_mm": distance, "touching": count, "left": near - count} for distance, count in counts]


def _edges(off: Array, exact: float) -> List[float]:
    """Distances, in order, beyond which nothing is as far as `APART` times: that of floating point first."""
    after = np.append(off[1:], np.inf)
    kept = (off > exact) & (off <= MOST) & (after >= APART * off)
    return [exact, *np.unique(off[kept]).tolist()]


def _is_reached(within: Array, distance: float) -> bool:
    """Whether the pairs below an edge are noise up to it: a share of them lies in the upper half of its distances. A
    few that stand apart there are faults, each of which has some pairs."""
    beyond_half = len(within) - int(np.searchsorted(within, distance / 2, side="right"))
    return beyond_half >= REACHING * len(within)


def _is_sharp(beyond: Array, below: int) -> bool:
    """Whether enough pairs are below an edge, and few beyond it: if it is not clear then, no later one is."""
    return below >= ENOUGH and EXCEPTIONS * len(beyond) <= below


def _is_clear(beyond: Array, below: int, distance: float, exact: float) -> bool:
    if _is_sharp(beyond, below):
        if distance <= exact or (distance >= CURVED and RARE * len(beyond) <= below):
            return True
        return not _is_heap(beyond, distance, max(COMMON, 3 * distance))
    return distance <= exact and not _is_heap(beyond, distance, MOST)


def _is_heap(beyond: Array, distance: float, farthest: float) -> bool:
    """Whether pairs beyond an edge may be spread evenly from it on: then it is no edge of theirs, but of others."""
    near = beyond[beyond <= farthest]
    if len(near) < 3:
        return False
    count = np.arange(1, len(near) + 1)
    with np.errstate(divide="ignore", invalid="ignore"):
        chance = ((near - near[0]) / (near - distance)) ** count
    return bool((chance[2:] > CHANCE).any())


def _rounded_up(distance: float) -> float:
    """A distance with two decimals, or one digit where it is less, that is no less."""
    step = 0.01 if distance >= 0.01 else 10.0 ** np.floor(np.log10(distance))
    return float(round(np.ceil(distance / step) * step, 12))
