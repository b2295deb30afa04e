"""Overlays of layers that do not tile: each row's verdict is still the proved program's.

The program answers for layers that tile. So rows that do not overlap one another are taken together, what they leave of
the city is filled with rows of no one, along the corners that are there, and the program is asked; then again with the
rows that had to stay away. A row that stands out of the city takes part in no round, and nothing is said of it.
"""
from __future__ import annotations

from pathlib import Path
from typing import Any, Dict, Iterable, List, Sequence, Set, Tuple

import numpy as np

from ..arrays import Array
from ..exact.big_rings import cut_ring
from ..exact.grid import edges_left
from ..exact.holes import cut_holes, traced
from ..exact.noding import points_of, touches
from ..exact.rings import contains, point_inside, simple_loops, twice_area
from .layer_files import write_rings
from .limits import MOST_CORNERS
from .tool import overlay_pairs


def rounds_of(count: int, conflicts: Iterable[Set[int]], beyond: Set[int]) -> List[List[int]]:
    """Rows 0 .. count - 1 in rounds in which no two conflict; each row but those `beyond` is in one or more."""
    against: Dict[int, Set[int]] = {}
    for group in conflicts:
        for row in group:
            against.setdefault(row, set()).update(group - {row})
    waiting = [row for row in sorted(against, key=lambda row: len(against[row])) if row not in beyond]
    free = [row for row in range(count) if row not in against and row not in beyond]
    rounds: List[List[int]] = []
    while waiting or not rounds:
        taken: Set[int] = set()
        for row in [*waiting, *(row for row in against if row not in beyond)]:
            if not against[row] & taken:
                taken.add(row)
        rounds.append(sorted({*free, *taken}))
        waiting = [row for row in waiting if row not in taken]
    return rounds


def filled(city: Array, rings: Sequence[Array]) -> List[Array]:
    """Rings, which do not overlap and lie in the city, with simple rings behind them that fill what they leave.

    These have half as many corners at most as the program takes, since their neighbours' are put into their borders.
    """
    fillers: List[Array] = []
    for outer, holes in _left_by(city, rings):
        for piece in cut_holes(outer, holes) or []:
            fillers += cut_ring(piece, MOST_CORNERS // 2) or [piece]
    return [*rings, *fillers]


def _left_by(city: Array, rings: Sequence[Array]) -> List[Tuple[Array, List[Array]]]:
    """What rings leave of the city, as polygons; the rings' corners that lie on its sides are put into it."""
    points, index = points_of(np.concatenate([city, *rings]).astype(float))
    ring, others = index[: len(city)], index[len(city) :]
    found = touches(points, ring, np.roll(ring, -1), np.unique(index), 0.0, 0.0)
    around = np.insert(ring, found[:, 0] + 1, found[:, 1])
    starts, ends = others[_after([len(ring) for ring in rings])], others  # backwards
    return _polygons(points, np.concatenate([around, starts]), np.concatenate([np.roll(around, -1), ends]))


def _after(sizes: Sequence[int]) -> Array:
    """For each corner of loops of these sizes, one behind the other, the position of the next one of its loop."""
    counts = np.array(sizes, dtype=np.int64)
    stops, after = np.cumsum(counts), np.arange(1, int(counts.sum()) + 1)
    after[stops - 1] = stops - counts
    return after


def area_polygons(loops: Sequence[Array]) -> List[Tuple[Array, List[Array]]]:
    """The area on the left of loops (k, 2) int64, whose opposite edges cancel, as polygons: outer ring and holes.

    No ring meets itself. Where the loops cover a place twice, or cross, the answer means nothing.
    """
    points, index = points_of(np.concatenate(loops).astype(float))
    return _polygons(points, index, index[_after([len(loop) for loop in loops])])


def _polygons(points: Array, starts: Array, ends: Array) -> List[Tuple[Array, List[Array]]]:
    """As `area_polygons`, of edges between points, which their indices say."""
    low, high, net = edges_left(starts, ends)
    used = np.unique(np.concatenate([low, high]))
    whole = dict(zip(used.tolist(), map(tuple, points[used].astype(np.int64).tolist())))
    edges = [
        (whole[a], whole[b]) if n > 0 else (whole[b], whole[a])
        for a, b, n in zip(low.tolist(), high.tolist(), net.tolist())
    ]
    walks = traced(edges) or []
    return nested([loop for walk in walks for loop in simple_loops(walk)])


def nested(loops: List[List[Tuple[Any, Any]]]) -> List[Tuple[Array, List[Array]]]:
    """Loops of corners that do not cross, the outer ones counterclockwise, as polygons: outer ring and holes."""
    outers = sorted((loop for loop in loops if twice_area(loop) > 0), key=twice_area)
    inner: List[List[Array]] = [[] for _ in outers]
    for hole in (loop for loop in loops if twice_area(loop) < 0):
        within = point_inside(hole[::-1], [])
        for outer, holes in zip(outers, inner):
            if contains(outer, within):
                holes.append(np.array(hole, dtype=np.int64))
                break
    return [(np.array(outer, dtype=np.int64), holes) for outer, holes in zip(outers, inner)]


def overlaid(
    folder: Path,
    city: Array,
    parcels: Sequence[Array],
    zones: Sequence[Array],
    parcel_rounds: List[List[int]],
    zone_rounds: List[List[int]],
) -> Array:
    """All pairs (parcel, zone), from 0, that overlap, by the program; its files are written to `folder`."""
    write_rings(folder / "city.shp", [city])
    for name, rings, rounds in (("parcels", parcels, parcel_rounds), ("zones", zones, zone_rounds)):
        for at, rows in enumerate(rounds):
            write_rings(folder / f"{name}_{at}.shp", filled(city, [rings[row] for row in rows]))
    found = [np.zeros((0, 2), dtype=np.int64)]
    for i, some in enumerate(parcel_rounds):
        for j, others in enumerate(zone_rounds):
            pairs = overlay_pairs(folder / "city.shp", folder / f"parcels_{i}.shp", folder / f"zones_{j}.shp") - 1
            kept = pairs[(pairs[:, 0] < len(some)) & (pairs[:, 1] < len(others))]
            found.append(np.column_stack([_rows(some)[kept[:, 0]], _rows(others)[kept[:, 1]]]))
    several = max(len(zones), 1)
    keys = np.unique(np.concatenate(found) @ np.array([several, 1], dtype=np.int64))
    return np.column_stack([keys // several, keys % several])


def _rows(rows: List[int]) -> Array:
    return np.array(rows, dtype=np.int64)
