"""Parcels noded among one another, as the package prepares a layer: with their neighbours' corners, and on the grid.

Coordinates are in millimetres. A parcel is a list of loops (k, 2), each outer one followed by its holes.
"""
from __future__ import annotations

from dataclasses import dataclass, field
from typing import Any, Dict, Iterable, Iterator, List, Sequence, Set, Tuple

import numpy as np
from gandovel.exact.junctions import put_in
from gandovel.exact.noding import points_of
from gandovel.reading.loops import CITY, PARCELS, Loops, joined, loops_from

Array = Any
Corner = Tuple[Any, Any]
Net = Dict[Tuple[Corner, Corner], int]


@dataclass
class Parcel:
    """A parcel, or with `layer` CITY the city: its loops as they were read, with their neighbours' corners (`noded`),
    and on the grid of whole millimetres; `holes` says which of them bound a hole. `tangled` is one from which a
    corner was kept, since it would have made the parcel invalid.
    """

    feature: int
    number: str
    raw: List[Array]
    holes: List[bool]
    layer: int = PARCELS
    noded: List[Array] = field(default_factory=list)
    grid: List[Array] = field(default_factory=list)
    tangled: bool = False


def loops_in(parcels: Sequence[Parcel], name: str) -> Loops:
    """The loops `name` (raw, noded) of parcels, with their positions as rows."""
    several = []
    for layer in (PARCELS, CITY):
        arrays: List[Array] = []
        tags: List[Tuple[int, int, bool]] = []
        for at, parcel in enumerate(parcels):
            if parcel.layer == layer:
                arrays += getattr(parcel, name)
                tags += [(at, 0, hole) for hole in parcel.holes]
        if arrays:
            several.append(loops_from(arrays, tags, 1.0, layer))
    return joined(several)


def by_row(loops: Loops, corners: Array, count: int) -> List[List[Array]]:
    """The loops of each row."""
    found: List[List[Array]] = [[] for _ in range(count)]
    for at in range(len(loops)):
        found[int(loops.row[at])].append(corners[loops.starts[at] : loops.starts[at + 1]])
    return found


def node(parcels: Sequence[Parcel], reach: float, noise: float) -> Tuple[List[List[Array]], Set[int]]:
    """The loops of parcels with the corners of all of them that are at most `reach` (mm) off their sides; and which of
    them are tangled."""
    loops = loops_in(parcels, "raw")
    points, loops.corners = points_of(loops.corners)
    result, told = put_in(loops, points, np.unique(loops.corners), reach, reach, noise)
    tangled = {int(loops.row[at]) for at in told.tangled}
    return by_row(result, points[result.corners], len(parcels)), tangled


def to_grid(parcels: Sequence[Parcel], others: Array, noise: float) -> List[List[Array]]:
    """The loops of noded parcels in whole millimetres, with the corners that lie on a side only now.

    `others` (n, 2) are corners of the city that are none of a parcel.
    """
    loops = loops_in(parcels, "noded")
    count = len(loops.corners)
    points, index = points_of(np.concatenate([loops.corners, others.reshape(-1, 2)]))
    loops.corners, more = index[:count], np.unique(index[count:])
    if len(more):
        loops, _ = put_in(loops, points, more, noise, noise, noise)
    whole, again = points_of(np.floor(points + 0.5))
    loops.corners = again[loops.corners]
    wanted = np.unique(np.concatenate([loops.corners, again[more]]))
    loops, _ = put_in(loops, whole, wanted, 0.0, 0.0, noise)
    return by_row(loops, whole.astype(np.int64)[loops.corners], len(parcels))


def edges_of(loops: Iterable[Array]) -> Iterator[Tuple[Tuple[Corner, Corner], int]]:
    """The sides of loops, each with its net from the lesser end to the greater."""
    for loop in loops:
        corners = list(map(tuple, loop.tolist()))
        for a, b in zip(corners, corners[1:] + corners[:1]):
            if a < b:
                yield (a, b), 1
            elif b < a:
                yield (b, a), -1


def add_edges(net: Net, loops: Iterable[Array], sign: int) -> bool:
    """Adds the sides of loops to a net, or with a sign of -1 takes them away; those that balance are no part of it."""
    changed = False
    for edge, side in edges_of(loops):
        value = net.get(edge, 0) + sign * side
        changed = True
        if value:
            net[edge] = value
        else:
            net.pop(edge, None)
    return changed


def sides_of(loops: Sequence[Array]) -> Array:
    """The boxes (n, 4) of the sides of loops."""
    found = [np.hstack([np.minimum(it, np.roll(it, -1, 0)), np.maximum(it, np.roll(it, -1, 0))]) for it in loops]
    return np.concatenate(found) if found else np.zeros((0, 4))


def box_of(loops: Sequence[Array]) -> Array:
    """The box around loops."""
    corners = np.concatenate(loops)
    return np.concatenate([corners.min(axis=0), corners.max(axis=0)])


def corners_of(loops: Iterable[Array]) -> Set[Corner]:
    """The corners of loops."""
    return {corner for loop in loops for corner in map(tuple, loop.tolist())}


def same_loops(one: Sequence[Array], other: Sequence[Array]) -> bool:
    """Whether loops are the same, corner by corner."""
    return len(one) == len(other) and all(np.array_equal(a, b) for a, b in zip(one, other))


class Sides:
    """Sides, each from a corner to the next, in the form in which the package asks loops for theirs."""

    def __init__(self, corners: Array) -> None:
        self.corners = corners

    def nexts(self) -> Array:
        """For each corner the position of its side's end; an end's is its own."""
        after = np.arange(len(self.corners))
        after[::2] += 1
        return after


def sides_left(net: Net) -> Tuple[Any, Array]:
    """The sides of a net, each as often as it is there, and the points of their corners."""
    ends = [(a, b) if value > 0 else (b, a) for (a, b), value in net.items() for _ in range(abs(value))]
    points, index = points_of(np.array(ends, dtype=float).reshape(-1, 2))
    return Sides(index), points
