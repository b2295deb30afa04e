"""Overlaps, and what lies beyond the city, with who covers them: by the package's planar graph of the parcels there."""
from __future__ import annotations

from typing import Any, Dict, List, Sequence, Tuple

import numpy as np
from gandovel.exact.planar import edges_of, graph_of
from gandovel.faults.polygons import CITY, Coverage, box_of, covered_too_often

Array = Any
Found = List[Tuple[Any, List[Any]]]
"""Faults, each with its parcels."""


class Coverings:
    """The overlaps of a neighbourhood. Those that lie apart are looked at apart, and kept while nothing changes
    there."""

    def __init__(self, place: Any) -> None:
        self.place = place
        self.known: Dict[Any, Found] = {}

    def of(self, faults: Sequence[Any], city: Sequence[Array], changed: Array) -> Found:
        """What is covered too often, by the faults that edges bound; `changed` are boxes in which parcels changed."""
        before, self.known = self.known, {}
        for group in _groups(np.array([box_of(fault) for fault in faults], dtype=float).reshape(-1, 4)):
            boxes = np.array([box_of(faults[at]) for at in group], dtype=float)
            key = frozenset((faults[at].depth, *faults[at].key) for at in group)
            old = None if _meet(boxes, changed).any() else before.get(key)
            self.known[key] = old if old is not None else self._look(boxes, city)
        return [one for several in self.known.values() for one in several]

    def _look(self, boxes: Array, city: Sequence[Array]) -> Found:
        """The overlaps in boxes, by all parcels there and the city."""
        parcels = list({one.feature: one for box in boxes for one in self.place.near(box)}.values())
        loops = [[loop for loop in parcel.grid if len(loop) > 2] for parcel in parcels]
        several = [*city, *(loop for some in loops for loop in some)]
        owners = [CITY] * len(city) + [row for row, some in enumerate(loops) for _ in some]
        edges = edges_of(several)
        graph = graph_of(edges, np.repeat(owners, [len(loop) for loop in several]).tolist())
        faults, rows = covered_too_often(Coverage(graph, frozenset()))
        found = [(fault, [parcels[row] for row in some]) for fault, some in zip(faults, rows)]
        return [one for one in found if _meet(np.array([box_of(one[0])], dtype=float), boxes).any()]


def _meet(one: Array, other: Array) -> Array:
    """Which of some boxes touch or overlap which of others."""
    low = one[:, None, :2] <= other[:, 2:]
    return (low & (one[:, None, 2:] >= other[:, :2])).all(axis=2)


def _groups(boxes: Array) -> List[List[int]]:
    """Boxes in groups of those that touch one another."""
    touching, left, groups = _meet(boxes, boxes) if len(boxes) else boxes, set(range(len(boxes))), []
    while left:
        waiting, group = [left.pop()], []
        while waiting:
            here = waiting.pop()
            group.append(here)
            beside = {int(it) for it in np.flatnonzero(touching[here])} & left
            left -= beside
            waiting += beside
        groups.append(sorted(group))
    return groups
