"""The faults of a layer, kept while single parcels change: a changed parcel and its neighbours alone are noded anew.

Sides of parcels that run both ways cancel. What is left, less the city's outline, bounds the faults, as in the
program's own check. So a change takes the sides of some parcels away, adds the new ones, and looks at what is left:
in whole millimetres, with the package's own functions.
"""
from __future__ import annotations

from collections import Counter
from typing import Any, Dict, Iterable, List, Optional, Sequence, Set, Tuple

import numpy as np
from gandovel.errors import Refused, raise_all
from gandovel.exact.city import LEAST_OPEN, OpenGap, open_gaps
from gandovel.exact.noding import LEAST, noise_of, points_of, touches
from gandovel.exact.outlines import Outlines, outlines
from gandovel.faults.polygons import faults_of
from gandovel.program.limits import FARTHEST
from gandovel.reading.layers import tested_layers
from gandovel.reading.loops import CITY, PARCELS, bad_geometries, loops_of
from gandovel.reading.sources import frame_of
from gandovel.reading.work import taken_apart
from geopandas import GeoDataFrame
from shapely import wkb

import noded
from coverings import Coverings
from noded import Parcel
from records import Records

Array = Any
GRID = 1.0
"""How far, in mm, going to the grid may move a corner into a side."""
NARROW = 1000.0
"""The greatest width of an open gap, in mm, as the package has it by default."""


class NotLocal(Exception):
    """A change that a neighbourhood alone does not settle: the whole layer has to be checked again."""


class Neighbourhood:
    """Parcels by their features, what does not balance among them, and their faults."""

    def __init__(self, work: Any, layers: Any, features: Sequence[int]) -> None:
        self.touch, self.noise = float(work.reaches.touch), float(work.reaches.noise)
        self.scale, self.crs = layers.scale, layers.parcels.crs
        self.known = [np.unique(work.points[:, axis]) for axis in (0, 1)]
        self.parcels: Dict[int, Parcel] = {}
        self.slots: Dict[int, int] = {}
        self.bad: Dict[int, Refused] = {}
        self.city: Optional[Parcel] = None
        self._take(work, layers.labels[0], features)
        self.boxes = np.array([noded.box_of(it.raw) for it in self.parcels.values()]).reshape(-1, 4)
        self.slots = {feature: at for at, feature in enumerate(self.parcels)}
        self.order = list(self.parcels)
        self.drawn: noded.Net = {}
        self.net: noded.Net = {}
        self.outlines = Outlines([], [], [])
        self.rings: List[Array] = []
        self.others = np.zeros((0, 2))
        self.records = Records(self)
        self.lost = ""
        self.coverings = Coverings(self)
        self.waiting: Set[noded.Corner] = set()
        self.fresh: Set[int] = set()
        self._begin()

    @classmethod
    def read(
        cls, parcels: str, number: str, features: Sequence[int], city: Optional[str], options: Dict[str, Any]
    ) -> "Neighbourhood":
        """That of a layer, whose rows are these features; with `touch` (mm), if it is told. Refused as it is read."""
        frames = frame_of(parcels, "parcels", None), None, None if city is None else frame_of(city, "city", None)
        layers = tested_layers(*frames, number, None, options.get("unit"), False)
        return cls(taken_apart(layers, None, options.get("touch")), layers, features)

    def _take(self, work: Any, numbers: Sequence[str], features: Sequence[int]) -> None:
        """The parcels, and the city, of what was taken apart."""
        loops, corners = work.loops, work.points[work.loops.corners]
        for at in range(len(loops)):
            row, loop = int(loops.row[at]), corners[loops.starts[at] : loops.starts[at + 1]]
            if loops.layer[at] == CITY:
                self.city = self.city or Parcel(-1, "", [], [], CITY)
                owner = self.city
            else:
                owner = self.parcels.setdefault(features[row], Parcel(features[row], numbers[row], [], []))
            owner.raw.append(loop)
            owner.holes.append(bool(loops.hole[at]))

    def _begin(self) -> None:
        """Nodes all parcels."""
        everything = self._with_city(self.order)
        loops, tangled = noded.node(everything, self.touch, self.noise)
        for at, (parcel, found) in enumerate(zip(everything, loops)):
            parcel.noded, parcel.tangled = found, at in tangled
            if parcel.layer == PARCELS:
                noded.add_edges(self.drawn, found, 1)
        self._find_outline()
        several = [self.parcels[feature] for feature in self.order]
        for parcel, found in zip(several, noded.to_grid(several, self.others, self.noise)):
            parcel.grid = found
            noded.add_edges(self.net, found, 1)
        self._judge(np.array([[-np.inf, -np.inf, np.inf, np.inf]]))

    def _judge(self, boxes: Array) -> Tuple[List[str], List[Dict[str, Any]]]:
        """The faults as they are now, where parcels changed within boxes: the keys that went, and what came."""
        net, city = dict(self.net), self._city_loops()
        noded.add_edges(net, city, -1)
        rows = [(*a, *b, value) for (a, b), value in sorted(net.items())]
        found = faults_of(np.array(rows, dtype=np.int64).reshape(-1, 5))
        gaps = [(fault, None) for fault in found if fault.depth < 0]
        over = self.coverings.of([fault for fault in found if fault.depth > 0], city, boxes)
        return self.records.renew([*gaps, *over], boxes)

    def _with_city(self, features: Iterable[int]) -> List[Parcel]:
        found = [self.parcels[feature] for feature in features]
        return found if self.city is None else [*found, self.city]

    def _find_outline(self) -> "set[noded.Corner]":
        """Finds the city's parts anew; the corners of theirs that are none of a parcel, and came or went."""
        before = set(map(tuple, self.others.tolist()))
        edges = self.drawn
        if self.city is not None:
            edges = {}
            noded.add_edges(edges, self.city.noded, 1)
        if not edges:
            raise NotLocal("the parcels leave no outline")
        self.outlines = outlines(*noded.sides_left(edges), self.city is not None)
        if self.city is not None and (len(self.outlines.parts) > 1 or any(self.outlines.left_out)):
            raise NotLocal("the city has holes, or several parts")
        loops = self.outlines.loops()
        self.rings = [
            loops.corners[loops.starts[at] : loops.starts[at + 1]] for at in range(len(loops)) if loops.part[at] == 0
        ]
        own = {corner for edge in self.drawn for corner in edge}
        corners = [corner for ring in self.rings for corner in map(tuple, ring.tolist())]
        self.others = np.array([corner for corner in corners if corner not in own], dtype=float).reshape(-1, 2)
        return before ^ set(map(tuple, self.others.tolist()))

    def change(self, changed: Sequence[Tuple[int, str, Optional[str]]]) -> Tuple[List[str], List[Dict[str, Any]]]:
        """Takes changes of features (each with its number and its shape, None where it is gone) over: the keys of the
        faults that went, and the faults that came. Refused where a shape is none, until it is mended; `NotLocal`.
        """
        for feature, number, shape in changed:
            self.waiting |= self._exchange(feature, number, shape)
            self.fresh.add(feature)
        raise_all([*self.bad.values(), *self._numbers_amiss()], "mend them, or undo")
        told = self._renew(self.waiting, [feature for feature in self.fresh if feature in self.parcels])
        self.waiting, self.fresh = set(), set()
        return told

    def _numbers_amiss(self) -> List[Refused]:
        """A refusal for each number that is missing, or that several parcels have."""
        counts = Counter(parcel.number for parcel in self.parcels.values())
        return [
            Refused(
                "P3",
                "several parcels have this number" if number else "a parcel has no number",
                "parcels",
                number=number,
            )
            for number, count in counts.items()
            if count > 1 or not number
        ]

    def _exchange(self, feature: int, number: str, shape: Optional[str]) -> "set[noded.Corner]":
        """Puts a shape in place of a parcel's; the corners that came or went."""
        before = self.parcels.get(feature)
        geometry = wkb.loads(shape, hex=True) if shape else None
        self.bad.pop(feature, None)
        if shape is not None:
            frame = GeoDataFrame(geometry=[geometry], crs=self.crs)
            self.bad.update({feature: it for it in bad_geometries(frame, [number], "parcels").values()})
        after = None if shape is None or feature in self.bad else self._parcel(feature, number, geometry)
        corners: Set[noded.Corner] = set()
        for parcel, sign in ((before, -1), (after, 1)):
            corners ^= noded.corners_of(parcel.raw) if parcel is not None else set()
        if before is not None:
            noded.add_edges(self.drawn, before.noded, -1)
            noded.add_edges(self.net, before.grid, -1)
            corners |= noded.corners_of(before.noded) if after is None else set()
        self._put(feature, after)
        return corners

    def _put(self, feature: int, parcel: Optional[Parcel]) -> None:
        """Keeps a parcel by its feature, and its box."""
        if parcel is None:
            if feature in self.parcels:
                del self.parcels[feature]
                self.boxes[self.slots[feature]] = (np.inf, np.inf, -np.inf, -np.inf)
            return
        if feature not in self.slots:
            self.slots[feature] = len(self.boxes)
            self.order.append(feature)
            self.boxes = np.concatenate([self.boxes, np.zeros((1, 4))])
        self.parcels[feature] = parcel
        self.boxes[self.slots[feature]] = noded.box_of(parcel.raw)

    def _parcel(self, feature: int, number: str, shape: Any) -> Parcel:
        """A parcel of a shape, whose coordinates are those that are known, but for noise."""
        loops = loops_of([shape], self.scale, PARCELS)
        if np.abs(loops.corners).max() > FARTHEST or noise_of(loops.corners) > self.noise:
            raise NotLocal("a corner lies farther out than the layer did")
        corners = np.column_stack([self._known(axis, loops.corners[:, axis]) for axis in (0, 1)])
        raw = [corners[loops.starts[at] : loops.starts[at + 1]] for at in range(len(loops))]
        return Parcel(feature, number, raw, [bool(hole) for hole in loops.hole])

    def _known(self, axis: int, values: Array) -> Array:
        """Values in place of which stand those that are known, where they differ by noise alone."""
        known, noise = self.known[axis], self.noise
        at = np.clip(np.searchsorted(known, values), 1, len(known) - 1)
        nearest = np.where(values - known[at - 1] <= known[at] - values, known[at - 1], known[at])
        whole = np.rint(values)
        values = np.where(np.abs(values - whole) <= noise, whole, values)
        result = np.where(np.abs(values - nearest) <= noise, nearest, values)
        self.known[axis] = np.union1d(known, result)
        return result

    def _renew(self, touched: "set[noded.Corner]", fresh: List[int]) -> Tuple[List[str], List[Dict[str, Any]]]:
        """Nodes what corners that came or went concern, and the faults."""
        reach = self.touch + self.noise + 1e-6
        here = self._with_side_at(touched, reach, "raw") | set(fresh)
        moved = self._node(here, reach) | touched
        others = self._find_outline()
        there = self._with_side_at(moved | others, GRID, "noded") | here
        self._grid(there)
        boxes = [self.boxes[self.slots[feature]] for feature in there]
        if touched:
            corners = np.array(list(touched))
            boxes.append(np.concatenate([corners.min(axis=0), corners.max(axis=0)]))
        return self._judge(np.array(boxes).reshape(-1, 4))

    def _node(self, here: Set[int], reach: float) -> "set[noded.Corner]":
        """Nodes parcels anew; the corners that came or went."""
        around = self._with_city(self._near(here, reach, "raw"))
        if not here and self.city is None:
            return set()
        if any(parcel.tangled for parcel in around if parcel.layer == PARCELS):
            raise NotLocal("a parcel here is narrower than what touches")
        loops, tangled = noded.node(around, self.touch, self.noise)
        if tangled:
            raise NotLocal("a parcel here is narrower than what touches")
        moved: Set[noded.Corner] = set()
        for parcel, found in zip(around, loops):
            if parcel.layer == CITY:
                parcel.noded = self._city_noded(reach)
            elif parcel.feature in here and not noded.same_loops(parcel.noded, found):
                moved |= noded.corners_of(parcel.noded) ^ noded.corners_of(found)
                if parcel.noded:
                    noded.add_edges(self.drawn, parcel.noded, -1)
                noded.add_edges(self.drawn, found, 1)
                parcel.noded = found
        return moved

    def _city_noded(self, reach: float) -> List[Array]:
        """The city's loops with the corners of the parcels that touch them."""
        assert self.city is not None
        sides = noded.sides_of(self.city.raw)
        features = self._meeting(sides + (-reach, -reach, reach, reach))
        loops, _ = noded.node([*(self.parcels[one] for one in features), self.city], self.touch, self.noise)
        return loops[-1]

    def _grid(self, there: Set[int]) -> None:
        """Brings parcels to the grid anew."""
        around = [self.parcels[feature] for feature in self._near(there, GRID, "noded")]
        if not around:
            return
        box = noded.box_of([loop for parcel in around for loop in parcel.noded]) + (-GRID, -GRID, GRID, GRID)
        inside = (self.others >= box[:2]).all(axis=1) & (self.others <= box[2:]).all(axis=1)
        for parcel, found in zip(around, noded.to_grid(around, self.others[inside], self.noise)):
            if parcel.feature in there:
                if parcel.grid:
                    noded.add_edges(self.net, parcel.grid, -1)
                noded.add_edges(self.net, found, 1)
                parcel.grid = found

    def _with_side_at(self, corners: "set[noded.Corner]", reach: float, name: str) -> Set[int]:
        """The features with a side whose box, widened by `reach`, has one of the corners in it."""
        if not corners:
            return set()
        places = np.array(sorted(corners))
        low, high = places.min(axis=0) - reach, places.max(axis=0) + reach
        found = set()
        for feature in self._meeting(np.concatenate([low, high])[None, :]):
            sides = noded.sides_of(getattr(self.parcels[feature], name) or self.parcels[feature].raw)
            inside = (sides[:, None, :2] - reach <= places) & (sides[:, None, 2:] + reach >= places)
            if inside.all(axis=2).any():
                found.add(feature)
        return found

    def _near(self, features: Iterable[int], reach: float, name: str) -> List[int]:
        """The features whose boxes meet a side of these, widened by `reach`, in order."""
        found: Set[int] = set()
        for feature in features:
            sides = noded.sides_of(getattr(self.parcels[feature], name) or self.parcels[feature].raw)
            found.update(self._meeting(sides + (-reach, -reach, reach, reach)))
        return sorted(found, key=lambda feature: self.slots[feature])

    def _meeting(self, boxes: Array) -> List[int]:
        """The features whose boxes meet one of these."""
        around = np.concatenate([boxes[:, :2].min(axis=0), boxes[:, 2:].max(axis=0)]) if len(boxes) else np.zeros(4)
        close = np.flatnonzero(
            (self.boxes[:, :2] <= around[2:]).all(axis=1) & (self.boxes[:, 2:] >= around[:2]).all(axis=1)
        )
        if len(boxes) > 1 and len(close):
            theirs = self.boxes[close]
            meets = (theirs[:, None, :2] <= boxes[:, 2:]) & (theirs[:, None, 2:] >= boxes[:, :2])
            close = close[meets.all(axis=2).any(axis=1)]
        return [self.order[at] for at in close.tolist() if self.order[at] in self.parcels]

    def _city_loops(self) -> List[Array]:
        """The outer rings of the city's parts on the grid, with the ends of what does not balance."""
        rings = [np.floor(ring + 0.5) for ring in self.rings]
        ends = np.array([corner for edge in self.net for corner in edge], dtype=float).reshape(-1, 2)
        found = []
        for ring in rings:
            points, index = points_of(np.concatenate([ring, ends]))
            around = index[: len(ring)]
            on_it = touches(points, around, np.roll(around, -1), np.unique(index), 0.0, 0.0)
            found.append(points[np.insert(around, on_it[:, 0] + 1, on_it[:, 1])].astype(np.int64))
        return found

    def open_gaps(self) -> List[OpenGap]:
        """The open gaps of the outline that the parcels make; none where there is a city."""
        least = max(LEAST_OPEN, self.touch)
        return open_gaps(self.outlines.rings, NARROW, least) if self.city is None else []

    @property
    def sliver(self) -> float:
        """The width, in mm, of a sliver; 0 where there are none."""
        return self.touch if self.touch >= LEAST else 0.0

    def all_faults(self) -> List[Dict[str, Any]]:
        """All faults that there are now."""
        return list(self.records.told.values())

    def near(self, box: Array) -> List[Parcel]:
        """The parcels whose boxes meet one."""
        return [self.parcels[feature] for feature in self._meeting(np.asarray(box, dtype=float)[None, :])]
