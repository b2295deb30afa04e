"""What a prepared register is made of: rows of rings, islands, what was changed, what was left out."""
from __future__ import annotations

from dataclasses import dataclass, field
from typing import Any, Dict, List, Optional, Sequence

import numpy as np

from ..arrays import Array
from ..errors import Refused
from .loops import ROLES

OUT = "OUT"
OUT_ROW = -1
MOVED, PUT_IN, GATHERED, TOUCHED = range(4)
CHANGES = ("moved", "put in", "gathered", "touched")


@dataclass
class Rows:
    """The rows of a layer: record i + 1 is `rings[i]`, (k, 2) int64 in mm, of row `source[i]` and its part `part[i]`.

    A row of -1 is the area outside (`OUT`), which `frame` adds.
    """

    rings: List[Array] = field(default_factory=list)
    source: List[int] = field(default_factory=list)
    part: List[int] = field(default_factory=list)


@dataclass
class Island:
    """A connected part of the register: the city's ring, and the rows of parcels and zones in it."""

    city: Array
    parcels: Rows
    zones: Optional[Rows] = None

    def rows_of_zones(self) -> Rows:
        """The rows of its zones; none where there are no zones."""
        return self.zones if self.zones is not None else Rows()


def _none(kind: type, *columns: int) -> Any:
    """A field that is an array with no row."""
    return field(default_factory=lambda: np.zeros((0, *columns), dtype=kind))


@dataclass
class Changes:
    """Corners that `prepare` changed: one row of each array for each.

    `change` is MOVED (to the grid), PUT_IN (into a border that it lies on), GATHERED (made one with another corner,
    from which it differed by the noise of floating point) or TOUCHED (put into a border that it is off by no more than
    the rounding of its layer, which goes through it now). `places` (n, 2) is where it was, in the layer's unit, and
    `to` (n, 2) int64 the whole millimetre where it is. `distance` in mm, measured, is how far it moved, or how far off
    the side it was that it was put into. `layer` and `row` are those of a ring that has it. `area` in mm2, measured, is
    what the border went over that goes through it now, where this closed a gap or an overlap.
    """

    change: Array = _none(int)
    places: Array = _none(float, 2)
    to: Array = _none(int, 2)
    distance: Array = _none(float)
    layer: Array = _none(int)
    row: Array = _none(int)
    area: Array = _none(float)

    @classmethod
    def joined(cls, several: Sequence["Changes"]) -> "Changes":
        """Changes, one behind the other."""
        return cls(*(np.concatenate([getattr(one, name) for one in several]) for name in cls.__dataclass_fields__))

    def told(self) -> Dict[str, Any]:
        """For each kind of change how many corners, and the greatest distance, in mm; what touching closed, in m2."""
        kinds = [self.distance[self.change == kind] for kind in range(len(CHANGES))]
        counts = dict(zip(("moved", "put_in", "gathered"), map(len, kinds)))
        names = ("largest_move", "largest_off", "largest_gathered", "largest_touch")
        farthest = (float(distances.max(initial=0.0)) for distances in kinds)
        touched = len(np.unique(self.to[self.change == TOUCHED], axis=0))
        closed = float(self.area[(self.change == TOUCHED) & (self.layer < len(ROLES) - 1)].sum()) / 1e6
        return {
            **counts,
            "touched": touched,
            "closed_m2": closed,
            **dict(zip(names, farthest)),
            "measured": [*names, "closed_m2"],
        }


@dataclass
class Skipped:
    """A row that is left out: its layer and position (from 0), its number, why, and where (in the layer's unit)."""

    role: str
    row: int
    number: str
    reason: str
    x: Optional[float] = None
    y: Optional[float] = None

    @classmethod
    def of(cls, row: int, refused: Refused) -> "Skipped":
        """What `--skip-invalid` makes of a refusal."""
        told = refused.record_of()
        return cls(refused.role, row, refused.number or "", f"{refused.code} {told['text']}", told["x"], told["y"])
