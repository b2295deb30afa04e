"""Ids of parcels over all districts: they never change, also where a parcel goes to another district.

In a district's session ids begin at 1. Over all it is `district * 1_000_000_000 + serial`, where `district` is the one
in which the parcel was made: a recut leaves it as it is.
"""
from __future__ import annotations

from dataclasses import dataclass, field
from typing import TYPE_CHECKING, Callable, Dict, Optional, Sequence, Tuple

if TYPE_CHECKING:  # it brings numpy along, which a command that needs none would wait for
    from ..serve.entries import Entry

A_DISTRICT = 1_000_000_000
"""Ids of a district: a session's journal has at most a million entries, of two new parcels each."""
_NAMED = {"split": 1, "merge": 2, "move": 2}
"""How many parcels an edit names."""


@dataclass(frozen=True)
class Ids:
    """The ids of a district's parcels, in its session (local) and over all (global).

    Its layer has `count` parcels; `own` are their global ids by record, None where these are 1, 2 .. of the district.
    `issued` is how many serials the district had given away when the layer was made.
    """

    district: int
    count: int
    issued: int
    own: Optional[Tuple[int, ...]] = None
    _places: Dict[int, int] = field(init=False, repr=False, compare=False, default_factory=dict)

    def __post_init__(self) -> None:
        self._places.update({it: at for at, it in enumerate(self.own or (), 1)})

    def outward(self, local: int) -> int:
        """The global id of a local one."""
        if self.own is not None and local <= self.count:
            return self.own[local - 1]
        serial = local if self.own is None else self.issued + local - self.count
        return self.district * A_DISTRICT + serial

    def inward(self, parcel: int) -> Optional[int]:
        """The local id of a global one; None where none of the district's present layer, or made behind it, has it."""
        if parcel in self._places:
            return self._places[parcel]
        district, serial = divmod(parcel, A_DISTRICT)
        if district != self.district or serial < 1:
            return None
        if self.own is None:
            return serial
        return self.count + serial - self.issued if serial > self.issued else None

    def entry_outward(self, entry: Entry, before: int) -> Entry:
        """An entry with global ids, and numbered behind `before` entries of earlier journals."""
        out, new = (tuple(map(self.outward, it)) for it in (entry.out, entry.new))
        edit = renamed(entry.edit, self.outward)
        return entry._replace(number=before + entry.number, edit=edit, out=out, new=new)


def renamed(line: str, name: Callable[[int], int]) -> str:
    """An edit's line with other ids."""
    kind, *words = line.split(" ")
    named = _NAMED.get(kind, 0)
    return " ".join([kind, *(str(name(int(word))) for word in words[:named]), *words[named:]])


def parcels_of(line: str) -> Sequence[int]:
    """The ids that an edit's line names."""
    kind, *words = line.split(" ")
    return [int(word) for word in words[: _NAMED.get(kind, 0)]]


def corners_of(line: str) -> Sequence[Tuple[int, int]]:
    """The corners that an edit's line names."""
    kind, *words = line.split(" ")
    numbers = [int(word) for word in words[_NAMED.get(kind, 0) :]]
    return list(zip(numbers[::2], numbers[1::2]))
