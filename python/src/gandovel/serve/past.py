"""What became of each parcel, by the published entries: lineage both ways, and which version was there at a moment."""
from __future__ import annotations

from bisect import bisect_right
from datetime import datetime, timezone
from typing import Dict, List, Optional, Tuple

from .entries import Entry


class Past:
    """The published entries by the parcels that they took out or brought, and by time."""

    def __init__(self) -> None:
        self._by_parcel: Dict[int, List[Entry]] = {}
        self._times: List[str] = []
        """The latest time up to each entry: clocks are put back now and then."""

    def add(self, entry: Entry) -> None:
        """Takes in the next entry."""
        self._times.append(max(entry.time, self._times[-1]) if self._times else entry.time)
        for parcel in {*entry.out, *entry.new}:
            self._by_parcel.setdefault(parcel, []).append(entry)

    def version_at(self, moment: datetime) -> int:
        """How many entries were made by a moment."""
        return bisect_right(self._times, moment.astimezone(timezone.utc).strftime("%Y-%m-%dT%H:%M:%SZ"))

    def of(self, parcel: int) -> List[Entry]:
        """The entries that took the parcel out or brought it, in order."""
        return self._by_parcel.get(parcel, [])

    def made_by(self, parcel: int) -> Optional[Entry]:
        """The entry that brought a parcel; None for one of the layer. A change of its corners alone brings none."""
        return next((it for it in self.of(parcel) if parcel in it.new and parcel not in it.out), None)

    def taken_by(self, parcel: int) -> Optional[Entry]:
        """The entry that took a parcel out; None for one that is there."""
        return next((it for it in self.of(parcel) if parcel in it.out and parcel not in it.new), None)

    def parents(self, parcel: int) -> Tuple[int, ...]:
        """The parcels that a parcel was made of."""
        entry = self.made_by(parcel)
        return () if entry is None else entry.from_of(parcel)

    def children(self, parcel: int) -> Tuple[int, ...]:
        """The parcels that were made of a parcel."""
        entry = self.taken_by(parcel)
        return () if entry is None else tuple(it for it in entry.new if parcel in entry.from_of(it))

    def lineage(self, parcel: int) -> List[int]:
        """A parcel, all that it was made of, and all that was made of it, by ascending ids."""
        found = {parcel}
        for step in (self.parents, self.children):
            ends = [parcel]
            while ends:
                ends = [it for end in ends for it in step(end) if it not in found]
                found.update(ends)
        return sorted(found)
