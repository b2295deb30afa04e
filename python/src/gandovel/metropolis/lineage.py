"""What became of each parcel, through all districts and through recuts: in global ids."""
from __future__ import annotations

from typing import Any, Dict, List, Optional, Tuple

from ..serve.entries import Entry
from ..serve.faults import Gone, NoSuchThing
from .office import Metropolis

Told = Tuple[int, Entry]
"""An entry with global ids, and its district."""


def entry_json(told: Told) -> Dict[str, Any]:
    """What an answer has of an entry."""
    return {"district": told[0], **told[1].as_json()}


class Lineage:
    """Questions about what parcels were made of, and what was made of them."""

    def __init__(self, metropolis: Metropolis) -> None:
        self._all = metropolis

    async def history(self, parcel: int) -> Tuple[List[Told], int, int]:
        """The entries that made it or took it out, in order; its district, and that one's version.

        Raises `NoSuchThing` where it never was, `NotServing`.
        """
        district = self._all.home(parcel)
        if district is None:
            raise NoSuchThing("E1", f"there never was a parcel {parcel}")
        old = [told for told in self._all.now.old if parcel in told[1].out or parcel in told[1].new]
        local = district.seat.ids.inward(parcel)
        async with district.open() as register:
            version = district.seat.before + await register.shown()
            of_it = [] if local is None else [(district.number, district.outward(it)) for it in register.past.of(local)]
            was_there = local is not None and 0 < local <= district.seat.ids.count
        if not (old or of_it or was_there):
            raise NoSuchThing("E1", f"there never was a parcel {parcel}")
        return [*old, *of_it], district.number, version

    async def lineage(self, parcel: int) -> List[Dict[str, Any]]:
        """A parcel, all that it was made of, and all that was made of it, by ascending ids. Raises as `history`."""
        seen: Dict[int, List[Told]] = {parcel: (await self.history(parcel))[0]}
        for step in (_parents, _children):
            ends = [parcel]
            while ends:
                found = [it for end in ends for it in step(end, seen[end])]
                ends = [it for it in dict.fromkeys(found) if it not in seen]
                for it in ends:
                    seen[it] = (await self.history(it))[0]
        return [await self._told(it, seen[it]) for it in sorted(seen)]

    async def _told(self, parcel: int, history: List[Told]) -> Dict[str, Any]:
        made, taken = _maker(parcel, history), _taker(parcel, history)
        return {
            "id": parcel,
            "number": await self.number(parcel),
            "replaces": _parents(parcel, history),
            "replaced_by": _children(parcel, history),
            "made_by": None if made is None else entry_json(made),
            "taken_by": None if taken is None else entry_json(taken),
        }

    async def number(self, parcel: int) -> Optional[str]:
        """The own number of a parcel; None where its district's present layer knows none."""
        district = self._all.home(parcel)
        local = None if district is None else district.seat.ids.inward(parcel)
        if district is None or local is None:
            return None
        async with district.open() as register:
            try:
                number: Optional[str] = register.layer.facts(local)["number"]
            except (IndexError, KeyError):
                return None
        return number

    async def missing(self, parcel: int) -> Exception:
        """Why there is no such parcel now."""
        history, _, _ = await self.history(parcel)
        taken = _taker(parcel, history)
        if taken is None:
            return NoSuchThing("E1", f"there is no parcel {parcel}")
        text = f"parcel {parcel} is gone: entry {taken[1].number} of district {taken[0]} took it out"
        return Gone("E2", text, by=entry_json(taken))


def _maker(parcel: int, history: List[Told]) -> Optional[Told]:
    """The entry that brought a parcel."""
    return next((it for it in history if parcel in it[1].new and parcel not in it[1].out), None)


def _taker(parcel: int, history: List[Told]) -> Optional[Told]:
    """The entry that took a parcel out."""
    return next((it for it in history if parcel in it[1].out and parcel not in it[1].new), None)


def _parents(parcel: int, history: List[Told]) -> List[int]:
    made = _maker(parcel, history)
    return [] if made is None else list(made[1].from_of(parcel))


def _children(parcel: int, history: List[Told]) -> List[int]:
    taken = _taker(parcel, history)
    return [] if taken is None else [it for it in taken[1].new if parcel in taken[1].from_of(it)]
