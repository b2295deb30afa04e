"""Edits as lines of text by the parcels' own numbers and in the layer's unit: what `gandovel apply` reads."""
from __future__ import annotations

import math
import re
import shlex
from typing import List, NamedTuple, Sequence, Tuple

from ..errors import Refused, raise_all
from .edits import Edit, Id, Insert, Merge, Move, Parcel, Split, Straighten

_PARCELS = {"split": 1, "merge": 2, "move": 2, "insert": 0, "straighten": 0}
"""How many parcels a line names, behind its first word."""
_ID = re.compile(r"Id\(([0-9]{1,18})\)")
ADVICE = 'as in `merge 7 "1 / 2"`, `split 7 X Y X Y`: numbers of the parcels, places in the layer\'s unit'


class Line(NamedTuple):
    """A line of a file of edits: its number from 1, its text, and the edit that it is."""

    number: int
    text: str
    edit: Edit


def edits_of(text: str) -> List[Line]:
    """The edits of a text, a line each; empty lines, and those that begin with `#`, are left out.

    A line is the word of an edit, the numbers of its parcels as their column has them (in quotes where they have
    blanks; `Id(6)` for a parcel that an edit made), and places `X Y` in the layer's unit.

    Raises
    ------
    Refused
        L1, all at once: lines that are no edits.

    Examples
    --------
    >>> [line.edit for line in edits_of('merge 7 "1 / 2"')]
    [Merge(one='7', other='1 / 2')]
    """
    found, problems = [], []
    for number, line in enumerate(text.splitlines(), 1):
        if line.strip() and not line.startswith("#"):
            try:
                found.append(Line(number, line.strip(), _edit_of(shlex.split(line))))
            except ValueError as fault:
                problems.append(Refused("L1", f"line {number} is no edit ({fault})", "edits"))
    raise_all(problems, ADVICE)
    return found


def _edit_of(words: Sequence[str]) -> Edit:
    kind, rest = words[0], words[1:]
    count = _PARCELS.get(kind)
    if count is None:
        raise ValueError(f"{kind} is none of {', '.join(_PARCELS)}")
    if len(rest) < count:
        raise ValueError(f"{kind} names {count} parcel{'s' if count > 1 else ''}")
    parcels, places = [_parcel(word) for word in rest[:count]], _places(rest[count:])
    wanted = {"merge": 0, "insert": 3, "straighten": 1}.get(kind)
    if wanted is not None and len(places) != wanted or wanted is None and not places:
        raise ValueError(f"{kind} has {'a path' if wanted is None else wanted or 'no'} places, and not {len(places)}")
    if kind == "split":
        return Split(parcels[0], places)
    if kind == "merge":
        return Merge(*parcels)
    if kind == "move":
        return Move(parcels[0], parcels[1], places)
    return Insert(*places) if kind == "insert" else Straighten(places[0])


def _parcel(word: str) -> Parcel:
    found = _ID.fullmatch(word)
    return Id(found[1]) if found else word


def _places(words: Sequence[str]) -> List[Tuple[float, float]]:
    values = [float(word) for word in words]
    if len(values) % 2 or not all(map(math.isfinite, values)):
        raise ValueError("places are X Y, pairs of numbers")
    return list(zip(values[::2], values[1::2]))
