"""Edits of parcels, in the layer's own numbers and units, as the lines of a clerk's file."""
from __future__ import annotations

from dataclasses import dataclass, field
from typing import Any, Callable, List, Sequence, Tuple, Union

import numpy as np

from ..arrays import Array
from ..errors import Refused
from ..reading.loops import as_text
from ..reading.prepared import Prepared

Places = Sequence[Tuple[float, float]]


class Id(int):
    """A parcel's id in the program: its record from 1, or that of a row that an edit before made.

    `Merge(3, 4)` names the parcels with the numbers 3 and 4, `Merge(Id(3), Id(4))` the program's third and fourth.
    """

    def __repr__(self) -> str:
        return f"Id({int(self)})"

    def __str__(self) -> str:
        return str(int(self))


@dataclass(frozen=True)
class NewId:
    """A parcel that is still to come: of the edit at this place of its transaction (from 0), the first one or second.

    `Transaction.edit` gives it out, for edits behind that one. `of` is the transaction's number.
    """

    edit: int
    which: int
    of: int = field(default=0, repr=False)


Parcel = Union[str, int, float, NewId]
"""A parcel's own number, as its layer has it, or its `Id`; in a transaction a `NewId`, too."""


@dataclass(frozen=True)
class Split:
    """The parcel is cut in two along the path, whose ends are corners of its border."""

    parcel: Parcel
    path: Places


@dataclass(frozen=True)
class Merge:
    """The two parcels become one."""

    one: Parcel
    other: Parcel


@dataclass(frozen=True)
class Move:
    """The border of two parcels becomes the path, in the direction of the first one's ring."""

    one: Parcel
    other: Parcel
    path: Places


@dataclass(frozen=True)
class Insert:
    """The corner `new` is put into the edge between the corners `first` and `last`."""

    first: Tuple[float, float]
    last: Tuple[float, float]
    new: Tuple[float, float]


@dataclass(frozen=True)
class Straighten:
    """Removes the corner from every parcel that contains it, provided no ring bends there."""

    corner: Tuple[float, float]


Edit = Union[Split, Merge, Move, Insert, Straighten]
BRINGS = {Split: 2, Merge: 1, Move: 2, Insert: 0, Straighten: 0}
"""How many parcels an edit brings; those of corners leave all ids as they are."""


def lines_of(prepared: Prepared, edits: Sequence[Any], at: int = 0) -> List[str]:
    """The lines of a clerk's file, in whole millimetres. A line of text is taken as it is.

    A parcel is named by its own number, or by its `Id` in the program, as a row that an earlier edit made has. Refused
    P13 for a number that is not there or has several records.
    """
    return [edit if isinstance(edit, str) else _line(prepared, edit, at) for edit in edits]


def line_of(edit: Edit, name: Callable[[Any], int], path: Callable[[Places], str]) -> str:
    """An edit as the line of a clerk's file: `name` gives a parcel's id, `path` the text `X Y X Y ..` of places."""
    if isinstance(edit, Split):
        return f"split {name(edit.parcel)} {path(edit.path)}"
    if isinstance(edit, Merge):
        return f"merge {name(edit.one)} {name(edit.other)}"
    if isinstance(edit, Move):
        return f"move {name(edit.one)} {name(edit.other)} {path(edit.path)}"
    if isinstance(edit, Insert):
        return f"insert {path((edit.first, edit.last, edit.new))}"
    if isinstance(edit, Straighten):
        return f"straighten {path((edit.corner,))}"
    raise TypeError(f"no edit: {edit!r}")


def _line(prepared: Prepared, edit: Edit, at: int) -> str:
    return line_of(edit, lambda parcel: id_of(prepared, parcel, at), lambda places: path_of(prepared, places))


def id_of(prepared: Prepared, parcel: Parcel, at: int) -> int:
    """The program's id of a parcel of an island (from 0), by its own number or its `Id`.

    Raises
    ------
    Refused
        P13: a number that is not there, or has several records; a `NewId`, which only its transaction knows.
    """
    if isinstance(parcel, Id):
        return int(parcel)
    if isinstance(parcel, NewId):
        raise Refused("P13", f"{parcel} is of a transaction: use it there", "parcels")
    number = as_text(parcel)
    source = prepared.islands[at].parcels.source
    records = [record for record, row in enumerate(source, 1) if row >= 0 and prepared.numbers[row] == number]
    if not records:
        elsewhere = " in this part of the city" if number in prepared.numbers else ""
        text = f"it is not there{elsewhere} (the program's ids are given as gandovel.Id(3))"
        raise Refused("P13", text, "parcels", number=str(parcel))
    if len(records) > 1:
        ids = ", ".join(f"Id({record})" for record in records)
        raise Refused("P13", f"it has several records: name one of {ids}", "parcels", number=number)
    return records[0]


def island_of(prepared: Prepared, edit: Any) -> int:
    """The island, from 0, that an edit is of: by the number of its first parcel, or its first corner.

    Refused P13 where nothing says it: a line of text, or an `Id`, in a city of several parts; a corner of no parcel.
    """
    if len(prepared.islands) == 1:
        return 0
    first = getattr(edit, "parcel", getattr(edit, "one", None))
    if first is None and isinstance(edit, (Insert, Straighten)):
        corner = _whole([edit.first if isinstance(edit, Insert) else edit.corner], prepared)[0]
        return _island_with(prepared, corner)
    if first is None or isinstance(first, Id):
        text = f"the city has {len(prepared.islands)} parts, and ids begin anew in each: say which one by island="
        raise Refused("P13", text, "parcels")
    number = as_text(first)
    for at, island in enumerate(prepared.islands):
        if any(row >= 0 and prepared.numbers[row] == number for row in island.parcels.source):
            return at
    raise Refused("P13", "it is not there", "parcels", number=str(first))


def _island_with(prepared: Prepared, corner: Array) -> int:
    for at, island in enumerate(prepared.islands):
        if any((ring == corner).all(axis=1).any() for ring in island.parcels.rings):
            return at
    raise Refused("P13", f"no parcel has the corner {tuple((corner / prepared.scale).tolist())}", "parcels")


def path_of(prepared: Prepared, places: Places) -> str:
    """Places in the layer's unit as the program takes them: `X Y X Y ..` in whole mm, the nearest ones."""
    return " ".join(f"{x} {y}" for x, y in _whole(places, prepared).tolist())


def _whole(places: Places, prepared: Prepared) -> Array:
    """Places in the layer's unit as corners (n, 2) in whole mm; shapes of shapely are taken by their corners."""
    listed = getattr(places, "coords", places)
    plain = [place.coords[0][:2] if hasattr(place, "coords") else place for place in listed]
    values = np.asarray(plain, dtype=float).reshape(-1, 2) * prepared.scale
    return np.asarray(np.floor(values + 0.5), dtype=np.int64)
