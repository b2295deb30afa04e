"""Edits of an open register that are collected, tried together, and then made one after another."""
from __future__ import annotations

from itertools import count
from types import TracebackType
from typing import TYPE_CHECKING, List, Optional, Sequence, Tuple, Type

from ..errors import NoSuchLine, PartlyMade, Refused, RefusedEdit, SessionClosed, SessionError, SeveralRefusedEdits
from ..program.edits import BRINGS, Edit, Id, NewId
from .answers import Accepted

if TYPE_CHECKING:
    from .open_register import OpenRegister

TRIES = 8
"""How often edits are tried anew where other clerks' came in the meantime, before they are made all the same."""


_SINCE = ", since others came between"
_NUMBERS = count(1)
"""The numbers of transactions, so that a parcel to come is not taken for one of another."""


class Transaction:
    """Edits that are made where a `with` block ends, if all of them can be; `OpenRegister.transaction` gives one.

    The program makes one edit at a time. So at the end of the block all edits are first tried, in order, by the
    program on the layer and the entries of this moment, where nobody sees them. If one is refused there, none is made.
    Else they are sent at once, one after another. An edit of another clerk can still come between: readers may then
    see some of the edits without the others, and where one is refused for it, those before it stay made, and
    `PartlyMade` says which; so it is where the session ends between. Where nobody else edits the register and the
    session lives on, all edits are made, or none.

    Where the block is left by an exception, no edit is tried or made.

    Raises
    ------
    RefusedEdit
        Where the block ends: edits that are refused as they are tried; `all` has each, and none is made.
    PartlyMade
        Some were made: its `made`, `unsure` and `left` say which.
    Refused
        P13: a number that is not there, or that an edit took out; none is made.

    Examples
    --------
    >>> import geopandas, gandovel
    >>> from shapely.geometry import box
    >>> plots = geopandas.GeoDataFrame(
    ...     {"parcel_no": [7, 8, 9]}, geometry=[box(at, 0, at + 10, 10) for at in (0, 10, 20)], crs=25832
    ... )
    >>> with gandovel.open(plots) as register:
    ...     with register.transaction("anna, deed 17") as edits:
    ...         (both,) = edits.edit(gandovel.Merge(7, 8))
    ...         _ = edits.edit(gandovel.Merge(both, 9))
    ...     register.parcels.came_from.tolist()
    ['7,8,9']

    Attributes
    ----------
    made : list of Accepted
        The answers, in the order of the edits, once the block has ended.
    """

    def __init__(self, register: "OpenRegister", who: Optional[str]) -> None:
        """Takes the register, and who edits and why, as the journal is to say it of each edit."""
        self.made: List[Accepted] = []
        self._register, self._who = register, who
        self._edits: List[Edit] = []
        self._has_ended = False
        self._number = next(_NUMBERS)

    def edit(self, edit: Edit) -> Tuple[NewId, ...]:
        """Adds an edit.

        Returns
        -------
        tuple of NewId
            The parcels that it will bring, by which edits behind it name them: two of a split and a move, one of a
            merge, none of the others.

        Raises
        ------
        TypeError
            What is no edit.
        ValueError
            The block has ended; a parcel to come is of another one.
        """
        if type(edit) not in BRINGS:
            raise TypeError(f"no edit: {edit!r}")
        if self._has_ended:
            raise ValueError("the transaction has ended: begin another one")
        for parcel in (getattr(edit, name, None) for name in ("parcel", "one", "other")):
            if isinstance(parcel, NewId) and parcel.of != self._number:
                raise ValueError(f"{parcel} is of another transaction: name the parcel by its Id, as its `made` has it")
        self._edits.append(edit)
        return tuple(NewId(len(self._edits) - 1, which, self._number) for which in range(BRINGS[type(edit)]))

    def __enter__(self) -> "Transaction":
        return self

    def __exit__(
        self, kind: Optional[Type[BaseException]], fault: Optional[BaseException], trace: Optional[TracebackType]
    ) -> None:
        self._has_ended = True
        if fault is None and self._edits:
            self._try()
            self._make()

    def _try(self) -> None:
        """Tries all edits, anew where entries came meanwhile. Raises `RefusedEdit`: none of them was made."""
        for _ in range(TRIES):
            entries = self._register.count()
            problems = _problems(self._edits, self._register.tried(self._edits, entries))
            if problems:
                raise problems[0] if len(problems) == 1 else SeveralRefusedEdits(problems)
            if self._register.count() == entries:
                return

    def _make(self) -> None:
        """Makes the edits, up to the first that is refused."""
        for place, edit in enumerate(self._edits):
            try:
                self.made.append(self._register.make(edit, self._who, self._given))
            except Refused as fault:
                if not self.made and not _may_be_made(fault):
                    raise
                raise self._partly(place, fault) from fault

    def _given(self, parcel: NewId) -> Id:
        """The id that a parcel to come has got."""
        return Id(self.made[parcel.edit].new[parcel.which])

    def _partly(self, place: int, fault: Refused) -> PartlyMade:
        """What is said where the edit at a place was refused, or not answered, behind others that were made."""
        many, is_open = len(self._edits), _may_be_made(fault)
        unsure = self._edits[place : place + 1] if is_open else []
        left = self._edits[place + len(unsure) :]
        numbers = ", ".join(str(answer.number) for answer in self.made)
        sentences = [
            f"{fault.text}: edit {place + 1} of {many}, {self._edits[place]!r}, was "
            + (
                "not answered and may be in the journal"
                if is_open
                else f"refused{_SINCE if fault.code[0] in 'EP' else ''}"
            ),
            f"made were {place} (entries {numbers})" if place else "none was made before it",
            f"{len(left)} were not made",
        ]
        return PartlyMade(fault.code, "; ".join(sentences).lstrip(": "), self.made, unsure, left)


def _may_be_made(fault: Refused) -> bool:
    """Whether an edit that was answered so may be in the journal."""
    return isinstance(fault, SessionError) and not isinstance(fault, (NoSuchLine, SessionClosed))


def _problems(edits: Sequence[Edit], answers: Sequence[str]) -> List[RefusedEdit]:
    """What the program refuses of edits, by its answers in order (`ok ..` or `refused ..`)."""
    problems = []
    for place, (edit, answer) in enumerate(zip(edits, answers), 1):
        word, _, why = answer.partition(" ")
        if word != "ok":
            code, _, rest = why.partition(" ")
            problems.append(RefusedEdit(code, f"{rest}: edit {place} of {len(edits)}, {edit!r}".lstrip(": ")))
    return problems
