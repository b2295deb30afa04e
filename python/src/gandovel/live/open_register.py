"""A register that stays open, as frames: its parcels and entries, points that are located, edits by its own numbers."""
from __future__ import annotations

import os
from pathlib import Path
from types import TracebackType
from typing import Any, Callable, Dict, Iterable, List, Optional, Sequence, Tuple, Type, Unpack

import geopandas as gpd
import pandas as pd

from ..errors import JournalRefused, Refused
from ..exact.whole_numbers import whole_numbers
from ..large.verdict import test_editable
from ..out.exports import back
from ..out.own_frames import free_name
from ..program import tool
from ..program.edits import BRINGS, Edit, Id, NewId, Parcel, id_of, line_of, path_of
from ..program.layer_files import read_rings
from ..program.tool import PathLike
from ..program.verdicts import write_island
from ..reading.keys import keys_at
from ..reading.points import on_grid, points_of
from ..reading.prepared import OUT_ROW, Prepared
from ..reading.register import Options, Register, register_of
from .answers import Accepted
from .checkpoint import Checkpoint, checkpoint_of, is_checkpoint
from .desk_calls import Calls, RenamedDesk
from .own_folder import OwnFolder
from .session import Session
from .tail import History
from .transaction import Transaction

OWN_DESK = "own"
"""The desk of the register's own edits, where other clerks have desks, too."""
_ADVICE = {
    "S1": "it can't be opened, made or read, or is no regular file: give a path in a folder that is there",
    "in use": "another session has it open: close that first",
    "no journal": "it is no journal: give another path",
    "another layer": "it was begun with other parcels: give those, in their order, or another path",
    "changed": "this line is not as a session wrote it: gandovel journal --repair says what can be kept",
}
"""What to do where a journal is refused, by the code."""


def open(
    parcels: Register,
    journal: Optional[PathLike] = None,
    *,
    island: Optional[int] = None,
    desks: Sequence[str] = (),
    timeout: Optional[float] = None,
    witness: Optional[PathLike] = None,
    **options: Unpack[Options],
) -> "OpenRegister":
    """Opens a register for edits and questions, as frames in its own numbers and its own unit.

    Parameters
    ----------
    parcels : Prepared, path, GeoDataFrame or GeoSeries
        The register as it was before the first edit; with the options of `prepare` where it is not prepared yet. Or the
        folder of a checkpoint, whose journal is taken where none is named: entries and ids go through it.
    journal : path, optional
        Where its edits are kept: those that are there are made first. Without it they are gone with the session.
    island : int, optional
        The part of the city, from 1, where it has several: a journal is of one.
    desks : sequence of str
        The names of other clerks' desks, seven at most, which are opened by `gandovel.Desk.at(register.path(NAME))`.
    timeout : float, optional
        Seconds that the start and each call may take.
    witness : path, optional
        A file on another disk, which keeps the end of the journal, too: the next start with it misses a lost end.

    Returns
    -------
    OpenRegister
        A context manager, which closes it.

    Raises
    ------
    Refused
        H2 where the parcels do not tile, P20 where the journal is not that of the witness, P13 where the city has
        several parts and none is named, and as `prepare` does.
    JournalRefused
        The journal is another layer's, or changed; `JournalInUse`: it is open elsewhere.

    Examples
    --------
    >>> import geopandas, gandovel
    >>> from shapely.geometry import box
    >>> plots = geopandas.GeoDataFrame(
    ...     {"parcel_no": [7, 8]}, geometry=[box(0, 0, 10, 10), box(10, 0, 20, 10)], crs=25832
    ... )
    >>> with gandovel.open(plots) as register:
    ...     made = register.edit(gandovel.Merge(7, 8), who="anna, deed 17")
    ...     register.parcels[["came_from", "area2_mm2"]].values.tolist()
    [['7,8', 400000000]]
    """
    checkpoint = checkpoint_of(Path(parcels)) if is_checkpoint(parcels) else None  # type: ignore[arg-type]
    prepared = register_of(parcels if checkpoint is None else checkpoint.origin, None, **options)
    count = len(prepared.islands)
    island = island if checkpoint is None or island is not None else checkpoint.island
    if island is None and count > 1:
        raise Refused("P13", f"the city has {count} parts, and a journal is of one: say which by island=", "parcels")
    if island is not None and not 1 <= island <= count:
        raise Refused("P13", f"part {island} of the city is not there: it has {count}", "parcels")
    test_editable(prepared.islands[(island or 1) - 1])
    if checkpoint is not None and island != checkpoint.island:
        raise Refused("P13", f"island={island}: the checkpoint {parcels} is of part {checkpoint.island}", "parcels")
    return OpenRegister(prepared, (island or 1) - 1, journal, desks, timeout, checkpoint, witness)


class OpenRegister:
    """A running session over a register, which `gandovel.open` begins; a context manager, which closes it.

    Parcels are named by their own numbers while they are as they were given, and from then on by the ids that edits
    gave them: `Id`, as `Accepted.new` and the columns `ids` have them. Places are in the layer's unit. For one thread
    at a time.

    Attributes
    ----------
    prepared : Prepared
        The register as it was before the first edit.
    session : Session
        The program's session, in ids and whole millimetres, for what else it can do: `check`, `export`, `publish`.
    """

    def __init__(
        self,
        prepared: Prepared,
        at: int,
        journal: Optional[PathLike],
        desks: Sequence[str],
        timeout: Optional[float],
        checkpoint: Optional[Checkpoint] = None,
        witness: Optional[PathLike] = None,
    ) -> None:
        """Begins the session; `open` says what is taken, and `at` is the island, from 0."""
        self.prepared, self._at, self._checkpoint = prepared, at, checkpoint
        self._folder = OwnFolder()
        self._parcels: Optional[Tuple[int, gpd.GeoDataFrame]] = None
        self._rows = prepared.islands[at].parcels.source
        try:
            self._layers = self._path("city.shp"), self._path("parcels.shp")
            self.journal = os.path.join(self._folder.name, "journal") if journal is None else os.fspath(journal)
            if checkpoint is None:
                write_island(Path(self._folder.name), prepared.islands[at])
            else:
                self._layers = checkpoint.layers
                self.journal = str(checkpoint.journal) if journal is None else self.journal
            names = (OWN_DESK, *desks) if desks else ()
            if witness is not None and journal is None and checkpoint is None:
                raise Refused("P20", f"{os.fspath(witness)}: a witness is of a journal: name the journal, too")
            self.session = Session(*self._layers, journal=self.journal, desks=names, timeout=timeout, witness=witness)
        except JournalRefused as fault:
            self._folder.cleanup()
            words = _ADVICE.get(fault.code, "this edit does not fit the layer: give the layer that the journal is of")
            raise type(fault)(fault.code, f"{fault.text}: {self.journal}: {words}".lstrip(": "), fault.line) from fault
        except BaseException:
            self._folder.cleanup()
            raise
        try:
            self._desk: Calls = self.session.desk(OWN_DESK) if desks else self.session
            if checkpoint is not None:
                self._desk = RenamedDesk(self._desk, checkpoint)
            count = len(self._rows) if checkpoint is None else checkpoint.ids.count
            self._past = History(Path(self.journal), count, checkpoint)
        except BaseException:
            self.session.terminate()
            self._folder.cleanup()
            raise

    def __repr__(self) -> str:
        return f"<OpenRegister: {len(self.prepared.numbers)} parcels as given, {self.count()} entries, {self.journal}>"

    @property
    def parcels(self) -> gpd.GeoDataFrame:
        """The parcels of now.

        Returns
        -------
        GeoDataFrame
            As `apply` returns them: with the attributes, index labels and column of numbers that they were given with,
            `came_from` and `edited`. `ids` (text, comma separated) are their ids in the program; area2_mm2 (whole
            number: twice the area in mm2, exact) and area_m2 replace columns of these names. `.attrs["entries"]` says
            after how many entries they are so.
        """
        count = self.count()
        if self._parcels is None or self._parcels[0] != count:
            self._parcels = count, self._parcels_after(count)
        return self._parcels[1].copy()

    def _parcels_after(self, count: int) -> gpd.GeoDataFrame:
        self._replayed(self._past.lines(count))
        ids = self._past.ids(count)
        frame = back(self.prepared, read_rings(self._path("new.shp")), self._at, ids)
        doubled = tool.areas(self._path("new.shp"))
        of_ids = {number: doubled[record] for record, number in enumerate(ids, 1)}
        sums = [sum(of_ids[int(number)] for number in text.split(",")) for text in frame["ids"]]
        frame["area2_mm2"] = whole_numbers(sums, frame.index)
        frame["area_m2"] = [value / 2_000_000 for value in sums]
        frame.attrs["entries"] = count
        return frame

    @property
    def entries(self) -> pd.DataFrame:
        """The accepted edits, the oldest first.

        Returns
        -------
        DataFrame
            Indexed by `entry`, the number from 1. Columns: time (UTC), clerk (the number of the desk), who and why (as
            `who=` said it), kind (`merge` ..), numbers (text, comma separated: own numbers that it took out), out and
            new (text: ids that it took out and brought), edit (the journal's line: ids, mm).
        """
        records = self._past.records(self.count())
        changes = self._past.changes(len(records))
        columns = {
            "time": pd.Series([record.time for record in records], dtype="datetime64[ns, UTC]"),
            "clerk": [record.clerk for record in records],
            "who": [record.said.name for record in records],
            "why": [record.said.why for record in records],
            "kind": [record.edit.partition(" ")[0] for record in records],
            "numbers": [",".join(self._numbers(map(int, change.out))) for change in changes],
            "out": [",".join(change.out) for change in changes],
            "new": [",".join(change.new) for change in changes],
            "edit": [record.edit for record in records],
        }
        return pd.DataFrame(columns).set_axis(pd.RangeIndex(1, len(records) + 1, name="entry"), axis=0)

    def count(self) -> int:
        """How many entries there are now."""
        return self._desk.entries()

    def locate(self, points: Any) -> gpd.GeoDataFrame:
        """In which parcels of now points lie; it waits for no clerk.

        Parameters
        ----------
        points : (x, y), Point, a sequence of these, GeoSeries, GeoDataFrame or path
            As of `gandovel.locate`.

        Returns
        -------
        GeoDataFrame
            The points with their own index and the columns of `gandovel.locate`, where a parcel that an edit brought
            has no own number; `ids` (text: of all parcels there) and `entries` (after how many the answer holds).

        Raises
        ------
        Refused
            P4, P5, P7, P9, as `gandovel.locate`.
        """
        given, here, note = points_of(points, self.prepared)
        whole, moved = on_grid(here, self.prepared)
        places = self._desk.locate_all(whole.tolist())
        ids = [[number for number in place.ids if not self._is_outside(number)] for place in places]
        where = [place.where if of else "outside" for place, of in zip(places, ids)]
        own = keys_at(
            self.prepared.parcel_key, [self._row(of[0]) if at == "inside" else -1 for at, of in zip(where, ids)]
        )
        values: Dict[str, Any] = {
            "where": where,
            "numbers": [",".join(self._numbers(of)) for of in ids],
            "ids": [",".join(map(str, of)) for of in ids],
            "entries": [place.entries for place in places],
            "moved_mm": moved,
            "moved_how": note,
        }
        values[free_name(own.name, [*map(str, given.columns), *values])] = own.array
        result = given.copy()
        for column, value in values.items():
            result[column] = value
        return result

    def edit(self, edit: Edit, who: Optional[str] = None) -> Accepted:
        """Makes an edit; it is in the journal, on the disk, before the answer.

        Parameters
        ----------
        edit : Split, Merge, Move, Insert or Straighten
            With parcels by their own numbers or `Id`, and places in the layer's unit (the nearest whole mm).
        who : str, optional
            Who edits and why, as the journal is to say it: `anna, deed 17`.
        Returns
        -------
        Accepted
            The entry's number, and the parcels that it took out and brought, as `Id`.

        Raises
        ------
        RefusedEdit
            E1 to E12: nothing has changed.
        Refused
            P13: a number that is not there, has several records, or that an edit took out.
        """
        return self.make(edit, who)

    def make(self, edit: Edit, who: Optional[str], given: Optional[Callable[[NewId], Id]] = None) -> Accepted:
        """As `edit`; `given` says the id that a parcel to come has got, by which a `Transaction` names it."""
        made = self._desk.edit_line(self._line(edit, given), who)
        return Accepted(made.number, tuple(map(Id, made.out)), tuple(map(Id, made.new)))

    def transaction(self, who: Optional[str] = None) -> Transaction:
        """Edits that are tried together, and made where all can be: `with register.transaction() as edits:`.

        `Transaction` says what that promises where other clerks edit, too. `who` is as of `edit`.
        """
        return Transaction(self, who)

    def tried(self, edits: Sequence[Edit], count: int) -> List[str]:
        """What the program answers to edits behind the first `count` entries, `ok ..` or `refused ..`; none is made.

        The program makes the entries and these edits on the layer as it was, apart from the session.
        """
        done = self._past.lines(count)
        first = [self._past.next_id(count)]
        for edit in edits:
            first.append(first[-1] + BRINGS[type(edit)])
        lines = [self._line(edit, lambda new: Id(first[new.edit] + new.which)) for edit in edits]
        of = self._checkpoint
        if of is None:
            return self._replayed([*done, *lines])[len(done) :]
        return list(map(of.outward, self._replayed([*done, *map(of.inward, lines)])[len(done) :]))

    def path(self, name: str) -> str:
        """What `gandovel.Desk.at` is given for the desk of another clerk with this name. ValueError where none has
        it."""
        return self.session.path(name)

    def close(self) -> Optional[int]:
        """Closes the register, and answers how many entries it has. A second call does nothing."""
        try:
            return self.session.close()
        finally:
            self._forget()

    def __enter__(self) -> "OpenRegister":
        return self

    def __exit__(
        self, kind: Optional[Type[BaseException]], fault: Optional[BaseException], trace: Optional[TracebackType]
    ) -> None:
        try:
            self.session.__exit__(kind, fault, trace)
        finally:
            self._forget()

    def _forget(self) -> None:
        self._past.close()
        self._folder.cleanup()

    def _path(self, name: str) -> str:
        return os.path.join(self._folder.name, name)

    def _replayed(self, lines: Sequence[str]) -> List[str]:
        """The program's answers (`ok ..`, `refused ..`) to edits of the layer as it was; the parcels are `new.shp`."""
        clerk = Path(self._path("edits.txt"))
        clerk.write_text("".join(f"{line}\n" for line in lines))
        told = tool.export(*self._layers, self._path("new"), [clerk])
        return [answer.split(" ", 4)[4] for answer in told]

    def _line(self, edit: Edit, given: Optional[Callable[[NewId], Id]]) -> str:
        """An edit as the session takes it."""
        named = lambda parcel: given(parcel) if given and isinstance(parcel, NewId) else self._id(parcel)
        return line_of(edit, named, lambda places: path_of(self.prepared, places))

    def _id(self, parcel: Parcel) -> int:
        """The id of a parcel. Refused P13 where a number is none, or of a parcel that an entry took out."""
        number = id_of(self.prepared, parcel, self._at)
        if not isinstance(parcel, Id):
            taken = self._past.taken(number, self.count())
            if taken is not None:
                entry, new = taken[0], ", ".join(f"Id({it})" for it in taken[1])
                raise Refused("P13", f"entry {entry} took it out, and brought {new}", "parcels", number=str(parcel))
        return number

    def _is_outside(self, number: int) -> bool:
        """Whether an id is that of the area outside, which `frame` adds."""
        return number <= len(self._rows) and self._rows[number - 1] == OUT_ROW

    def _row(self, number: int) -> int:
        """The row of the parcels (from 0) that has an id; -1 for the area outside, and what an edit brought."""
        return self._rows[number - 1] if number <= len(self._rows) else OUT_ROW

    def _numbers(self, ids: Iterable[int]) -> List[str]:
        """The own numbers of parcels, each once, by their ids; none of those that edits brought."""
        rows = dict.fromkeys(self._row(number) for number in ids)
        return [self.prepared.number_of(row) for row in rows if row != OUT_ROW]
