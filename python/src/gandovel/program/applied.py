"""Edits of a register by its own numbers, in its own unit: the parcels that come of them."""
from __future__ import annotations

import warnings
from collections import defaultdict
from typing import Any, Dict, List, Literal, Mapping, Optional, Sequence, Tuple, Union, Unpack

import geopandas as gpd

from ..arrays import Array
from ..errors import Refused, RefusedEdit, SeveralRefusedEdits
from ..large.verdict import test_editable
from ..out.exports import back, back_all
from ..reading.prepared import Prepared
from ..reading.register import Options, Register, register_of
from ..reading.sources import Source
from . import tool
from .commands import islands_on_disk
from .edits import Edit, Insert, Merge, Move, Split, Straighten, island_of, lines_of
from .layer_files import read_rings
from .verdicts import named

EDITS = (Split, Merge, Move, Insert, Straighten)


def apply(
    parcels: Register,
    edits: Union[Edit, str, Sequence[Any]],
    island: Optional[int] = None,
    *,
    zones: Optional[Source] = None,
    refused: Literal["raise", "keep"] = "raise",
    **options: Unpack[Options],
) -> gpd.GeoDataFrame:
    """The parcels after edits, which name them by their own numbers, and places in the layer's unit.

    Parameters
    ----------
    edits : edit, or a sequence of edits
        `Split`, `Merge`, `Move`, `Insert`, `Straighten`, or lines of a clerk's file (ids of the program, mm). A parcel
        is named by its own number, as its column has it, or by its `Id` in the program.
    island : int, optional
        A part of the city, from 1: edits are made there, and its parcels alone are returned. Without it each edit is
        made where its parcels are, and all parcels are returned.
    refused : {"raise", "keep"}
        Whether one refused edit refuses all, or is left out with a warning.

    Returns
    -------
    GeoDataFrame
        As `back` returns them: the parcels with their attributes and index labels, `came_from` and `edited`.
        `.attrs["answers"]` has the program's answer to each edit, in order: `ok` and its number, or `refused` and why.

    Raises
    ------
    RefusedEdit
        Edits that the program refuses (E1 ..); `all` has each. Nothing has come of the others.
    Refused
        H2 where the parcels do not tile the city, P13 for a number that is not there, L1 for a line that is no edit.

    Examples
    --------
    >>> import geopandas, gandovel
    >>> from shapely.geometry import box
    >>> plots = geopandas.GeoDataFrame(
    ...     {"parcel_no": [7, 8]}, geometry=[box(0, 0, 10, 10), box(10, 0, 20, 10)], crs=25832
    ... )
    >>> gandovel.apply(plots, gandovel.Merge(7, 8)).came_from.tolist()
    ['7,8']
    """
    if refused not in ("raise", "keep"):
        raise ValueError(f"refused is 'raise' or 'keep', and not {refused!r}")
    prepared = register_of(parcels, zones, **options)
    if isinstance(edits, Mapping):
        raise TypeError("edits: an edit (gandovel.Merge(7, 8) ..), or a sequence of these, is wanted")
    listed: List[Any] = [edits] if isinstance(edits, (str, *EDITS)) else list(edits)
    if island is not None and not 1 <= island <= len(prepared.islands):
        raise Refused("P13", f"part {island} of the city is not there: it has {len(prepared.islands)}", "parcels")
    of_islands: Dict[int, List[int]] = defaultdict(list)
    for at, edit in enumerate(listed):
        of_islands[island_of(prepared, edit) if island is None else island - 1].append(at)
    if island is not None or len(prepared.islands) == 1:
        of_islands.setdefault((island or 1) - 1, [])
    answers: Dict[int, str] = {}
    rings: Dict[int, Sequence[Array]] = {}
    for at, places in of_islands.items():
        rings[at], told = _edited(prepared, at, [listed[place] for place in places])
        answers.update({places[place]: answer for place, answer in told.items()})
    _test_refused(listed, answers, refused)
    result = back_all(prepared, rings) if island is None else back(prepared, rings[island - 1], island - 1)
    result.attrs["answers"] = [answers[place] for place in sorted(answers)]
    return result


def _edited(prepared: Prepared, at: int, edits: Sequence[Any]) -> Tuple[List[Array], Dict[int, str]]:
    """The rings of an island after edits, and the answer to each that is one, by its position."""
    island = prepared.islands[at]
    test_editable(island)
    lines = lines_of(prepared, edits, at)
    with islands_on_disk(prepared) as folders:
        folder, _ = folders[at]
        clerk = folder / "edits.txt"
        clerk.write_text("".join(f"{line}\n" for line in lines))
        try:
            told = tool.export(folder / "city.shp", folder / "parcels.shp", folder / "new", [clerk])
        except Refused as fault:
            if fault.code == "L1":  # the text is the number of the clerk's line
                text = f"edit {fault.text}, {lines[int(fault.text) - 1]!r}, is no line of a clerk's file"
                raise Refused("L1", text, "edits") from fault
            raise named(prepared, island, fault, "parcels") from fault
        rings = read_rings(folder / "new.shp")
    answered = [place for place, line in enumerate(lines) if _is_answered(place, line)]
    return rings, dict(zip(answered, (answer.split(" ", 4)[4] for answer in told)))


def _is_answered(place: int, line: str) -> bool:
    """Whether a clerk's line is an edit: no empty one, no remark, no word on the grid at the top."""
    return bool(line) and not line.startswith("#") and not (place == 0 and line == "grid cm")


def _test_refused(edits: Sequence[Any], answers: Dict[int, str], refused: str) -> None:
    """Raises what was refused, or warns of it."""
    problems = []
    for place in sorted(answers):
        word, _, why = answers[place].partition(" ")
        if word != "ok":
            code, _, rest = why.partition(" ")
            problems.append(RefusedEdit(code, f"{rest}: edit {place + 1}, {edits[place]!r}".lstrip(": ")))
    if problems and refused == "raise":
        raise problems[0] if len(problems) == 1 else SeveralRefusedEdits(problems)
    if problems:
        warnings.warn(f"{len(problems)} edits were refused: {'; '.join(map(str, problems))}", stacklevel=3)
