"""The checks that a layer cut into districts is judged by: their files, and whether each was of the right outline."""
from __future__ import annotations

import os
import tempfile
from concurrent.futures import BrokenExecutor
from contextlib import contextmanager
from dataclasses import dataclass
from hashlib import sha256
from pathlib import Path
from typing import Dict, Iterator, List, Sequence, Tuple

import numpy as np

from ..arrays import Array
from ..errors import Refused
from ..program.layer_files import write_rings
from ..program.tool import ask
from ..reading.prepared import Island
from . import A_DISTRICT, how_cut
from .cutting import Districts, levels_of
from .runs import forked, jobs_of

HEAD = 108
"""Where the content of a shapefile's first record begins, in bytes: behind the file's head and its own."""
FORKED = 10_000
"""From so many rings on, districts are written by several processes."""


class Open(Refused):
    """A verdict that is open: a district was not judged, or what was judged does not fit together. `status` is 2."""

    def __init__(self, text: str, role: str = "") -> None:
        super().__init__("T11", f"the verdict is open: {text}", role)


@contextmanager
def folder_of_runs() -> Iterator[Path]:
    """A folder for the files of runs. Refused P14 where its disk does not take them; Open where a process is killed."""
    try:
        with tempfile.TemporaryDirectory(prefix="gandovel-") as name:
            yield Path(name)
    except BrokenExecutor as fault:
        raise Open("a process that wrote districts was killed") from fault
    except OSError as fault:
        where, why = tempfile.gettempdir(), fault.strerror or str(fault)
        raise Refused("P14", f"{where} can't be written: {why}: set TMPDIR to a folder with room") from fault


@dataclass(frozen=True)
class Piece:
    """One check of a cut layer: rings of a level, by their places, in an outline of the level above, or in the city.

    Level 0 are the layer's own rings, level 1 the districts' outlines, level 2 those of districts of districts.
    """

    name: str
    told: str
    level: int
    rows: Array
    city: Array

    @property
    def layer(self) -> str:
        """The name of its file of rings."""
        return "districts" if self.level else "parcels"


@dataclass(frozen=True)
class Plan:
    """The checks of a cut layer, that of the last level in the city first, and the rings of each level."""

    pieces: List[Piece]
    layers: List[Sequence[Array]]

    @classmethod
    def of(cls, city: Array, rings: Sequence[Array], levels: Sequence[Districts]) -> "Plan":
        """The checks of rings in a city by levels of districts."""
        pieces = [Piece("all", "the layer of districts", len(levels), np.arange(len(levels[-1])), city)]
        for level, districts in reversed(list(enumerate(levels))):
            for number, (rows, outline) in enumerate(zip(districts.rows, districts.outlines), 1):
                name = f"g{level}-{number}" if level else f"d{number}"
                told = f"group {level}-{number} of districts" if level else f"district {number}"
                pieces.append(Piece(name, told, level, rows, outline))
        return cls(pieces, [rings, *(districts.outlines for districts in levels)])

    def below(self, piece: Piece) -> List[int]:
        """The checks, by their places, of the rings that a piece has; none where these are the layer's own."""
        if not piece.level:
            return []
        first = next(at for at, it in enumerate(self.pieces) if it.level == piece.level - 1)
        return [first + row for row in piece.rows.tolist()]

    def rings(self, piece: Piece) -> List[Array]:
        """The rings of a piece."""
        return [self.layers[piece.level][row] for row in piece.rows.tolist()]


def levels_of_island(island: Island, role: str) -> List[Districts]:
    """The districts of an island's layer, and districts of these where they are more than a layer has; made once."""
    kept: Dict[str, List[Districts]] = island.__dict__.setdefault("_districts", {})
    how = how_cut()
    key = f"{role} {how.most}"
    if key not in kept:
        kept[key] = levels_of(getattr(island, role).rings, min(how.most or A_DISTRICT, A_DISTRICT))
    return kept[key]


def districts_of(island: Island, role: str) -> Districts:
    """The districts of an island's layer; made once."""
    return levels_of_island(island, role)[0]


def write_pieces(folder: Path, plan: Plan) -> List[str]:
    """Writes the rings of each piece and the outline around them; the outlines' checksums."""

    def write(at: int) -> str:
        piece = plan.pieces[at]
        here = folder / piece.name
        here.mkdir()
        write_rings(here / "city.shp", [piece.city])
        write_rings(here / f"{piece.layer}.shp", plan.rings(piece))
        return _record_sums((here / "city.shp").read_bytes())[0]

    return forked(write, len(plan.pieces), jobs_of(how_cut()) if len(plan.layers[0]) > FORKED else 1)


def with_parts(folder: Path, plan: Plan, sums: List[str]) -> List[Tuple[str, str]]:
    """Has the program write the outlines of each layer of them that tiles (`part --all`).

    Where a layer does not, the outlines stay as they were written, so that its districts are judged all the same.
    Answers the checksums of each outline as it stands in its layer, and as its district has it.
    """
    handed = list(sums)
    for piece in plan.pieces:
        if not piece.level:
            continue
        here = folder / piece.name
        layers = str(here / "city.shp"), str(here / f"{piece.layer}.shp")
        try:
            ask(["part", *layers, "--all", "--unit", "mm", "--out", str(here / "part")])
        except Refused:  # its `check` says why, or has no answer either
            continue
        for number, at in enumerate(plan.below(piece), 1):
            city = folder / plan.pieces[at].name / "city.shp"
            for suffix in (".shp", ".shx"):
                os.replace(here / f"part-{number}{suffix}", city.with_suffix(suffix))
            handed[at] = _record_sums(city.read_bytes())[0]
    return list(zip(sums, handed))


def _record_sums(data: bytes) -> List[str]:
    """The SHA-256 of the content of each record of a shapefile."""
    sums, begin = [], HEAD
    while begin < len(data):
        words = int.from_bytes(data[begin - 4 : begin], "big")
        sums.append(sha256(data[begin : begin + 2 * words]).hexdigest())
        begin += 8 + 2 * words
    return sums


def test_outlines(folder: Path, plan: Plan, sums: Sequence[Tuple[str, str]]) -> None:
    """Open where a run's city is another ring than the one that was cut out of the layer above that was judged."""
    for piece in plan.pieces:
        if not piece.level:
            continue
        judged = _record_sums((folder / piece.name / "districts.shp").read_bytes())
        for at, record in zip(plan.below(piece), judged):
            below = plan.pieces[at]
            now = _record_sums((folder / below.name / "city.shp").read_bytes())
            if now != [sums[at][1]] or record != sums[at][0]:
                raise Open(f"{below.told} was not judged in the outline that the layer of districts has")
        if len(judged) != len(piece.rows):
            raise Open(f"{piece.told} has {len(judged)} records, and {len(piece.rows)} were written")
