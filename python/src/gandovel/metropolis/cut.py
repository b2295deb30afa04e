"""Writes a metropolis: the prepared register with a folder for each district, and the layers of their outlines."""
from __future__ import annotations

import os
import sqlite3
import subprocess
import tempfile
from contextlib import closing
from pathlib import Path
from typing import Dict, List, Sequence, Tuple

from ..arrays import Array
from ..errors import Refused
from ..large import MOST_RINGS
from ..large.cutting import Districts, cut, partition_faults
from ..live.answers import start_refused
from ..live.journals import Chain
from ..program.layer_files import write_rings
from ..program.tool import ask, find_tool
from ..reading.prepared import OUT_ROW, Changes, Island, Prepared, Rows
from .borders import neighbours_of
from .manifest import NUMBERS, DistrictRow, Manifest, place_of_island, sums_of

_HOW = (
    "the districts can't be edited apart where the parcels do not tile: gandovel report says where, then prepare anew"
)


def save_metropolis(prepared: Prepared, out: Path, most: int) -> str:
    """Writes the folder, whole or not at all, in districts of at most `most` rings; a line that says how many.

    Refused P10 where they are too many, H1, H2 and as the program's commands are where the parcels do not tile; P14.
    """
    counts: List[int] = []
    prepared.save(out, lambda folder: counts.append(_write(prepared, folder, most)))
    return f"{counts[0]} districts"


def _write(prepared: Prepared, folder: Path, most: int) -> int:
    rows: List[DistrictRow] = []
    (folder / "districts").mkdir()
    with closing(sqlite3.connect(str(folder / NUMBERS))) as numbers:
        numbers.execute("CREATE TABLE numbers (number TEXT NOT NULL, district INTEGER NOT NULL)")
        for at, island in enumerate(prepared.islands, 1):
            rows += _write_island(prepared, island, at, folder, most, len(rows) + 1, numbers)
        numbers.execute("CREATE INDEX by_number ON numbers (number)")
        numbers.commit()
    if len(rows) > MOST_RINGS:
        raise Refused("P10", f"{len(rows)} districts are too many: say more --parcels-a-district")
    zones = prepared.zones is not None
    Manifest(len(prepared.islands), zones, tuple(prepared.zone_names), tuple(rows)).save(folder)
    return len(rows)


def _write_island(
    prepared: Prepared, island: Island, at: int, folder: Path, most: int, first: int, numbers: sqlite3.Connection
) -> List[DistrictRow]:
    """Writes the districts of an island, numbered from `first`."""
    rings = island.parcels.rings
    districts = cut(rings, most)
    wrong = partition_faults(districts, len(rings))
    if wrong:
        raise Refused("T11", f"row {wrong[0][0] + 1} is in {wrong[0][1]} districts: say another --parcels-a-district")
    place = place_of_island(folder, at, len(prepared.islands))
    write_rings(place / "districts.shp", districts.outlines)
    beside = neighbours_of(districts.outlines)
    told = []
    with tempfile.TemporaryDirectory(prefix="gandovel-", dir=folder) as aside:
        _write_outlines(place, Path(aside))
        for record, rows in enumerate(districts.rows, 1):
            number = first + record - 1
            here = folder / "districts" / str(number)
            part = district_of(prepared, island, rows.tolist(), districts.outlines[record - 1])
            part.save(here)
            for suffix in (".shp", ".shx"):
                os.replace(Path(aside) / f"part-{record}{suffix}", here / f"city{suffix}")
            names = set(part.numbers)
            numbers.executemany("INSERT INTO numbers VALUES (?, ?)", [(name, number) for name in names])
            others = tuple(sorted(first + it for it in beside[record - 1]))
            told.append(row_of(number, at, record, here, len(rows), others))
    _test_areas(island, districts)
    return told


def _write_outlines(place: Path, aside: Path) -> None:
    """Has the program write each outline of the layer of them, which it refuses where they do not tile the city."""
    layers = str(place / "city.shp"), str(place / "districts.shp")
    try:
        ask(["part", *layers, "--all", "--unit", "mm", "--out", str(aside / "part")])
    except Refused as fault:
        raise Refused(fault.code, f"the outlines of the districts do not tile ({fault.text}): {_HOW}") from fault


def _test_areas(island: Island, districts: Districts) -> None:
    """Tests that the program's word on all districts is of all parcels: none is left out by the cut."""
    if sum(len(rows) for rows in districts.rows) != len(island.parcels.rings):
        raise Refused("T11", "the districts have other parcels than the layer: say another --parcels-a-district")


def district_of(prepared: Prepared, island: Island, rows: Sequence[int], outline: Array) -> Prepared:
    """Some rows of an island as a register of its own, in an outline; with the sources that they come from."""
    of = island.parcels
    used = sorted({of.source[row] for row in rows} - {OUT_ROW})
    places: Dict[int, int] = {source: at for at, source in enumerate(used)}
    places[OUT_ROW] = OUT_ROW
    parcels = Rows(
        [of.rings[row] for row in rows], [places[of.source[row]] for row in rows], [of.part[row] for row in rows]
    )
    return Prepared(
        prepared.parcels.iloc[used],
        [prepared.numbers[source] for source in used],
        prepared.number,
        prepared.unit,
        [Island(outline, parcels)],
        changes=Changes(),
        told=Changes().told(),
    )


def row_of(number: int, island: int, record: int, folder: Path, parcels: int, others: Tuple[int, ...]) -> DistrictRow:
    """What a manifest says of a district that was written. Refused where its parcels do not tile its outline."""
    layer = layer_digest(number, folder)
    return DistrictRow(number, island, record, parcels, layer, sums_of(folder), others)


def layer_digest(number: int, folder: Path) -> str:
    """The digest of a district's layer, as a journal of a session with it names it. Refused H1, H2 .. by its number."""
    with tempfile.TemporaryDirectory(prefix="gandovel-") as aside:
        journal = Path(aside) / "journal"
        words = [str(folder / name) for name in ("city.shp", "parcels.shp")]
        command = [find_tool(), "session", *words, "--unit", "mm", "--journal", str(journal)]
        ended = subprocess.run(command, input="close\n", capture_output=True, text=True, errors="replace")
        errors = [line[len("error: ") :] for line in ended.stderr.splitlines() if line.startswith("error: ")]
        if ended.returncode != 0:
            fault = start_refused(errors[-1] if errors else "T2", str(journal))
            raise Refused(fault.code, f"district {number} ({fault.text}): {_HOW}", fault.role)
        chain = Chain()
        chain.feed(journal.read_bytes())
    return chain.layer
