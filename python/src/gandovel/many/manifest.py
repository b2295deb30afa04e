"""The manifest: a table of cities, one a row, as CSV. It says which files each has, and which cities are districts."""
from __future__ import annotations

import csv
import os
import re
from collections import defaultdict
from dataclasses import dataclass
from pathlib import Path
from typing import Dict, List, Optional, Sequence, Set, Tuple, Union

from ..errors import Refused

COLUMNS = ("name", "city", "parcels", "zones", "unit", "edits", "number", "part_of", "district")
NEEDED = ("name", "city", "parcels", "unit")
UNITS = ("mm", "cm", "m")
LONGEST_NAME = 200
"""In bytes: a result's folder has the city's name, and one that is being written some 50 more."""


@dataclass(frozen=True)
class Row:
    """A city of the manifest. Paths are absolute; the unit is that of all its layers: `mm`, `cm` or `m`.

    A row with zones is overlaid, one without is checked. `edits` are clerks' files; `number` is the column of the
    parcels' own numbers in their .dbf. A row that is a district has in
    `part_of` the name of the row whose parcels are the districts, and in `district` its record there, from 1. Its
    `city` is None until its ring is cut out of that layer.
    """

    name: str
    city: Optional[str]
    parcels: str
    unit: str
    zones: Optional[str] = None
    edits: Tuple[str, ...] = ()
    part_of: Optional[str] = None
    district: Optional[int] = None
    number: Optional[str] = None


def read_manifest(path: Union[str, Path]) -> List[Row]:
    """The rows of a manifest, in order. Paths in it are relative to its folder; files of edits have `;` between.

    Columns may be in capitals; those with other names are left alone. Refused P1 where the file can't be read, P2 for a
    column that is missing or stands twice, P3 for a name that is missing
    or stands twice, P15 for a row that is not understood.
    """
    path = Path(path)
    try:
        with open(path, newline="", encoding="utf-8-sig") as file:
            reader = csv.reader(file, strict=True)
            table = [(reader.line_num, [cell.strip() for cell in line]) for line in reader if any(map(str.strip, line))]
    except (OSError, UnicodeDecodeError, csv.Error) as fault:
        raise Refused("P1", f"the manifest {path} can't be read: {fault}") from fault
    header = [name.lower() for name in table[0][1]] if table else []
    _test_header(path, header)
    folder = os.path.dirname(os.path.abspath(path))
    rows = [_row(folder, line, dict(zip(header, _full(line, cells, header)))) for line, cells in table[1:]]
    if not rows:
        raise Refused("P15", f"the manifest {path} has no city")
    _test_names(rows)
    _test_districts(rows)
    return rows


def _test_header(path: Path, header: List[str]) -> None:
    missing = [name for name in NEEDED if name not in header]
    twice = [name for name in header if name in COLUMNS and header.count(name) > 1]
    if missing or twice:
        fault = f"has no column {missing[0]}" if missing else f"has the column {twice[0]!r} twice"
        raise Refused("P2", f"the manifest {path} {fault}; the columns are {', '.join(COLUMNS)}")


def _full(line: int, cells: List[str], header: List[str]) -> List[str]:
    if len(cells) > len(header):
        raise Refused("P15", f"line {line} of the manifest has {len(cells)} cells, and its header {len(header)}")
    return cells + [""] * (len(header) - len(cells))


def _row(folder: str, line: int, cells: Dict[str, str]) -> Row:
    where = f"line {line} of the manifest"
    name = cells["name"]
    if not name:
        raise Refused("P3", f"{where} has no name")
    if re.search(r"[/\x00-\x1f\x7f]", name) or name.startswith(".") or len(name.encode("utf-8")) > LONGEST_NAME:
        raise Refused(
            "P15", f"{where}: {name!r} is no name for a folder: no '/', no leading '.', {LONGEST_NAME} bytes at most"
        )
    part_of, district = cells.get("part_of") or None, cells.get("district", "")
    if (part_of is None) != (not district) or (district and not re.fullmatch(r"[1-9][0-9]{0,5}", district)):
        raise Refused("P15", f"{where}: part_of and district go together; district is a record, from 1")
    if part_of is not None and cells["city"]:
        raise Refused("P15", f"{where}: a district has no city of its own: its ring is that of the layer of districts")
    for needed in ("city", "parcels") if part_of is None else ("parcels",):
        if not cells[needed].lower().endswith(".shp"):
            raise Refused("P15", f"{where}: {needed} is to be a .shp file, and is {cells[needed]!r}")
    zones = cells.get("zones", "")
    if zones and not zones.lower().endswith(".shp"):
        raise Refused("P15", f"{where}: zones is to be a .shp file, and is {zones!r}")
    if cells["unit"] not in UNITS:
        raise Refused("P15", f"{where}: unit is to be mm, cm or m, and is {cells['unit']!r}")

    def absolute(cell: str) -> str:
        return os.path.normpath(os.path.join(folder, cell))

    edits = tuple(absolute(cell.strip()) for cell in cells.get("edits", "").split(";") if cell.strip())
    return Row(
        name,
        absolute(cells["city"]) if part_of is None else None,
        absolute(cells["parcels"]),
        cells["unit"],
        absolute(zones) if zones else None,
        edits,
        part_of,
        int(district) if district else None,
        cells.get("number") or None,
    )


def _test_names(rows: List[Row]) -> None:
    seen: Set[str] = set()
    for row in rows:
        if row.name in seen:
            raise Refused("P3", f"the name {row.name} stands twice in the manifest")
        seen.add(row.name)


def _test_districts(rows: List[Row]) -> None:
    by_name = {row.name: row for row in rows}
    taken: Dict[Tuple[str, int], str] = {}
    for row in rows:
        if row.part_of is None or row.district is None:
            continue
        if row.part_of not in by_name:
            raise Refused("P15", f"{row.name} is part of {row.part_of}, which is no row of the manifest")
        if by_name[row.part_of].edits:
            raise Refused("P15", f"{row.part_of} has districts and edits: edits give its districts other numbers")
        other = taken.setdefault((row.part_of, row.district), row.name)
        if other != row.name:
            raise Refused("P15", f"{other} and {row.name} are both district {row.district} of {row.part_of}")
    reached = {row.name for level in by_depth(rows) for row in level}
    for row in rows:
        if row.name not in reached:
            raise Refused("P15", f"{row.name} is a part of itself")


def by_depth(rows: Sequence[Row]) -> List[List[Row]]:
    """The rows that are no districts, then their districts, then the districts of these, and so on."""
    below: Dict[Optional[str], List[Row]] = defaultdict(list)
    for row in rows:
        below[row.part_of].append(row)
    levels, level = [], below[None]
    while level:
        levels.append(level)
        level = [row for above in level for row in below[above.name]]
    return levels


def bottom_of(rows: Sequence[Row]) -> List[Row]:
    """The districts that have no districts."""
    above = {row.part_of for row in rows}
    return [row for row in rows if row.part_of is not None and row.name not in above]


def cities_above(rows: Sequence[Row]) -> Dict[str, List[Row]]:
    """For each row of a manifest the rows that it is part of, the nearest first."""
    by_name = {row.name: row for row in rows}
    found: Dict[str, List[Row]] = {}
    for level in by_depth(rows):
        for row in level:
            above = by_name.get(row.part_of or "")
            found[row.name] = [] if above is None else [above, *found[above.name]]
    return found
