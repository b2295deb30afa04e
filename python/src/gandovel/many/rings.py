"""The rings of districts: each record of a layer of districts as a city of its own.

The program writes them all in one run (`part --all`), where the layer tiles its city. Where it does not, so that its
districts are judged all the same, each record is copied byte for byte. In another unit a ring's coordinates are those
of the same millimetres. That the layer which the program judges is the one that was cut, and a district's ring the one
that was cut out of it, is compared behind the runs (`DistrictLayer.sums`, `Ring.here`).
"""
from __future__ import annotations

import os
import re
import shutil
import struct
import subprocess
from dataclasses import dataclass
from pathlib import Path
from typing import Dict, List, Optional, Sequence, Tuple

from .worker.files import Checked, checked
from .worker.task import put_in_place, remove

MM_PER_UNIT = {"mm": 1, "cm": 10, "m": 1000}
POLYGON, HEADER, BOX, CORNERS = 5, 100, 4, 48
"""A polygon's kind, the length of a file's header, and where a record has its box and the corners of its one ring."""


class NoRing(Exception):
    """Why a district has no ring, as text."""


@dataclass(frozen=True)
class Ring:
    """A district's ring: the file, and what it was when it was written."""

    path: str
    here: Checked


class DistrictLayer:
    """A layer of districts as it was read once. `sums` has what its file was, by path.

    NoRing where it can't be read, or is no shapefile.
    """

    def __init__(self, path: str) -> None:
        self.path = path
        try:
            before = checked(path)
            self.data = Path(path).read_bytes()
            self.same = before is not None and checked(path) == before
        except OSError as fault:
            raise NoRing(f"P1 {path} can't be read: {fault.strerror}") from fault
        if before is None or not self.same:
            raise NoRing(f"T5 {path} changed while it was read")
        self.sums: Dict[str, Checked] = {path: before}
        self.records = _records(self.data)
        self.parts: Dict[int, bytes] = {}
        """The districts as the program wrote them, in mm, by their records."""

    def cut_by(self, program: str, city: str, unit: str, aside: Path) -> None:
        """Has the program write every district, through a folder that is not there. Where it writes none, nothing
        changes.

        NoRing where the layer changes meanwhile; OSError where the disk does not take the folder.
        """
        aside.mkdir()
        try:
            words = [program, "part", city, self.path, "--all", "--unit", unit, "--out", str(aside / "part")]
            ended = subprocess.run(words, stdin=subprocess.DEVNULL, stdout=subprocess.PIPE, stderr=subprocess.DEVNULL)
            if ended.returncode == 0:
                told = map(int, re.findall(rb"^part (\d+) \d+$", ended.stdout, re.MULTILINE))
                self.parts = {at: (aside / f"part-{at}.shp").read_bytes()[HEADER + 8 :] for at in told}
        finally:
            shutil.rmtree(aside, ignore_errors=True)
        if checked(self.path) != self.sums[self.path]:
            raise NoRing(f"T5 {self.path} changed while it was cut")

    def __len__(self) -> int:
        return len(self.records)

    def content(self, record: int) -> bytes:
        """The bytes of a record, from 1, behind its head. NoRing where there is none, or no polygon of one ring."""
        if not 0 < record <= len(self.records):
            raise NoRing(f"districts: H4 {record}")
        begin, end = self.records[record - 1]
        content = self.data[begin:end]
        try:
            kind, parts, points = struct.unpack_from("<i32x2i", content)
        except struct.error:
            kind, parts, points = 0, 0, 0
        if kind != POLYGON or parts != 1 or len(content) != CORNERS + 16 * points:
            raise NoRing(f"record {record} of {self.path} is no polygon of one ring")
        return content

    def write(self, record: int, unit: str, wanted: str, folder: Path) -> Ring:
        """Writes a record as `ring_UNIT.shp` of a folder, which it makes or replaces. NoRing; OSError."""
        content, of = self.content(record), unit
        if record in self.parts:
            content, of = self.parts[record], "mm"
        if of != wanted:
            content = in_unit(content, MM_PER_UNIT[of], MM_PER_UNIT[wanted])
        main, index = files_of(content)
        path = folder / f"ring_{wanted}.shp"
        if not _has(path, main) or not _has(path.with_suffix(".shx"), index):
            aside = folder.with_name(f".{folder.name}.{os.getpid()}.new")
            try:
                aside.mkdir()
                (aside / path.name).write_bytes(main)
                (aside / path.with_suffix(".shx").name).write_bytes(index)
                put_in_place(str(aside), str(folder))
            finally:
                remove(str(aside))
        here = checked(str(path))
        if here is None:
            raise NoRing(f"T5 {path} is gone")
        return Ring(str(path), here)


def _has(path: Path, content: bytes) -> bool:
    try:
        return path.read_bytes() == content
    except OSError:
        return False


def _records(data: bytes) -> List[Tuple[int, int]]:
    """Where the content of each record begins and ends, in bytes, up to the first that is torn."""
    records, at = [], HEADER
    while at + 8 <= len(data):
        end = at + 8 + 2 * struct.unpack_from(">i", data, at + 4)[0]
        if end <= at + 8 or end > len(data):
            break
        records.append((at + 8, end))
        at = end
    return records


def corners_mm(content: bytes, per_unit: int) -> Optional[List[int]]:
    """The coordinates of a record's ring in whole mm, x and y in turn; None where one is off the grid of that unit.

    One is on the grid where it is the double nearest to a whole number of millimetres.
    """
    count = (len(content) - CORNERS) // 8
    values = struct.unpack_from(f"<{count}d", content, CORNERS)
    try:
        whole = [round(value * per_unit) for value in values]
    except (ValueError, OverflowError):
        return None
    return whole if all(mm / per_unit == value for mm, value in zip(whole, values)) else None


def in_unit(content: bytes, per_unit: int, wanted: int) -> bytes:
    """The same record in another unit, each given as mm a unit. NoRing where it is off the grid."""
    whole = corners_mm(content, per_unit)
    if whole is None:
        raise NoRing("the layer of districts is not on the grid of its unit")
    values = [mm / wanted for mm in whole]
    box = min(values[::2]), min(values[1::2]), max(values[::2]), max(values[1::2])
    return (
        content[:BOX]
        + struct.pack("<4d", *box)
        + content[BOX + 32 : CORNERS]
        + struct.pack(f"<{len(values)}d", *values)
    )


def polygon_of(coordinates: Sequence[float]) -> bytes:
    """The content of a record: a polygon of one ring, closed, x and y in turn."""
    box = min(coordinates[::2]), min(coordinates[1::2]), max(coordinates[::2]), max(coordinates[1::2])
    count = len(coordinates)
    return struct.pack(f"<i4d3i{count}d", POLYGON, *box, 1, count // 2, 0, *coordinates)


def files_of(content: bytes) -> Tuple[bytes, bytes]:
    """A shapefile with this one record, and its index."""
    words = len(content) // 2
    record = struct.pack(">2i", 1, words) + content
    box = content[BOX : BOX + 32] + bytes(32)

    def header(length: int) -> bytes:
        return struct.pack(">7i", 9994, 0, 0, 0, 0, 0, length // 2) + struct.pack("<2i", 1000, POLYGON) + box

    return header(HEADER + len(record)) + record, header(HEADER + 8) + struct.pack(">2i", HEADER // 2, words)
