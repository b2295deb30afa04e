"""What `metropolis.json` and `recut.json` say of districts, and what their files have to be."""
from __future__ import annotations

import hashlib
import json
import os
from dataclasses import asdict, dataclass
from pathlib import Path
from typing import Any, Dict, List, Tuple

import numpy as np

from ..arrays import Array
from ..errors import Refused
from ..program.layer_files import read_rings

MANIFEST, RECUT, NUMBERS, SEEDS, BEFORE = (
    "metropolis.json",
    "recut.json",
    "numbers.sqlite",
    "seeds.json",
    "before.jsonl",
)
VERSION = 1
FILES = ("city.shp", "city.shx", "parcels.shp", "parcels.shx")
"""The files of a district that the program reads."""


def is_metropolis(folder: Path) -> bool:
    """Whether `gandovel prepare --parcels-a-district` wrote a folder."""
    return (folder / MANIFEST).is_file()


@dataclass(frozen=True)
class DistrictRow:
    """A district: its number from 1, its island, its record in the island's layer of outlines.

    `layer` is the digest of its layer as its journal names it, by the program; `files` are the digests of its files;
    `neighbours` the districts that it has a piece of border with.
    """

    number: int
    island: int
    record: int
    parcels: int
    layer: str
    files: Dict[str, str]
    neighbours: Tuple[int, ...]

    def as_json(self) -> Dict[str, Any]:
        """It as a manifest has it."""
        return asdict(self)

    @classmethod
    def of(cls, told: Dict[str, Any]) -> "DistrictRow":
        """What `as_json` made."""
        given: Dict[str, Any] = {**told, "neighbours": tuple(told["neighbours"])}
        return cls(**given)


@dataclass(frozen=True)
class Manifest:
    """The districts of a metropolis as `prepare` cut it, and of how many islands its city is."""

    islands: int
    zones: bool
    zone_names: Tuple[str, ...]
    districts: Tuple[DistrictRow, ...]

    def save(self, folder: Path) -> None:
        """Writes it."""
        told = {
            "version": VERSION,
            "islands": self.islands,
            "zones": self.zones,
            "zone_names": list(self.zone_names),
            "districts": [row.as_json() for row in self.districts],
        }
        write_json(folder / MANIFEST, told)

    @classmethod
    def load(cls, folder: Path) -> "Manifest":
        """What `save` wrote. Refused P1."""
        told = read_json(folder / MANIFEST)
        try:
            if told["version"] != VERSION:
                raise Refused("P1", f"{folder / MANIFEST} is of version {told['version']}: prepare the layer anew")
            rows = tuple(DistrictRow.of(row) for row in told["districts"])
            if [row.number for row in rows] != list(range(1, len(rows) + 1)):
                raise ValueError("the districts are not numbered from 1")
            return cls(int(told["islands"]), bool(told["zones"]), tuple(told["zone_names"]), rows)
        except (KeyError, TypeError, ValueError) as fault:
            raise Refused("P1", f"{folder / MANIFEST} is torn ({fault}): prepare the layer anew") from fault


def place_of_island(folder: Path, island: int, islands: int) -> Path:
    """Where `Prepared.save` put an island's files."""
    return folder if islands == 1 else folder / f"island_{island}"


def sums_of(folder: Path) -> Dict[str, str]:
    """The SHA-256 of each file of a district that the program reads. OSError where one can't be read."""
    return {name: hashlib.sha256((folder / name).read_bytes()).hexdigest() for name in FILES}


def test_district(row: DistrictRow, folder: Path, outline: Array) -> None:
    """Tests that a district's files are its own, and lie in the outline of its row. Refused W8, which names it."""
    try:
        found = sums_of(folder)
        (city,) = read_rings(folder / "city.shp")
    except (OSError, ValueError) as fault:
        raise Refused("W8", f"district {row.number}: its layer can't be read in {folder}: {fault}") from fault
    if not same_ring(city, outline):
        text = f"the layer in {folder} has another outline than record {row.record} of the layer of outlines"
        raise Refused("W8", f"district {row.number}: {text}: take both from a backup, or prepare the layer anew")
    wrong = [name for name in FILES if found[name] != row.files.get(name)]
    if wrong:
        text = f"{folder / wrong[0]} is not as it was written: take it from a backup, or prepare the layer anew"
        raise Refused("W8", f"district {row.number}: {text}")


def same_ring(one: Array, other: Array) -> bool:
    """Whether two rings are the same, wherever they begin."""
    return np.array_equal(from_least(one), from_least(other))


def from_least(ring: Array) -> Array:
    """A ring, begun at its least corner."""
    return np.roll(ring, -int(np.lexsort((ring[:, 1], ring[:, 0]))[0]), axis=0)


def read_json(path: Path) -> Any:
    """What a file has. Refused P1 where it can't be read."""
    try:
        return json.loads(path.read_text(encoding="utf-8"))
    except (OSError, ValueError) as fault:
        raise Refused("P1", f"{path} can't be read: {fault}") from fault


def write_json(path: Path, told: Any) -> None:
    """Writes a file, to the disk."""
    with open(path, "w", encoding="utf-8") as file:
        json.dump(told, file)
        file.flush()
        os.fsync(file.fileno())


def synchronise(folder: Path) -> None:
    """Brings a folder, and all that is in it, to the disk. Raises OSError."""
    for place, _, names in os.walk(folder):
        for name in [*names, "."]:
            handle = os.open(os.path.join(place, name), os.O_RDONLY | os.O_CLOEXEC)
            try:
                os.fsync(handle)
            finally:
                os.close(handle)


def as_lines(several: List[Dict[str, Any]]) -> str:
    """Objects, one a line."""
    return "".join(json.dumps(it) + "\n" for it in several)
