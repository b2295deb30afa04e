"""Cities of districts and zones: all pairs of parcels and zones as one table, under their own numbers.

A district with zones of its own has been overlaid with them; that the pieces of each of the city's zones make it up is
compared, by their nets. The parcels of any other district are overlaid with the whole zones of its city near them, in a
frame (`large.frames`), once both are known to tile.
"""
from __future__ import annotations

import csv
import shutil
from dataclasses import dataclass
from pathlib import Path
from typing import Dict, Iterable, Iterator, List, Mapping, Optional, Sequence, Set, TextIO, Tuple

import numpy as np

from ..arrays import Array
from ..exact.grid import twice_area
from ..large.compose import added_up
from ..large.cutting import boxes_of
from ..large.frames import near_rows, shares_of, write_overlay
from .layers import numbers_of, rings_of
from .manifest import Row
from .tasks import Task

COLUMNS = ("city", "district", "record", "number", "zone_record", "zone", "split")


@dataclass(frozen=True)
class Overlay:
    """A run in a frame: of a district's parcels with zones of its city, by their records from 1."""

    district: str
    task: Task
    parcels: List[int]
    zones: List[int]


class ZonesOf:
    """The zones of a city: their rings in mm, boxes and sizes, read once. `rings` is None where they are gone by
    now."""

    def __init__(self, row: Row) -> None:
        self.rings = _upright(rings_of(str(row.zones), row.unit))
        self.boxes = boxes_of(self.rings or [])
        self.corners = np.array([len(ring) for ring in self.rings or []], dtype=np.int64)


def _upright(rings: Optional[List[Array]]) -> Optional[List[Array]]:
    """Rings counterclockwise, as what fills a frame takes them."""
    return None if rings is None else [ring if twice_area(ring) > 0 else ring[::-1] for ring in rings]


def overlays_of(row: Row, zones: ZonesOf, folder: Path, threads: int) -> Optional[List[Overlay]]:
    """Writes a district's overlays with its city's zones into a folder; None where a layer is gone by now. OSError."""
    parcels = _upright(rings_of(row.parcels, row.unit))
    if parcels is None or zones.rings is None:
        return None
    shutil.rmtree(folder, ignore_errors=True)
    folder.mkdir(parents=True)
    boxes, corners = boxes_of(parcels), np.array([len(ring) for ring in parcels], dtype=np.int64)
    made: List[Overlay] = []
    near = near_rows(np.arange(len(zones.boxes)), zones.boxes, boxes)
    for others in shares_of(near, zones.boxes, zones.corners):
        for some in shares_of(near_rows(np.arange(len(boxes)), boxes, zones.boxes[others]), boxes, corners):
            rows = [some.tolist(), others.tolist()]
            layers = [[parcels[at] for at in rows[0]], [zones.rings[at] for at in rows[1]]]
            whole = [[list(range(len(it)))] for it in rows]
            ((run, one, two),) = write_overlay(folder / str(len(made)), layers, rows, whole)
            words = (*run.arguments[:-1], str(threads))
            inputs = [(name, True) for path in run.layers for name in (path, f"{path[:-4]}.shx")]
            task = Task(f"{len(made)}-{row.name}", words, tuple(inputs), tuple(name for name, _ in inputs))
            made.append(Overlay(row.name, task, [at + 1 for at in one], [at + 1 for at in two]))
    return made


def pairs_in(output: str) -> Array:
    """The pairs (parcel, zone), from 1, that an overlay printed."""
    words = [line.split()[1:] for line in output.splitlines() if line.startswith("pair ")]
    return np.array(words, dtype=np.int64).reshape(-1, 2)


def pairs_of_overlay(overlay: Overlay, output: str) -> Array:
    """The same by the records of the district's and the city's layers, without those of what fills the frame."""
    pairs = pairs_in(output) - 1
    pairs = pairs[(pairs[:, 0] < len(overlay.parcels)) & (pairs[:, 1] < len(overlay.zones))]
    return np.column_stack([np.array(overlay.parcels)[pairs[:, 0]], np.array(overlay.zones)[pairs[:, 1]]])


def all_pairs(several: Sequence[Array]) -> Array:
    """Pairs of several runs, each once."""
    return np.asarray(np.unique(np.concatenate([*several, np.zeros((0, 2), dtype=np.int64)]), axis=0))


class Table:
    """Writes the pairs of districts, one behind the other, and counts them by their cities."""

    def __init__(self, file: TextIO) -> None:
        self.writer = csv.writer(file, lineterminator="\n")
        self.writer.writerow(COLUMNS)
        self.counts: Dict[str, Tuple[int, int]] = {}
        """How many pairs, and split parcels, each city has."""
        self.zones: Dict[str, Optional[List[str]]] = {}

    def add(self, cities: Sequence[str], row: Row, zones: Row, pairs: Array) -> None:
        """Takes the pairs of a district of cities, the nearest first, with the zones of a row, by their records.

        Pieces of a zone count as that one.
        """
        pairs = np.unique(pairs, axis=0)
        numbers = numbers_of(Path(row.parcels), "parcels", row.number)
        path = str(zones.zones)
        if path not in self.zones:
            self.zones = {path: numbers_of(Path(path), "zones")}
        names = self.zones[path]
        told = [(a, _told(numbers, a), b, _told(names, b)) for a, b in pairs.tolist()]
        of_parcel: Dict[int, Set[str]] = {}
        for parcel, _, _, zone in told:
            of_parcel.setdefault(parcel, set()).add(zone)
        for parcel, number, record, zone in told:
            split = "yes" if len(of_parcel[parcel]) > 1 else ""
            self.writer.writerow((cities[-1], row.name, parcel, number, record, zone, split))
        counts = sum(map(len, of_parcel.values())), sum(len(it) > 1 for it in of_parcel.values())
        for city in cities:
            before = self.counts.get(city, (0, 0))
            self.counts[city] = before[0] + counts[0], before[1] + counts[1]


def _told(numbers: Optional[Sequence[str]], record: int) -> str:
    return numbers[record - 1] if numbers is not None and record <= len(numbers) else f"record {record}"


def unlike_zones(city: Row, districts: Sequence[Row]) -> List[str]:
    """The numbers of a city's zones that the pieces in its districts do not make up, or that the city lacks.

    Nothing is compared where a district has no zones of its own, or zones have no numbers.
    """
    if city.zones is None or not districts or any(row.zones is None for row in districts):
        return []
    whole = _by_number(city)
    pieces: Dict[str, List[Array]] = {}
    for row in districts:
        some = _by_number(row)
        if some is None:
            return []
        for number, rings in some.items():
            pieces.setdefault(number, []).extend(rings)
    if whole is None:
        return []
    return [
        number
        for number in dict.fromkeys([*whole, *pieces])
        if len(_difference(whole.get(number, []), pieces.get(number, [])))
    ]


def _by_number(row: Row) -> Optional[Mapping[str, List[Array]]]:
    rings, numbers = rings_of(str(row.zones), row.unit), numbers_of(Path(str(row.zones)), "zones")
    if rings is None or numbers is None or len(rings) != len(numbers):
        return None
    found: Dict[str, List[Array]] = {}
    for number, ring in zip(numbers, rings):
        found.setdefault(number, []).append(ring)
    return found


def _difference(rings: Sequence[Array], others: Sequence[Array]) -> Array:
    """The nets of rings less those of others, cut at the corners of both."""
    return added_up([*_edges(rings, 1), *_edges(others, -1)], [*rings, *others])


def _edges(rings: Iterable[Array], net: int) -> Iterator[Array]:
    for ring in _upright(list(rings)) or []:
        yield np.column_stack([ring, np.roll(ring, -1, axis=0), np.full(len(ring), net)])
