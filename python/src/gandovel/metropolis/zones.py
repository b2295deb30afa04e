"""Zones of the whole metropolis, overlaid by districts: each one's parcels of now with the whole zones near them."""
from __future__ import annotations

import asyncio
import csv
import tempfile
from collections import OrderedDict
from pathlib import Path
from typing import Dict, List, NamedTuple, Sequence, Tuple

import numpy as np

from ..arrays import Array
from ..errors import Refused
from ..large import Cutting, is_large
from ..large.cutting import boxes_of
from ..large.frames import near_rows, shares_of, write_overlay
from ..large.runs import Run, Said, said_of
from ..program.layer_files import read_rings
from ..program.tool import ask
from .district import District
from .manifest import Manifest, place_of_island

KEPT = 3
"""How many versions of a district's overlay are kept."""


class Pairs(NamedTuple):
    """After `entries` entries of a district: rows (parcel, zone), local ids, and places of zones, from 1, ascending."""

    entries: int
    pairs: Array


class Zones:
    """The zones of all islands, numbered on from 1, and their names."""

    def __init__(self, folder: Path, manifest: Manifest) -> None:
        """Refused P1 where they can't be read."""
        self.rings: List[Array] = []
        self.names: List[str] = []
        self._islands: Dict[int, Array] = {}
        self._cities: Dict[int, Tuple[Path, Path]] = {}
        for island in range(1, manifest.islands + 1):
            place = place_of_island(folder, island, manifest.islands)
            rings = read_rings(place / "zones.shp")
            self._islands[island] = np.arange(len(self.rings), len(self.rings) + len(rings))
            self._cities[island] = place / "city.shp", place / "zones.shp"
            self.rings += rings
            self.names += _names_of(place / "zone_rows.csv", len(rings))
        self._boxes, self._corners = boxes_of(self.rings), np.array([len(ring) for ring in self.rings])
        self._kept: "OrderedDict[Tuple[int, int], Pairs]" = OrderedDict()
        self._making: Dict[int, asyncio.Lock] = {}

    def test(self) -> None:
        """Tests by the program that the zones of each island tile its city. Refused as its `check` is.

        Zones of more than a layer takes are tested by `gandovel report` alone.
        """
        for island, rows in self._islands.items():
            if not is_large([self.rings[row] for row in rows.tolist()]):
                city, zones = self._cities[island]
                try:
                    ask(["check", str(city), str(zones), "--unit", "mm"])
                except Refused as fault:
                    text = f"{fault.text}: the zones do not tile the city: gandovel report says where"
                    raise Refused(fault.code, text, "zones") from fault

    async def of(self, district: District) -> Pairs:
        """The pairs of a district of now. Raises `NotServing`; refused where the program can't say."""
        async with self._making.setdefault(district.number, asyncio.Lock()), district.open() as register:
            entries = district.seat.before + await register.shown()
            known = self._kept.get((district.number, entries))
            if known is not None:
                return known
            versions = register.versions
            places = versions.places(versions.last)
            ids, rings = versions.ids(places), [versions.row(at).ring for at in places.tolist()]
            found = await asyncio.get_running_loop().run_in_executor(
                None, self._overlaid, district.seat.row.island, rings
            )
            pairs = np.column_stack([ids[found[:, 0]], found[:, 1] + 1]) if len(found) else found
            self._kept[district.number, entries] = Pairs(entries, pairs)
            for key in [key for key in self._kept if key[0] == district.number][:-KEPT]:
                del self._kept[key]
            return self._kept[district.number, entries]

    def _overlaid(self, island: int, rings: List[Array]) -> Array:
        """Pairs (place of a ring, zone), from 0, that the program finds to overlap."""
        boxes, corners = boxes_of(rings), np.array([len(ring) for ring in rings])
        runs: List[Tuple[Run, List[int], List[int]]] = []
        with tempfile.TemporaryDirectory(prefix="gandovel-") as name:
            near = near_rows(self._islands[island], self._boxes, boxes)
            for number, others in enumerate(shares_of(near, self._boxes, self._corners)):
                some = near_rows(np.arange(len(rings)), boxes, self._boxes[others])
                for part, own in enumerate(shares_of(some, boxes, corners)):
                    rows = [own.tolist(), others.tolist()]
                    layers = [[it[row] for row in of] for it, of in zip((rings, self.rings), rows)]
                    rounds = [[list(range(len(of)))] for of in rows]
                    runs += write_overlay(Path(name) / f"d{number}-{part}", layers, rows, rounds)
            found = [_pairs_of(*run) for run in zip(runs, said_of([run for run, _, _ in runs], Cutting(jobs=1)))]
        every = np.concatenate([*found, np.zeros((0, 2), dtype=np.int64)])
        return np.asarray(np.unique(every, axis=0), dtype=np.int64)


def _pairs_of(run: Tuple[Run, List[int], List[int]], said: Said) -> Array:
    """The pairs that a run found of its own rows; others are of what fills its frame."""
    _, parcels, zones = run
    if said.lost or said.refused is not None:
        raise Refused("T11", f"a district was not overlaid ({said.lost or said.refused})")
    lines = [line.split()[1:] for line in said.printed.splitlines() if line.startswith("pair ")]
    pairs = np.array(lines, dtype=np.int64).reshape(-1, 2) - 1
    pairs = pairs[(pairs[:, 0] < len(parcels)) & (pairs[:, 1] < len(zones))]
    return np.column_stack([np.array(parcels, dtype=np.int64)[pairs[:, 0]], np.array(zones)[pairs[:, 1]]])


def _names_of(path: Path, count: int) -> List[str]:
    """The names of zones by their records. Refused P1."""
    try:
        with open(path, newline="", encoding="utf-8") as file:
            names = [line[1] for line in list(csv.reader(file))[1:]]
    except (OSError, IndexError, UnicodeDecodeError) as fault:
        raise Refused("P1", f"{path} can't be read: {fault}") from fault
    if len(names) != count:
        raise Refused("P1", f"{path} has {len(names)} rows, for {count} zones")
    return names


def names_at(zones: Zones, places: Sequence[int]) -> List[str]:
    """The names of zones by their places, from 1, each once."""
    return list(dict.fromkeys(zones.names[place - 1] for place in places))
