"""The overlay of a layer that is cut: each district's parcels with all whole zones that are near."""
from __future__ import annotations

from typing import Any, Dict, Iterator, List, Optional, Sequence, Set, Tuple

import numpy as np

from ..arrays import Array
from ..exact.grid import twice_area
from ..program.tool import Overlaid, areas_told
from ..program.untiled_overlays import rounds_of
from ..program.zone_areas import proved
from ..reading.prepared import Island
from . import frames, how_cut
from .cutting import boxes_of
from .frames import near_rows, shares_of
from .pieces import FORKED, Open, districts_of, folder_of_runs
from .runs import Run, Said, forked, jobs_of, said_of


def overlay_of_island(island: Island, parcels: Any, zones: Any) -> Overlaid:
    """The pairs of rows (parcel, zone), from 0, whose interiors have a common point: all of them by the program.

    Each district's parcels are overlaid with the whole zones near it, in a rectangle around all of them, which rows of
    no one fill. So no zone is cut; more zones than a layer has are taken in shares. `parcels` and `zones` are the
    layers' `LayerFaults`, or None of layers that tile. Where both tile, areas are told of parcels whose zones one run
    had.
    """
    assert island.zones is not None
    districts, rings = districts_of(island, "parcels"), (island.parcels.rings, island.rows_of_zones().rings)
    boxes, corners = [boxes_of(it) for it in rings], [np.array([len(ring) for ring in it]) for it in rings]
    conflicts = [_neighbours(it.conflicts if it else []) for it in (parcels, zones)]
    beyond: List[Set[int]] = [it.beyond if it else set() for it in (parcels, zones)]
    tile = not any(it.faults for it in (parcels, zones) if it)

    def shares(at: int) -> Iterator[List[Array]]:
        """The parcels and zones of each of a district's overlays."""
        near = near_rows(np.arange(len(boxes[1])), boxes[1], boxes[0][districts.rows[at]])
        for others in shares_of(near, boxes[1], corners[1]):
            for some in shares_of(near_rows(districts.rows[at], boxes[0], boxes[1][others]), boxes[0], corners[0]):
                yield [some, near_rows(others, boxes[1], boxes[0][some])]

    with folder_of_runs() as folder:

        def write(at: int) -> List[Tuple[Run, List[int], List[int]]]:
            written = []
            for number, both in enumerate(shares(at)):
                rows = [it.tolist() for it in both]
                layers = [[it[row] for row in some] for it, some in zip(rings, rows)]
                rounds = [_rounds(some, against, out) for some, against, out in zip(rows, conflicts, beyond)]
                written += frames.write_overlay(
                    folder / f"d{at + 1}-{number}", layers, rows, rounds, ["--areas"] * tile
                )
            return written

        jobs = jobs_of(how_cut()) if len(island.parcels.rings) > FORKED else 1
        runs = [it for several in forked(write, len(districts), jobs) for it in several]
        pairs, told = _pairs(runs, said_of([run for run, _, _ in runs], how_cut()), tile)
    return Overlaid(pairs, proved(pairs, _summing(pairs, told, rings[0]) if tile else told, *rings))


def _neighbours(conflicts: Sequence[Set[int]]) -> Dict[int, Set[int]]:
    found: Dict[int, Set[int]] = {}
    for group in conflicts:
        for row in group:
            found.setdefault(row, set()).update(group - {row})
    return found


def _rounds(rows: List[int], against: Dict[int, Set[int]], beyond: Set[int]) -> List[List[int]]:
    """Places in `rows`, in rounds in which no two conflict, without those beyond the city."""
    where = {row: at for at, row in enumerate(rows)} if against or beyond else {}
    groups = [{where[row], where[it]} for row in rows if row in against for it in against[row] if it in where]
    return rounds_of(len(rows), groups, {where[row] for row in beyond if row in where})


def _pairs(
    runs: Sequence[Tuple[Run, List[int], List[int]]], said: Sequence[Said], areas_too: bool
) -> Tuple[Array, List[Optional[int]]]:
    """The pairs of rows that runs have found, each once, and their areas where these were asked for."""
    found: List[Array] = []
    told: List[Optional[int]] = []
    for (run, parcels, zones), it in zip(runs, said):
        if it.lost or it.refused is not None:
            raise Open(f"district {run.name[1:].partition('-')[0]} was not overlaid ({it.lost or it.refused})")
        pairs = np.array(
            [line.split()[1:] for line in it.printed.splitlines() if line.startswith("pair ")], dtype=np.int64
        )
        pairs = pairs.reshape(-1, 2) - 1
        kept = np.flatnonzero((pairs[:, 0] < len(parcels)) & (pairs[:, 1] < len(zones)))
        area2 = areas_told(it.printed) if areas_too else []
        pairs = pairs[kept]
        found.append(np.column_stack([np.array(parcels, dtype=np.int64)[pairs[:, 0]], np.array(zones)[pairs[:, 1]]]))
        told += [area2[at] for at in kept.tolist()] if areas_too else [None] * len(kept)
    every = np.concatenate([*found, np.zeros((0, 2), dtype=np.int64)])
    pairs, first = np.unique(every, axis=0, return_index=True)
    return np.asarray(pairs, dtype=np.int64), [told[at] for at in first.tolist()]


def _summing(pairs: Array, area2: Sequence[Optional[int]], rings: Sequence[Array]) -> List[Optional[int]]:
    """The areas of pairs; None for those of a parcel that do not sum to its own, since several runs had its zones."""
    sums = [0] * len(rings)
    for row, doubled in zip(pairs[:, 0].tolist(), area2):
        sums[row] += doubled or 0
    whole = [total == twice_area(ring) for total, ring in zip(sums, rings)]
    return [doubled if whole[row] else None for row, doubled in zip(pairs[:, 0].tolist(), area2)]
