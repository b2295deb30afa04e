"""The program's verdicts on a prepared register: faults of its layers, with their rows, and an overlay's pairs."""
from __future__ import annotations

import tempfile
from dataclasses import dataclass, field
from pathlib import Path
from typing import Dict, FrozenSet, Iterable, List, Sequence, Set

import numpy as np
from shapely.geometry import Point, Polygon
from shapely.validation import explain_validity

from ..arrays import Array
from ..errors import Refused, place
from ..faults.polygons import CITY, Edge, Fault, box_of, boxes_touching, conflicts_of, coverage_of, covered_too_often
from ..faults.polygons import faults_of
from ..large import is_large
from ..large.cutting import boxes_of
from ..large.overlay import overlay_of_island
from ..large.verdict import check_island
from ..reading.prepared import OUT_ROW, Island, Prepared, Rows
from .layer_files import write_rings
from .tool import CheckAnswer, Overlaid, check_all, overlay_areas
from .untiled_overlays import overlaid, rounds_of
from .zone_areas import proved


@dataclass
class LayerFaults:
    """What is wrong with a layer of an island: the faults, and for each the rows (from 0) that it concerns.

    Of an overlap these are the rows that cover a part of it, of a gap those that border it. `conflicts` are the pairs
    of rows that overlap, and `beyond` the rows that stand out of the city's outer ring. All is exact.
    """

    faults: List[Fault] = field(default_factory=list)
    rows: List[List[int]] = field(default_factory=list)
    conflicts: List[Set[int]] = field(default_factory=list)
    beyond: Set[int] = field(default_factory=set)


def write_island(folder: Path, island: Island) -> None:
    """An island's layers as the program reads them, in a folder."""
    write_rings(folder / "city.shp", [island.city])
    if island.parcels.rings and not is_large(island.parcels.rings):
        write_rings(folder / "parcels.shp", island.parcels.rings)
    if island.zones is not None and island.zones.rings and not is_large(island.zones.rings):
        write_rings(folder / "zones.shp", island.zones.rings)


def checked(prepared: Prepared, folder: Path, island: Island, role: str = "parcels") -> CheckAnswer:
    """`check --all` of an island's layer in a folder; a ring that is refused is raised by its number (H1)."""
    if not getattr(island, role).rings:
        return _without_rings(island.city, role)
    try:
        if is_large(getattr(island, role).rings):
            answer = check_island(island, role)
        else:
            answer = check_all(folder / "city.shp", folder / f"{role}.shp")
    except Refused as refused:
        raise named(prepared, island, refused, role) from refused
    if answer.rings:
        record = min(answer.rings)
        raise named(prepared, island, Refused("H1", f"{record} {answer.rings[record]}", "parcels", record), role)
    return answer


def _without_rings(city: Array, role: str) -> CheckAnswer:
    """The answer on a part of the city that no ring lies in, of which the program is not asked: it is one gap."""
    ends = np.roll(city, -1, axis=0)
    edges = np.column_stack([city, ends, np.full(len(city), -1)]).astype(np.int64)
    (ax, ay), (bx, by) = city[0].tolist(), ends[0].tolist()
    return CheckAnswer(edges=edges, refused=Refused("H2", f"{ax} {ay} {bx} {by} net -1", role))


def named(prepared: Prepared, island: Island, refused: Refused, role: str) -> Refused:
    """A refusal of the program with the number of the row that it names, and a place where there is one."""
    rows: Rows = getattr(island, role, None) or Rows()
    if refused.code == "H2":
        ax, ay, bx, by = (int(word) for word in refused.text.split()[:4])
        return Refused(
            "H2",
            f"it does not tile the city: {refused.text} {place(*prepared.in_units((ax, ay)))}",
            role,
            geometry=Point(prepared.in_units((ax, ay))),
        )
    if refused.record is None or not 0 < refused.record <= len(rows.rings) or refused.role not in ("parcels", "zones"):
        return Refused(refused.code, refused.text, refused.role)
    ring, source = rows.rings[refused.record - 1], rows.source[refused.record - 1]
    number = prepared.number_of(source) if role == "parcels" else prepared.zone_of(source)
    reason, _, rest = explain_validity(Polygon(ring)).partition("[")
    x, y = prepared.in_units([float(word) for word in rest.rstrip("]").split()] if rest else ring[0])
    what = "its ring is too long"
    if refused.code == "H1":
        what = f"its ring is not simple on the grid ({reason.strip().lower()})"
    text = f"{what} {place(x, y)}{' (measured)' if rest else ''}: record {refused.text}"
    return Refused(refused.code, text, role, refused.record, number, Point(x, y))


def layer_faults(answer: CheckAnswer, city: Array, rows: Rows) -> LayerFaults:
    """The faults that the program's edges bound, and the rows at them: by the planar graph of the rings there."""
    if answer.tiles:
        return LayerFaults()
    faults = faults_of(answer.edges)
    gaps = [fault for fault in faults if fault.depth < 0]
    owners = _owners(rows.rings, {edge for fault in gaps for edge in fault.edges}) if rows.rings else {}
    told = [sorted({row for edge in fault.edges for row in owners.get(edge, ())}) for fault in gaps]
    if len(gaps) == len(faults):
        return LayerFaults(gaps, told)
    around = np.array([box_of(fault) for fault in faults if fault.depth > 0], dtype=float)
    near = boxes_touching(boxes_of(rows.rings), around).tolist()
    coverage = coverage_of(city, rows.rings, near, outside_of(rows, near))
    over, concerned = covered_too_often(coverage)
    beyond = {row for cover in coverage.graph.covers for row in cover if cover and CITY not in cover}
    both = sorted(zip([*gaps, *over], [*told, *concerned]), key=lambda it: (min(it[0].outer), it[0].area2))
    return LayerFaults([fault for fault, _ in both], [some for _, some in both], conflicts_of(coverage), beyond)


def outside_of(rows: Rows, some: Iterable[int]) -> FrozenSet[int]:
    """Those of some rows that are the area outside the city."""
    return frozenset(row for row in some if rows.source[row] == OUT_ROW)


def _owners(rings: Sequence[Array], edges: Set[Edge]) -> Dict[Edge, Set[int]]:
    """For each edge the rows that have it, in either direction, as a side or a part of one."""
    starts = np.concatenate(rings)
    sizes = np.array([len(ring) for ring in rings])
    after, stops = np.arange(1, len(starts) + 1), np.cumsum(sizes)
    after[stops - 1] = stops - sizes
    ends, row = starts[after], np.repeat(np.arange(len(rings)), sizes)
    wanted = np.array(list(edges), dtype=np.int64).reshape(-1, 4)
    hashes = np.concatenate([_hash(wanted[:, :2]), _hash(wanted[:, 2:])])
    kept = np.flatnonzero(np.isin(_hash(starts), hashes) & np.isin(_hash(ends), hashes))
    owners: Dict[Edge, Set[int]] = {}
    for (ax, ay), (bx, by), owner in zip(starts[kept].tolist(), ends[kept].tolist(), row[kept].tolist()):
        for edge in ((ax, ay, bx, by), (bx, by, ax, ay)):
            if edge in edges:
                owners.setdefault(edge, set()).add(owner)
    return owners


def _hash(corners: Array) -> Array:
    return np.asarray(corners[:, 0] * np.int64(1_000_003) + corners[:, 1])


def overlay_island(folder: Path, island: Island, parcels: LayerFaults, zones: LayerFaults) -> Overlaid:
    """The pairs of rows (parcel, zone), from 0, whose interiors have a common point: all of them by the program.

    With their areas where both layers tile.
    """
    if not island.parcels.rings or not island.rows_of_zones().rings:
        return Overlaid(np.zeros((0, 2), dtype=np.int64), [])
    if island.zones is not None and (is_large(island.parcels.rings) or is_large(island.zones.rings)):
        return overlay_of_island(island, parcels, zones)
    if not parcels.faults and not zones.faults:
        return tiling_overlaid(folder, island)
    rounds = [
        rounds_of(len(rows.rings), faults.conflicts, faults.beyond)
        for rows, faults in ((island.parcels, parcels), (island.rows_of_zones(), zones))
    ]
    with tempfile.TemporaryDirectory() as aside:
        pairs = overlaid(Path(aside), island.city, island.parcels.rings, island.rows_of_zones().rings, *rounds)
    return Overlaid(pairs, [None] * len(pairs))


def may_be_overlaid_at_once(island: Island) -> bool:
    """Whether the program takes both layers of an island as they are."""
    rings = island.parcels.rings, island.rows_of_zones().rings
    return all(map(bool, rings)) and not any(map(is_large, rings))


def tiling_overlaid(folder: Path, island: Island) -> Overlaid:
    """The pairs of rows, from 0, with their areas, of an island's layers in a folder. Refused H2 where one does not
    tile."""
    found = overlay_areas(folder / "city.shp", folder / "parcels.shp", folder / "zones.shp")
    pairs = found.pairs - 1
    return Overlaid(pairs, proved(pairs, found.area2, island.parcels.rings, island.rows_of_zones().rings))


def numbers_at(prepared: Prepared, rows: Rows, at: Iterable[int], role: str) -> List[str]:
    """The numbers of rows, each once, in the rows' order; the area outside is left out."""
    name = prepared.number_of if role == "parcels" else prepared.zone_of
    return list(dict.fromkeys(name(rows.source[row]) for row in at if rows.source[row] != OUT_ROW))
