"""The islands of a register: what of its parcels and zones lies in which connected part of the city."""
from __future__ import annotations

from typing import Dict, List, Tuple

import numpy as np
from shapely.geometry import Polygon
from shapely.prepared import prep

from ..arrays import Array
from ..errors import Refused
from ..exact import grid as on_grid
from ..exact.big_rings import cut_ring
from ..exact.holes import cut_holes
from ..exact.outlines import outlines
from ..program.limits import MOST_CORNERS
from .layers import Labels
from .loops import CITY, PARCELS, ROLES, ZONES
from .prepared import OUT, OUT_ROW, Island, Rows
from .work import FRAME_MARGIN, Work, label_of


def islands_of(work: Work, parts: List[Polygon], of_zones: Dict[int, int], frame: bool, labels: Labels) -> List[Island]:
    points = work.points.astype(np.int64)
    rings = {}
    for layer in (PARCELS, ZONES, CITY):
        taken = work.loops.take(work.loops.layer == layer)
        made, tags, fails = on_grid.rings_of(taken, points)
        if fails and layer != ZONES or any(why == "holes" for _, why in fails):
            _refuse_ring(layer, fails[0], labels)
        rings[layer] = made, tags
    cities = [on_grid.without_straight(ring) for ring, (_, part) in zip(*rings[CITY]) if part == 0]
    islands = [Island(city, Rows(), Rows() if labels[1] else None) for city in cities]
    parcel_islands = _where(rings[PARCELS][0], parts, islands)
    for at, ring, (row, part) in zip(parcel_islands, *rings[PARCELS]):
        _add(islands[at].parcels, ring, row, part)
    for ring, (row, part) in zip(*rings[ZONES]):
        _add(islands[of_zones.get(part, 0)].rows_of_zones(), ring, row, part)
    for ring, (row, part) in zip(*rings[CITY]):
        if part > 0:  # what the city's holes leave out is a row of no one
            for rows in (islands[row].parcels, *([islands[row].rows_of_zones()] if labels[1] else [])):
                _add(rows, ring, OUT_ROW, 0)
    if frame:
        _add_outside(work, islands[0])
    for island in islands:
        if len(island.city) > MOST_CORNERS:
            _frame_island(island)
    return islands  # a part without parcels is a gap


def _add(rows: Rows, ring: Array, row: int, part: int) -> None:
    """Adds a ring to the rows: as several where it has more corners than the program takes.

    Each has half as many at most, since its neighbours' corners are put into its borders; so has what is outside.
    """
    most = MOST_CORNERS // 2
    pieces = cut_ring(ring, most) if len(ring) > (most if row == OUT_ROW else MOST_CORNERS) else [ring]
    for piece in pieces or [ring]:
        rows.rings.append(piece)
        same = len(rows.source) > 0 and rows.source[-1] == row
        rows.source.append(row)
        rows.part.append(rows.part[-1] + 1 if same else 1)


def _frame_island(island: Island) -> None:
    """Makes a rectangle the city of an island whose outline has too many corners; what is outside is `OUT`."""
    outline, low, high = island.city, island.city.min(axis=0), island.city.max(axis=0)
    (x0, y0), (x1, y1) = low - FRAME_MARGIN, high + FRAME_MARGIN
    rectangle = np.array([(x0, y0), (x1, y0), (x1, y1), (x0, y1)], dtype=np.int64)
    pieces = cut_holes(rectangle, [outline[::-1]])
    if pieces is None:
        return
    island.city = rectangle
    for rows in (island.parcels, island.rows_of_zones()):
        for piece in pieces:
            _add(rows, piece, OUT_ROW, 0)


def _refuse_ring(layer: int, fail: Tuple[Tuple[int, int], str], labels: Labels) -> None:
    (row, part), why = fail
    number = label_of(labels, layer, row)
    if why == "holes":
        raise Refused("P12", f"no cut is found for the holes of its part {part + 1}", ROLES[layer], number=number)
    text = f"nothing is left of its part {part + 1} on the grid of millimetres"
    raise Refused("P9", text, ROLES[layer], number=number)


def _where(rings: List[Array], parts: List[Polygon], islands: List[Island]) -> List[int]:
    """In which part of the city each ring lies: the one with a point inside the ring, else the nearest."""
    if len(islands) == 1:
        return [0] * len(rings)
    ready = [(part.bounds, prep(part), part) for part in parts]
    found = []
    for ring in rings:
        point = Polygon(ring).representative_point()
        inside = (
            at
            for at, ((x0, y0, x1, y1), fast, _) in enumerate(ready)
            if x0 <= point.x <= x1 and y0 <= point.y <= y1 and fast.contains(point)
        )
        at = next(inside, None)
        found.append(
            at if at is not None else min(range(len(ready)), key=lambda it: float(ready[it][2].distance(point)))
        )
    return found


def _add_outside(work: Work, island: Island) -> None:
    """The parcel and the zone `OUT`: the frame without what the parcels, or the zones, cover."""
    for layer, rows in ((PARCELS, island.parcels), (ZONES, island.zones)):
        if rows is None:
            continue
        found = outlines(work.loops.take(work.loops.layer == layer), work.points)
        pieces = cut_holes(island.city, [ring[::-1] for ring in found.rings])
        if pieces is None:
            raise Refused("P12", "no cut is found for the area outside", role=ROLES[layer], number=OUT)
        for piece in pieces:
            _add(rows, piece, OUT_ROW, 0)
