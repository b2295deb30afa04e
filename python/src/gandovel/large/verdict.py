"""The program's verdicts on a layer that is cut into districts, in the form that a small layer's have."""
from __future__ import annotations

from concurrent.futures import ThreadPoolExecutor
from pathlib import Path
from typing import Dict, List, Sequence, Tuple

import numpy as np

from ..arrays import Array
from ..errors import Refused
from ..program.layer_files import write_rings
from ..program.tool import CheckAnswer, Overlaid, answer_of_check, areas
from ..reading.prepared import Island
from . import A_DISTRICT, how_cut, is_large
from .compose import added_up
from .cutting import Districts, boxes_of, partition_faults
from .overlay import overlay_of_island
from .pieces import Open, Plan, folder_of_runs, levels_of_island, test_outlines, with_parts, write_pieces
from .runs import Run, Said, jobs_of, said_of, threads_of

SHOWN = 8
"""So many names are listed in a refusal."""


def check_island(island: Island, role: str = "parcels") -> CheckAnswer:
    """`check --all` of an island's layer, as if it were one: its tiling, its rings that are refused, or its edges.

    Refused as the program refuses; `Open` where a district has no answer, or the pieces do not fit together.
    """
    rings, levels = getattr(island, role).rings, levels_of_island(island, role)
    plan = Plan.of(island.city, rings, levels)
    _test_partitions(plan, levels)
    with folder_of_runs() as folder:
        sums = with_parts(folder, plan, write_pieces(folder, plan))
        answers = _answers(said_of(_checks(folder, plan), how_cut()), plan, role)
        test_outlines(folder, plan, sums)
    refused = _refused_rings(plan, answers, role)
    if refused:
        return _with_refused_rings(refused)
    if all(it.tiles for it in answers):
        return _tiling(plan, answers, role)
    edges = added_up([it.edges for it in answers], rings)
    if not len(edges):
        names = [piece.name[1:] for piece, it in zip(plan.pieces, answers) if not it.tiles and not piece.level]
        raise Open(f"parcels cross districts ({_listed(names)}), which fit together: give --parcels-a-district", role)
    first = " ".join(map(str, edges[0, :4].tolist()))
    return CheckAnswer(edges=edges, refused=Refused("H2", f"{first} net {edges[0, 4]}", role))


def _test_partitions(plan: Plan, levels: Sequence[Districts]) -> None:
    """Open where a ring of a level is not in exactly one of the districts that the level is cut into."""
    for level, (rings, districts) in enumerate(zip(plan.layers, levels)):
        wrong = partition_faults(districts, len(rings))
        if wrong:
            what = f"district {wrong[0][0] + 1}" if level else f"row {wrong[0][0] + 1}"
            raise Open(f"{what} is in {wrong[0][1]} {'groups' if level else 'districts'}")


def _checks(folder: Path, plan: Plan) -> List[Run]:
    runs = []
    for piece in plan.pieces:
        layers = str(folder / piece.name / "city.shp"), str(folder / piece.name / f"{piece.layer}.shp")
        words = ("check", *layers, "--unit", "mm", "--all", "--workers", threads_of(how_cut(), len(plan.pieces)))
        runs.append(Run(piece.name, words, layers))
    return runs


def _answers(said: Sequence[Said], plan: Plan, role: str) -> List[CheckAnswer]:
    """The runs' answers. Open where a run has none; a ring that a district refuses is told as the whole layer's."""
    lost = [f"{piece.told} ({it.lost})" for piece, it in zip(plan.pieces, said) if it.lost]
    if lost:
        raise Open(f"not judged: {_listed(lost)}", role)
    answers = []
    for piece, it in zip(plan.pieces, said):
        try:
            answers.append(answer_of_check(it.printed, it.refused, len(piece.rows)))
        except Refused as refused:
            if piece.level:
                raise Open(f"not judged: {piece.told} ({refused}): give --parcels-a-district", role) from refused
            raise _of_whole(refused, piece.rows, role) from refused
    return answers


def _of_whole(refused: Refused, rows: Array, role: str) -> Refused:
    """A refusal of a district's record, by the record of the whole layer."""
    if refused.record is None or refused.code not in ("H1", "H3"):
        return refused
    record = int(rows[refused.record - 1]) + 1
    return Refused(refused.code, " ".join([str(record), *refused.text.split()[1:]]), role, record)


def _refused_rings(plan: Plan, answers: Sequence[CheckAnswer], role: str) -> Dict[int, str]:
    """The layer's own rings, from 0, that are refused, each with why. Open where an outline is."""
    refused: Dict[int, str] = {}
    outlines: List[Tuple[str, str]] = []
    for piece, it in zip(plan.pieces, answers):
        for at, why in it.rings.items():
            if piece.level:
                outlines.append((plan.pieces[plan.below(piece)[at - 1]].told, why))
            else:
                refused[int(piece.rows[at - 1])] = why
    if outlines and not refused:
        told, why = outlines[0]
        raise Open(f"the outline of {told} is no simple ring ({why}): give --parcels-a-district", role)
    return refused


def _listed(names: Sequence[str]) -> str:
    return ", ".join(names[:SHOWN]) + (", .." if len(names) > SHOWN else "")


def _with_refused_rings(refused: Dict[int, str]) -> CheckAnswer:
    """The answer of a layer with rings that are refused, rows from 0: as the program's, with records from 1."""
    records = {row + 1: refused[row] for row in sorted(refused)}
    record, why = next(iter(records.items()))
    return CheckAnswer(rings=records, refused=Refused("H1", f"{record} {why}", "parcels", record))


def _tiling(plan: Plan, answers: Sequence[CheckAnswer], role: str) -> CheckAnswer:
    """All tile, so by the law all rings do; what is counted twice is compared."""
    for piece, it in zip(plan.pieces, answers):
        below = [answers[at] for at in plan.below(piece)]
        area2 = sum(one.area2 for one in below)
        if below and (it.count, it.area2) != (len(below), area2):
            told = f"the districts have {len(below)} outlines and twice {area2} mm2"
            raise Open(f"{told}, and {piece.told} {it.count} and {it.area2}", role)
    count = sum(it.count for piece, it in zip(plan.pieces, answers) if not piece.level)
    if count != len(plan.layers[0]):
        raise Open(f"the districts have {count} rings, and the layer {len(plan.layers[0])}", role)
    return CheckAnswer(count=count, area2=answers[0].area2)


def overlaid_island(island: Island) -> Overlaid:
    """The same of layers that tile. Refused H2 where one does not, H1."""
    for role in ("parcels", "zones"):
        answer = check_island(island, role)
        if answer.refused is not None:
            raise answer.refused
    return overlay_of_island(island, None, None)


def areas_of_island(island: Island, folder: Path) -> Dict[int, int]:
    """Twice the area of each ring in mm2, by its record from 1; the program reads it in files that are not too long."""
    found: Dict[int, int] = {}
    for begin in range(0, len(island.parcels.rings), A_DISTRICT):
        some = island.parcels.rings[begin : begin + A_DISTRICT]
        write_rings(folder / "some.shp", some)
        found.update({begin + record: value for record, value in areas(folder / "some.shp").items()})
    return found


def test_editable(island: Island) -> None:
    """Refused P10 where an island's parcels are more than one fabric has."""
    if is_large(island.parcels.rings):
        text = f"{len(island.parcels.rings)} rings can't be edited at once: prepare a part of them"
        raise Refused("P10", text, "parcels")


def locate_in_island(island: Island, points: Sequence[Sequence[int]]) -> List[Tuple[str, List[int]]]:
    """For each point (x, y) in mm: (`inside` | `edge` | `outside`, records from 1). Refused H2 where it does not tile.

    A point on a border between districts is asked of each that has it, and their answers together are the answer.
    """
    answer = check_island(island)
    if answer.refused is not None:
        raise answer.refused
    levels, rings = levels_of_island(island, "parcels"), island.parcels.rings
    plan = Plan.of(island.city, rings, levels)
    places = np.array(points, dtype=np.int64).reshape(-1, 2)
    with folder_of_runs() as folder:
        sums = with_parts(folder, plan, write_pieces(folder, plan))
        told = _located(folder, levels[0], places)
        test_outlines(folder, plan, sums)
    return told


def _located(folder: Path, districts: Districts, places: Array) -> List[Tuple[str, List[int]]]:
    from ..program.tool import locate_points

    boxes = boxes_of(districts.outlines)
    near = [np.flatnonzero(((places >= box[:2]) & (places <= box[2:])).all(axis=1)) for box in boxes]
    asked = [at for at, some in enumerate(near) if len(some)]

    def told_in(at: int) -> List[Tuple[str, List[int]]]:
        here = folder / f"d{at + 1}"
        points: List[Tuple[int, int]] = [(x, y) for x, y in places[near[at]].tolist()]
        return locate_points(here / "city.shp", here / "parcels.shp", points)

    records: List[List[int]] = [[] for _ in places]
    where = ["outside"] * len(places)
    with ThreadPoolExecutor(max_workers=jobs_of(how_cut())) as pool:
        for at, told in zip(asked, pool.map(told_in, asked)):
            for point, (kind, found) in zip(near[at].tolist(), told):
                if kind != "outside":
                    where[point] = kind
                    records[point] += [int(districts.rows[at][record - 1]) + 1 for record in found]
    return [(kind, sorted(some)) for kind, some in zip(where, records)]
