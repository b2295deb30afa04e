"""What a run says at its end: the summary, the pairs of cities of districts, and every fault of refused cities."""
from __future__ import annotations

import time
from dataclasses import replace
from pathlib import Path
from typing import TYPE_CHECKING, Any, Callable, Dict, List, Optional, Sequence, Tuple

from ..errors import Refused
from .asked import Run, said_by
from .manifest import Row, bottom_of, cities_above
from .results import Result
from .summary import Layers, Summary, Verdict, not_judged, shortened, wholes_of

if TYPE_CHECKING:
    from .faults_file import Faults
    from .layers import Crossing

Shared = Dict[str, List[str]]


def summary_of(run: Run, rows: Sequence[Row], begun: float) -> Summary:
    """Puts together what the run says, and writes `summary.csv`, `summary.json`, `faults.gpkg` and `pairs.csv`."""
    found, lost = run.found["cities"], run.lost["cities"]
    verdicts = {
        row.name: found[row.name][1] if row.name in found else not_judged(row.name, lost[row.name]) for row in rows
    }
    astray = {row.name for row in rows if row.part_of is not None and not run.has_its_ring(row)}
    records = {name: len(layer) for name, layer in run.layers.items()}
    try:
        pairs, unwritten = _pairs(run, rows), run.stopped
    except Refused as why:
        pairs, unwritten = ({}, {}), run.stopped or why
    layers = Layers(records, astray, *_numbers(run, rows, verdicts), _areas(run, rows), *pairs)
    layers = replace(layers, misfiled=_misfiled(run, rows, verdicts))
    summary = Summary(list(verdicts.values()), wholes_of(rows, verdicts, layers), len(run.kept))
    summary.kept_names, summary.differing = frozenset(run.kept), _differing(run)
    summary.unwritten = unwritten
    refused = [row for row in rows if verdicts[row.name].verdict == "refused"]
    writes: Sequence[Callable[[], object]] = (
        lambda: _tell_faults(run, summary, rows, refused, layers),
        lambda: run.results.write("summary.csv", summary.table()),
        lambda: run.results.write("summary.json", summary.facts()),
    )
    for write in writes:
        summary.seconds = time.monotonic() - begun
        try:
            write()
        except Refused as why:  # the verdicts are there all the same: they are told, and then that
            summary.unwritten = summary.unwritten or why
    return summary


def _numbers(run: Run, rows: Sequence[Row], verdicts: Dict[str, Verdict]) -> "Tuple[Shared, Dict[str, List[Crossing]]]":
    """By a city of districts: numbers that two of its districts share, and parcels that cross them."""
    above = cities_above(rows)
    below: Dict[str, List[Row]] = {row.part_of: [] for row in rows if row.part_of is not None}
    for row in bottom_of(rows):
        for city in above[row.name]:
            below[city.name].append(row)
    refused = {row.name for row in rows if verdicts[row.name].code == "H2"}
    if not below or not (refused or any(_may_have_numbers(row) for row in rows)):
        return {}, {}
    from .layers import crossings, shared_numbers

    shared = {name: shared_numbers(some) for name, some in below.items()}
    return shared, {name: crossings(some, refused) for name, some in below.items() if name not in refused}


def _misfiled(run: Run, rows: Sequence[Row], verdicts: Dict[str, Verdict]) -> Dict[str, List[str]]:
    """Cities that all parcels tile though districts do not: by each the districts with parcels of one another."""
    if not any(row.part_of is not None and verdicts[row.name].code == "H2" for row in rows):
        return {}
    from .filing import misfiled

    return misfiled(rows, verdicts, lambda row: _check_of_all_faults(run, row))


def _areas(run: Run, rows: Sequence[Row]) -> Dict[str, int]:
    """Twice the areas in mm2 of the cities of districts that are overlaid, since an overlay tells none."""
    above = {row.part_of for row in rows}
    zoned = [row for row in rows if row.name in above and row.zones is not None and row.city is not None]
    if not zoned:
        return {}
    from ..exact.grid import twice_area
    from .layers import rings_of

    rings = {row.name: rings_of(str(row.city), row.unit) for row in zoned}
    return {name: abs(twice_area(some[0])) for name, some in rings.items() if some}


def _pairs(run: Run, rows: Sequence[Row]) -> Tuple[Dict[str, Tuple[int, int]], Dict[str, str]]:
    """Writes `pairs.csv`, where cities of districts have zones: by city its pairs and split parcels, or why not."""
    above = cities_above(rows)
    bottom = [row for row in bottom_of(rows) if row.zones is not None or row.name in run.overlays]
    if not bottom:
        return {}, {}
    from .pairs import Table, unlike_zones

    there = {row.name for row in bottom}
    lacking = {it.name for row in bottom_of(rows) if row.name not in there for it in above[row.name]}
    why: Dict[str, str] = {}
    with run.results.written("pairs.csv") as file:
        table = Table(file)
        for row in bottom:
            found = _pairs_of(run, row)
            if found is None:
                lacking |= {it.name for it in above[row.name]}
                told = f"not overlaid: {row.name}{_why_not(run, row)}"
                why.update({it.name: told for it in above[row.name] if it.name not in why})
            else:
                zones = next(it for it in (row, *above[row.name]) if it.zones is not None)
                table.add([it.name for it in above[row.name]], row, zones, found)
    for city in (row for row in rows if row.zones is not None and row.name not in there):
        pieces = unlike_zones(city, [row for row in bottom if city in above[row.name]])
        if pieces:
            why.setdefault(city.name, f"the pieces in its districts do not make up zones: {shortened(pieces)}")
    return {name: it for name, it in table.counts.items() if name not in lacking}, why


def _pairs_of(run: Run, row: Row) -> Optional[Any]:
    """The pairs of a district, by the records of its parcels and of zones, from 1; None where they are not
    known."""
    from .pairs import all_pairs, pairs_in, pairs_of_overlay

    if row.zones is not None:
        result = run.results.result("cities", row.name) if run.tiles(row) else None
        return None if result is None else pairs_in(result.output)
    made = run.overlays[row.name]
    results = [run.results.result("overlays", it.task.name) for it in made or ()]
    if made is None or any(result is None or result.status for result in results):
        return None
    found = [pairs_of_overlay(it, result.output) for it, result in zip(made, results) if result is not None]
    return all_pairs(found)


def _why_not(run: Run, row: Row) -> str:
    """Why the pairs of a district are not known, in brackets."""
    made, lost, found = run.overlays.get(row.name), run.lost["overlays"], run.found["overlays"]
    for name in (row.name, *(it.task.name for it in made or ())):
        if name in lost:
            return f" ({' '.join(lost[name])})"
        if name in found and not found[name][1].tiles:
            return f" ({found[name][1].code} {found[name][1].text})"
    return " (T5 a layer changed)" if row.name in run.overlays and made is None else ""


def _differing(run: Run) -> List[str]:
    """The results that were asked for again and say something else than before."""
    found = []
    for place, before in run.before.items():
        kind, _, name = place.partition("/")
        if name in run.found[kind] and said_by(run.results.result(kind, name)) != before:
            found.append(name)
    return found


def _tell_faults(run: Run, summary: Summary, rows: Sequence[Row], refused: Sequence[Row], layers: Layers) -> None:
    """Writes the faults of refused cities, where there is one, and counts them. GeoPandas is imported for them
    alone."""
    if not refused:
        return
    from .faults_file import Faults

    faults = Faults()
    filed = {name for names in layers.misfiled.values() for name in names}
    summary.untold = [row.name for row in refused if row.name not in filed and not _add_faults(run, faults, row, rows)]
    by_name = {row.name: row for row in rows} if layers.crossing else {}
    for city, several in layers.crossing.items():
        for it in several if by_name[city].part_of is None else ():  # a city within it has none that this one lacks
            faults.add_crossing(city, by_name[it.district], it)
    summary.gaps, summary.overlaps, summary.rings = map(faults.count, ("gaps", "overlaps", "rings"))
    summary.crossings = faults.count("crossings")
    if faults.save(run.results.path / "faults.gpkg"):
        summary.faults_file = str(run.results.path / "faults.gpkg")


def _add_faults(run: Run, faults: Faults, row: Row, rows: Sequence[Row]) -> bool:
    """Takes every fault of a refused city; False where the check that told them has none of the same files."""
    told = _check_of_all_faults(run, row)
    if told is None:
        return False
    faults.add(row, told, [it for it in rows if it.part_of is not None and it.part_of == row.part_of and it != row])
    return True


def _check_of_all_faults(run: Run, row: Row) -> Optional[Result]:
    """The check that told every fault of a refused city; None where it has none of the same files."""
    city = run.found["cities"][row.name][0]
    kind = "cities" if run.layer_of_first_fault(row) is None else "faults"
    told = run.results.result(kind, row.name) if row.name in run.found[kind] else None
    if told is None or told.run != run.found[kind][row.name][0].run or not _same_files(city, told):
        return None
    return told


def _may_have_numbers(row: Row) -> bool:
    """Whether a district's parcels have numbers beside them."""
    path = Path(row.parcels)
    return row.part_of is not None and (path.with_name("rows.csv").is_file() or path.with_suffix(".dbf").is_file())


def _same_files(one: Result, other: Result) -> bool:
    """Whether what both have read was the same."""
    return all(one.has_read_as(other, path) for path in other.inputs if path in one.inputs)
