"""Districts whose parcels lie in one another's files: the whole tiles where the edges of all, added up, leave none.

A district is refused by the edges that its parcels have and its ring has not. What one district has too much of, and
another too little, cancels in their sum: it is that of one run over all parcels. It is Python's sum, in whole numbers.
"""
from __future__ import annotations

from typing import Callable, Dict, List, Mapping, Optional, Sequence

import numpy as np

from ..arrays import Array
from ..large.compose import added_up
from .layers import rings_of
from .manifest import Row
from .results import Result
from .summary import Verdict


def misfiled(
    rows: Sequence[Row], verdicts: Mapping[str, Verdict], told: Callable[[Row], Optional[Result]]
) -> Dict[str, List[str]]:
    """Cities that all parcels of their districts tile, and the districts whose files have parcels of others.

    `told` is the check of a refused district that says each of its faults, where there is one of the same files.
    """
    below: Dict[str, List[Row]] = {}
    for row in rows:
        if row.part_of is not None:
            below.setdefault(row.part_of, []).append(row)
    found: Dict[str, List[str]] = {}
    for city, districts in below.items():
        refused = [row for row in districts if not verdicts[row.name].tiles]
        if not verdicts[city].tiles or not refused or any(row.name in below for row in districts):
            continue
        if all(_is_of_edges(verdicts[row.name]) for row in refused) and _balance(refused, told):
            found[city] = [row.name for row in refused]
    return found


def _is_of_edges(verdict: Verdict) -> bool:
    """Whether a district is refused for edges of its parcels alone."""
    return (verdict.verdict, verdict.code, verdict.layer) == ("refused", "H2", "parcels")


def _balance(refused: Sequence[Row], told: Callable[[Row], Optional[Result]]) -> bool:
    """Whether the edges that are left in districts cancel one another."""
    edges: List[Array] = []
    rings: List[Array] = []
    for row in refused:
        result, some = told(row), rings_of(row.parcels, row.unit)
        lines = [] if result is None else [line.split() for line in result.output.splitlines()]
        left = [[*map(int, line[1:5]), int(line[6])] for line in lines if line[:1] == ["edge"]]
        if not left or some is None or any(line[:1] == ["ring"] for line in lines):
            return False
        edges.append(np.array(left, dtype=np.int64))
        rings += some
    return not len(added_up(edges, rings))
