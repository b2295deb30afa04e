"""Eight clients at one session at once: each answer is compared with an independent reader of the journal."""
from __future__ import annotations

from collections import Counter
from typing import List

import pytest

from session_clerks import EDITS, Heard, compare, edits_of, started
from session_register import area2, grid_city
from session_town import FULL, Town

pytestmark = pytest.mark.usefixtures("in_time")
ALL = 100_000 if FULL else 10_000
NAMES = tuple(f"desk{k}" for k in range(1, 9))
COLUMNS, SIDE = 24, 10_000


@pytest.mark.parametrize("clerks", [8, 4])
def test_eight_desks_at_once(tmp_path, clerks):
    """Half of the edits by eight clerks, and half by four while four readers ask as fast as they can."""
    town = Town(tmp_path, *grid_city(COLUMNS, COLUMNS, clerks, SIDE))
    edits, wide = ALL // 2 // clerks, COLUMNS * SIDE
    with town.session(*NAMES) as session:
        jobs = [("work", edits) if at < clerks else ("read", 3 * edits) for at in range(len(NAMES))]
        heard = started(
            [(session.path(name), at, wide, wide, *job) for at, (name, job) in enumerate(zip(NAMES, jobs))]
        )()
        assert [it.fault for it in heard] == [None] * len(NAMES)
        told = session.check()
    assert session.close() == len(town.lines()) == edits * clerks
    register = town.register()
    compare(register, town.lines(), [it.said for it in heard])
    assert (told.count, told.area2) == (len(register.rings), sum(map(area2, register.rings.values())))
    are_of_all_kinds(heard)


def are_of_all_kinds(heard: List[Heard]) -> None:
    """Each edit was accepted and refused, for many reasons, so that the comparison says something."""
    answers = Counter()
    for it in edits_of([it for desk in heard for it in desk.said]):
        words = it.answer.split()
        answers[it.line.split()[0], words[0] if words[0] == "ok" else words[1]] += 1
    assert all(answers[edit, "ok"] > 100 for edit in EDITS), answers
    assert {"E1", "E2", "E3", "E4", "E6", "E7", "E8", "E11", "E12"} <= {why for _, why in answers}, answers
