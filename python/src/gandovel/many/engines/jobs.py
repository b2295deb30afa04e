"""Jobs of several tasks: an engine takes longer to begin one than the program for a small city."""
from __future__ import annotations

import os
from pathlib import Path
from typing import Callable, Dict, List, Sequence

from ..tasks import Batch, Task
from .base import Lost

MOST, FEWEST = 256, 4
"""The most tasks of a job; and so many are one, rather than one alone, where there are very many tasks."""

SHARES, VERY_MANY = 2, 16
"""A job takes at most one of `SHARES` shares a processor of what is left. Very many are `VERY_MANY` jobs a
processor."""

EACH, LITTLE = 128 << 10, 2 << 20
"""What a task takes beside the reading of its files, and what is too little for a job, in bytes of files read as
long."""


ALONE = "alone"
"""The folder of the lists of tasks that are run once more, each alone."""


def jobs_of(tasks: Sequence[Task], at_once: int) -> List[List[int]]:
    """The numbers of the tasks of each job, in order. Jobs get smaller, so that all processors end together."""
    costs = [EACH + sum(_size(path) for path, needed in task.inputs if needed) for task in tasks]
    fewest = max(1, min(FEWEST, len(tasks) // (VERY_MANY * at_once)))
    jobs: List[List[int]] = []
    begin, left = 0, sum(costs)
    while begin < len(tasks):
        most = max(fewest, min(MOST, (len(tasks) - begin) // (SHARES * at_once)))
        share = max(left // (SHARES * at_once), LITTLE if fewest > 1 else 0)
        end, room = begin + 1, share - costs[begin]
        while end < min(begin + most, len(tasks)) and costs[end] <= room:
            room -= costs[end]
            end += 1
        jobs.append(list(range(begin, end)))
        left -= sum(costs[begin:end])
        begin = end
    return jobs


def run_jobs(
    batch: Batch,
    jobs: Sequence[Sequence[int]],
    run: Callable[[Sequence[Sequence[int]], List[Path]], Dict[int, Lost]],
) -> Dict[int, Lost]:
    """Runs jobs by a call that takes them with their lists, and answers what became of the tasks that ended badly.

    A job that is killed on its last try takes down tasks that had none. They are run once more, each alone.
    """
    lost = run(jobs, write_jobs(batch, jobs))
    killed = [(number, len(job) > 1) for job in jobs for number in job if number in lost and lost[number].killed]
    again = [number for number, is_shared in killed if is_shared or not lost[number].began]
    alone = [[number] for number in batch.left(again)]
    if alone:
        lost.update(run(alone, write_jobs(batch, alone, ALONE)))
    return lost


def write_jobs(batch: Batch, jobs: Sequence[Sequence[int]], name: str = "jobs") -> List[Path]:
    """Writes a list of tasks for each job into a folder, and answers their paths."""
    folder = batch.folder / name
    folder.mkdir()
    paths = [folder / f"{at}.txt" for at in range(len(jobs))]
    for path, numbers in zip(paths, jobs):
        path.write_text("".join(map(batch.line_of, numbers)), encoding="utf-8")
    return paths


def _size(path: str) -> int:
    try:
        return os.stat(path).st_size
    except OSError:
        return 0
