"""Runs of the program for districts: by processes of this machine, or by an engine of `gandovel many`."""
from __future__ import annotations

import gc
import os
import signal
import tempfile
from concurrent.futures import ProcessPoolExecutor, ThreadPoolExecutor
from dataclasses import dataclass
from multiprocessing import get_context
from pathlib import Path
from typing import Any, Callable, Dict, List, Optional, Sequence, Tuple

from ..errors import Refused
from ..program.tool import find_tool, run_tool
from . import Cutting


@dataclass(frozen=True)
class Run:
    """One run: its name, the arguments of the program, and the shapefiles that it reads."""

    name: str
    arguments: Tuple[str, ...]
    layers: Tuple[str, ...]


@dataclass(frozen=True)
class Said:
    """What a run printed, and its refusal; or why there is no answer (`lost`)."""

    printed: str = ""
    refused: Optional[Refused] = None
    lost: Optional[str] = None


def jobs_of(how: Cutting) -> int:
    """How many runs go on at once on this machine."""
    return how.jobs or (len(os.sched_getaffinity(0)) if hasattr(os, "sched_getaffinity") else os.cpu_count() or 1)


def threads_of(how: Cutting, runs: int) -> str:
    """How many threads each of so many runs has, as a word: they share this machine's processors, or have one each."""
    return str(max(1, jobs_of(how) // max(1, runs))) if how.engine == "processes" else "1"


def said_of(runs: Sequence[Run], how: Cutting) -> List[Said]:
    """What the program says in each run. A run that ends without an answer, as one that is killed, has `lost`."""
    find_tool()
    if how.engine != "processes":
        return _by_engine(runs, how)
    with ThreadPoolExecutor(max_workers=jobs_of(how)) as pool:
        return list(pool.map(_said, runs))


def _said(run: Run) -> Said:
    why = ""
    for _ in range(2):
        try:
            return Said(*run_tool(list(run.arguments)))
        except Refused as refused:
            if refused.code not in ("T1", "T2"):
                raise
            why = str(refused)
    return Said(lost=why)


def _by_engine(runs: Sequence[Run], how: Cutting) -> List[Said]:
    """The same runs as tasks of `gandovel many`, in a folder beside their files, which other nodes see under its
    path."""
    from ..many.run import tasks_done
    from ..many.tasks import Task

    tasks = [Task(run.name, run.arguments, tuple(_inputs(run.layers).items())) for run in runs]
    folder = Path(runs[0].layers[0]).parents[1] if runs else Path(tempfile.gettempdir())
    found = tasks_done(tasks, folder / "runs", how.engine, how.jobs, how.scheduler)
    return [_from_engine(*found[run.name]) for run in runs]


def _from_engine(result: Any, lost: Optional[Tuple[str, str]]) -> Said:
    from ..program.tool import refusal

    if result is None:
        return Said(lost=" ".join(lost or ("T4", "the task left nothing")))
    if result.status == 0:
        return Said(result.output)
    errors = [line for line in result.errors.splitlines() if line.startswith("error: ")]
    return Said(result.output, refusal(errors[-1][len("error: ") :]))


def _inputs(layers: Sequence[str]) -> Dict[str, bool]:
    found = {}
    for path in layers:
        found[path] = True
        found[f"{path[:-4]}.shx"] = False
    return found


_work: List[Callable[[int], Any]] = []
"""What the processes of `forked` do: they have it as they are forked, and nothing is sent to them but numbers."""


def forked(work: Callable[[int], Any], count: int, jobs: int) -> List[Any]:
    """The answers of a call for 0 .. count - 1, by processes forked from this one; by this one for one job."""
    if jobs < 2 or count < 2 or not hasattr(os, "fork"):
        return [work(at) for at in range(count)]
    _work.append(work)
    gc.freeze()  # else a collection in a forked process writes into all the memory that it shares with this one
    try:
        # An interruption is this process' to tell; the others end with what they are at.
        context, workers = get_context("fork"), min(jobs, count)
        with ProcessPoolExecutor(workers, context, signal.signal, (signal.SIGINT, signal.SIG_IGN)) as pool:
            return list(pool.map(_done, range(count)))
    finally:
        gc.unfreeze()
        _work.pop()


def _done(at: int) -> Any:
    return _work[-1](at)
