"""A run: the rings of districts, the cities, every fault where an overlay told the first one alone, and the summary."""
from __future__ import annotations

import signal
import threading
import time
from contextlib import contextmanager
from pathlib import Path
from typing import Any, Dict, Iterator, List, Optional, Tuple, Union

from ..errors import Refused
from .asked import Run
from .engines import ENGINES, Engine, Settings, default_engine
from .engines.slurm import end_earlier_jobs
from .findings import summary_of
from .manifest import read_manifest
from .results import Result, ResultsFolder
from .summary import Summary
from .tasks import Limits, Task, faults_task_of, find_program, task_of


def run_many(
    manifest: Union[str, Path],
    out: Union[str, Path],
    engine: Optional[str] = None,
    *,
    scheduler: Optional[str] = None,
    jobs: Optional[int] = None,
    threads: int = 1,
    timeout: Optional[float] = None,
    memory_mb: Optional[int] = None,
    retries: int = 2,
    resume: bool = False,
    verify: bool = False,
    shown: bool = False,
) -> Summary:
    """Asks the program about each city of a manifest, one process a city; results and summary go to the folder `out`.

    `engine` is `parallel`, `processes`, `slurm` or `dask`, by default GNU parallel where it is there, else processes;
    `scheduler` is the address of Dask's. At most `jobs` tasks run at once, each by `threads` threads, for `timeout`
    seconds and with `memory_mb` MiB at most. A task without a result is tried again up to `retries` times. With
    `resume`, what has a result of the same program, question and checksums is not done again; with `verify` it is done
    again, and results that said something else before are named (`Summary.differing`). `shown` shows progress on
    standard error.

    A city that gets no result has the verdict `none`, with a code that says why. Refused P1, P2, P3, P15 (the
    manifest), P14 and P16 (the folder), T1 (the program), T7 (the engine).
    """
    begun, engine = time.monotonic(), engine or default_engine()
    rows = read_manifest(manifest)
    program = find_program()
    limits = Limits(timeout, None if memory_mb is None else memory_mb * 1024)
    settings = Settings(jobs, threads, retries, limits, scheduler)
    with ResultsFolder(Path(out)) as results, _ended_by_signals():
        end_earlier_jobs(results.path / "engine")
        run = Run(results, program, settings, shown, resume or verify, verify)
        with _engine(engine, settings, results.lock) as it:
            run.begin(manifest, engine)
            rows = run.with_rings(rows)
            run.do(it, "cities", [task_of(row, threads) for row in rows if row.city is not None])
            asked = [(row, run.layer_of_first_fault(row)) for row in rows]
            more = [faults_task_of(row, role, threads) for row, role in asked if role is not None]
            run.do_more(it, "faults", more)
            run.do_more(it, "overlays", run.overlays_of(rows, threads))
            run.results.without_frames()
        return summary_of(run, rows, begun)


def tasks_done(
    tasks: List[Task], out: Path, engine: str, jobs: Optional[int] = None, scheduler: Optional[str] = None
) -> Dict[str, Tuple[Optional[Result], Optional[Tuple[str, str]]]]:
    """Runs tasks by an engine, with results in a folder: for each, by its name, its result, or why there is none.

    Refused P14 and P16 (the folder), T1 (the program), T7 (the engine).
    """
    settings = Settings(jobs, 1, 2, Limits(), scheduler)
    with ResultsFolder(out) as results, _ended_by_signals():
        run = Run(results, find_program(), settings, False, False)
        with _engine(engine, settings, results.lock) as it:
            run.begin(out, engine)
            run.do(it, "cities", tasks)
        lost = run.lost["cities"]
        return {
            task.name: (None, lost[task.name]) if task.name in lost else (results.result("cities", task.name), None)
            for task in tasks
        }


@contextmanager
def _engine(name: str, settings: Settings, held: Optional[int]) -> Iterator[Engine]:
    if name not in ENGINES:
        raise Refused("T7", f"there is no engine {name}; there are {', '.join(ENGINES)}")
    engine = ENGINES[name](settings, held)
    engine.test()
    try:
        yield engine
    finally:
        engine.close()


@contextmanager
def _ended_by_signals() -> Iterator[None]:
    """SIGTERM and SIGHUP end the run as an interrupt from the keyboard does: its tasks are stopped first."""
    numbers = (signal.SIGTERM, signal.SIGHUP) if threading.current_thread() is threading.main_thread() else ()

    def stop(*_: Any) -> None:
        raise KeyboardInterrupt

    former = [(number, signal.signal(number, stop)) for number in numbers]
    try:
        yield
    finally:
        for number, handler in former:
            signal.signal(number, handler)
