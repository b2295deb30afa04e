"""Dask, by the client of `distributed`: a scheduler that is there already, or one with workers on this machine."""
from __future__ import annotations

import logging
import subprocess
import sys
import threading
from contextlib import contextmanager, suppress
from pathlib import Path
from typing import Any, Callable, Dict, Iterator, List, Optional, Sequence

from ...errors import Refused
from ..tasks import Batch
from .base import Engine, Lost, Told, of_status, worker_words
from .jobs import jobs_of, run_jobs

PATIENCE = "30s"
"""How long a scheduler may take to answer at first."""

OFTEN = 5.0
"""Seconds after which workers on this machine that are gone for good are started anew."""

LOGGERS = ("distributed", "tornado", "asyncio")
"""Who logs what a client meets, as a scheduler that is gone. What became of the tasks is told by this package."""

THEIRS = (*LOGGERS, "concurrent")
"""The packages whose errors say that a scheduler is gone."""


class DaskEngine(Engine):
    """Tasks as calls of `subprocess.run` on a worker, many small cities in one.

    A worker needs Python and the files, no package of ours.
    """

    client: Any = None
    cluster: Any = None

    def test(self) -> None:
        try:
            import dask
            import distributed
        except ImportError as fault:
            raise Refused(
                "T7",
                f"Dask's distributed is not there ({fault}): install python3-distributed, or say --engine processes",
            ) from fault
        _quiet()
        address = self.settings.scheduler
        try:
            if address is None:
                # A worker that is killed is no reason to give its task up before the last try.
                dask.config.set({"distributed.scheduler.allowed-failures": max(self.settings.retries, 0)})
                self.cluster = distributed.LocalCluster(
                    n_workers=self.settings.jobs_here,
                    threads_per_worker=1,
                    host="127.0.0.1",
                    dashboard_address="127.0.0.1:0",
                    silence_logs=logging.CRITICAL,
                )
            self.client = distributed.Client(self.cluster or address, timeout=PATIENCE, set_as_default=False)
        except Exception as fault:  # Tornado, asyncio and distributed each have errors of their own for no answer
            self.close()
            raise Refused("T7", f"Dask's scheduler {address or 'on this machine'} does not answer: {fault}") from fault
        print(f"dashboard: {self.client.dashboard_link}", file=sys.stderr, flush=True)

    def run(self, batch: Batch, told: Told) -> Dict[int, Lost]:
        def run(jobs: Sequence[Sequence[int]], lists: List[Path]) -> Dict[int, Lost]:
            with self._workers_kept():
                return self._run(batch, jobs, lists, told)

        return run_jobs(batch, jobs_of(batch.tasks, self._at_once()), run)

    @contextmanager
    def _workers_kept(self) -> Iterator[None]:
        """Starts workers on this machine anew: a nanny gives up where its worker is killed as it begins."""
        over = threading.Event()

        def keep() -> None:
            while not over.wait(OFTEN):
                with suppress(Exception):  # it is asked again
                    self.cluster.scale(self.settings.jobs_here)

        keeper = threading.Thread(target=keep, daemon=True)
        if self.cluster is not None:
            keeper.start()
        try:
            yield
        finally:
            over.set()
            if self.cluster is not None:
                keeper.join()

    def _run(self, batch: Batch, jobs: Sequence[Sequence[int]], lists: List[Path], told: Told) -> Dict[int, Lost]:
        futures: Dict[Any, Sequence[int]] = {}
        lost: Dict[int, Lost] = {}
        try:
            with _told_if_gone(lambda fault: lost.update(dict.fromkeys(batch.left(), _gone(fault)))):
                futures = self._submitted(batch, jobs, lists)
                self._wait(futures, lost, len(batch.tasks) - sum(map(len, jobs)), told)
        finally:
            with suppress(Exception):  # a scheduler that is gone needs no word
                self.client.cancel(list(futures))
        return lost

    def _submitted(self, batch: Batch, jobs: Sequence[Sequence[int]], lists: List[Path]) -> Dict[Any, Sequence[int]]:
        """The calls for jobs, each with the numbers of its tasks."""
        return {
            self.client.submit(
                subprocess.run,
                [*worker_words(str(path)), "--with-parent"],
                check=True,
                stdin=subprocess.DEVNULL,
                stdout=subprocess.PIPE,
                stderr=subprocess.PIPE,
                key=f"{batch.folder.name}-{batch.run}-{path.parent.name}-{path.stem}",
                pure=False,
                retries=self.settings.retries,
            ): numbers
            for path, numbers in zip(lists, jobs)
        }

    def _wait(self, futures: Dict[Any, Sequence[int]], lost: Dict[int, Lost], done: int, told: Told) -> None:
        """Waits for calls, and notes the tasks of those that ended badly."""
        from distributed import as_completed

        with self.client.as_current():
            for future in as_completed(list(futures)):
                what = _what(future)
                if what is not None:
                    lost.update(dict.fromkeys(futures[future], what))
                done += len(futures[future])
                told(done)

    def _at_once(self) -> int:
        """How many calls the workers take at once; where there is none yet, as if there were one."""
        with suppress(OSError), _told_if_gone(lambda _: None):  # what is submitted meets it again
            return max(1, int(sum(self.client.nthreads().values())))
        return 1

    def close(self) -> None:
        for it in (self.client, self.cluster):
            if it is not None:
                with suppress(Exception), _told_if_gone(lambda _: None):  # there is nothing left to be done about it
                    it.close()
        self.client = self.cluster = None


def _quiet() -> None:
    """Has the library's loggers tell nothing here: a reconnection that is given up is a traceback of theirs."""
    for name in [*LOGGERS, *logging.root.manager.loggerDict]:
        if name.partition(".")[0] in LOGGERS:
            logging.getLogger(name).setLevel(logging.CRITICAL)


@contextmanager
def _told_if_gone(then: Callable[[BaseException], object]) -> Iterator[None]:
    """Calls `then` where the scheduler goes away, which Dask tells by errors of files and cancellations among
    others."""
    try:
        yield
    except BaseException as fault:
        if type(fault).__module__.partition(".")[0] not in THEIRS:
            raise
        then(fault)


def _gone(fault: BaseException) -> Lost:
    return Lost("T7", f"Dask: the scheduler went away ({type(fault).__name__})")


def _what(future: Any) -> Optional[Lost]:
    """What became of a task that ended badly; None of one that did not."""
    if future.status == "finished":
        return None
    if future.status in ("cancelled", "lost"):
        return Lost("T7", "Dask: the scheduler went away, or was told to forget the task")
    fault = future.exception()
    if isinstance(fault, subprocess.CalledProcessError):
        if fault.returncode < 0:
            return Lost("T4", f"Dask: the task was killed by signal {-fault.returncode}", True)
        return of_status(fault.returncode, "Dask")
    if type(fault).__name__ == "KilledWorker":
        return Lost("T4", f"Dask: workers died under it, and it was given up: {fault}", True)
    return Lost("T2", f"Dask: {type(fault).__name__}: {fault}")
