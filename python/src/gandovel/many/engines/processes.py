"""Processes of this machine, which need nothing but Python: for where GNU parallel is not there."""
from __future__ import annotations

import os
import signal
import subprocess
import sys
import time
from dataclasses import dataclass
from pathlib import Path
from typing import Dict, List, Optional, Sequence

from ..tasks import WORKER, Batch
from .base import Engine, Lost, Told, of_status
from .jobs import jobs_of, run_jobs

OFTEN = 0.02
"""Seconds between two looks at the processes: a small city takes as long."""
LONGER = 0.5
"""Seconds between two looks at how far all are, which reads a folder."""
ASKED, APART = 50, 0.2
"""So often, and so many seconds apart, a process is asked to stop before it is killed."""


@dataclass
class _Runner:
    """A process that takes lists of tasks under a name of its own, and the tries that it has left."""

    name: str
    left: int
    process: "Optional[subprocess.Popen[bytes]]" = None
    status: int = 0


class ProcessesEngine(Engine):
    """Tasks in processes that this command starts, many small cities in one. Where it is killed, they end."""

    def test(self) -> None:
        """Nothing is needed beside Python."""

    def run(self, batch: Batch, told: Told) -> Dict[int, Lost]:
        def run(jobs: Sequence[Sequence[int]], lists: List[Path]) -> Dict[int, Lost]:
            return self._run(batch, jobs, lists, told)

        return run_jobs(batch, jobs_of(batch.tasks, self.settings.jobs_here), run)

    def _run(self, batch: Batch, jobs: Sequence[Sequence[int]], lists: List[Path], told: Told) -> Dict[int, Lost]:
        folder, before = lists[0].parent, len(batch.tasks) - sum(map(len, jobs))
        count = min(len(jobs), self.settings.jobs_here)
        runners = [_Runner(str(at), self.settings.retries) for at in range(count)]
        try:
            with open(folder / "processes.log", "ab") as said:
                for runner in runners:
                    runner.process = self._started(folder, runner.name, said.fileno())
                looked = time.monotonic()
                while self._are_running(folder, runners, said.fileno()):
                    time.sleep(OFTEN)
                    if time.monotonic() - looked > LONGER:
                        told(before + sum(len(jobs[int(it.stem)]) for it in folder.glob("*.done")))
                        looked = time.monotonic()
        finally:
            _end(runners)
        return _lost(folder, jobs, {runner.name: runner.status for runner in runners})

    def _are_running(self, folder: Path, runners: List[_Runner], said: int) -> bool:
        """Whether any process runs, now that each which failed was started again, as often as it may be."""
        for runner in runners:
            status = None if runner.process is None else runner.process.poll()
            if status is None:
                continue
            runner.process, runner.status = None, status
            if status and runner.left:
                runner.left -= 1
                runner.process = self._started(folder, runner.name, said)
        return any(runner.process is not None for runner in runners)

    def _started(self, folder: Path, name: str, said: int) -> "subprocess.Popen[bytes]":
        """The process of this name; started again it takes first what it had taken before."""
        return subprocess.Popen(
            [sys.executable, "-I", "-S", str(WORKER), ".", "--shared", name, "--with-parent"],
            cwd=str(folder),
            stdin=subprocess.DEVNULL,
            stdout=said,
            stderr=said,
            start_new_session=True,
            pass_fds=() if self.held is None else (self.held,),
        )


def _end(runners: List[_Runner]) -> None:
    """Stops the processes that still run: they stop their tasks.

    They are asked more than once, as GNU parallel does: Python looks at a signal that comes just before a long read
    only after it.
    """
    running = [runner.process for runner in runners if runner.process is not None]
    for number in (signal.SIGTERM,) * ASKED + (signal.SIGKILL,):
        for process in running:
            process.send_signal(number)
        until = time.monotonic() + APART
        while any(process.poll() is None for process in running) and time.monotonic() < until:
            time.sleep(OFTEN)
        running = [process for process in running if process.poll() is None]
    for process in running:
        process.wait()


def _lost(folder: Path, jobs: Sequence[Sequence[int]], statuses: Dict[str, int]) -> Dict[int, Lost]:
    """What became of the tasks of lists whose process ended badly."""
    lost: Dict[int, Lost] = {}
    for at, numbers in enumerate(jobs):
        taken = folder / f"{at}.taken"
        status = statuses.get(os.readlink(taken)) if taken.is_symlink() else None
        if status is None:  # nobody was left to take it
            why = Lost("T4", "the processes that ran tasks were killed", True, False)
        elif status < 0:
            why = Lost("T4", f"the task was killed by signal {-status}", True)
        elif status:
            why = of_status(status, "its process")
        else:
            continue
        lost.update(dict.fromkeys(numbers, why))
    return lost
