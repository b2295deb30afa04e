"""What the engines have in common."""
from __future__ import annotations

import os
import sys
from abc import ABC, abstractmethod
from dataclasses import dataclass, field
from typing import Callable, Dict, List, NamedTuple, Optional

from ..tasks import WORKER, Batch, Limits
from ..worker.task import PASSING, STATUS

SPARE = 60.0
"""Seconds that an engine gives a task beyond the program's own limit, to read the inputs before and after."""

SPARE_MB = 128
"""MiB that an engine gives a task beyond the program's own limit, for the process that runs the program."""


def processors() -> int:
    """How many processors this process may use."""
    return len(os.sched_getaffinity(0)) if hasattr(os, "sched_getaffinity") else os.cpu_count() or 1


@dataclass(frozen=True)
class Settings:
    """How tasks are run: at most `jobs` at once (None: what the engine gives), each tried again up to `retries` times.

    `threads` are the processors of a task; `scheduler` is the address of Dask's scheduler, where there is one already.
    """

    jobs: Optional[int] = None
    threads: int = 1
    retries: int = 2
    limits: Limits = field(default_factory=Limits)
    scheduler: Optional[str] = None

    @property
    def jobs_here(self) -> int:
        """How many tasks run at once where the engine is this machine."""
        return self.jobs or max(1, processors() // self.threads)

    @property
    def memory_mb(self) -> Optional[int]:
        """MiB that a task takes at most, its own process and the program; None where there is no limit."""
        return None if self.limits.memory_kb is None else self.limits.memory_kb // 1024 + SPARE_MB


class Lost(NamedTuple):
    """What an engine says of a task that left no result: a code (docs/many.md), a text, whether its job was killed, and
    whether that had begun it.
    """

    code: str
    text: str
    killed: bool = False
    began: bool = True


Told = Callable[[int], None]
"""Is called with how many tasks have ended so far."""


class Engine(ABC):
    """Runs batches of tasks. `held` is the descriptor of the results' lock, for processes that may outlive this one."""

    def __init__(self, settings: Settings, held: Optional[int] = None) -> None:
        self.settings = settings
        self.held = held

    @abstractmethod
    def test(self) -> None:
        """Refused T7 where the engine is not there or does not answer."""

    @abstractmethod
    def run(self, batch: Batch, told: Told) -> Dict[int, Lost]:
        """Runs all tasks of a batch until each has a result or its last try is over.

        Answers what became of those that ended badly, as far as the engine knows. Where it is interrupted, it stops the
        tasks and raises. Refused T7 where it failed as a whole.
        """

    def close(self) -> None:
        """Lets go what the engine holds."""


def worker_words(tasks: str) -> List[str]:
    """The command line that runs a list of tasks."""
    return [sys.executable, "-I", "-S", str(WORKER), tasks]


def of_status(status: int, who: str) -> Lost:
    """What a status of the worker tells, where it left no note."""
    for code, known in STATUS.items():
        if status == known:
            return Lost(code, f"{who}: the task ended so, and its note could not be written")
    if status == PASSING:
        return Lost("T2", f"{who}: the program lacked something of the machine, and the note could not be written")
    if status in (137, 143):
        return Lost("T4", f"{who}: the task was killed by signal {status - 128}", True)
    return Lost("T2", f"{who}: the task ended with status {status}")
