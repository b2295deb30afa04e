"""Lists of tasks, a line of JSON each, that are run one after the other.

    python3 -I -S start.py jobs/JOB.txt [--with-parent]
    python3 -I -S start.py jobs --shared NAME [--with-parent]

With --shared a process takes lists of the folder until none is left, beside others that do; NAME is its own, also when
it is started again. Each engine starts start.py, by its path, in the same way. The status is 0 where all results are in
place, else that of the last task that failed.
"""
from __future__ import annotations

import json
import multiprocessing
import os
import signal
import sys
from collections import deque
from concurrent.futures import ProcessPoolExecutor
from concurrent.futures.process import BrokenProcessPool
from typing import Any, Deque, Dict, Iterator, List, Optional, Sequence

from .task import STATUS, Failed, ask_to_stop, asked_to_stop, die_with_parent, done, final_end, is_done, note
from .task import put_in_place, remove, tell

INIT = 1
"""The process that takes over those whose parent has ended."""

TERM = [signal.SIGTERM]

_parent: List[int] = []
"""In the process that runs tasks: the one beside it, which hands them out."""


def run_tasks(tasks: Sequence[Dict[str, Any]]) -> int:
    """Runs tasks one after the other in a process beside this one; the status of the last that failed, else 0.

    Where that process is killed, the program that it ran is, too; the task at hand has no result, and another process
    goes on with the next one.
    """
    left, status = deque(tasks), 0
    signal.signal(signal.SIGTERM, _stop)
    while left and not asked_to_stop:
        status = _run_beside(left, status)
    return STATUS["T4"] if asked_to_stop else status


def _stop(number: int, _: Any) -> None:
    asked_to_stop.append(number)
    for child in multiprocessing.active_children():
        child.terminate()


def _run_beside(left: Deque[Dict[str, Any]], status: int) -> int:
    """Takes tasks away from a list as they end, until none is left or the process that runs them has ended."""
    fork = multiprocessing.get_context("fork")  # it has all modules by then
    beside: List[Any] = []
    try:
        with ProcessPoolExecutor(1, fork, _begin, (os.getpid(),)) as pool:
            while left and not asked_to_stop:
                signal.pthread_sigmask(signal.SIG_BLOCK, TERM)  # until the process is known that is to be told
                ended = pool.submit(_run_here, left[0])
                beside = beside or multiprocessing.active_children()
                signal.pthread_sigmask(signal.SIG_UNBLOCK, TERM)
                try:
                    status = ended.result() or status
                except BrokenProcessPool:
                    raise
                except Exception as fault:  # whatever it is, it is this task's end alone
                    print(f"error: {left[0]['name']}: {type(fault).__name__}: {fault}", file=sys.stderr)
                    status = STATUS["T2"]
                left.popleft()
    except BrokenProcessPool:
        task, status = left.popleft(), STATUS["T4"]
        code = beside[0].exitcode if beside else None  # above 0 where it ended by itself, and has told why
        if (code or 0) <= 0 and not asked_to_stop and not is_done(task):
            tell(task, Failed("T4", f"the task was killed by signal {-code}" if code else "the task was killed"))
    return status


def _begin(parent: int) -> None:
    """In the process that runs tasks, at first: it ends where its parent does."""
    _parent.append(parent)
    signal.signal(signal.SIGTERM, signal.SIG_DFL)
    die_with_parent(parent, signal.SIGTERM)
    signal.pthread_sigmask(signal.SIG_UNBLOCK, TERM)


def _run_here(task: Dict[str, Any]) -> int:
    try:
        return run_task(task)
    finally:
        if asked_to_stop or os.getppid() != _parent[0]:
            os._exit(STATUS["T4"])
        signal.signal(signal.SIGTERM, signal.SIG_DFL)
        signal.pthread_sigmask(signal.SIG_UNBLOCK, TERM)


def run_task(task: Dict[str, Any]) -> int:
    """Runs a task; the status. It comes back with SIGTERM held up, since its end is decided."""
    aside = os.path.join(task["folder"], f".{task['name']}.{os.uname().nodename}.{os.getpid()}.new")
    signal.signal(signal.SIGTERM, ask_to_stop)
    try:
        if not is_done(task):
            earlier = final_end(task)
            if earlier is not None:
                raise earlier
            note(task, None)
            os.mkdir(aside)
            done(task, aside)
            signal.pthread_sigmask(signal.SIG_BLOCK, TERM)
            put_in_place(aside, os.path.join(task["folder"], task["name"]))
        signal.pthread_sigmask(signal.SIG_BLOCK, TERM)
        return 0
    except (OSError, Failed) as fault:
        signal.pthread_sigmask(signal.SIG_BLOCK, TERM)
        failed = fault if isinstance(fault, Failed) else Failed("P14", f"the result can't be written: {fault}")
        remove(aside)
        if not _parent or os.getppid() == _parent[0]:  # else the engine is gone, and it is for the command to say so
            tell(task, failed)
        return failed.status


def tasks_of(path: str) -> List[Dict[str, Any]]:
    """The tasks of a list."""
    with open(path, encoding="utf-8") as file:
        return [json.loads(line) for line in file]


def lists_taken(folder: str, name: str) -> Iterator[str]:
    """The lists of a folder that nobody else takes, one by one; first those that this name took when it was started
    before.

    A list that was done to its end gets a mark, which tells how far all are.
    """
    numbers = sorted(int(it[:-4]) for it in os.listdir(folder) if it.endswith(".txt"))
    for number in numbers:
        taken = os.path.join(folder, f"{number}.taken")
        try:
            os.symlink(name, taken)  # which is there with its content, or not at all
        except FileExistsError:
            if os.readlink(taken) != name:
                continue
        yield os.path.join(folder, f"{number}.txt")
        with open(os.path.join(folder, f"{number}.done"), "w", encoding="utf-8"):
            pass


def run_shared(folder: str, name: str) -> int:
    """Runs lists of a folder until none is left; the status of the last task that failed, else 0."""
    status = 0
    for path in lists_taken(folder, name):
        status = run_tasks(tasks_of(path)) or status
        if asked_to_stop:
            return STATUS["T4"]
    return status


def main(words: List[str]) -> int:
    """Runs the tasks of a list, or those of a folder's lists that nobody else takes; the status."""
    if "--with-parent" in words:
        parent = os.getppid()
        if parent == INIT and os.environ.get("PARALLEL_PID", str(INIT)) != str(INIT):  # GNU parallel ended meanwhile
            return STATUS["T4"]
        die_with_parent(parent)
    if "--shared" in words:
        return run_shared(words[0], words[words.index("--shared") + 1])
    return run_tasks(tasks_of(words[0]))
