"""Slurm, by array jobs, whose elements have several small cities each. `sacct`, else `squeue`, tells what became of
them."""
from __future__ import annotations

import json
import os
import re
import shutil
import subprocess
import sys
import time
from pathlib import Path
from typing import Dict, Iterable, List, Optional, Sequence, Tuple

from ...errors import Refused
from ..tasks import WORKER, Batch
from .base import SPARE, Engine, Lost, Told
from .jobs import jobs_of, run_jobs

OFTEN, SELDOM = 2.0, 10.0
"""Seconds between two looks at the queue: at first, and after a minute."""

PATIENCE = 900.0
"""Seconds that the controller may be away before the run is given up."""

CANCELLED_WITHIN = 60.0
"""Seconds that the jobs of an earlier run may take to end where they are cancelled."""

LARGEST_ARRAY = 1001
"""Slurm's own setting where it does not tell one."""

PROGRAMS = ("sbatch", "squeue", "scancel", "scontrol")
RECORD = "slurm.json"
OVER = {
    "BOOT_FAIL",
    "CANCELLED",
    "COMPLETED",
    "DEADLINE",
    "FAILED",
    "NODE_FAIL",
    "OUT_OF_MEMORY",
    "PREEMPTED",
    "TIMEOUT",
}

HELD = "launch failed requeued held"
"""Slurm's reason for an element that it could not launch, and holds until an administrator lets it go."""

AT_ONCE = 16
"""How many elements are taken to run at once where Slurm does not say how many processors it has."""

SCRIPT = """#!/bin/sh
tasks=$(sed -n "$((SLURM_ARRAY_TASK_ID + 1))p" "$GANDOVEL_LIST")
exec "$GANDOVEL_PYTHON" -I -S "$GANDOVEL_WORKER" "$GANDOVEL_JOBS/$tasks"
"""
"""What each element of an array runs: the line of a list that is its own names the list of its tasks."""


class SlurmEngine(Engine):
    """Tasks as elements of array jobs, of which there are as many as `MaxArraySize` asks for.

    An element has a share of the tasks, as another engine's job. What left no result is submitted again.

    Partition, account and the like are taken from sbatch's own variables (SBATCH_PARTITION, SBATCH_ACCOUNT ..).
    """

    def test(self) -> None:
        for program in PROGRAMS:
            if shutil.which(program) is None:
                raise Refused(
                    "T7",
                    f"Slurm's {program} is not on PATH: install the package slurm-client, or say --engine processes",
                )
        self.largest = self._largest()

    @staticmethod
    def _largest() -> int:
        ended = _ask("scontrol", "show", "config")
        if ended.returncode != 0:
            raise Refused("T7", f"Slurm's controller does not answer: {ended.stderr.strip()}")
        found = re.search(r"^MaxArraySize\s*=\s*(\d+)", ended.stdout, re.MULTILINE)
        return max(1, int(found[1])) if found else LARGEST_ARRAY

    def _at_once(self) -> int:
        """How many elements may run at once."""
        told = _ask("sinfo", "--noheader", "--format=%C").stdout if shutil.which("sinfo") else ""
        found = re.search(r"/(\d+)\s*$", told)
        return self.settings.jobs or max(1, int(found[1]) if found else AT_ONCE)

    def run(self, batch: Batch, told: Told) -> Dict[int, Lost]:
        record = batch.folder / RECORD
        record.write_text(json.dumps({"name": _name(batch)}))

        def run(jobs: Sequence[Sequence[int]], lists: List[Path]) -> Dict[int, Lost]:
            states: Dict[int, str] = {}
            self.jobs, self.lists = jobs, lists
            for _ in range(self.settings.retries + 1):
                left = [at for at, numbers in enumerate(jobs) if batch.left(numbers)]
                if left:
                    states.update(self._arrays(batch, left, told))
            return {number: _what(states.get(at)) for at, numbers in enumerate(jobs) for number in batch.left(numbers)}

        try:
            lost = run_jobs(batch, jobs_of(batch.tasks, self._at_once()), run)
        except BaseException:
            _ask("scancel", f"--name={_name(batch)}")
            raise
        record.unlink()
        return lost

    def _arrays(self, batch: Batch, numbers: Sequence[int], told: Told) -> Dict[int, str]:
        """Runs jobs as elements of arrays, all at once where the cluster takes them; the last state seen of each."""
        chunks = [list(numbers[at : at + self.largest]) for at in range(0, len(numbers), self.largest)]
        jobs: Dict[str, List[int]] = {}
        states: Dict[int, str] = {}
        begun = answered = time.monotonic()
        while chunks or jobs:
            while chunks:
                job, why = self._submit(batch, chunks[0])
                if job is None and not jobs:
                    raise Refused("T7", f"sbatch does not take the array job: {why}")
                if job is None:
                    break
                jobs[job] = chunks.pop(0)
            seen, why = _look(jobs)
            now = time.monotonic()
            if seen is not None:
                answered = now
                for job, elements in seen.items():
                    states.update({jobs[job][at]: state for at, state in elements.items() if at < len(jobs[job])})
                for job, at in [(job, at) for job, some in seen.items() for at, state in some.items() if state == HELD]:
                    _ask("scancel", f"{job}_{at}")
                for job in [job for job in jobs if all(state in OVER for state in seen.get(job, {}).values())]:
                    states.update(
                        {jobs[job][at]: state for at, state in _accounted(job).items() if at < len(jobs[job])}
                    )
                    del jobs[job]
                waiting = [at for chunk in chunks for at in chunk]
                waiting += [
                    jobs[job][at]
                    for job in jobs
                    for at, state in seen[job].items()
                    if state not in OVER and at < len(jobs[job])
                ]
                told(len(batch.tasks) - sum(len(self.jobs[at]) for at in waiting))
            elif now - answered > PATIENCE:
                raise Refused("T7", f"Slurm's controller is away, with jobs {', '.join(jobs)} under way: {why}")
            if jobs or chunks:
                time.sleep(OFTEN if now - begun < 60 else SELDOM)
        return states

    def _submit(self, batch: Batch, numbers: Sequence[int]) -> Tuple[Optional[str], str]:
        """Submits one array job: its id, or None and why it is not taken."""
        settings, logs = self.settings, batch.folder / "logs"
        logs.mkdir(exist_ok=True)
        script = batch.folder / "task.sh"
        script.write_text(SCRIPT)
        numbered = batch.folder / f"list-{len(list(batch.folder.glob('list-*.txt')))}.txt"
        numbered.write_text("".join(f"{self.lists[number].name}\n" for number in numbers))
        at_once = f"%{settings.jobs}" if settings.jobs else ""
        words = [
            "sbatch",
            "--parsable",
            f"--array=0-{len(numbers) - 1}{at_once}",
            f"--job-name={_name(batch)}",
            "--requeue",
            "--export=ALL",
            "--open-mode=append",
            f"--output={logs}/%A_%a.txt",
            "--nodes=1",
            "--ntasks=1",
            f"--cpus-per-task={settings.threads}",
        ]
        if settings.limits.timeout is not None:
            most = max(len(self.jobs[number]) for number in numbers)
            words.append(f"--time={max(1, -int(-most * (settings.limits.timeout + SPARE) // 60))}")
        if settings.memory_mb is not None:
            words.append(f"--mem={settings.memory_mb}M")
        told = {
            "GANDOVEL_LIST": str(numbered),
            "GANDOVEL_PYTHON": sys.executable,
            "GANDOVEL_WORKER": str(WORKER),
            "GANDOVEL_JOBS": str(self.lists[0].parent),
        }
        ended = _ask(*words, str(script), more=told)
        if ended.returncode != 0:
            numbered.unlink()
            return None, ended.stderr.strip()
        return ended.stdout.strip().split(";")[0], ""


def _name(batch: Batch) -> str:
    return f"gandovel-{batch.run}"


def _ask(*words: str, more: Optional[Dict[str, str]] = None) -> "subprocess.CompletedProcess[str]":
    return subprocess.run(
        words,
        stdin=subprocess.DEVNULL,
        stdout=subprocess.PIPE,
        stderr=subprocess.PIPE,
        universal_newlines=True,
        env={**os.environ, "LC_ALL": "C", **(more or {})},
    )


def _look(jobs: Iterable[str]) -> Tuple[Optional[Dict[str, Dict[int, str]]], str]:
    """The states of array jobs by job and index; a forgotten job has none. None and why without an answer."""
    found: Dict[str, Dict[int, str]] = {}
    for job in jobs:
        ended = _ask("squeue", "--noheader", "--array", "--states=all", f"--jobs={job}", "--format=%K|%T|%r")
        if ended.returncode != 0 and "Invalid job id" not in ended.stderr:
            return None, ended.stderr.strip()
        lines = [line.strip().split("|", 2) for line in ended.stdout.splitlines()]
        found[job] = {int(it[0]): _state_of(*it[1:]) for it in lines if len(it) == 3 and it[0].isdigit()}
    return found, ""


def _state_of(state: str, reason: str) -> str:
    return HELD if state == "PENDING" and reason == HELD else state


def _accounted(job: str) -> Dict[int, str]:
    """The states by index, where the cluster keeps accounts."""
    if shutil.which("sacct") is None:
        return {}
    ended = _ask("sacct", "--noheader", "--parsable2", "--allocations", f"--jobs={job}", "--format=JobID,State")
    lines: List[Tuple[str, str]] = (
        re.findall(r"^\d+_(\d+)\|([A-Z_]+)", ended.stdout, re.MULTILINE) if ended.returncode == 0 else []
    )
    return {int(index): state for index, state in lines}


def _what(state: Optional[str]) -> Lost:
    """What a state tells of a task that left no result and no note."""
    if state is None:
        return Lost("T4", "Slurm tells nothing of the task", True)
    if state == "TIMEOUT":
        return Lost("T3", "Slurm: the task took longer than its limit")
    if state == "OUT_OF_MEMORY":
        return Lost("no memory", "Slurm: the task took more than its limit")
    if state == "NODE_FAIL":
        return Lost("T4", "Slurm: the node went away", True)
    return Lost("T4", f"Slurm: the task ended with the state {state}, and left nothing, as one that is killed", True)


def end_earlier_jobs(engine_folder: Path) -> None:
    """Cancels the array jobs that an earlier, killed run on the same folder has in Slurm's queue, and waits for it.

    That run's command is over: whoever calls this holds the folder's lock. Refused P16 where Slurm does not answer, or
    does not end them.
    """
    for record in engine_folder.glob(f"*/{RECORD}"):
        try:
            name = json.loads(record.read_text())["name"]
        except (OSError, ValueError, KeyError):
            continue
        ended = _ask("squeue", "--noheader", f"--name={name}", "--format=%i") if shutil.which("squeue") else None
        if ended is None or ended.returncode != 0:
            raise Refused(
                "P16", f"Slurm does not say whether the job {name} of an earlier run is over; if it is, remove {record}"
            )
        until = time.monotonic() + CANCELLED_WITHIN
        while ended.stdout.strip():
            if time.monotonic() > until:
                raise Refused("P16", f"the job {name} of an earlier run stays in Slurm's queue: scancel --name={name}")
            _ask("scancel", f"--name={name}")
            time.sleep(OFTEN / 2)
            ended = _ask("squeue", "--noheader", f"--name={name}", "--format=%i")
