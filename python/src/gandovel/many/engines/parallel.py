"""GNU parallel on this machine. Its job log tells what became of each task."""
from __future__ import annotations

import csv
import ctypes
import os
import shutil
import signal
import subprocess
import sys
from pathlib import Path
from typing import Any, Dict, List, Sequence, Tuple

from ...errors import Refused
from ..tasks import WORKER, Batch
from .base import SPARE, Engine, Lost, Told, of_status
from .jobs import ALONE, jobs_of, run_jobs

OFTEN = 0.5
"""Seconds between two looks at the job log."""

SCRIPT = (b"Ole Tange", b"GNU parallel")
"""What stands in GNU parallel, which is a script. To ask it for its version takes a tenth of a second."""

PR_SET_PDEATHSIG = 1
JOB = 'exec "$GANDOVEL_PYTHON" -I -S "$GANDOVEL_WORKER" . --shared {} --with-parent'
"""What parallel runs, in the folder of the jobs' lists. No path stands in it: parallel has a use for some of their
characters."""


class ParallelEngine(Engine):
    """Tasks as jobs of `parallel`, many small cities in one.

    Where this command is killed, parallel ends its tasks and then itself.
    """

    def test(self) -> None:
        path = shutil.which("parallel")
        if path is None:
            raise Refused("T7", "GNU parallel is not there: install the package parallel, or say --engine processes")
        try:
            with open(path, "rb") as file:
                text = file.read()
            if text.startswith(b"#!") and all(words in text for words in SCRIPT):
                return
            ended = subprocess.run(
                [path, "--version"],
                stdin=subprocess.DEVNULL,
                stdout=subprocess.PIPE,
                stderr=subprocess.PIPE,
                universal_newlines=True,
            )
        except OSError as fault:
            raise Refused("T7", f"GNU parallel can't be run: {fault.strerror}") from fault
        if not ended.stdout.startswith("GNU parallel"):
            raise Refused(
                "T7", "the program parallel on PATH is not GNU parallel: install that, or say --engine processes"
            )

    def run(self, batch: Batch, told: Told) -> Dict[int, Lost]:
        def run(jobs: Sequence[Sequence[int]], lists: List[Path]) -> Dict[int, Lost]:
            return self._run(batch, jobs, lists, told)

        return run_jobs(batch, jobs_of(batch.tasks, self.settings.jobs_here), run)

    def _run(self, batch: Batch, jobs: Sequence[Sequence[int]], lists: List[Path], told: Told) -> Dict[int, Lost]:
        before = len(batch.tasks) - sum(map(len, jobs))
        folder = lists[0].parent
        names = list(map(str, range(len(jobs) if folder.name == ALONE else min(len(jobs), self.settings.jobs_here))))
        (folder / "names").write_text("".join(f"{name}\n" for name in names))
        log, said = folder / "job.log", folder / "parallel.log"
        with open(said, "wb") as out:
            process = subprocess.Popen(
                self._command(sum(map(len, jobs)) if len(names) < len(jobs) else max(map(len, jobs))),
                cwd=str(folder),
                stdin=subprocess.DEVNULL,
                stdout=out,
                stderr=out,
                env=self._environment(folder),
                start_new_session=True,
                preexec_fn=_end_with_parent,
                pass_fds=() if self.held is None else (self.held,),
            )
            try:
                while True:
                    try:
                        process.wait(OFTEN)
                        break
                    except subprocess.TimeoutExpired:
                        told(before + sum(len(jobs[int(it.stem)]) for it in folder.glob("*.done")))
            except BaseException:
                process.terminate()
                process.wait()
                raise
        return self._lost(jobs, *_by_list(folder, _ended(log)), process.returncode, said)

    def _command(self, most: int) -> List[str]:
        settings = self.settings
        words = [
            "parallel",
            "--will-cite",
            "--plain",
            "--ungroup",
            "--jobs",
            str(settings.jobs_here),
            "--joblog",
            "job.log",
            "--retries",
            str(settings.retries + 1),
        ]
        if settings.limits.timeout is not None:
            words += ["--timeout", f"{most * (settings.limits.timeout + SPARE):g}"]
        if settings.memory_mb is not None:
            words += ["--memfree", f"{settings.memory_mb}M"]
        return [*words, "--arg-file", "names", JOB]

    @staticmethod
    def _environment(folder: Path) -> Dict[str, str]:
        return {
            **os.environ,
            "GANDOVEL_PYTHON": sys.executable,
            "GANDOVEL_WORKER": str(WORKER),
            "PARALLEL_SHELL": "/bin/sh",
            "PARALLEL_HOME": str(folder / "parallel"),
        }

    @staticmethod
    def _lost(
        jobs: Sequence[Sequence[int]],
        ended: Dict[int, Tuple[int, int]],
        killed: bool,
        status: int,
        said: Path,
    ) -> Dict[int, Lost]:
        last = said.read_text(encoding="utf-8", errors="replace").strip().splitlines()[-1:] or [""]
        lost = {}
        for at, numbers in enumerate(jobs):
            value, killed_by = ended.get(at, (None, 0))
            if value is None and killed:
                why = Lost("T4", "GNU parallel: the processes that ran tasks were killed", True, False)
            elif value is None:
                why = Lost("T7", f"GNU parallel ended with status {status} before this task did: {last[0]}")
            elif killed_by or value < 0:
                why = Lost("T4", f"GNU parallel: the task was killed by signal {killed_by}", True)
            elif value:
                why = of_status(value, "GNU parallel")
            else:
                continue
            lost.update(dict.fromkeys(numbers, why))
        return lost


def _ended(log: Path) -> Dict[int, Tuple[int, int]]:
    """The jobs that the job log has, from 0, each with its status and the signal that ended it."""
    ended: Dict[int, Tuple[int, int]] = {}
    try:
        with open(log, newline="", encoding="utf-8", errors="replace") as file:
            for line in csv.DictReader(file, delimiter="\t", quoting=csv.QUOTE_NONE):
                ended[int(line["Seq"]) - 1] = int(line["Exitval"]), int(line["Signal"])
    except (OSError, ValueError, KeyError, TypeError):
        pass
    return ended


def _by_list(folder: Path, ended: Dict[int, Tuple[int, int]]) -> Tuple[Dict[int, Tuple[int, int]], bool]:
    """How the processes ended that took lists, by list, where these ended; and whether any was killed."""
    by_name = {int(path.stem): int(os.readlink(path)) for path in folder.glob("*.taken")}
    found = {at: ended[name] for at, name in by_name.items() if name in ended}
    return found, any(number or value < 0 for value, number in ended.values())


def _end_with_parent(*_: Any) -> None:
    """In the child, before it is parallel: where the command is killed, parallel is told to end, and ends its tasks."""
    ctypes.CDLL(None).prctl(PR_SET_PDEATHSIG, int(signal.SIGTERM), 0, 0, 0)
