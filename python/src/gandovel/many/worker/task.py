"""One task: one process of the program, and its result moved into place whole or not at all.

Any other end leaves no result, a note in the folder `failed` where the disk takes it, and one line on standard error;
the status tells the code, too (`STATUS`).
"""
from __future__ import annotations

import ctypes
import errno
import hashlib
import json
import os
import resource
import signal
import subprocess
import sys
import threading
import time
from contextlib import suppress
from typing import IO, Any, Dict, List, NamedTuple, Optional

from .files import Input, checksum_of_program, has_stamp, is_unchanged, read_input, told_of

ON_LINUX_DIE_WITH_PARENT = 1
"""`PR_SET_PDEATHSIG` of prctl(2)."""

STATUS = {"P1": 11, "P14": 12, "T1": 13, "T2": 14, "T3": 15, "T4": 16, "T5": 17, "T6": 18}
"""The status of a task's process by the code of why there is no result."""

PASSING = 19
"""The status where the program refused for what its machine lacked, as memory: the text is in the note alone."""

FINAL = ("T3", "T5")
"""Codes that another try of the same run does not mend: it ends at once, as the first did."""

PASSING_WORDS = ("no memory", "S1", "S2", "K3", "O7")
"""Refusals of the program that say nothing of the inputs."""


class Failed(Exception):
    """Why there is no result. `code` is P.. or T.. (docs/many.md), or the program's own word for what it lacked."""

    def __init__(self, code: str, text: str) -> None:
        super().__init__(text)
        self.code = code
        self.text = text

    @property
    def status(self) -> int:
        """The status that the task's process ends with."""
        return STATUS.get(self.code, PASSING)


class Ended(NamedTuple):
    """How the program ended: its status, or less than 0 the signal that killed it, seconds by the clock, its peak
    memory in kB (never less than this process had when it started it), its errors."""

    status: int
    seconds: float
    memory_kb: int
    timed_out: bool
    errors: bytes


def read_inputs(task: Dict[str, Any]) -> Dict[str, Input]:
    """A task's inputs by path. Failed P1 where one can't be read, or one is missing that has to be."""
    found: Dict[str, Input] = {}
    for path, needed in task["inputs"].items():
        try:
            found[path] = read_input(path, task["by_bytes"] or path in task["read"])
        except OSError as fault:
            raise Failed("P1", f"{path} can't be read: {fault.strerror}") from fault
        if needed and found[path].checked is None:
            raise Failed("P1", f"{path} is not there")
    return found


def test_program(task: Dict[str, Any]) -> None:
    """Failed T6 where the program is another than the one that the run began with, T1 where it is not there."""
    path = task["command"][0]
    try:
        stamp = None if task.get("by_bytes") else task.get("program_stamp")
        if stamp is not None and has_stamp(path, stamp):
            return
        here = checksum_of_program(path)
    except FileNotFoundError as fault:
        raise Failed("T1", f"the program {path} is not there") from fault
    except OSError as fault:
        raise Failed("T1", f"the program {path} can't be read: {fault.strerror}") from fault
    if here != task["program"]["sha256"]:
        raise Failed("T6", f"{path} is not the program that the run began with")


running: List[Optional["subprocess.Popen[bytes]"]] = []
"""The program that runs; None while it is being started."""

asked_to_stop: List[int] = []
"""The signals by which this process was asked to stop."""


def ask_to_stop(number: int, _: Any) -> None:
    """Ends the program where it runs, and else the task."""
    asked_to_stop.append(number)
    if not running:
        raise Failed("T4", "the task was asked to stop")
    _end_program()


def _end_program() -> None:
    """Kills the program and all that it started."""
    with suppress(ProcessLookupError):
        if running and running[0]:
            os.killpg(running[0].pid, signal.SIGKILL)


def run_program(task: Dict[str, Any], command: List[str], into: str) -> Ended:
    """Runs the program once within the task's limits, with its output into a file. OSError where the disk is full.

    Its error text goes to memory first: a full disk would lose it, which is what it tells of.
    """
    begun, limit = time.monotonic(), task["timeout"]
    clock = threading.Timer(limit or 0, _end_program)
    running.append(None)
    try:
        with open(into, "wb") as output:
            process = running[0] = _started(command, output, task["memory_kb"])
        if limit:
            clock.start()
        if asked_to_stop:
            _end_program()
        assert process.stderr is not None
        with process.stderr as file:
            errors = file.read()
        os.waitid(os.P_PID, process.pid, os.WEXITED | os.WNOWAIT)
    finally:
        running.clear()  # before its number may be another's
        clock.cancel()
    _, status, used = os.wait4(process.pid, 0)  # which alone tells the peak memory of one process
    process.returncode = -os.WTERMSIG(status) if os.WIFSIGNALED(status) else os.WEXITSTATUS(status)
    seconds = time.monotonic() - begun
    timed_out = bool(limit) and seconds >= limit and process.returncode < 0
    return Ended(process.returncode, seconds, used.ru_maxrss, timed_out, errors)


def _started(command: List[str], output: IO[bytes], memory_kb: Optional[int]) -> "subprocess.Popen[bytes]":
    """The program, in a group of its own; it is killed where this process ends in any way. Failed T1 where it can't be
    run."""
    parent, (_, most) = os.getpid(), resource.getrlimit(resource.RLIMIT_AS)

    def begin() -> None:
        die_with_parent(parent)
        if memory_kb:
            resource.setrlimit(resource.RLIMIT_AS, (memory_kb * 1024, most))

    try:
        return subprocess.Popen(
            command,
            stdin=subprocess.DEVNULL,
            stdout=output,
            stderr=subprocess.PIPE,
            start_new_session=True,
            preexec_fn=begin,
        )
    except MemoryError as fault:
        raise Failed("no memory", "") from fault
    except OSError as fault:
        raise Failed("T1", f"the program {command[0]} can't be run: {fault.strerror}") from fault


try:
    _PRCTL: Optional[Any] = ctypes.CDLL(None).prctl
except (OSError, AttributeError):  # no Linux
    _PRCTL = None


def die_with_parent(parent: int, number: int = signal.SIGKILL) -> None:
    """From now on this process gets a signal where the thread that started it ends. Linux alone; elsewhere nothing."""
    if _PRCTL is not None:
        _PRCTL(ON_LINUX_DIE_WITH_PARENT, int(number), 0, 0, 0)
        if os.getppid() != parent:
            os._exit(STATUS["T4"])


def test_end(task: Dict[str, Any], ended: Ended) -> None:
    """Failed T3 where the program took too long, T4 where a signal ended it."""
    if ended.timed_out:
        raise Failed("T3", f"it took longer than {task['timeout']:g} s")
    if ended.status < 0:
        raise Failed("T4", f"the program was killed by signal {-ended.status}")


def test_unchanged(before: Dict[str, Input]) -> None:
    """Failed T5 where an input is no longer what it was."""
    for path, it in before.items():
        try:
            same = is_unchanged(path, it)
        except OSError as fault:
            raise Failed("T5", f"{path} can't be read again: {fault.strerror}") from fault
        if not same:
            raise Failed("T5", f"{path} changed while the program ran")


def answered(ended: Ended) -> int:
    """The program's status, 0 or 1, where what it said is an answer. Failed T2, or with what the machine lacked."""
    status = ended.status
    lines = ended.errors.decode("utf-8", "replace").splitlines()
    said = [line[len("error: ") :] for line in lines if line.startswith("error: ")]
    if status == 0:
        return 0
    if status != 1 or not said:
        raise Failed("T2", f"the program ended with status {status}: {lines[-1] if lines else ''}")
    for word in PASSING_WORDS:
        if said[-1] == word or said[-1].startswith(f"{word} "):
            raise Failed(word, said[-1][len(word) :].strip())
    return 1


def done(task: Dict[str, Any], folder: str) -> None:
    """Runs a task in an empty folder and writes its result there. Failed where there is none."""
    before = read_inputs(task)
    test_program(task)
    begun = time.strftime("%Y-%m-%dT%H:%M:%SZ", time.gmtime())
    ended = run_program(task, task["command"], os.path.join(folder, "output.txt"))
    test_end(task, ended)
    test_unchanged(before)
    status = answered(ended)
    result = {
        "name": task["name"],
        "run": task["run"],
        "program": task["program"],
        "command": task["command"],
        "inputs": {path: it.told() for path, it in before.items()},
        "status": status,
        "seconds": round(ended.seconds, 6),
        "memory_kb": ended.memory_kb,
        "begun": begun,
        "host": os.uname().nodename,
    }
    with open(os.path.join(folder, "errors.txt"), "wb") as out:
        out.write(ended.errors)
    result["output"] = told_of(os.path.join(folder, "output.txt"))
    result["errors"] = {"sha256": hashlib.sha256(ended.errors).hexdigest(), "bytes": len(ended.errors)}
    with open(os.path.join(folder, "result.json"), "w", encoding="utf-8") as out:
        out.write(written(result))


def written(result: Dict[str, Any]) -> str:
    """A result as JSON, one fact a line. (`indent` would take ten times as long.)"""
    return "{\n" + ",\n".join(f" {json.dumps(name)}: {json.dumps(fact)}" for name, fact in result.items()) + "\n}\n"


def put_in_place(aside: str, final: str) -> None:
    """Renames a folder to its final name; one that was there goes. Two that do so at once both end well."""
    while True:
        try:
            return os.rename(aside, final)
        except OSError as fault:
            if fault.errno not in (errno.ENOTEMPTY, errno.EEXIST):
                raise
        former = f"{aside}.former"
        try:
            os.rename(final, former)
        except FileNotFoundError:
            continue
        remove(former)


def remove(folder: str) -> None:
    """Removes a folder of files, where it is there."""
    try:
        for name in os.listdir(folder):
            os.unlink(os.path.join(folder, name))
        os.rmdir(folder)
    except OSError:
        pass


def note(task: Dict[str, Any], failed: Optional[Failed]) -> None:
    """Leaves a note of why there is no result, or removes that of an earlier try. A disk that is full takes none."""
    path = os.path.join(task["notes"], f"{task['name']}.json")
    aside = os.path.join(task["notes"], f".{task['name']}.{os.getpid()}")
    try:
        if failed is None:
            os.unlink(path)
            return
        with open(aside, "w", encoding="utf-8") as out:
            json.dump({"run": task["run"], "code": failed.code, "text": failed.text}, out)
        os.rename(aside, path)
    except OSError:
        pass


def final_end(task: Dict[str, Any]) -> Optional[Failed]:
    """How an earlier try of the same run ended, where another one mends nothing."""
    try:
        with open(os.path.join(task["notes"], f"{task['name']}.json"), encoding="utf-8") as file:
            note = json.load(file)
    except (OSError, ValueError):
        return None
    return Failed(note["code"], note["text"]) if note["run"] == task["run"] and note["code"] in FINAL else None


def is_done(task: Dict[str, Any]) -> bool:
    """Whether an earlier try of the same run put its result in place, and the engine did not hear of it."""
    try:
        with open(os.path.join(task["folder"], task["name"], "result.json"), encoding="utf-8") as file:
            return bool(json.load(file)["run"] == task["run"])
    except (OSError, ValueError, KeyError, TypeError):
        return False


def tell(task: Dict[str, Any], failed: Failed) -> None:
    """Tells why there is no result: by a note, and on standard error."""
    note(task, failed)
    with suppress(OSError):
        print(f"error: {task['name']}: {failed.code} {failed.text}", file=sys.stderr, flush=True)
