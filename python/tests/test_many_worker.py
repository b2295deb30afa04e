"""What a task's process and the engines do: what they know of files, how lists are stopped, and what is imported."""
from __future__ import annotations

import asyncio
import hashlib
import os
import signal
import subprocess
import sys
import time
from contextlib import suppress
from pathlib import Path

import pytest

import gandovel
from gandovel.many import read_manifest, results
from gandovel.many.engines import Settings
from gandovel.many.engines import dask as dask_engine
from gandovel.many.engines.base import worker_words
from gandovel.many.engines.jobs import write_jobs
from gandovel.many.tasks import Batch, Limits, find_program, task_of
from gandovel.many.worker import files, task
from many_cities import SOURCES, calls, names_in, processes_of, program, until, write_cities

TEXT = bytes(range(256)) * 9000
"""More than a block."""


def at_the_same_time(path, write):
    """Writes into a file and sets its time back."""
    before = path.stat()
    write()
    os.utime(path, ns=(before.st_atime_ns, before.st_mtime_ns))


def put(path, place, data):
    """Writes bytes into a file at a place."""
    with open(path, "r+b") as file:
        file.seek(place)
        file.write(data)


CHANGES = {
    "the first byte": lambda path: at_the_same_time(path, lambda: put(path, 0, b"x")),
    "the last byte": lambda path: at_the_same_time(path, lambda: put(path, len(TEXT) - 1, b"x")),
    "longer": lambda path: at_the_same_time(path, lambda: put(path, len(TEXT), b"x")),
    "shorter": lambda path: at_the_same_time(path, lambda: os.truncate(path, len(TEXT) - 1)),
    "empty": lambda path: at_the_same_time(path, lambda: os.truncate(path, 0)),
    "its time": lambda path: os.utime(path, ns=(1, 1)),
    "gone": Path.unlink,
    "another": lambda path: (path.with_name("x").write_bytes(TEXT), os.replace(path.with_name("x"), path)),
}


@pytest.mark.parametrize("how", sorted(CHANGES))
def test_a_file_is_compared_by_all_its_bytes(tmp_path, how):
    path = tmp_path / "file"
    path.write_bytes(TEXT)
    before = files.read_input(str(path))
    assert before.checked == files.checked(str(path)) and before.checked.sha256 == hashlib.sha256(TEXT).hexdigest()
    assert files.is_unchanged(str(path), before)
    CHANGES[how](path)
    assert not files.is_unchanged(str(path), before)


def test_a_file_that_was_not_there(tmp_path):
    path = tmp_path / "file"
    before = files.read_input(str(path))
    assert before == files.Input(None) and files.is_unchanged(str(path), before)
    path.write_bytes(b"")
    assert not files.is_unchanged(str(path), before)


@pytest.mark.parametrize("how", sorted(CHANGES))
def test_a_settled_file_is_compared_by_its_stamp(tmp_path, monkeypatch, how):
    path = tmp_path / "file"
    path.write_bytes(TEXT)
    assert files.read_input(str(path), False).checked.sha256, "it was written just now"
    monkeypatch.setattr(files, "SETTLED", -60.0)
    before = files.read_input(str(path), False)
    told = before.told()
    assert before.checked.sha256 is None and told["stamp"] == files.stamp_of(path.stat())
    time.sleep(0.05)
    assert files.is_unchanged(str(path), before) and results._is_same(str(path), "another", told["stamp"])
    CHANGES[how](path)
    assert not files.is_unchanged(str(path), before) and not results._is_same(str(path), "another", told["stamp"])


def test_a_program_is_read_once_and_again_when_it_changed(tmp_path, monkeypatch):
    path, read = tmp_path / "program", []
    path.write_bytes(b"one")
    monkeypatch.setattr(files, "_programs", {})
    monkeypatch.setattr(files, "checked", lambda it, really=files.checked: (read.append(it), really(it))[1])
    asked = {"command": [str(path)], "program": {"sha256": files.checked(str(path)).sha256}}
    for _ in range(2):
        task.test_program(asked)
    assert len(read) == 3, "what was written just now may change again and keep its time"
    monkeypatch.setattr(files, "SETTLED", -60.0)
    for _ in range(3):
        task.test_program(asked)
    assert len(read) == 4
    at_the_same_time(path, lambda: path.write_bytes(b"two"))
    with pytest.raises(task.Failed, match="not the program that the run began with"):
        task.test_program(asked)
    path.unlink()
    with pytest.raises(task.Failed, match="is not there"):
        task.test_program(asked)


def batch_of(folder, count):
    """A batch that is written, of so many cities, with results in a folder `cities`."""
    rows = read_manifest(write_cities(folder, count))
    batch = Batch(folder / "engine", [task_of(row) for row in rows], "run", lambda task: False)
    (folder / "cities").mkdir()
    batch.write(folder / "cities", find_program(), Limits())
    return batch


def test_a_list_of_tasks_that_is_asked_to_stop(tmp_path, monkeypatch):
    program(tmp_path, monkeypatch, 'case "$city" in */c2) sleep 600;; esac')
    job = write_jobs(batch_of(tmp_path, 5), [range(5)])[0]
    process = subprocess.Popen([*worker_words(str(job)), "--with-parent"])
    until(lambda: "c2" in calls(tmp_path))
    process.send_signal(signal.SIGTERM)
    assert process.wait(60) == task.STATUS["T4"]
    assert calls(tmp_path) == ["c0", "c1", "c2"] and names_in(tmp_path / "cities") == {"c0", "c1"}
    until(lambda: not processes_of(tmp_path / "in"))


def test_workers_of_dask_that_are_gone_for_good(tmp_path, monkeypatch):
    import dask
    import distributed  # its own settings would go with those that are set below

    assert dask.config.get("distributed.comm")
    monkeypatch.setattr(dask_engine, "OFTEN", 0.5)
    engine = dask_engine.DaskEngine(Settings(jobs=2))
    with dask.config.set({"distributed.deploy.lost-worker-timeout": "1s"}):
        engine.test()
        try:
            for nanny in list(engine.cluster.workers.values()):
                with suppress(asyncio.TimeoutError):
                    engine.cluster.sync(nanny.close)
            assert engine.run(batch_of(tmp_path, 4), lambda count: None) == {}
        finally:
            engine.close()
    assert names_in(tmp_path / "cities") == {f"c{at}" for at in range(4)}


def test_what_is_imported_for_many_cities():
    heavy = ("numpy", "pandas", "geopandas", "shapely", "fiona", "pyproj", "distributed")
    code = f"import sys, gandovel.cli, gandovel.many; print([name for name in {heavy} if name in sys.modules])"
    path = os.pathsep.join([str(SOURCES), os.environ.get("PYTHONPATH", "")])
    told = subprocess.check_output([sys.executable, "-c", code], env={**os.environ, "PYTHONPATH": path}, text=True)
    assert told == "[]\n"


def test_the_names_of_the_package():
    import gandovel.out.exports
    import gandovel.reading.prepare
    import gandovel.out.report

    assert sorted(gandovel._MODULES) == gandovel.__all__ == sorted(gandovel.__all__)
    assert all(callable(getattr(gandovel, name)) for name in gandovel.__all__)
    assert gandovel.report is sys.modules["gandovel.out.report"].report
    with pytest.raises(AttributeError, match="no attribute 'nothing'"):
        gandovel.nothing


ORPHAN = """
import os, signal, sys
from gandovel.many.worker import task
child = os.fork()
if child == 0:
    started = task._started(["/bin/sleep", "600"], sys.stdout, None)
    print(started.pid, flush=True)
    os.kill(os.getpid(), signal.SIGKILL)
os.waitpid(child, 0)
"""


def test_a_program_that_nobody_named_ends():
    """Its task's process was killed before it could say which program it had started."""
    told = subprocess.check_output(
        [sys.executable, "-c", ORPHAN], timeout=60, env={**os.environ, "PYTHONPATH": str(SOURCES)}, text=True
    )
    until(
        lambda: not Path(f"/proc/{int(told)}").exists() or "Z" in Path(f"/proc/{int(told)}/stat").read_text().split()[2]
    )


def test_the_peak_memory_is_that_of_one_program(tmp_path):
    """A program that takes little after one that took much: no more is told than what these tests have themselves."""
    used = []
    for size in (600_000_000, 1):
        words = [sys.executable, "-I", "-S", "-c", f"bytes({size}) and None or b'x' * {size}"]
        ended = task.run_program({"timeout": 60, "memory_kb": None}, words, str(tmp_path / "out"))
        assert (ended.status, ended.timed_out, ended.errors) == (0, False, b"")
        used.append(ended.memory_kb)
    assert used[0] > 550_000 and used[1] < 300_000
