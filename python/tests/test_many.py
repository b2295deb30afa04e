"""`gandovel many` by its engines: right answers or named errors, whatever is killed, changed, full or run twice.

GNU parallel and Dask run in the gate, with a tenth of the cities. GANDOVEL_SLURM=1 adds Slurm, on the loopback;
GANDOVEL_MANY=1000 says how many cities.
"""
from __future__ import annotations

import json
import os
import re
import shutil
import signal
import subprocess
import sys
from contextlib import contextmanager
from pathlib import Path

import geopandas as gpd
import pytest

from gandovel import Refused
from gandovel.many import run_many
from gandovel.many.engines import jobs
from gandovel.many.tasks import Batch, Program, Task
from gandovel.many.worker import files
from many_cities import (
    GAP,
    SIDE,
    SOURCES,
    TOOL,
    calls,
    command,
    have_results,
    kill_session,
    names_in,
    processes_of,
    program,
    started,
    told,
    until,
    verdicts,
    write_cities,
    write_city,
)

COUNT = int(os.environ.get("GANDOVEL_MANY", "100"))
TOWN = Path(__file__).resolve().parents[2] / "examples/town"


def test_many_small_cities(run, tmp_path):
    gaps = set(range(3, COUNT, 10))
    summary = run(write_cities(tmp_path, COUNT, gaps), tmp_path / "out")
    assert verdicts(summary) == {f"c{at}": ("refused", "H2") if at in gaps else ("tiles", "") for at in range(COUNT)}
    assert summary.lines()[0] == f"{COUNT} cities: {COUNT - len(gaps)} tile, {len(gaps)} refused (H2 {len(gaps)})"
    assert all(it.parcels == 4 and it.area2 == 8 * SIDE * SIDE for it in summary.verdicts if it.tiles)
    frame = gpd.read_file(tmp_path / "out/faults.gpkg", layer="gaps")
    assert set(frame.city) == {f"c{at}" for at in gaps} and set(frame.area2_mm2) == {str(2 * GAP * SIDE)}
    assert names_in(tmp_path / "out/cities") == {f"c{at}" for at in range(COUNT)}
    assert len((tmp_path / "out/summary.csv").read_text().splitlines()) == COUNT + 1


def test_a_result_is_what_the_program_said(run, tmp_path):
    write_cities(tmp_path, 2, [1])
    run(tmp_path / "manifest.csv", tmp_path / "out", verify=True)
    for name in ("c0", "c1"):
        folder, facts = tmp_path / "out/cities" / name, told(tmp_path / "out", name)
        city, parcels = (str(tmp_path / "in" / name / f"{layer}.shp") for layer in ("city", "parcels"))
        assert facts["command"] == [TOOL, "check", city, parcels, "--unit", "mm", "--all", "--workers", "1"]
        asked = subprocess.run(facts["command"], stdout=subprocess.PIPE, stderr=subprocess.PIPE)
        assert (folder / "output.txt").read_bytes() == asked.stdout and (
            folder / "errors.txt"
        ).read_bytes() == asked.stderr
        assert facts["status"] == asked.returncode == (name == "c1")
        assert names_in(folder) == {"result.json", "output.txt", "errors.txt"}
        sums = {path: it["sha256"] for path, it in facts["inputs"].items()}
        for path in (city, parcels, city[:-3] + "shx", parcels[:-3] + "shx"):
            assert sums.pop(path) == subprocess.check_output(["sha256sum", path], universal_newlines=True).split()[0]
        assert not sums
        version = subprocess.check_output([TOOL, "--version"], universal_newlines=True).strip()
        assert facts["program"]["version"] == version and facts["seconds"] > 0 and facts["memory_kb"] > 100


def test_zones_edits_and_all_faults(run, tmp_path):
    for name in ("city", "parcels", "parcels_with_a_gap", "zones"):
        shutil.copy(TOWN / f"{name}.shp", tmp_path)
    (tmp_path / "manifest.csv").write_text(
        "name,city,parcels,zones,unit,edits\n"
        "it's a {} town of $HOME,city.shp,parcels.shp,zones.shp,cm,\n"
        "gäp,city.shp,parcels_with_a_gap.shp,zones.shp,cm,\n"
        "zones,city.shp,parcels.shp,parcels_with_a_gap.shp,cm,\n"
        f"edits,city.shp,parcels.shp,,cm,{TOWN}/edits.txt\n"
    )
    summary = run(tmp_path / "manifest.csv", tmp_path / "out {} of $HOME")
    town, gap, zones, edits = summary.verdicts
    assert (town.verdict, town.parcels, town.pairs, town.split) == ("tiles", 5, 7, 2)
    assert (gap.code, gap.layer, zones.code, zones.layer) == ("H2", "parcels", "H2", "zones")
    assert edits.tiles and edits.edits_refused is not None
    frame = gpd.read_file(tmp_path / "out {} of $HOME/faults.gpkg", layer="gaps")
    assert [tuple(row) for row in frame[["city", "layer", "area2_mm2"]].values] == [
        ("gäp", "parcels", "1000000"),
        ("zones", "zones", "1000000"),
    ]
    assert all(abs(shape.area - 0.5) < 1e-9 for shape in frame.geometry) and summary.untold == []
    again = run(tmp_path / "manifest.csv", tmp_path / "out {} of $HOME", resume=True, threads=2)
    assert again.kept == 4 and again.gaps == 2


def test_resume_does_what_has_no_result_of_the_same_files(run, tmp_path, monkeypatch):
    program(tmp_path, monkeypatch, "")
    manifest, out = write_cities(tmp_path, 6, [1]), tmp_path / "out"
    run(manifest, out)
    assert sorted(calls(tmp_path)) == [f"c{at}" for at in range(6)]
    first = {name: told(out, name)["run"] for name in ("c0", "c1")}
    write_city(tmp_path / "in/c2", gap=True)
    (tmp_path / "in/c3/parcels.shx").unlink()
    (out / "cities/c4/output.txt").write_text("tiling 5 800\n")
    (out / "cities/c5/result.json").write_text("{")
    summary = run(manifest, out, resume=True)
    assert sorted(calls(tmp_path)[6:]) == ["c2", "c3", "c4", "c5"] and summary.kept == 2
    assert {name: told(out, name)["run"] for name in first} == first
    assert [it.code for it in summary.verdicts] == ["", "H2", "H2", "", "", ""] and summary.gaps == 2
    assert run(manifest, out, resume=True).kept == 6
    assert len(calls(tmp_path)) == 10
    assert run(manifest, out).kept == 0 and len(calls(tmp_path)) == 16


def test_another_program_does_all_again(run, tmp_path, monkeypatch):
    program(tmp_path, monkeypatch, "")
    manifest, out = write_cities(tmp_path, 2), tmp_path / "out"
    run(manifest, out)
    program(tmp_path, monkeypatch, ": another")
    assert run(manifest, out, resume=True).kept == 0 and len(calls(tmp_path)) == 4


PARENT = '"$(sed -n "s/^PPid:.//p" "/proc/$PPID/status")"'
"""In a program of `program`: the process that has started the task's."""

JOB_OF = '"$(ps -o ppid= -p ' + PARENT + ' | tr -d " ")"'
"""The process of the engine that has started that one: GNU parallel, or a worker of Dask."""

KILLED = {"the program": "kill -9 $$", "the task's process": "kill -9 $PPID; sleep 5"}


@pytest.mark.parametrize("who", sorted(KILLED))
def test_what_is_killed_is_tried_again(run, tmp_path, monkeypatch, who):
    program(tmp_path, monkeypatch, f'case "$city" in */c[135]) once killed && {{ {KILLED[who]}; }};; esac')
    summary = run(write_cities(tmp_path, 8), tmp_path / "out", retries=2)
    assert all(it.tiles for it in summary.verdicts)
    assert sorted(calls(tmp_path)) == sorted([f"c{at}" for at in range(8)] + ["c1", "c3", "c5"])


@pytest.mark.parametrize("who", sorted(KILLED))
def test_what_is_killed_each_time_is_named(run, tmp_path, monkeypatch, who):
    program(tmp_path, monkeypatch, f'case "$city" in */c1) {KILLED[who]};; esac')
    summary = run(write_cities(tmp_path, 4), tmp_path / "out", retries=1)
    assert [it.code for it in summary.verdicts] == ["", "T4", "", ""] and "killed" in summary.verdicts[1].text
    assert calls(tmp_path).count("c1") == 2
    assert not (tmp_path / "out/cities/c1").exists()
    until(lambda: not processes_of(tmp_path / "in/c1"))


def test_the_limit_of_time(run, tmp_path, monkeypatch):
    program(tmp_path, monkeypatch, 'case "$city" in */c1) sleep 600;; esac')
    summary = run(write_cities(tmp_path, 3), tmp_path / "out", timeout=5, retries=2)
    assert [it.code for it in summary.verdicts] == ["", "T3", ""] and "longer than 5 s" in summary.verdicts[1].text
    assert calls(tmp_path).count("c1") == 1, "another try of the same run mends nothing"


def test_the_limit_of_memory(run, tmp_path, monkeypatch):
    program(
        tmp_path,
        monkeypatch,
        'case "$city" in */c1) echo "error: H2 $(ulimit -v)" >&2; exit 1;;\n'
        '*/c2) echo "error: no memory" >&2; exit 1;; esac',
    )
    summary = run(write_cities(tmp_path, 3), tmp_path / "out", memory_mb=600, retries=1)
    assert verdicts(summary) == {"c0": ("tiles", ""), "c1": ("refused", "H2"), "c2": ("none", "no memory")}
    assert summary.verdicts[1].text == str(600 * 1024) and calls(tmp_path).count("c2") == 2


CHANGED = {
    "longer": 'echo >> "$city/parcels.shp"',
    "another": 'cp "$city/parcels.shp" "$city/x" && mv "$city/x" "$city/city.shp"',
    "gone": 'rm "$city/city.shx"',
    "written to and fro": 'cd "$city" && cp city.shp x && echo >> city.shp && sleep 0.1 && cat x > city.shp',
}


@pytest.mark.parametrize("how", sorted(CHANGED))
def test_an_input_that_changes_under_way(run, tmp_path, monkeypatch, how):
    program(tmp_path, monkeypatch, f'case "$city" in */c1) {CHANGED[how]};; esac')
    summary = run(write_cities(tmp_path, 3), tmp_path / "out")
    assert [it.code for it in summary.verdicts] == ["", "T5", ""] and "changed while" in summary.verdicts[1].text
    assert names_in(tmp_path / "out/cities") == {"c0", "c2"} and calls(tmp_path).count("c1") == 1


def test_inputs_that_are_not_there(run, tmp_path):
    manifest = write_cities(tmp_path, 3)
    (tmp_path / "in/c0/city.shp").unlink()
    (tmp_path / "in/c1/parcels.shp").unlink()
    (tmp_path / "in/c1/parcels.shp").mkdir()
    summary = run(manifest, tmp_path / "out", retries=0)
    assert [it.code for it in summary.verdicts] == ["P1", "P1", ""]
    assert "is not there" in summary.verdicts[0].text and "can't be read" in summary.verdicts[1].text


def test_a_program_that_ends_as_none_should(run, tmp_path, monkeypatch):
    program(tmp_path, monkeypatch, 'case "$city" in */c0) echo what >&2; exit 7;; */c1) exit 1;; */c2) exit 0;; esac')
    summary = run(write_cities(tmp_path, 3), tmp_path / "out", retries=0)
    assert [it.code for it in summary.verdicts] == ["T2"] * 3 and "status 7: what" in summary.verdicts[0].text


FAKES = {"always tiles": 'echo "tiling 1 200"', "never tiles": 'echo "error: parcels: H2 0 0 1 1 net 1" >&2; exit 1'}


@pytest.mark.parametrize("how", sorted(FAKES))
def test_a_program_that_is_none(tmp_path, monkeypatch, how):
    fake = tmp_path / "fake"
    fake.write_text(f'#!/bin/sh\n[ "$1" = --version ] && echo parcel_tool 9 && exit\n{FAKES[how]}\n')
    fake.chmod(0o755)
    monkeypatch.setenv("GANDOVEL_TOOL", str(fake))
    with pytest.raises(Refused, match="T1 .* is not parcel_tool"):
        run_many(write_cities(tmp_path, 1), tmp_path / "out")


def test_a_verdict_that_does_not_fit_the_layer(tmp_path, monkeypatch):
    program(tmp_path, monkeypatch, 'case "$city" in */c1) echo "tiling 30 800000000"; exit;; esac')
    summary = run_many(write_cities(tmp_path, 2), tmp_path / "out", retries=0)
    assert verdicts(summary) == {"c0": ("tiles", ""), "c1": ("none", "T2")} and summary.status == 3
    assert summary.without[0].text == "the program told a verdict of 30 parcels, and the layer has 4"


def test_results_of_someone_else_are_verified(tmp_path, monkeypatch):
    program(tmp_path, monkeypatch, "")
    manifest, out = write_cities(tmp_path, 3, [1]), tmp_path / "out"
    run_many(manifest, out)
    folder, facts = out / "cities/c1", told(out, "c1")
    (folder / "output.txt").write_text("tiling 4 800000000\n")
    (folder / "errors.txt").write_text("")
    for name in ("output", "errors"):
        facts[name] = files.told_of(str(folder / f"{name}.txt"))
    (folder / "result.json").write_text(json.dumps({**facts, "status": 0}))
    assert run_many(manifest, out, resume=True).verdicts[1].tiles, "whoever may write there may write results"
    summary = run_many(manifest, out, verify=True)
    assert summary.differing == ["c1"] and verdicts(summary)["c1"] == ("refused", "H2") and summary.kept == 0


def test_a_node_that_has_another_program(run, tmp_path, monkeypatch):
    from gandovel.many import run as module

    monkeypatch.setattr(module, "find_program", lambda: Program(TOOL, "a version", 64 * "0"))
    summary = run(write_cities(tmp_path, 3), tmp_path / "out", retries=0)
    assert {it.code for it in summary.verdicts} == {"T6"} and "not the program" in summary.verdicts[0].text


@pytest.fixture
def small_disk(tmp_path):
    """A disk of a megabyte, in memory."""
    folder = tmp_path / "disk"
    folder.mkdir()
    if subprocess.call(["mount", "-t", "tmpfs", "-o", "size=1m", "tmpfs", str(folder)], stderr=subprocess.DEVNULL):
        pytest.skip("no disk can be mounted here")
    yield folder
    subprocess.check_call(["umount", "--lazy", str(folder)])


def test_a_disk_that_is_full_for_a_while(tmp_path, monkeypatch, small_disk):
    """One city after the other: the one that finds no room has no result, the next one has."""
    script = 'case "$city" in */c1) head -c 3000000 /dev/zero || { echo "error: S2" >&2; exit 1; };; esac'
    program(tmp_path, monkeypatch, script)
    manifest, out = write_cities(tmp_path, 3, [2]), small_disk / "out"
    summary = run_many(manifest, out, jobs=1, retries=0)
    assert verdicts(summary) == {"c0": ("tiles", ""), "c1": ("none", "S2"), "c2": ("refused", "H2")}
    assert names_in(out / "cities") == {"c0", "c2"} and summary.status == 3 and summary.unwritten is None


def test_a_disk_that_stays_full(tmp_path, monkeypatch, small_disk):
    """What was done is told all the same, and in one line why there is no summary.csv; and it goes on from there."""
    program(tmp_path, monkeypatch, f'case "$city" in */c2) cat /dev/zero > "{small_disk}/filled" 2> /dev/null;; esac')
    manifest, words = write_cities(tmp_path, 3), ["manifest.csv", "--out", small_disk / "out", "--jobs", "1"]
    ended = command(tmp_path, *words, "--retries", "0")
    assert (ended.returncode, ended.stdout[:19]) == (3, "3 cities: 2 tile, 1")
    assert "error: P14" in ended.stderr and "No space left" in ended.stderr and "Traceback" not in ended.stderr
    assert not (small_disk / "out/summary.csv").exists()
    (small_disk / "filled").unlink()
    program(tmp_path, monkeypatch, "")
    assert all(it.tiles for it in run_many(manifest, small_disk / "out", jobs=1, resume=True).verdicts)


def test_a_disk_that_is_full_when_every_fault_is_asked_for(tmp_path, monkeypatch):
    """The cities' verdicts are there by then: they are told, and why their faults are not."""
    write = Batch.write

    def full(self, results, *words):
        if results.name == "faults":
            raise OSError(28, "No space left on device")
        write(self, results, *words)

    monkeypatch.setattr(Batch, "write", full)
    summary = run_many(write_cities(tmp_path, 3, [1], zones=True), tmp_path / "out", retries=0)
    assert verdicts(summary) == {"c0": ("tiles", ""), "c1": ("refused", "H2"), "c2": ("tiles", "")}
    assert summary.unwritten.code == "P14" and "No space left" in summary.unwritten.text and summary.untold == ["c1"]
    assert (tmp_path / "out/summary.csv").is_file() and summary.status == 1


@pytest.mark.skipif(
    "GANDOVEL_FULL" not in os.environ, reason="cities that run at the same time race for the small disk: by hand"
)
def test_a_full_disk(run, tmp_path, monkeypatch, small_disk):
    program(
        tmp_path,
        monkeypatch,
        'case "$city" in */c1) head -c 3000000 /dev/zero || { echo "error: S2" >&2; exit 1; };; esac',
    )
    manifest = write_cities(tmp_path, 3)
    summary = run(manifest, small_disk / "out", retries=0)
    assert [it.code for it in summary.verdicts] == ["", "S2", ""] and names_in(small_disk / "out/cities") == {
        "c0",
        "c2",
    }
    with open(small_disk / "filled", "wb", buffering=0) as file, pytest.raises(OSError, match="No space left"):
        while True:
            file.write(bytes(4096))
    with pytest.raises(Refused, match="P14 .*No space left"):
        run(manifest, small_disk / "other")
    subprocess.check_call(["mount", "-o", "remount,size=50m", str(small_disk)])
    program(tmp_path, monkeypatch, "")
    assert [it.tiles for it in run(manifest, small_disk / "out", resume=True).verdicts] == [True] * 3


def test_a_folder_of_someone_else_is_left(run, tmp_path):
    (tmp_path / "out").mkdir()
    (tmp_path / "out/mine.txt").write_text("mine")
    with pytest.raises(Refused, match="P14 .* no folder that gandovel many made"):
        run(write_cities(tmp_path, 1), tmp_path / "out")
    assert names_in(tmp_path / "out") == {"mine.txt"}


def words_of(run, *more):
    """The words of a command line that runs a manifest by an engine."""
    at_once = ["--jobs", "2"] if run.engine != "slurm" else []
    return ["manifest.csv", "--out", "out", "--engine", run.engine, *at_once, *more]


def test_two_runs_at_once(run, tmp_path, monkeypatch):
    program(tmp_path, monkeypatch, 'until [ -e "$city/../../go" ]; do sleep 0.1; done')
    write_cities(tmp_path, 3)
    one = started(tmp_path, *words_of(run))
    try:
        until(lambda: calls(tmp_path))
        other = command(tmp_path, *words_of(run, "--resume"))
        assert other.returncode == 4 and other.stdout == ""
        assert (
            other.stderr.strip()
            .splitlines()[-1]
            .startswith(f"error: P16 another run holds {tmp_path}/out: process {one.pid} on ")
        )
    finally:
        (tmp_path / "go").touch()
        out, errors = one.communicate(timeout=300)
    assert (one.returncode, out) == (0, "3 cities: 3 tile\n"), errors


def lock_is_free(out):
    """Whether no process holds the folder of results."""
    return subprocess.run(["flock", "--nonblock", str(out / "run.lock"), "true"]).returncode == 0


def test_resume_after_the_command_is_killed(run, tmp_path, monkeypatch):
    program(tmp_path, monkeypatch, 'case "$city" in */c?[02468]) sleep 1;; esac')
    write_cities(tmp_path, 30)
    one = started(tmp_path, *words_of(run))
    until(lambda: have_results(tmp_path / "out", 5))
    kill_session(one)
    until(lambda: lock_is_free(tmp_path / "out"))
    done = {name for name in names_in(tmp_path / "out/cities") if not name.startswith(".")}
    runs = {name: told(tmp_path / "out", name)["run"] for name in done}
    ended = command(tmp_path, *words_of(run, "--resume"))  # Slurm's jobs of the run that was killed are cancelled first
    told_of = re.fullmatch(r"30 cities: 30 tile; (\d+) kept\n", ended.stdout)
    assert ended.returncode == 0 and told_of, ended.stderr
    kept = int(told_of[1])
    assert kept == len(done) or (run.engine == "slurm" and kept > len(done)), "until then its jobs go on"
    assert {name: told(tmp_path / "out", name)["run"] for name in done} == runs
    assert all(calls(tmp_path).count(name) == 1 for name in done)
    assert names_in(tmp_path / "out/cities") == {f"c{at}" for at in range(30)}


@pytest.mark.parametrize("number", [signal.SIGTERM, signal.SIGINT])
def test_a_command_that_is_stopped_leaves_nothing_running(run, tmp_path, monkeypatch, number):
    program(tmp_path, monkeypatch, 'case "$city" in */c0) ;; *) sleep 600; exit 1;; esac')
    write_cities(tmp_path, 6)
    one = started(tmp_path, *words_of(run))
    until(lambda: len(calls(tmp_path)) > 1 and have_results(tmp_path / "out", 1))
    one.send_signal(number)
    out, errors = one.communicate(timeout=300)
    assert (one.returncode, out) == (3, "") and errors.strip().splitlines()[-1].startswith("error: T8 "), errors
    until(lambda: not processes_of(tmp_path))
    assert "c0" in names_in(tmp_path / "out/cities") and not have_results(tmp_path / "out", 2)


def test_the_command_says_which_cities_have_no_verdict(run, tmp_path, monkeypatch):
    program(tmp_path, monkeypatch, 'case "$city" in */c1) kill -9 $$;; esac')
    write_cities(tmp_path, 3, [2])
    ended = command(tmp_path, *words_of(run, "--retries", "0"))
    assert ended.stdout == (
        f"3 cities: 1 tile, 1 refused (H2 1), 1 without a verdict (T4 1)\n1 gap: {tmp_path}/out/faults.gpkg\n"
    )
    assert ended.returncode == 3
    assert ended.stderr.strip().splitlines()[-2:] == [
        "c1: T4 the program was killed by signal 9",
        "error: T9 1 of 3 cities have no verdict",
    ]
    assert ("dashboard: http://127.0.0.1:" in ended.stderr) == (run.engine == "dask")


def test_workers_of_dask_that_are_killed(dask_cluster, tmp_path, monkeypatch):
    # The nanny of a worker starts another one; the task that it had goes to any of them.
    program(tmp_path, monkeypatch, f'case "$city" in */c[27]) once killed && {{ kill -9 {JOB_OF}; sleep 600; }};; esac')
    summary = run_many(write_cities(tmp_path, 12), tmp_path / "out", "dask", scheduler=dask_cluster.scheduler_address)
    assert all(it.tiles for it in summary.verdicts)
    assert sorted(calls(tmp_path)) == sorted([f"c{at}" for at in range(12)] + ["c2", "c7"])
    until(lambda: not processes_of(tmp_path))


@contextmanager
def scheduler_of_dask(folder):
    """A scheduler of Dask: its process and its address. It is killed at the end."""
    words = [sys.executable, "-m", "distributed.cli.dask_scheduler", "--scheduler-file", "dask", "--port", "0"]
    with ended_at_last([*words, "--host", "127.0.0.1", "--no-dashboard"], folder) as process:
        file = folder / "dask"
        text = until(lambda: file.is_file() and file.read_text().rstrip().endswith("}") and file.read_text(), 400)
        yield process, json.loads(text)["address"]


@contextmanager
def ended_at_last(words, folder):
    """A process that says nothing, and is killed at the end."""
    process = subprocess.Popen(words, cwd=str(folder), stdout=subprocess.DEVNULL, stderr=subprocess.DEVNULL)
    try:
        yield process
    finally:
        process.kill()
        process.wait()


def test_a_scheduler_of_dask_that_is_killed(tmp_path, monkeypatch):
    """What was done is told, what was not is named, and the run goes on from there by another engine."""
    first = 'mkdir "$city/../../first" 2> /dev/null'
    program(tmp_path, monkeypatch, f'{first} || [ -e "$city/../../go" ] || sleep 600')
    write_cities(tmp_path, 3)
    workers = [sys.executable, "-m", "distributed.cli.dask_worker", "--scheduler-file", "dask", "--nthreads", "1"]
    with scheduler_of_dask(tmp_path) as (scheduler, address):
        with ended_at_last([*workers, "--no-dashboard", "--death-timeout", "120"], tmp_path):
            one = started(tmp_path, "manifest.csv", "--out", "out", "--engine", "dask", "--scheduler", address)
            until(lambda: have_results(tmp_path / "out", 1) and len(calls(tmp_path)) > 1, 400)
            scheduler.kill()
            out, errors = one.communicate(timeout=300)
    assert (one.returncode, out) == (3, "3 cities: 1 tile, 2 without a verdict (T7 2)\n"), errors
    assert errors.splitlines()[-1] == "error: T9 2 of 3 cities have no verdict" and "Traceback" not in errors, errors
    assert errors.count(": T7 Dask: the scheduler went away") == 2
    until(lambda: not processes_of(tmp_path / "in"))
    (tmp_path / "go").touch()
    summary = run_many(tmp_path / "manifest.csv", tmp_path / "out", resume=True)
    assert summary.kept == 1 and all(it.tiles for it in summary.verdicts)


CLOSED_WHILE_IT_RECONNECTS = """
import os, sys, time
from gandovel.many.engines import DaskEngine, Settings
engine = DaskEngine(Settings(scheduler=sys.argv[1]))
engine.test()
os.kill(int(sys.argv[2]), 9)
while engine.client.status == "running":
    time.sleep(0.01)
engine.close()
"""


def test_a_client_of_dask_that_reconnects_tells_nothing_of_it(tmp_path):
    """The library logs a traceback of its own where a reconnection is given up; a user is told in our words alone."""
    with scheduler_of_dask(tmp_path) as (scheduler, address):
        ended = subprocess.run(
            [sys.executable, "-c", CLOSED_WHILE_IT_RECONNECTS, address, str(scheduler.pid)],
            stdout=subprocess.PIPE,
            stderr=subprocess.PIPE,
            universal_newlines=True,
            env={**os.environ, "PYTHONPATH": os.pathsep.join([str(SOURCES), os.environ.get("PYTHONPATH", "")])},
            timeout=300,
        )
    assert ended.returncode == 0 and not ended.stdout
    assert [line.partition(":")[0] for line in ended.stderr.splitlines()] == ["dashboard"], ended.stderr


@pytest.mark.parametrize("engine", ["parallel", "processes", "dask"])
def test_tasks_that_share_a_job(tmp_path, monkeypatch, engine):
    monkeypatch.setattr(sys.modules[f"gandovel.many.engines.{engine}"], "jobs_of", lambda *_: [range(6), range(6, 12)])
    program(
        tmp_path,
        monkeypatch,
        f'case "$city" in */c1) kill -9 $PPID; sleep 600;; */c7) once killed && {{ kill -9 {PARENT}; sleep 600; }};; '
        "*/c9) kill -9 $$;; esac",
    )
    manifest = write_cities(tmp_path, 12, [3])
    summary = run_many(manifest, tmp_path / "out", engine, jobs=2, retries=1)
    assert {it.name: it.code for it in summary.verdicts if not it.tiles} == {"c1": "T4", "c3": "H2", "c9": "T4"}
    assert len(list((tmp_path / "out/engine/1-cities/jobs").glob("?.txt"))) == 2
    assert {name: calls(tmp_path).count(name) for name in ("c0", "c1", "c6", "c7", "c9")} == {
        "c0": 1,
        "c1": 2,
        "c6": 1,
        "c7": 2,
        "c9": 1,
    }
    assert [it.text for it in summary.verdicts if it.code == "T4"] == [
        "the task was killed by signal 9",
        "the program was killed by signal 9",
    ]
    until(lambda: not processes_of(tmp_path / "in"))


@pytest.mark.parametrize("engine", ["parallel", "processes", "dask"])
def test_a_job_that_is_killed_on_its_last_try(tmp_path, monkeypatch, engine):
    monkeypatch.setattr(sys.modules[f"gandovel.many.engines.{engine}"], "jobs_of", lambda *_: [range(6), range(6, 8)])
    program(
        tmp_path,
        monkeypatch,
        f'case "$city" in */c2) once killed && {{ kill -9 {PARENT}; sleep 600; }};; */c4) kill -9 $$;; esac',
    )
    summary = run_many(write_cities(tmp_path, 8), tmp_path / "out", engine, jobs=2, retries=0)
    assert [it.code for it in summary.verdicts] == ["", "", "", "", "T4", "", "", ""]
    assert [calls(tmp_path).count(f"c{at}") for at in range(8)] == [1, 1, 2, 1, 1, 1, 1, 1]
    assert names_in(tmp_path / "out/engine/1-cities/alone") >= {f"{at}.txt" for at in range(4)}


@pytest.mark.parametrize("engine", ["parallel", "processes"])
def test_lists_that_nobody_took(tmp_path, monkeypatch, engine):
    """Both processes that run tasks are killed on their last try: what they had is named, what they had not is done."""
    monkeypatch.setattr(sys.modules[f"gandovel.many.engines.{engine}"], "jobs_of", lambda *_: [[at] for at in range(4)])
    once = '{ mkdir "$city/../one" || mkdir "$city/../two"; } 2> /dev/null'
    program(tmp_path, monkeypatch, f"{once} && {{ kill -9 {PARENT}; sleep 600; }}")
    summary = run_many(write_cities(tmp_path, 4), tmp_path / "out", engine, jobs=2, retries=0)
    assert sorted(it.code for it in summary.verdicts) == ["", "", "T4", "T4"]
    assert len(list((tmp_path / "out/engine/1-cities/alone").glob("?.txt"))) == 2
    until(lambda: not processes_of(tmp_path / "in"))


def sizes_of_jobs(folder, sizes, at_once):
    """How many tasks each job has, of tasks with files of so many bytes."""
    tasks = []
    for at, size in enumerate(sizes):
        (folder / f"{at}.shp").write_bytes(b"")
        os.truncate(folder / f"{at}.shp", size)
        tasks.append(Task(str(at), (), ((str(folder / f"{at}.shp"), True), (str(folder / "none"), False))))
    found = jobs.jobs_of(tasks, at_once)
    assert [number for job in found for number in job] == list(range(len(sizes)))
    return [len(job) for job in found]


def test_which_tasks_share_a_job(tmp_path):
    assert sizes_of_jobs(tmp_path, [], 1) == [] and sizes_of_jobs(tmp_path, [9], 1) == [1]
    assert sizes_of_jobs(tmp_path, [9] * 8, 4) == [1] * 8
    assert sizes_of_jobs(tmp_path, [9] * 16, 2) == [4, 3, 2, 1, 1, 1, 1, 1, 1, 1]
    many = sizes_of_jobs(tmp_path, [9] * 1000, 4)
    assert many[:3] == [125, 109, 95] and many == sorted(many, reverse=True) and min(many[:-1]) == jobs.FEWEST
    assert max(sizes_of_jobs(tmp_path, [9] * 5000, 1)) == jobs.MOST


def test_large_cities_do_not_share_a_job(tmp_path):
    large = 1000 * jobs.EACH
    assert sizes_of_jobs(tmp_path, [large] * 8, 2) == [2, 1, 1, 1, 1, 1, 1]
    assert sizes_of_jobs(tmp_path, [large, large, *[9] * 300], 2)[:2] == [1, 1]


def test_a_parallel_that_is_killed(tmp_path, monkeypatch):
    program(tmp_path, monkeypatch, f'case "$city" in */c0) kill -9 {JOB_OF}; sleep 600;; */c1) sleep 600;; esac')
    summary = run_many(write_cities(tmp_path, 3), tmp_path / "out", "parallel", jobs=2)
    # A program that goes with its engine may be reported by itself: it was killed (T4).
    codes = {it.code for it in summary.verdicts}
    assert "T7" in codes and codes <= {"T4", "T7"}
    until(lambda: not processes_of(tmp_path))


def test_engines_that_are_not_there(tmp_path, monkeypatch):
    from gandovel.many.engines import dask

    manifest = write_cities(tmp_path, 1)
    monkeypatch.setattr(dask, "PATIENCE", "1s")
    (tmp_path / "bin").mkdir()
    monkeypatch.setenv("PATH", str(tmp_path / "bin"))
    for engine, words in (
        ("parallel", "GNU parallel is not there: install the package parallel, or say --engine processes"),
        ("slurm", "sbatch is not on PATH: install the package slurm-client"),
        ("none", "no engine none"),
    ):
        with pytest.raises(Refused, match=f"T7 .*{words}"):
            run_many(manifest, tmp_path / "out", engine)
    assert run_many(manifest, tmp_path / "default").status == 0
    assert json.loads((tmp_path / "default/many.json").read_text())["engine"] == "processes"
    (tmp_path / "bin/parallel").write_text("#!/bin/sh\necho parallel of moreutils\n")
    (tmp_path / "bin/parallel").chmod(0o755)
    with pytest.raises(Refused, match="T7 .*not GNU parallel"):
        run_many(manifest, tmp_path / "out", "parallel")
    with pytest.raises(Refused, match="T7 Dask's scheduler 127.0.0.1:1 does not answer"):
        run_many(manifest, tmp_path / "out", "dask", scheduler="127.0.0.1:1")


def test_a_program_that_is_not_there(tmp_path, monkeypatch):
    manifest = write_cities(tmp_path, 1)
    monkeypatch.setenv("GANDOVEL_TOOL", str(tmp_path / "none"))
    with pytest.raises(Refused, match="T1 the program parcel_tool is not there"):
        run_many(manifest, tmp_path / "out")
    assert not (tmp_path / "out").exists()
