"""What only Slurm can meet: arrays that are limited, a node or the controller that goes away, jobs that others cancel.

Run where GANDOVEL_SLURM is set, on a cluster that the tests start on the loopback.
"""
from __future__ import annotations

import subprocess
import threading

import pytest

from gandovel import Refused
from gandovel.many import run_many
from gandovel.many.engines import Settings, slurm
from gandovel.many.tasks import Batch
from many_cities import calls, program, processes_of, until, write_cities
from slurm_cluster import Cluster

LARGEST = 8


@pytest.fixture
def cluster(tmp_path):
    """A cluster of two nodes whose arrays have eight elements at most."""
    it = Cluster(tmp_path / "slurm", LARGEST)
    try:
        yield it.start()
    finally:
        it.stop()


def beside(what):
    """Runs a call in a thread beside the test; a call that fails fails the test that joins it."""
    faults = []

    def run():
        try:
            what()
        except BaseException as fault:
            faults.append(fault)

    thread = threading.Thread(target=run)
    thread.start()
    return lambda: (thread.join(), faults)[1]


def test_more_cities_than_an_array_may_have(cluster, tmp_path):
    summary = run_many(write_cities(tmp_path, 20, [19]), tmp_path / "out", "slurm")
    assert [it.code for it in summary.verdicts] == [""] * 19 + ["H2"]
    lists = sorted((tmp_path / "out/engine").glob("*-cities/list-*.txt"))
    elements = [len(path.read_text().splitlines()) for path in lists]
    assert len(elements) > 1 and max(elements) <= LARGEST and sum(elements) < 20, "elements share cities"


def test_no_more_at_once_than_jobs(cluster, tmp_path, monkeypatch):
    program(tmp_path, monkeypatch, 'mkdir "$city/../one" || touch "$city/../two"; sleep 1; rmdir "$city/../one"')
    summary = run_many(write_cities(tmp_path, 4), tmp_path / "out", "slurm", jobs=1)
    assert all(it.tiles for it in summary.verdicts) and not (tmp_path / "in/two").exists()


def test_a_node_that_goes_away(cluster, tmp_path, monkeypatch):
    """All four cities run, two on each node, when one node goes away; they end only then."""
    waits = 'once slow && until [ -e "$city/../../go" ]; do sleep 0.2; done'
    program(tmp_path, monkeypatch, f'echo "$SLURMD_NODENAME" >> "$city/node"; {waits}')

    def nodes():
        return [path.read_text().split() for path in (tmp_path / "in").glob("*/node")]

    def go_away():
        until(lambda: len(calls(tmp_path)) == 4 and len(nodes()) == 4)
        cluster.kill("one")
        (tmp_path / "go").touch()

    joined = beside(go_away)
    summary = run_many(write_cities(tmp_path, 4), tmp_path / "out", "slurm", retries=0)
    assert not joined()
    assert all(it.tiles for it in summary.verdicts), "Slurm itself gives them to the other node"
    begun_there = [seen for seen in nodes() if seen[0] == "one"]
    assert len(begun_there) == 2 and all(seen[-1] == "two" for seen in begun_there), nodes()


def test_a_controller_that_goes_away_for_a_while(cluster, tmp_path, monkeypatch):
    program(tmp_path, monkeypatch, 'until [ -e "$city/../../go" ]; do sleep 0.2; done')

    def go_away():
        until(lambda: len(calls(tmp_path)) == 4)
        cluster.end("slurmctld")
        until(lambda: subprocess.run(["squeue"], stdout=subprocess.PIPE, stderr=subprocess.PIPE).returncode)
        cluster.start_controller()
        (tmp_path / "go").touch()

    joined = beside(go_away)
    summary = run_many(write_cities(tmp_path, 6), tmp_path / "out", "slurm")
    assert not joined()
    assert all(it.tiles for it in summary.verdicts) and len(calls(tmp_path)) == 6


def test_a_controller_that_stays_away(cluster, tmp_path, monkeypatch):
    program(tmp_path, monkeypatch, 'until [ -e "$city/../../go" ]; do sleep 0.2; done')
    monkeypatch.setattr(slurm, "PATIENCE", 3.0)

    def go_away():
        until(lambda: len(calls(tmp_path)) == 4)
        cluster.end("slurmctld")

    joined = beside(go_away)
    with pytest.raises(Refused, match="T7 Slurm's controller is away, with jobs 1 under way"):
        run_many(write_cities(tmp_path, 6), tmp_path / "out", "slurm")
    assert not joined()
    with pytest.raises(Refused, match="P16 Slurm does not say whether the job gandovel-.* is over"):
        run_many(tmp_path / "manifest.csv", tmp_path / "out", "parallel", resume=True)
    (tmp_path / "go").touch()
    cluster.start_controller()
    until(lambda: subprocess.run(["squeue", "-h"], stdout=subprocess.PIPE, stderr=subprocess.PIPE).stdout == b"")
    summary = run_many(tmp_path / "manifest.csv", tmp_path / "out", "slurm", resume=True)
    assert summary.kept == 6 and all(it.tiles for it in summary.verdicts)


def test_an_element_that_slurm_holds_is_given_up_and_tried_again(tmp_path, monkeypatch):
    """Slurm holds what it could not launch, and would for ever."""
    asked, states = [], iter(["0|PENDING|launch failed requeued held\n1|RUNNING|None\n", "1|COMPLETED|None\n"])

    def ask(*words, more=None):
        asked.append(words)
        text = next(states) if words[0] == "squeue" else "7\n" if words[0] == "sbatch" else ""
        return subprocess.CompletedProcess(words, 0, text, "")

    monkeypatch.setattr(slurm, "_ask", ask)
    monkeypatch.setattr(slurm, "OFTEN", 0.0)
    monkeypatch.setattr(slurm.shutil, "which", lambda _: None)
    engine, batch = slurm.SlurmEngine(Settings()), Batch(tmp_path, [], "run", lambda _: False)
    engine.jobs, engine.lists, engine.largest = [[0], [1]], [tmp_path / "0.txt", tmp_path / "1.txt"], 10
    assert engine._arrays(batch, [0, 1], lambda _: None) == {0: slurm.HELD, 1: "COMPLETED"}
    assert ("scancel", "7_0") in asked and slurm._what(slurm.HELD).killed


@pytest.mark.parametrize("retries", [0, 1])
def test_a_task_that_someone_cancels(cluster, tmp_path, monkeypatch, retries):
    program(tmp_path, monkeypatch, 'case "$city" in */c1) once slow && sleep 600;; esac')

    def cancel():
        until(lambda: "c1" in calls(tmp_path))
        subprocess.check_call(["scancel", "1_1"])

    joined = beside(cancel)
    summary = run_many(write_cities(tmp_path, 3), tmp_path / "out", "slurm", retries=retries)
    assert not joined()
    assert [it.code for it in summary.verdicts] == ["", "" if retries else "T4", ""]
    until(lambda: not processes_of(tmp_path / "in/c1"))


def test_a_partition_that_is_not_there(cluster, tmp_path, monkeypatch):
    monkeypatch.setenv("SBATCH_PARTITION", "none")
    with pytest.raises(Refused, match="T7 sbatch does not take the array job: .*partition"):
        run_many(write_cities(tmp_path, 1), tmp_path / "out", "slurm")


def test_a_controller_that_is_not_there(tmp_path, monkeypatch):
    (tmp_path / "slurm.conf").write_text(
        "ClusterName=none\nSlurmctldHost=localhost(127.0.0.1)\nSlurmctldPort=1\n"
        "AuthType=auth/none\nCredType=cred/none\nMessageTimeout=2\nNodeName=localhost\n"
    )
    monkeypatch.setenv("SLURM_CONF", str(tmp_path / "slurm.conf"))
    with pytest.raises(Refused, match="T7 Slurm's controller does not answer"):
        run_many(write_cities(tmp_path, 1), tmp_path / "out", "slurm")


STATES = {"TIMEOUT": "T3", "OUT_OF_MEMORY": "no memory", "NODE_FAIL": "T4", "CANCELLED": "T4", None: "T4"}


@pytest.mark.parametrize("state", STATES)
def test_what_a_state_tells(state):
    assert slurm._what(state).code == STATES[state]
