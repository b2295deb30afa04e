"""What the tests share: the program, registers prepared once, towns for sessions, engines of `gandovel many`."""
from __future__ import annotations

import os
import signal
from pathlib import Path

import pytest

SLURM = bool(os.environ.get("GANDOVEL_SLURM"))
collect_ignore = [] if SLURM else ["test_many_slurm.py"]
ENGINES = ["parallel", "processes", "dask", *(["slurm"] if SLURM else [])]
BUILT = Path(__file__).resolve().parents[2] / "crates/parcel_tool/out/parcel_tool"
if "GANDOVEL_TOOL" not in os.environ and BUILT.is_file():
    os.environ["GANDOVEL_TOOL"] = str(BUILT)


@pytest.fixture(scope="session")
def faulty():
    """The register of 202 parcels with its three faults, prepared."""
    import gandovel
    from registers import register

    return gandovel.prepare(*register())


@pytest.fixture(scope="session")
def whole():
    """The register of 202 parcels without faults, prepared."""
    import gandovel
    from registers import register

    return gandovel.prepare(*register(faults=False))


@pytest.fixture(scope="session")
def dask_cluster():
    """Four workers of Dask on this machine, each with a nanny."""
    import dask
    import distributed

    with dask.config.set({"distributed.scheduler.allowed-failures": 5}):
        with distributed.LocalCluster(
            n_workers=4, threads_per_worker=1, host="127.0.0.1", dashboard_address="127.0.0.1:0"
        ) as cluster:
            yield cluster


@pytest.fixture(scope="session")
def slurm_cluster(tmp_path_factory):
    """Two nodes of Slurm on this machine."""
    from slurm_cluster import Cluster

    cluster = Cluster(tmp_path_factory.mktemp("slurm"))
    try:
        yield cluster.start()
    finally:
        cluster.stop()


@pytest.fixture(params=ENGINES)
def run(request):
    """`run_many` by an engine; `run.engine` is its name."""
    from gandovel.many import run_many

    name, options = request.param, {}
    if name == "slurm":
        request.getfixturevalue("slurm_cluster")
    if name == "dask":
        options["scheduler"] = request.getfixturevalue("dask_cluster").scheduler_address
    if name in ("parallel", "processes"):
        options["jobs"] = 4

    def call(manifest, out, **more):
        return run_many(manifest, out, name, **{**options, **more})

    call.engine = name
    return call


@pytest.fixture
def halves(tmp_path):
    """The two parcels of the worked example in `docs/edits.md`."""
    from session_town import HALVES, SQUARE, Town

    return Town(tmp_path, SQUARE, HALVES)


@pytest.fixture
def town(tmp_path):
    """A city of 64 parcels."""
    from session_register import grid_city
    from session_town import Town

    return Town(tmp_path, *grid_city(8, 8, 1))


@pytest.fixture
def in_time():
    """Fails a test that waits for ever."""
    from session_town import FULL

    def too_long(number, frame):
        raise AssertionError("the test waits for ever")

    before = signal.signal(signal.SIGALRM, too_long)
    signal.alarm(7200 if FULL else 600)
    yield
    signal.alarm(0)
    signal.signal(signal.SIGALRM, before)
