#!/usr/bin/python3
"""qgis_checks.py - the plugin's Check parcels and Overlay zones, by Debian's qgis_process, on registers of 2,000 to
40,000 parcels.

  qgis_checks.py [PROGRAM] [--sizes N[,N..]] [--live] [--technician]

With --live, what it takes to check one changed parcel among so many while one edits, in place of these: the slowest of
ten, in seconds of a processor. With --technician, a window in which 100 parcels of a layer of 40,000 are edited with
the dock open, and what is seen there (it needs Xvfb, and some ten minutes).

PROGRAM is the built parcel_tool, or what GANDOVEL_TOOL names. The registers are those of python_package.py. Each
algorithm runs once, in a process of its own, whose QGIS reads the plugin of this folder. A line for each has the
seconds on the clock, those of processors with all that it starts, and the memory of the largest process.

It needs what scripts/qgis_tests installs, for the system's own Python.
"""
import argparse
import json
import os
import resource
import subprocess
import sys
import tempfile
import time

HERE = os.path.dirname(os.path.abspath(__file__))
sys.dont_write_bytecode = True
TESTS = os.path.join(HERE, "..", "qgis", "tests")
PYTHON = "/usr/bin/python3"
sys.path[:0] = [HERE, TESTS]
import python_package  # noqa: E402

ALGORITHMS = {
    "checkparcels": ["INPUT=parcels.gpkg", "NUMBER_FIELD=parcel_no", "FAULTS=faults.gpkg"],
    "overlayzones": [
        "INPUT=parcels.gpkg",
        "NUMBER_FIELD=parcel_no",
        "OVERLAY=zones.gpkg",
        "ZONE_FIELD=zone",
        "SPLIT=split.gpkg",
        "PARTS=parts.gpkg",
        "TABLE=table.gpkg",
    ],
}


def spent():
    """The processors' seconds of all processes that have ended so far."""
    used = resource.getrusage(resource.RUSAGE_CHILDREN)
    return used.ru_utime + used.ru_stime


def measured(algorithm, folder, environment):
    """Runs one algorithm, and prints what it took."""
    words = ["qgis_process.bin", "run", f"gandovel:{algorithm}", "--", *ALGORITHMS[algorithm]]
    begun, before = time.monotonic(), spent()
    ran = subprocess.run(words, cwd=folder, env=environment, capture_output=True, text=True)
    if ran.returncode:
        sys.exit(f"{algorithm} ended with {ran.returncode}: {ran.stdout[-500:]}{ran.stderr[-1500:]}")
    memory = resource.getrusage(resource.RUSAGE_CHILDREN).ru_maxrss / 1024
    clock, processors = time.monotonic() - begun, spent() - before
    print(
        f"  {algorithm}: {clock:.1f} s, {processors:.1f} s of processors, {memory:.0f} MiB at most so far", flush=True
    )


def live(size, folder):
    """Prints what live checking takes on a square of about so many parcels."""
    side = round(size**0.5)
    words = [PYTHON, os.path.join(TESTS, "live_edits.py"), "speed", str(side), folder]
    told = json.loads(subprocess.run(words, capture_output=True, text=True, check=True).stdout)
    print(
        f"  {side * side} parcels: {told['change']:.3f} s a change at most, {told['load']:.1f} s to begin", flush=True
    )


def technician():
    """Runs the test of a technician at its full size; it prints what was seen."""
    words = [PYTHON, "-m", "pytest", "-q", "-s", "-p", "no:cacheprovider", os.path.join(TESTS, "test_technician.py")]
    return subprocess.run(words, env={**os.environ, "GANDOVEL_LONG": "1"}, check=False).returncode


def main():
    """Measures each size."""
    parser = argparse.ArgumentParser(description=__doc__.splitlines()[0])
    parser.add_argument("program", nargs="?", default=os.environ.get("GANDOVEL_TOOL"))
    parser.add_argument("--sizes", default="2000,10000")
    parser.add_argument("--live", action="store_true")
    parser.add_argument("--technician", action="store_true")
    asked = parser.parse_args()
    if not asked.program:
        parser.error("name the program, or set GANDOVEL_TOOL")
    os.environ["GANDOVEL_TOOL"] = os.path.abspath(asked.program)
    os.environ.setdefault("PYTHONPATH", os.path.join(HERE, "..", "python", "src"))
    if asked.technician:
        sys.exit(technician())
    if asked.live:
        for size in map(int, asked.sizes.split(",")):
            with tempfile.TemporaryDirectory() as folder:
                live(size, folder)
        return
    from pathlib import Path

    from conftest import environment

    for size in map(int, asked.sizes.split(",")):
        with tempfile.TemporaryDirectory() as folder:
            python_package.make(size, folder)
            around = environment(Path(folder))
            subprocess.run(["qgis_process.bin", "plugins", "enable", "gandovel"], env=around, capture_output=True)
            print(f"{size} parcels:", flush=True)
            for algorithm in ALGORITHMS:
                measured(algorithm, folder, around)


if __name__ == "__main__":
    main()
