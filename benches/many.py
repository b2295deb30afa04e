#!/usr/bin/python3
"""many.py - `gandovel many` by GNU parallel, Dask and Slurm, beside the plain sum of the single runs of the program.

  many.py [PROGRAM] [--engines NAME[,NAME..]] [--cities N] [--districts N] [--cells N] [--zones] [--kill [SECONDS]]
          [--keep FOLDER]

PROGRAM is the built parcel_tool (benches/README.md says where it lies), or what GANDOVEL_TOOL names. Two manifests are
run by each engine (parallel,dask unless --engines says otherwise; slurm starts a cluster on the loopback):

cities      N cities of size S (1,000), each hundredth with a gap; with --zones they are overlaid with their zones
metropolis  a city of N districts (16, a square number) of 256 by 256 parcels (--cells), with borders that are bent

Beside each stands the plain sum: the program alone, once for each row of the manifest, one behind the other. The share
is that sum by the seconds of the whole command and by the processors: 1 where nothing is lost. Beside it stands the
share of xargs, which starts the same runs as many at once as there are processors, and does nothing else: what is lost
there is the machine's. --kill ends a process of a task, of the program or of a Dask worker every half a second, or
every so many seconds, with SIGKILL, with ten retries, and no share is told; a city is then without a verdict at worst,
with the code T4. All verdicts are compared with what was planted. --cities 0 or --districts 0 leaves a manifest out;
--keep leaves all in a folder.

It needs what scripts/python_tests installs, for the system's own Python; slurm also Debian's slurm-wlm.
"""
import argparse
import contextlib
import csv
import json
import math
import os
import random
import shutil
import signal
import subprocess
import sys
import tempfile
import threading
import time

HERE = os.path.dirname(os.path.abspath(__file__))
sys.dont_write_bytecode = True
sys.path[:0] = [HERE, os.path.join(HERE, "..", "python", "tests"), os.path.join(HERE, "..", "python", "src")]
SOURCES = os.path.abspath(os.path.join(HERE, "..", "python", "src"))
WORKER = os.path.join(SOURCES, "gandovel", "many", "worker", "start.py")
KINDS = 10
"""So many cities of S are made; the others are copies of them, with files of their own."""


def processors():
    return len(os.sched_getaffinity(0))


def gencity_made(folder, *words):
    subprocess.run(
        [sys.executable, os.path.join(HERE, "gencity.py"), *words, folder], check=True, stdout=subprocess.DEVNULL
    )


def make_cities(folder, count, zones):
    """Cities of S in a folder, and their manifest; which of them have a gap."""
    for kind in range(KINDS + 1):
        gencity_made(
            os.path.join(folder, f"kind{kind}"),
            "--size",
            "S",
            "--seed",
            str(kind + 1),
            *["--defects", "1"] * (kind == KINDS),
        )
    rows, wrong = [], set()
    for at in range(count):
        kind = KINDS if at % 100 == 50 else at % KINDS
        wrong |= {f"c{at}"} if kind == KINDS else set()
        shutil.copytree(os.path.join(folder, f"kind{kind}"), os.path.join(folder, f"c{at}"))
        rows.append(
            {
                "name": f"c{at}",
                "city": f"c{at}/city.shp",
                "parcels": f"c{at}/parcels.shp",
                "unit": "cm",
                "zones": f"c{at}/zones.shp" if zones else "",
            }
        )
    write_manifest(folder, rows)
    return wrong


def straight_ones_left_out(ring):
    """A ring without the corners that lie between their neighbours on one line."""
    kept = []
    for a, b, c in zip([ring[-1], *ring[:-1]], ring, [*ring[1:], ring[0]]):
        if (b[0] - a[0]) * (c[1] - b[1]) != (b[1] - a[1]) * (c[0] - b[0]):
            kept.append(b)
    return kept


def make_metropolis(folder, districts, cells):
    """A city of districts side by side, each of cells by cells parcels of one grid, and its manifest."""
    import gencity

    side = math.isqrt(districts)
    all_cells = side * cells
    nodes, across, up = gencity.grid(
        random.Random(1), 350_000_000, 580_000_000, 4_000 * all_cells, 4_000 * all_cells, all_cells, all_cells, 3, 2
    )
    os.makedirs(folder, exist_ok=True)
    write = gencity.write
    write(os.path.join(folder, "city"), [[nodes[0][0], nodes[-1][0], nodes[-1][-1], nodes[0][-1]]], False)
    rings = []
    rows = [{"name": "metropolis", "city": "city.shp", "parcels": "districts.shp", "unit": "cm"}]
    for at in range(side * side):
        low, left = at // side * cells, at % side * cells
        rings.append(straight_ones_left_out(gencity.block(nodes, across, up, low, low + cells, left, left + cells)))
        write(
            os.path.join(folder, f"d{at}"),
            [
                gencity.cell(nodes, across, up, across, up, j, i)
                for j in range(low, low + cells)
                for i in range(left, left + cells)
            ],
            False,
        )
        rows.append(
            {"name": f"d{at}", "parcels": f"d{at}.shp", "unit": "cm", "part_of": "metropolis", "district": at + 1}
        )
    write(os.path.join(folder, "districts"), rings, False)
    write_manifest(folder, rows)


def write_manifest(folder, rows):
    with open(os.path.join(folder, "manifest.csv"), "w", newline="") as file:
        writer = csv.DictWriter(file, ["name", "city", "parcels", "zones", "unit", "part_of", "district"], restval="")
        writer.writeheader()
        writer.writerows(rows)


def commands_of(out):
    """The program's command line for each result of a run."""
    commands = []
    for name in sorted(os.listdir(os.path.join(out, "cities"))):
        with open(os.path.join(out, "cities", name, "result.json")) as file:
            commands.append(json.load(file)["command"])
    return commands


def plain_sum(commands):
    """The seconds of the program alone, one run behind the other."""
    begun = time.monotonic()
    for command in commands:
        subprocess.run(command, stdin=subprocess.DEVNULL, stdout=subprocess.DEVNULL, stderr=subprocess.DEVNULL)
    return time.monotonic() - begun


def plain_side_by_side(commands, at_once):
    """The seconds of the same runs, so many at once, by xargs. All have as many words."""
    words = "".join(f"{word}\0" for command in commands for word in command)
    begun = time.monotonic()
    subprocess.run(
        ["xargs", "-0", "-P", str(at_once), "-n", str(len(commands[0])), "env"],
        input=words.encode(),
        stdout=subprocess.DEVNULL,
        stderr=subprocess.DEVNULL,
    )
    return time.monotonic() - begun


def victims(program, folder):
    """The processes of tasks, of the program and of Dask's workers that this script's commands have started, each with
    its command line.

    Slurm's tasks are no children of it: they name a file of the folder.
    """
    parents, words = {}, {}
    for name in filter(str.isdigit, os.listdir("/proc")):
        with contextlib.suppress(OSError, IndexError):
            with open(f"/proc/{name}/stat") as file:
                parents[int(name)] = int(file.read().rpartition(")")[2].split()[1])
            with open(f"/proc/{name}/cmdline", "rb") as file:
                words[int(name)] = file.read().decode(errors="replace")

    def is_ours(process):
        while process > 1 and process != os.getpid():
            process = parents.get(process, 0)
        return process == os.getpid()

    kinds = (WORKER, program, "multiprocessing.spawn")
    return {
        process: text
        for process, text in words.items()
        if any(kind in text for kind in kinds) and "parallel\0" not in text and (is_ours(process) or folder in text)
    }


@contextlib.contextmanager
def killing(program, folder, seconds):
    """Kills one of a folder's victims every so many seconds, or none; the list of how many were killed.

    It begins with the first task: an engine may take longer to start than that.
    """
    over, begun, killed, pick = threading.Event(), [False], [0], random.Random(1)

    def kill():
        while not over.wait(seconds):
            found = victims(program, folder)
            begun[0] = begun[0] or any(WORKER in text for text in found.values())
            if found and begun[0]:
                with contextlib.suppress(ProcessLookupError):
                    os.kill(pick.choice(sorted(found)), signal.SIGKILL)
                    killed[0] += 1

    thread = threading.Thread(target=kill)
    if seconds:
        thread.start()
    try:
        yield killed
    finally:
        over.set()
        if seconds:
            thread.join()


def many(folder, engine, program, kill, *words):
    """Runs `gandovel many` over a folder's manifest: its seconds, its summary, and how many processes were killed."""
    out = os.path.join(folder, f"out-{engine}")
    shutil.rmtree(out, ignore_errors=True)
    command = [
        sys.executable,
        "-m",
        "gandovel",
        "many",
        os.path.join(folder, "manifest.csv"),
        "--out",
        out,
        "--engine",
        engine,
        *(["--retries", "10"] if kill else []),
        *words,
    ]
    path = os.pathsep.join([SOURCES, os.environ.get("PYTHONPATH", "")])
    with killing(program, folder, kill) as killed:
        begun = time.monotonic()
        ran = subprocess.run(
            command,
            stdout=subprocess.PIPE,
            stderr=subprocess.PIPE,
            text=True,
            env={**os.environ, "PYTHONPATH": path, "GANDOVEL_TOOL": program},
        )
        took = time.monotonic() - begun
    print("\n".join(f"  {line}" for line in (ran.stdout + ran.stderr.splitlines()[-1]).splitlines()), flush=True)
    if not os.path.isfile(os.path.join(out, "summary.csv")):
        sys.exit(f"{engine} ended with {ran.returncode}: {ran.stderr}")
    return out, took, killed[0]


def measure(name, folder, engine, program, given, wrong):
    """Runs a manifest by an engine, compares the verdicts with what was planted, and prints what it took."""
    out, took, killed = many(folder, engine, program, given.kill, *["--jobs", str(processors())] * (engine != "slurm"))
    verdicts, without = test_verdicts(name, engine, out, given.kill, wrong)
    if given.kill:
        print(
            f"{name} by {engine}: {took:.2f} s, {killed} processes killed, {verdicts} verdicts right, {without} "
            "without",
            flush=True,
        )
        return
    commands = commands_of(out)
    single, beside = plain_sum(commands), plain_side_by_side(commands, processors())
    print(
        f"{name} by {engine}: {took:.2f} s, {verdicts / took:.1f} cities a second; the plain sum {single:.2f} s, share "
        f"{single / took / processors():.2f} of {processors()} processors; by xargs {beside:.2f} s, share "
        f"{single / beside / processors():.2f}",
        flush=True,
    )


def test_verdicts(name, engine, out, killed, wrong):
    """How many verdicts are those that were planted, and how many cities have none: only where processes are killed."""
    with open(os.path.join(out, "summary.csv"), newline="") as file:
        rows = list(csv.DictReader(file))
    with open(os.path.join(out, "summary.json")) as file:
        whole = [it["tiles"] for it in json.load(file)["wholes"]]
    without = [row["name"] for row in rows if killed and row["code"] in ("T4", "T10", "open")]
    bad = [
        row["name"]
        for row in rows
        if row["name"] not in without and row["verdict"] != ("refused" if row["name"] in wrong else "tiles")
    ]
    if bad or all(whole) == bool(whole and without):
        sys.exit(f"{name} by {engine}: not the verdicts that were planted: {bad[:8]} {whole}")
    return len(rows) - len(without), len(without)


@contextlib.contextmanager
def cluster(engine, folder):
    """Slurm on the loopback where it is wanted."""
    if engine != "slurm":
        yield
        return
    from pathlib import Path

    from slurm_cluster import Cluster

    it = Cluster(Path(folder) / "slurm")
    try:
        yield it.start()
    finally:
        it.stop()


def main():
    parser = argparse.ArgumentParser(description=__doc__, formatter_class=argparse.RawDescriptionHelpFormatter)
    parser.add_argument("program", nargs="?", default=os.environ.get("GANDOVEL_TOOL"))
    parser.add_argument("--engines", default="parallel,dask")
    parser.add_argument("--cities", type=int, default=1000)
    parser.add_argument("--districts", type=int, default=16)
    parser.add_argument("--cells", type=int, default=256)
    parser.add_argument("--zones", action="store_true")
    parser.add_argument("--kill", nargs="?", type=float, const=0.5, metavar="SECONDS")
    parser.add_argument("--keep", metavar="FOLDER")
    given = parser.parse_args()
    if not given.program:
        parser.error("no program: name one, or set GANDOVEL_TOOL")
    program = os.path.abspath(given.program)
    with tempfile.TemporaryDirectory() as made:
        home = os.path.abspath(given.keep or made)
        manifests = []
        if given.cities:
            folder = os.path.join(home, "cities")
            os.makedirs(folder)
            manifests.append((f"{given.cities} cities of S", folder, make_cities(folder, given.cities, given.zones)))
        if given.districts:
            folder = os.path.join(home, "metropolis")
            make_metropolis(folder, given.districts, given.cells)
            manifests.append((f"{given.districts} districts of {given.cells ** 2} parcels", folder, set()))
        for engine in given.engines.split(","):
            with cluster(engine, home):
                for name, folder, wrong in manifests:
                    measure(name, folder, engine, program, given, wrong)


if __name__ == "__main__":
    sys.exit(main())
