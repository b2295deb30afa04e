#!/usr/bin/python3
"""metropolis.py - one layer of a million parcels (or as many as you say) and its zones, as GeoPackages.

  metropolis.py FOLDER [--columns 1024] [--rows 1024] [--zone-side 20] [--seed 1] [--gaps N] [--report]

Parcels as those of `gencity.py --size L`, 14 corners each, on whole centimetres, in metres (EPSG:25832): 1,024 by 1,024
are 16 cities L side by side. Zones are blocks of other corners, some --zone-side parcels wide. --gaps moves the corner
of so many parcels by 10 cm, away from its neighbours. FOLDER gets parcels.gpkg and zones.gpkg; what is planted is
printed. --report runs `gandovel report` on them (the program is what GANDOVEL_TOOL names), and prints its seconds by
the clock, the processors' seconds, the most memory that all its processes had at once and one of them alone, and the
verdict. Say it for three sizes, for the growth.

--serve N cuts it into districts of N parcels at most, and serves these: the seconds of `prepare`, from the start to the
first answer, until all districts are awake, of a recut, and the most memory that all processes have then.
"""
import argparse
import json
import os
import resource
import sqlite3
import struct
import subprocess
import sys
import tempfile
import time
from contextlib import closing, suppress

import fiona
import numpy as np

sys.dont_write_bytecode = True
PITCH, X0, Y0, CRS = 4_000, 35_000_000, 580_000_000, "EPSG:25832"
"""In centimetres: a parcel's side, and where the city begins."""


def cells(columns, rows, pitch, across, up, seed):
    """The rings (rows * columns, k, 2) int64 in cm of a bent grid, with `across` and `up` corners within its sides."""
    pick, bend = np.random.default_rng(seed), int(pitch * 0.12)
    x, y = np.meshgrid(np.arange(columns + 1) * pitch + X0, np.arange(rows + 1) * pitch + Y0)
    nodes = np.stack([x, y], axis=2).astype(np.int64)
    nodes[1:-1, 1:-1] += pick.integers(-bend, bend + 1, (rows - 1, columns - 1, 2))
    nodes[1:-1, [0, -1], 1] += pick.integers(-bend, bend + 1, (rows - 1, 2))
    nodes[[0, -1], 1:-1, 0] += pick.integers(-bend, bend + 1, (2, columns - 1))
    flat = _within(nodes[:, :-1], nodes[:, 1:], across)
    flat[1:-1, :, :, 1] += pick.integers(-bend, bend + 1, flat[1:-1, :, :, 1].shape) // 2
    tall = _within(nodes[:-1], nodes[1:], up)
    tall[:, 1:-1, :, 0] += pick.integers(-bend, bend + 1, tall[:, 1:-1, :, 0].shape) // 2
    parts = [nodes[:-1, :-1, None], flat[:-1], nodes[:-1, 1:, None], tall[:, 1:]]
    parts += [nodes[1:, 1:, None], flat[1:, :, ::-1], nodes[1:, :-1, None], tall[:, :-1, ::-1]]
    return np.concatenate(parts, axis=2).reshape(rows * columns, -1, 2)


def _within(first, last, count):
    steps = np.arange(1, count + 1)[None, None, :, None]
    return first[:, :, None] + (last - first)[:, :, None] * steps // (count + 1)


def write(path, layer, column, rings):
    """Writes rings (n, k, 2) in cm as a GeoPackage in metres, numbered from 1 in a column, with 100 streets."""
    schema = {"geometry": "Polygon", "properties": {column: "str", "street": "str", "value": "float"}}
    with fiona.open(path, "w", driver="GPKG", layer=layer, schema=schema, crs=CRS, SPATIAL_INDEX="NO"):
        pass
    closed = np.concatenate([rings, rings[:, :1]], axis=1) / 100.0
    with closing(sqlite3.connect(path)) as connection:
        geometry, srs = connection.execute(
            "SELECT column_name, srs_id FROM gpkg_geometry_columns WHERE table_name = ?", (layer,)
        ).fetchone()
        head = b"GP\0\x01" + struct.pack("<i", srs) + struct.pack("<BIII", 1, 3, 1, closed.shape[1])
        rows = ((head + it.tobytes(), f"{at}", f"Street {at % 100}", at / 7) for at, it in enumerate(closed, 1))
        connection.executemany(
            f'INSERT INTO "{layer}" ("{geometry}", "{column}", street, value) VALUES (?, ?, ?, ?)', rows
        )
        connection.commit()


def make(folder, columns=1024, rows=1024, zone_side=20, seed=1, gaps=0):
    """Writes both layers; the numbers of the parcels with a gap or an overlap at a corner."""
    os.makedirs(folder, exist_ok=True)
    parcels = cells(columns, rows, PITCH, 3, 2, seed)
    pick = np.random.default_rng(seed + 1)
    inner = np.arange(columns * rows).reshape(rows, columns)[1:-1, 1:-1].reshape(-1)
    wrong = np.sort(pick.choice(inner, gaps, replace=False)) if gaps else np.zeros(0, dtype=np.int64)
    parcels[wrong, 0] += 10
    write(os.path.join(folder, "parcels.gpkg"), "parcels", "parcel_no", parcels)
    across, high = max(1, columns // zone_side), max(1, rows // zone_side)
    zones = _scaled(cells(across, high, 1_000_000, 6, 6, seed + 2), across, high, columns, rows)
    write(os.path.join(folder, "zones.gpkg"), "zones", "zone", zones)
    return [int(at) + 1 for at in wrong]


def _scaled(zones, across, high, columns, rows):
    """Zones of a made-up pitch over the city's extent, on whole centimetres."""
    origin = np.array([X0, Y0])
    extent = np.array([columns * PITCH, rows * PITCH])
    return (zones - origin) * extent // (np.array([across, high]) * 1_000_000) + origin


def measure(folder):
    """Runs the report of both layers, and prints what it took."""
    sources = os.path.join(os.path.dirname(os.path.abspath(__file__)), "..", "python", "src")
    words = [sys.executable, "-m", "gandovel", "report", os.path.join(folder, "parcels.gpkg")]
    words += ["--zones", os.path.join(folder, "zones.gpkg"), "--out", os.path.join(folder, "report.gpkg"), "--json"]
    begun = time.monotonic()
    with tempfile.TemporaryFile("w+") as out:
        process = subprocess.Popen(words, stdout=out, env={**os.environ, "PYTHONPATH": sources})
        most = most_memory(process)
        took, used = time.monotonic() - begun, resource.getrusage(resource.RUSAGE_CHILDREN)
        out.seek(0)
        text = out.read()
        said = json.loads(text) if text.strip() else {}
    print(
        f"{took:.1f} s by the clock, {used.ru_utime + used.ru_stime:.1f} s of processors, {most:.2f} GiB at once, "
        f"{used.ru_maxrss / 1048576:.2f} of one process; status {process.returncode}, {said.get('verdict')}, "
        f"{said.get('counts')}"
    )


def serve(folder, most):
    """Cuts the layer into districts and serves them; prints what it took."""
    import urllib.request

    sources = os.path.join(os.path.dirname(os.path.abspath(__file__)), "..", "python", "src")
    environment, layer = {**os.environ, "PYTHONPATH": sources}, os.path.join(folder, "layer")
    command = [sys.executable, "-m", "gandovel"]
    files = [os.path.join(folder, "parcels.gpkg"), "--zones", os.path.join(folder, "zones.gpkg"), "--out", layer]
    begun = time.monotonic()
    subprocess.run([*command, "prepare", *files, "--parcels-a-district", str(most)], check=True, env=environment)
    print(f"prepare: {time.monotonic() - begun:.1f} s")
    with tempfile.TemporaryDirectory() as journals:
        begun = time.monotonic()
        words = [*command, "serve", layer, "--journal", journals, "--port", "0", "--awake", "100000"]
        server = subprocess.Popen(words, stdout=subprocess.PIPE, text=True, env=environment)
        try:
            address = server.stdout.readline().split(" at ")[1].strip().rstrip("/")

            def asked(path, line=None):
                request = urllib.request.Request(address + path, line and line.encode(), {"Content-Type": "text/plain"})
                with urllib.request.urlopen(request) as answer:
                    return json.load(answer)

            asked(f"/locate?x={X0 * 10 + 5 * PITCH}&y={Y0 * 10 + 5 * PITCH}")
            print(f"first answer: {time.monotonic() - begun:.1f} s")
            districts = [it["district"] for it in asked("/districts")["districts"]]
            for district in districts:
                asked(f"/parcels/{district * 1_000_000_000 + 1}")
            print(f"{len(districts)} districts awake: {time.monotonic() - begun:.1f} s")
            print(f"memory of all: {sum(map(share_of_memory, family(server.pid))) / 1048576:.2f} GiB")
            one, other = across(asked)
            begun = time.monotonic()
            asked("/edits", f"merge {one} {other}")
            print(f"a merge over a border: {time.monotonic() - begun:.1f} s")
        finally:
            server.terminate()
            server.wait()


def across(asked):
    """Two parcels of two districts that have a side in common."""
    offset, edges = 0, {}
    while True:
        parcels = asked(f"/parcels?limit=1000&offset={offset}")["parcels"]
        for it in parcels:
            ring = [tuple(corner) for corner in it["ring_mm"]]
            for a, b in zip(ring, ring[1:] + ring[:1]):
                edges[a, b] = it["id"]
                other = edges.get((b, a), it["id"])
                if other // 1_000_000_000 != it["id"] // 1_000_000_000:
                    return it["id"], other
        offset += len(parcels)


def most_memory(process):
    """Waits for a process: the most memory, in GiB, that it and those that it started had at once, looked at each
    second.

    What several share is counted once.
    """
    most = 0
    while process.poll() is None:
        most = max(most, sum(map(share_of_memory, family(process.pid))))
        time.sleep(1.0)
    return most / 1048576


def family(first):
    """A process and all that it started, by their numbers."""
    children = {}
    for name in filter(str.isdigit, os.listdir("/proc")):
        with suppress(OSError, IndexError), open(f"/proc/{name}/stat") as file:
            children.setdefault(int(file.read().rpartition(")")[2].split()[1]), []).append(int(name))
    found, waiting = [], [first]
    while waiting:
        found.append(waiting.pop())
        waiting += children.get(found[-1], [])
    return found


def share_of_memory(number):
    """The memory of a process in kB, of what it shares with others its part; 0 of one that has ended."""
    with suppress(OSError), open(f"/proc/{number}/smaps_rollup") as file:
        return next((int(line.split()[1]) for line in file if line.startswith("Pss:")), 0)
    return 0


def main():
    parser = argparse.ArgumentParser(description=__doc__, formatter_class=argparse.RawDescriptionHelpFormatter)
    parser.add_argument("folder")
    for name, value in (("columns", 1024), ("rows", 1024), ("zone-side", 20), ("seed", 1), ("gaps", 0)):
        parser.add_argument(f"--{name}", type=int, default=value)
    parser.add_argument("--report", action="store_true")
    parser.add_argument("--serve", type=int, metavar="N")
    given = parser.parse_args()
    wrong = make(given.folder, given.columns, given.rows, given.zone_side, given.seed, given.gaps)
    print(json.dumps({"parcels": given.columns * given.rows, "moved": wrong}))
    if given.report:
        measure(given.folder)
    if given.serve:
        serve(given.folder, given.serve)


if __name__ == "__main__":
    main()
