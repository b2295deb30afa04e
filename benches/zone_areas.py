#!/usr/bin/env python3
"""zone_areas.py - what `--areas` costs beyond `parcel_tool overlay`, over a city with its zones.

  zone_areas.py PROGRAM [--size S|M|L] [--runs N] [--workers N,N ..]

PROGRAM is the built parcel_tool (benches/README.md says where it lies). The city is made with a fixed seed (inputs.py).
With each number of workers `overlay` is run in turn with and without `--areas`, N times each, a whole process: the
least seconds by the clock and of processors of each are printed, the largest memory, and by how much the seconds
differ, a column for each number. What `--areas` prints has to be the same for all numbers. GEOS (Debian's
python3-shapely) then finds the intersection and its area of the same pairs, those of the parcels that lie in several
zones, called from Python: its seconds of a processor, and by how much the areas that it finds for a parcel are off
together, in square millimetres.
"""
import argparse
import os
import subprocess
import sys
import time
from collections import defaultdict

sys.dont_write_bytecode = True
import inputs  # noqa: E402
from zoning import rings_of  # noqa: E402


RUNNER = """
import os, resource, subprocess, sys, time
begin = time.perf_counter()
with open(sys.argv[1], "wb") as out:
    subprocess.run(sys.argv[2:], stdout=out, check=True)
seconds, used = time.perf_counter() - begin, resource.getrusage(resource.RUSAGE_CHILDREN)
print(seconds, used.ru_utime + used.ru_stime, used.ru_maxrss)
"""


def run(words, path):
    """Seconds by the clock and of processors, and the peak KiB, of a process that prints into this file."""
    ran = subprocess.run([sys.executable, "-c", RUNNER, path, *words], stdout=subprocess.PIPE, text=True, check=True)
    return tuple(map(float, ran.stdout.split()))


def measure(program, folder, workers, runs):
    """The least seconds of both kinds and the most KiB, without areas and with them, by the number of workers; what is
    told."""
    files = [os.path.join(folder, f"{name}.shp") for name in ("city", "parcels", "zones")]
    known, told = {}, set()
    for _ in range(runs):
        for number in workers:
            for more in ((), ("--areas",)):
                path = os.path.join(inputs.room(), "told")
                words = [program, "overlay", "--unit", "mm", *files, "--workers", number, *more]
                now = run(words, path)
                old = known.get((number, more), now)
                known[number, more] = (min(old[0], now[0]), min(old[1], now[1]), max(old[2], now[2]))
                with open(path) as file:
                    told |= {file.read()} if more else set()
    if len(told) > 1:
        sys.exit("what is printed differs by the number of workers")
    return known, told.pop()


def split_pairs(told):
    """For each parcel that lies in several zones, its zones with twice the area in each."""
    zones = defaultdict(list)
    for line in told.splitlines():
        words = line.split()
        if words[0] == "area":
            zones[int(words[1])].append((int(words[2]), int(words[3])))
    return {parcel: found for parcel, found in zones.items() if len(found) > 1}


def by_geos(folder, pairs):
    """Seconds of a processor that GEOS takes for the pairs, and by how many square millimetres it is off at most."""
    from shapely.geometry import Polygon

    parcels = [Polygon(ring) for ring in rings_of(os.path.join(folder, "parcels.shp"))]
    zones = [Polygon(ring) for ring in rings_of(os.path.join(folder, "zones.shp"))]
    begin, worst = time.process_time(), 0.0
    sums = {
        parcel: sum(parcels[parcel - 1].intersection(zones[zone - 1]).area for zone, _ in found)
        for parcel, found in pairs.items()
    }
    seconds = time.process_time() - begin
    for parcel, found in pairs.items():
        worst = max(worst, abs(2 * sums[parcel] - sum(area2 for _, area2 in found)) / 2)
    return seconds, worst


def main():
    parser = argparse.ArgumentParser()
    parser.add_argument("program")
    parser.add_argument("--size", default="L")
    parser.add_argument("--runs", type=int, default=9)
    parser.add_argument("--workers", default="1,2,4")
    given = parser.parse_args()
    workers = given.workers.split(",")
    with inputs.city_layer(given.size) as folder:
        known, told = measure(os.path.abspath(given.program), folder, workers, given.runs)
        pairs = split_pairs(told)
        count = sum(map(len, pairs.values()))
        print(f"city {given.size}: {count} pairs of {len(pairs)} parcels in several zones")
        print("%-28s" % "workers", *("%9s" % it for it in workers))
        for name, more in (("overlay", ()), ("with --areas", ("--areas",))):
            for kind, at, unit in (("by the clock", 0, "s"), ("of processors", 1, "s"), ("memory", 2, "MiB")):
                values = [known[it, more][at] / (1024 if at == 2 else 1) for it in workers]
                print("%-28s" % f"{name}, {kind}", *("%7.*f %s" % (0 if at == 2 else 3, it, unit) for it in values))
        more = [[known[it, ("--areas",)][at] - known[it, ()][at] for it in workers] for at in (0, 1)]
        for kind, values in zip(("by the clock", "of processors"), more):
            print("%-28s" % f"more, {kind}", *("%7.3f s" % it for it in values))
        seconds, worst = by_geos(folder, pairs)
        print(f"GEOS {seconds:.2f} s: {seconds / more[1][0]:.0f} times as long as ours, off by up to {worst:.2g} mm2")


if __name__ == "__main__":
    main()
