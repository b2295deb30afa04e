#!/usr/bin/env python3
"""zoning.py - `parcel_tool overlay` over cities S, M and L with their zones, and over layers made to be slow.

  zoning.py PROGRAM [--pairs PROGRAM] [--runs N] [--workers N,N ..] [--limit SECONDS] [--only WORD ..]

PROGRAM is the built parcel_tool (benches/README.md says where it lies). The layers are made with a fixed seed
(inputs.py). For each, and with each number of workers, `check` of the parcels, `check` of the zones and `overlay` are
run in turn, N times, each a whole process; the best time and the largest memory of each are printed, a column for each
number, and what an overlay takes beyond both checks: that is the copy of the parcels, the pairs and the report. What
each prints has to be the same for all numbers. Over the cities GEOS finds the pairs of the same files (geos_pairs.cpp,
with Debian's libgeos-dev and g++), by relate, and by intersects and not touches: its search alone, without the reading,
over layers that nobody checked. The lists of pairs are compared.
With --pairs, programs/bench_overlay as build.sh made it, the rounds alone are timed, too: in one process that has
loaded both layers, the quickest of N from its beginning to its table, for each number of workers.
"""
import argparse, os, struct, subprocess, sys

HERE = os.path.dirname(os.path.abspath(__file__))
sys.dont_write_bytecode = True
import gencity
import inputs
import nodes
import tiling


def layers(folder, outline, parcels, zones):
    nodes.layers(folder, outline, parcels)
    gencity.write(os.path.join(folder, "zones"), zones, False)


def corner(folder):
    """All parcels but one in a corner of the city, so in one cell of its index; the zones are four quarters of that
    corner, and the rest."""
    nodes.corner(folder)
    half, side = 12800, 25600
    last = [(half, half), (side, half), (side, side - 100), (side - 100, side - 100), (side - 100, side), (half, side)]
    quarters = [nodes.box(0, 0, half, half), nodes.box(half, 0, side, half), nodes.box(0, half, half, side), last]
    rest = rings_of(os.path.join(folder, "parcels.shp"))[-1]
    gencity.write(os.path.join(folder, "zones"), quarters + [rest], False)


def rings_of(path):
    """The rings of a main file, as lists of whole corners."""
    with open(path, "rb") as file:
        data = file.read()
    at, rings = 100, []
    while at < len(data):
        length = 2 * struct.unpack(">i", data[at + 4 : at + 8])[0]
        count = struct.unpack("<i", data[at + 48 : at + 52])[0]
        numbers = struct.unpack("<%dd" % (2 * count), data[at + 56 : at + 56 + 16 * count])
        points = list(zip(map(int, numbers[::2]), map(int, numbers[1::2])))[:-1]
        rings.append(points[::-1])
        at += 8 + length
    return rings


def crosswise(folder):
    """1,000 strips from south to north, and as zones 1,000 strips from west to east: a million pairs."""
    side = 100000
    across = [nodes.box(100 * k, 0, 100 * (k + 1), side) for k in range(1000)]
    along = [nodes.box(0, 100 * k, side, 100 * (k + 1)) for k in range(1000)]
    layers(folder, nodes.box(0, 0, side, side), across, along)


def stairs(folder):
    """65,536 squares, and two zones of 4,096 corners with a border of 4,094 between them."""
    side, steps = 256 * 16, 2047
    squares = [nodes.box(16 * i, 16 * j, 16 * (i + 1), 16 * (j + 1)) for j in range(256) for i in range(256)]
    border = [(x, y) for k in range(steps) for x, y in ((k + 1, k), (k + 1, k + 1))]
    low = [(0, 0)] + [(1, 0)] + border[1:]
    top = border[-1]
    south = [(0, 0), (side, 0), (side, side), top] + border[-2:0:-1]
    north = [(0, 0), *border[1:], (side, side), (0, side)]
    layers(folder, nodes.box(0, 0, side, side), squares, [clean(south), clean(north)])


def clean(ring):
    """A ring without equal neighbours."""
    return [corner for at, corner in enumerate(ring) if corner != ring[at - 1]]


CITIES = tuple(("city " + size, nodes.city(size)) for size in "SML")

SKEWED = (("corner, zones", corner), ("crosswise", crosswise), ("stairs", stairs))


def measure(program, folder, runs, workers, limit):
    """The least seconds and the largest KiB of each job with each number of workers."""
    files = {part: os.path.join(folder, part + ".shp") for part in ("city", "parcels", "zones")}
    jobs = {"check parcels": ["check", files["city"], files["parcels"]],
            "check zones": ["check", files["city"], files["zones"]],
            "overlay": ["overlay", *files.values()]}
    known = {}
    for _ in range(runs):
        for job, words in jobs.items():
            for number in workers:
                seconds, kib, said = tiling.run([program, *words, "--unit", "cm", "--workers", number], limit)
                if seconds is None:
                    sys.exit("%s: %s" % (job, said))
                old = known.get((job, number), (seconds, kib, said))
                if said != known.get((job, workers[0]), old)[2]:
                    sys.exit("%s: other words with %s workers: %s" % (job, number, said))
                known[job, number] = (min(old[0], seconds), max(old[1], kib), said)
    return known


def show(name, known, workers):
    """A line for each job, and one for what an overlay takes beyond both checks."""
    jobs = list(dict.fromkeys(job for job, _ in known))
    for job in jobs:
        told = [known[job, number] for number in workers]
        print(
            "%-13s %-14s" % (name, job),
            *("%7.3f s" % it[0] for it in told),
            *("%5d MiB" % (it[1] / 1024) for it in told),
        )
    beyond = [known["overlay", it][0] - known["check parcels", it][0] - known["check zones", it][0] for it in workers]
    print("%-13s %-14s" % (name, "beyond checks"), *("%7.3f s" % it for it in beyond), flush=True)


def pairs_alone(program, folder, runs, workers):
    """The seconds of the quickest round for each number of workers, and how many pairs it has."""
    files = [os.path.join(folder, part + ".shp") for part in ("city", "parcels", "zones")]
    told = [
        subprocess.run([program, *files, it, str(runs)], stdout=subprocess.PIPE, text=True).stdout.split()
        for it in workers
    ]
    each = ["%.3f s" % (int(it[1]) / 1e6) for it in told]
    print("  the pairs alone:", *each, "", *dict.fromkeys(it[2] for it in told), "pairs", flush=True)


def compare(program, peer, folder):
    """What GEOS's search takes, and whether its pairs are the same."""
    files = [os.path.join(folder, part + ".shp") for part in ("city", "parcels", "zones")]
    ours = subprocess.run([program, "overlay", *files, "--unit", "cm"], stdout=subprocess.PIPE, text=True).stdout
    pairs = [line for line in ours.splitlines() if line.startswith("pair ")]
    for way in ("touch", "relate"):
        theirs = subprocess.run([peer, way, *files[1:]], stdout=subprocess.PIPE, stderr=subprocess.PIPE, text=True)
        same = "the same" if theirs.stdout.splitlines() == pairs else "NOT THE SAME"
        print(
            "  GEOS %s: %.3f s, %d pairs, %s" % (way, int(theirs.stderr.split()[-1]) / 1e6, len(pairs), same),
            flush=True,
        )


def main():
    parser = argparse.ArgumentParser(description=__doc__, formatter_class=argparse.RawDescriptionHelpFormatter)
    parser.add_argument("program")
    parser.add_argument("--pairs")
    parser.add_argument("--runs", type=int, default=3)
    parser.add_argument("--workers", default="1,2,4")
    parser.add_argument("--limit", type=float, default=60)
    parser.add_argument("--only", nargs="+", default=[""])
    given = parser.parse_args()
    workers, peer = given.workers.split(","), inputs.built("geos_pairs.cpp", "-lgeos_c")
    print("%-13s %-14s" % ("layer", "with workers"), *("%9s" % it for it in workers))
    for name, make in CITIES + SKEWED:
        if not nodes.is_asked(name, given.only):
            continue
        with inputs.layer(name, make) as folder:
            show(name, measure(given.program, folder, given.runs, workers, given.limit), workers)
            if given.pairs:
                pairs_alone(given.pairs, folder, given.runs, workers)
            if peer and name.startswith("city"):
                compare(given.program, peer, folder)


if __name__ == "__main__":
    main()
