#!/usr/bin/env python3
"""nodes.py - node and EdgeSum over cities S, M and L, with and without T junctions, and over hostile layers.

  nodes.py [--ours PROGRAM] [--runs N] [--limit SECONDS] [--only WORD ..]

The layers are made in a temporary folder with a fixed seed. For each, the corners of the parcels and of the city are
put into the rings of both (`node`), the parcels' edges are counted less the city's (`EdgeSum`), and the least
unbalanced edge is looked for; PROGRAM is programs/bench_nodes, built by build.sh unless it is given. The best of N
processes is printed, and the largest memory. A process that takes longer than the limit is ended and printed so.
"""
import argparse, os, random, subprocess, sys, time

HERE = os.path.dirname(os.path.abspath(__file__))
sys.dont_write_bytecode = True
import gencity
import inputs
from inputs import city


def layers(folder, outline, parcels):
    gencity.write(os.path.join(folder, "city"), [outline], False)
    gencity.write(os.path.join(folder, "parcels"), parcels, False)


def box(x, y, u, v, slant=0):
    """A rectangle, or a parallelogram that leans."""
    return [(x, y), (x + slant, v), (u + slant, v), (u, y)]


def shuffled(folder):
    """City L, its parcels in random order."""
    keep = gencity.write

    def write(path, rings, dbf):
        rings = list(rings)
        random.Random(1).shuffle(rings)
        return keep(path, rings, dbf)

    gencity.write, given = write, sys.argv
    sys.argv = ["gencity.py", "--size", "L", folder]
    try:
        with open(os.devnull, "w") as nowhere:
            out, sys.stdout = sys.stdout, nowhere
            try:
                gencity.main()
            finally:
                sys.stdout = out
    finally:
        gencity.write, sys.argv = keep, given


def strips(slant, order):
    """65,536 strips from one side of the city to the other."""

    def make(folder):
        wide, high = 100, 10**9
        rings = [box(wide * k, 0, wide * (k + 1), high, slant) for k in range(65536)]
        if order:
            random.Random(1).shuffle(rings)
        layers(folder, box(0, 0, 65536 * wide, high, slant), rings)

    return make


def cut(slant):
    """21,845 strips, each cut into three at heights of its own: long edges with corners of others strictly inside."""

    def make(folder):
        pick, wide, high, rings = random.Random(1), 300, 10**9, []
        for k in range(21845):
            heights = [0] + sorted(pick.randrange(1, high) for _ in range(2)) + [high]
            for y, v in zip(heights, heights[1:]):
                x = wide * k
                rings.append(
                    [(x + slant * y, y), (x + slant * v, v), (x + wide + slant * v, v), (x + wide + slant * y, y)]
                )
        layers(folder, box(0, 0, 21845 * wide, high, slant * high), rings)

    return make


def rows(folder):
    """Eight long parcels, and between them 65,528 narrow ones with seven corners on either long line: 900,000 corners
    on sixteen lines."""
    count, wide, high, rings = 8191, 600, 1000, []
    for row in range(8):
        y = 2 * high * row
        rings.append(box(0, y, count * wide, y + high))
        for k in range(count):
            x = k * wide
            under = [(x + 100 * i, y + high) for i in range(7)]
            over = [(x + 100 * i, y + 2 * high) for i in range(7)]
            rings.append(over + under[::-1])
    layers(folder, box(0, 0, count * wide, 16 * high), rings)


def corner(folder):
    """65,535 parcels in one corner of the city's box, and one parcel that is all the rest."""
    side, wide, far, rings = 256, 100, 10**9, []
    for k in range(side * side - 1):
        x, y = k % side * wide, k // side * wide
        rings.append(box(x, y, x + wide, y + wide))
    end = side * wide
    rings.append(
        [
            (0, end),
            (0, far),
            (far, far),
            (far, 0),
            (end, 0),
            (end, end - wide),
            (end - wide, end - wide),
            (end - wide, end),
        ]
    )
    layers(folder, box(0, 0, far, far), rings)


def crossed(folder):
    """35,000 parcels whose corners are a grid of 700 by 700, and 27,500 rings of sixteen long edges each that go to and
    fro across all of it: no tiling, but the worst for the noding that we know."""
    pick, step, rings = random.Random(1), 10**6, []
    for k in range(35000):
        x, y = k % 100 * 7 * step, k // 100 * 2 * step
        under = [(x + i * step, y) for i in range(7)]
        over = [(x + i * step, y + step) for i in range(7)]
        rings.append(over + under[::-1])
    wide = 700 * step
    for k in range(27500):
        rings.append([(wide + 1 if i % 2 else -1, pick.randrange(wide)) for i in range(16)])
    layers(folder, box(-1, 0, wide + 1, wide), rings)


def scattered(folder):
    """244 rings of 4,095 corners drawn at random from a square: long edges that cross everywhere."""
    pick, wide = random.Random(1), 10**9
    rings = [[(pick.randrange(wide), pick.randrange(wide)) for _ in range(4095)] for _ in range(244)]
    layers(folder, box(0, 0, wide, wide), rings)


def band(count):
    """Rings of 4,095 corners drawn at random from a thin slanted band: long edges, each beside all the corners."""

    def make(folder):
        pick, wide, rings = random.Random(1), 10**9, []
        for _ in range(count):
            xs = [pick.randrange(wide) for _ in range(4095)]
            rings.append([(x, 5 * x + pick.randrange(10**4)) for x in xs])
        layers(folder, box(0, 0, wide, 10**4, 0), rings)

    return make


def lattices(count, thin):
    """Rings of 4,095 corners at random places of a lattice that is fifty metres wide, each ring's elsewhere, in a
    square of ten kilometres or in a slanted band that is two kilometres high at each x, so 392 metres across: edges of
    thousands of steps, each in a direction of its own."""

    def make(folder):
        pick, wide, rings = random.Random(1), 5003, []
        along, across = (20000, 40) if thin else (200, 200)
        for _ in range(count):
            x, y, ring = pick.randrange(wide), pick.randrange(wide), []
            for _ in range(4095):
                i, j = pick.randrange(along), pick.randrange(across)
                ring.append((x + wide * i, y + wide * (j + (5 * i if thin else 0))))
            rings.append(ring)
        layers(folder, box(0, 0, wide, wide), rings)

    return make


def directions(count):
    """Rings of 4,094 corners whose every other edge goes up a slanted fan in one of sixteen directions by 500,000 to a
    million steps: the fan is so thin that boxes along the axes tell little."""

    def make(folder):
        pick, far, rings = random.Random(1), 500000, []
        for _ in range(count):
            ring = []
            for _ in range(2047):
                aside, up, low = 7 * pick.randrange(20000), 1281 + 2 * pick.randrange(16), pick.randrange(far)
                for at in (low, low + far + pick.randrange(far)):
                    ring.append((aside + 256 * at, up * at))
            rings.append(ring)
        layers(folder, box(0, 0, far, far), rings)

    return make


JOBS = (
    ("city S", city("S")),
    ("city M", city("M")),
    ("city L", city("L")),
    ("city S, T", city("S", "--tjunction", "0.3")),
    ("city M, T", city("M", "--tjunction", "0.3")),
    ("city L, T", city("L", "--tjunction", "0.04")),
    ("city L, shuffled", shuffled),
    ("strips", strips(0, False)),
    ("strips, shuffled", strips(0, True)),
    ("slanted strips", strips(5 * 10**9, False)),
    ("slanted, shuffled", strips(5 * 10**9, True)),
    ("strips, cut", cut(0)),
    ("slanted, cut", cut(5)),
    ("rows", rows),
    ("corner", corner),
    ("crossed", crossed),
    ("scattered", scattered),
    ("band, 12 rings", band(12)),
    ("band, 24 rings", band(24)),
    ("band, 244 rings", band(244)),
    ("lattices, band, 12", lattices(12, True)),
    ("lattices, band, 24", lattices(24, True)),
    ("lattices, band, 49", lattices(49, True)),
    ("lattices, band, 244", lattices(244, True)),
    ("lattices, 24", lattices(24, False)),
    ("lattices, 244", lattices(244, False)),
    ("directions, 24", directions(24)),
    ("directions, 244", directions(244)),
)


def is_asked(name, words):
    """Whether one of the words is in the name of a layer."""
    return any(word in name for word in words)


def run(words, limit):
    """Standard output and peak KiB of one process, or neither where it took too long."""
    child = subprocess.Popen(words, stdout=subprocess.PIPE, text=True)
    end = time.monotonic() + limit
    while True:
        done, status, usage = os.wait4(child.pid, os.WNOHANG)
        if done:
            break
        if time.monotonic() > end:
            child.kill()
            os.wait4(child.pid, 0)
            return None, 0
        time.sleep(0.01)
    if status != 0:
        sys.exit("%s failed" % words[0])
    return child.stdout.read(), usage.ru_maxrss


def measure(name, program, folder, given):
    """The numbers of the quickest process, and the most KiB; no numbers where one took too long."""
    words = [program] + [os.path.join(folder, part + ".shp") for part in ("parcels", "city")]
    best, most = None, 0
    for _ in range(given.runs):
        text, kib = run(words, given.limit)
        if text is None:
            break
        answer = text.split()
        if len(answer) < 8:
            sys.exit("%s answered: %s" % (name, text.strip()))
        most = max(most, kib)
        if best is None or int(answer[4]) + int(answer[5]) < int(best[4]) + int(best[5]):
            best = answer
    return best, most


def main():
    parser = argparse.ArgumentParser(description=__doc__, formatter_class=argparse.RawDescriptionHelpFormatter)
    parser.add_argument("--ours")
    parser.add_argument("--runs", type=int, default=3)
    parser.add_argument("--limit", type=float, default=120)
    parser.add_argument("--only", nargs="+", default=[""])
    given = parser.parse_args()
    program = inputs.ours("bench_nodes", given.ours)
    print(
        "%-18s %7s %9s %9s %8s %8s %8s %8s %7s %s"
        % ("layer", "rings", "corners", "noded", "read ms", "node ms", "sums ms", "find ms", "MiB", "balanced")
    )
    for name, make in JOBS:
        if not is_asked(name, given.only):
            continue
        with inputs.layer(name, make) as folder:
            best, most = measure(name, program, folder, given)
        if best is None:
            print("%-18s more than %d seconds" % (name, given.limit), flush=True)
        else:
            print("%-18s %7s %9s %9s %8s %8s %8s %8s %7.1f %s" % (name, *best[:7], most / 1024, best[7]), flush=True)


if __name__ == "__main__":
    main()
