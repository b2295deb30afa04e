#!/usr/bin/env python3
"""overlap.py - triangles_overlap and shapes_overlap beside GEOS's relate, or its intersects and not touches, too.

  overlap.py [--seed N] [--ours PROGRAM] [--runs N] [--touches] [--sizes 16,256,4096]

Pairs of triangles and of shapes are made with a fixed seed, all in whole millimetres, and given to both programs: ours
(programs/bench_overlap, proved and built by build.sh unless PROGRAM is given) and geos_overlap.cpp (Debian's
libgeos-dev and g++), which takes intersects and not touches, too, with --touches. The two run in turns, N times, and
each time is the least of all rounds. Making geometries isn't timed; our checking and clipping is printed apart. A pair
whose answers differ is told.
"""
import argparse, math, os, random, subprocess, sys

sys.dont_write_bytecode = True
import inputs

FAR = 10 ** 11
EAST, NORTH = 350000000, 580000000


def turn(a, b, c):
    return (b[0] - a[0]) * (c[1] - a[1]) - (b[1] - a[1]) * (c[0] - a[0])


def left(a, b, c):
    """The triangle, turned left; none where its corners are on a line."""
    t = turn(a, b, c)
    return [a, b, c] if t > 0 else [a, c, b] if t < 0 else None


def place(chance, size=10000):
    return EAST + chance.randint(0, size), NORTH + chance.randint(0, size)


def anywhere(chance):
    return left(place(chance), place(chance), place(chance)), left(place(chance), place(chance), place(chance))


def common_edge(chance):
    a, b = place(chance), place(chance)
    return left(a, b, place(chance)), left(a, b, place(chance))


def common_corner(chance):
    a = place(chance)
    return left(a, place(chance), place(chance)), left(a, place(chance), place(chance))


def corner_on_edge(chance):
    a, step, k = place(chance), (chance.randint(-900, 900), chance.randint(-900, 900)), chance.randint(1, 9)
    b = a[0] + 10 * step[0], a[1] + 10 * step[1]
    on = a[0] + k * step[0], a[1] + k * step[1]
    return left(a, b, place(chance)), left(on, place(chance), place(chance))


def sliver(chance):
    """Two thin triangles across the whole plane, a millimetre or two from one line."""
    a = -FAR + chance.randint(0, 10 ** 6), -FAR + chance.randint(0, 10 ** 9)
    b = FAR - chance.randint(0, 10 ** 6), FAR - chance.randint(0, 10 ** 9)

    def near():
        t = chance.randint(1, 10**6 - 1)
        return (
            a[0] + (b[0] - a[0]) * t // 10**6 + chance.randint(-2, 2),
            a[1] + (b[1] - a[1]) * t // 10**6 + chance.randint(-2, 2),
        )

    return left(a, b, near()), left(near(), near(), near())


def ragged(chance, n, east, north):
    """A ring of corners at rising angles and random distances."""
    far = [1000 * n * chance.uniform(0.5, 1) for _ in range(n)]
    return [
        (
            EAST + east + round(far[k] * math.cos(2 * math.pi * k / n)),
            NORTH + north + round(far[k] * math.sin(2 * math.pi * k / n)),
        )
        for k in range(n)
    ]


def stars(chance, n):
    """Two ragged rings whose boxes meet; most share a part."""
    return ragged(chance, n, 0, 0), ragged(chance, n, chance.randint(-1700, 1700) * n, chance.randint(-1700, 1700) * n)


def border(chance, n):
    """Two sides of a jagged border, one above the other."""
    line = [(EAST + 1000 * k, NORTH + chance.randint(0, 1000)) for k in range(n - 2)]
    west, east = line[0][0], line[-1][0]
    return [(west, NORTH - 3000), (east, NORTH - 3000)] + line[::-1], line + [
        (east, NORTH + 4000),
        (west, NORTH + 4000),
    ]


def zigzag(chance, n):
    """Two sides of a border that goes to and fro over the whole of their boxes' overlap, side by side."""
    line = [(EAST + chance.randint(0, 40000), NORTH + 1000 * k) for k in range(n - 2)]
    top, bottom = line[-1][1], line[0][1]
    return [(EAST - 50000, top), (EAST - 50000, bottom)] + line, [(EAST + 90000, bottom), (EAST + 90000, top)] + line[
        ::-1
    ]


def zigzag_met(chance, n):
    """The same, with one corner of one side a millimetre over the line."""
    first, second = zigzag(chance, n)
    k = chance.randint(n // 4, 3 * n // 4)
    first[k] = first[k][0] + 1, first[k][1]
    return first, second


def notch(chance, n):
    """A ring between the walls of another, in its box but apart from it."""
    end = 1000 * (n - 5)
    floor = [(EAST + 1000 * k, NORTH + 10000 + chance.randint(0, 9000)) for k in range(n - 4)]
    cup = (
        [(EAST - 9000, NORTH), (EAST + end + 9000, NORTH), (EAST + end + 9000, NORTH + 90000)]
        + floor[::-1]
        + [(EAST - 9000, NORTH + 90000)]
    )
    under = [(EAST + end * k // (n - 3), NORTH + 20000 + chance.randint(0, 9000)) for k in range(n - 2)]
    return cup, under + [(EAST + end, NORTH + 60000), (EAST, NORTH + 60000)]


def spirals(chance, n):
    """Two bands that wind round each other, with one boundary all the way."""
    half, turns = n // 2, 4 if n < 100 else 16 if n < 1000 else 32
    step = chance.randint(400, 600) * 64
    start = half * step * 2

    def at(k, inward):
        angle = 2 * math.pi * (k % turns) / turns
        far = start - k * step - inward * turns * step // 2
        return EAST + round(far * math.cos(angle)), NORTH + round(far * math.sin(angle))

    lines = [[at(k, inward) for k in range(half)] for inward in range(3)]
    return lines[0] + lines[1][::-1], lines[1] + lines[2][::-1]


def slanted(chance, n):
    """Two sides of a border that goes to and fro slantwise, so that nearly all boxes meet and little can be left
    out."""

    def at(u, v):
        return EAST + u - v, NORTH + u + v

    line, top = [at(chance.randint(0, 40 * n), 10 * k) for k in range(n - 2)], 10 * (n - 3)
    return [at(-n, top), at(-n, 0)] + line, [at(41 * n, 0), at(41 * n, top)] + line[::-1]


TRIANGLES = (anywhere, common_edge, common_corner, corner_on_edge, sliver)
SIZES = (16, 256, 4096)
SHAPES = (stars, border, zigzag, zigzag_met, spirals, notch, slanted)


def groups(seed, sizes):
    for kind in TRIANGLES:
        chance, pairs = random.Random(seed), []
        while len(pairs) < (20000 if len(sizes) > 1 else 100):
            first, second = kind(chance)
            if first and second:
                pairs.append((first, second))
        yield "%s/3" % kind.__name__, 3, pairs
    for size, count, rounds in ((16, 1000, 3), (256, 100, 3), (4096, 5, 1)):
        for kind in SHAPES if size in sizes else ():
            chance = random.Random(seed)
            yield "%s/%d" % (kind.__name__, size), rounds, [kind(chance, size) for _ in range(count)]


def write(path, seed, sizes):
    with open(path, "w") as out:
        for name, rounds, pairs in groups(seed, sizes):
            out.write("# %s %d\n" % (name, rounds))
            for first, second in pairs:
                out.write("%d %s\n" % (len(first), " ".join("%d %d" % c for c in first + second)))


def pairs_of(seed, sizes=SIZES):
    """The folder of the file of pairs of triangles, and of shapes of so many corners."""
    name = "pairs %s, seed %d" % (" ".join(map(str, sizes)), seed)
    return inputs.layer(name, lambda folder: write(os.path.join(folder, "pairs"), seed, sizes))


def answers(command, path):
    with open(path) as pairs:
        run = subprocess.run(command, stdin=pairs, text=True, stdout=subprocess.PIPE)
    if run.returncode != 0 or "bad" in run.stdout:
        sys.exit("%s failed: %s" % (command[0], run.stdout[-1000:]))
    return {words[0]: words[1:] for words in map(str.split, run.stdout.splitlines())}


def least(runs, times):
    """The answers of the first run, with the least times of all."""
    for name, words in runs[0].items():
        for k in times:
            words[k] = min((run[name][k] for run in runs), key=int)
    return runs[0]


def main():
    parser = argparse.ArgumentParser(description=__doc__, formatter_class=argparse.RawDescriptionHelpFormatter)
    parser.add_argument("--seed", type=int, default=1)
    parser.add_argument("--ours")
    parser.add_argument("--runs", type=int, default=3)
    parser.add_argument("--touches", action="store_true")
    parser.add_argument("--sizes", default=",".join(map(str, SIZES)))
    given = parser.parse_args()
    program, peer = inputs.ours("bench_overlap", given.ours), inputs.built("geos_overlap.cpp", "-lgeos_c")
    if not peer:
        sys.exit("geos_overlap.cpp cannot be built")
    with pairs_of(given.seed, tuple(map(int, given.sizes.split(",")))) as folder:
        path, ours, geos = os.path.join(folder, "pairs"), [], []
        for _ in range(given.runs):
            ours.append(answers([program], path))
            geos.append(answers([peer, *["touches"] * given.touches], path))
    ours, geos = least(ours, (1, 2)), least(geos, (1, 2))
    peers = ("relate", "touches")[: 2 if given.touches else 1]
    print("microseconds a pair, and how many times ours; touches is intersects and not touches")
    print("%-20s %6s %6s %9s %9s" % ("pairs", "count", "meet", "clipping", "ours"),
          *("%9s" % it for it in peers), *("%7s" % "x" for _ in peers), "answers that differ")
    for name, (count, clipping, best, bits, _) in ours.items():
        each = [int(t) / 1000 / int(count) for t in (clipping, best)]
        theirs = [int(geos[name][1 + at]) / 1000 / int(count) for at, _ in enumerate(peers)]
        differ = ["%d %s" % (sum(p != q for p, q in zip(bits, geos[name][3 + at])), it) for at, it in enumerate(peers)]
        print("%-20s %6s %6d %9.1f %9.3f" % (name, count, bits.count("1"), *each), *("%9.2f" % it for it in theirs),
              *("%7.1f" % (it / each[1]) for it in theirs), ", ".join(differ), flush=True)


if __name__ == "__main__":
    main()
