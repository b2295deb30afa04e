#!/usr/bin/env python3
"""tiling.py - `parcel_tool check` over cities S, M and L, with and without T junctions, and over hostile layers, and
`export`.

  tiling.py PROGRAM [--runs N] [--workers N,N ..] [--limit SECONDS] [--only WORD ..]
            [--without WORD ..] [--export]

PROGRAM is the built parcel_tool (benches/README.md says where it lies). The layers are made with a fixed seed
(inputs.py). Each job is a whole process with so many workers, run N times in turn with the others; the best time and
the largest memory are printed, a column for each number of workers, and the answer, which has to be the same for all;
the last columns are how many times as long as `check` with this number a job takes. Over the cities GEOS is asked too
(geos_tiling.cpp, with Debian's libgeos-dev and g++), on one thread: whether the parcels' union equals the city and
their areas sum to it, and whether two parcels' interiors meet (relate); without it these rows are left out. With
--export the cities are exported, too. `wrong` is a city M with one parcel moved by a centimetre over the city's border,
and one taken out. With --only a layer has one of these words in its name, and with --without none of those. """
import argparse, os, subprocess, sys

HERE = os.path.dirname(os.path.abspath(__file__))
sys.dont_write_bytecode = True
import gencity
import inputs
import nodes


def halves(path, side, far):
    """The two parts of the square from -side to side on both axes, that a path from its lower side to its upper one
    cuts."""
    left = path + [(-side, side), (-side, -side)]
    right = path[::-1] + [(side, -side), (side, side)]
    return [[(x + far, y) for x, y in ring] for ring in (left, right)]


def zigzag(count, side):
    """A path of count corners from the lower side to the upper one, to and fro in between."""
    inner = [(side - 7 if k % 2 else 7 - side, -side + 2 * side * (k + 1) // (count - 1)) for k in range(count - 2)]
    return [(0, -side)] + inner + [(0, side)]


def spiral(count, side):
    """A path of about count corners from the lower side to the upper one, which winds inwards and then outwards."""
    legs = count // 4 * 2 - 1
    x, y, arm, step = 0, 0, [], side // (legs + 3)
    for k in range(legs):
        reach = step * (k // 2 * 2 + 1)
        turn = k % 4
        x, y = x + (reach, 0, -reach, 0)[turn], y + (0, reach, 0, -reach)[turn]
        arm.append((x, y))
    # the last leg of an odd number goes to and fro: the end leaves for the upper or the lower side
    if arm[-1][0] > 0:
        arm.append((arm[-1][0], side))
    else:
        arm.append((arm[-1][0], -side))
    path = [(-a, -b) for a, b in reversed(arm)] + [(0, 0)] + arm
    return path if path[0][1] < 0 else path[::-1]


def arc(count, side):
    """A path of count corners from the lower side to the upper one, which turns the same way at each: one part is
    convex."""
    heights = [-side + 2 * side * k // (count - 1) for k in range(count)]
    return [(side // 2 - y * y // (2 * side), y) for y in heights]


def pairs(path_of, count, side):
    """122 squares in a row, each cut in two by a path: 244 rings of nearly 4,096 corners."""

    def make(folder):
        path, rings = path_of(count, side), []
        for k in range(122):
            rings += halves(path, side, 2 * side * k)
        right = 2 * side * 121 + side
        nodes.layers(folder, [(-side, -side), (right, -side), (right, side), (-side, side)], rings)

    return make


def wrong(folder):
    """City M with a parcel that lies a centimetre over the city's border, and another that is missing."""
    keep = gencity.write

    def write(path, rings, dbf):
        rings = [list(ring) for ring in rings]
        if path.endswith("parcels"):
            x, y = rings[5000][0]
            rings[5000][0] = (x - 1, y)
            del rings[7000]
        return keep(path, rings, dbf)

    gencity.write, given = write, sys.argv
    sys.argv = ["gencity.py", "--size", "M", folder]
    try:
        with open(os.devnull, "w") as nowhere:
            out, sys.stdout = sys.stdout, nowhere
            try:
                gencity.main()
            finally:
                sys.stdout = out
    finally:
        gencity.write, sys.argv = keep, given


CITIES = (
    ("city S", nodes.city("S")),
    ("city M", nodes.city("M")),
    ("city L", nodes.city("L")),
    ("city S, T", nodes.city("S", "--tjunction", "0.3")),
    ("city M, T", nodes.city("M", "--tjunction", "0.3")),
    ("city L, T", nodes.city("L", "--tjunction", "0.04")),
    ("city M, wrong", wrong),
)

HOSTILE = (
    ("strips", nodes.strips(0, False)),
    ("strips, shuffled", nodes.strips(0, True)),
    ("slanted strips", nodes.strips(5 * 10**9, False)),
    ("strips, cut", nodes.cut(0)),
    ("slanted, cut", nodes.cut(5)),
    ("rows", nodes.rows),
    ("corner", nodes.corner),
    ("zigzags", pairs(zigzag, 4092, 10**6)),
    ("spirals", pairs(spiral, 4088, 10**6)),
    ("arcs", pairs(arc, 4092, 4 * 10**7)),
    ("crossed", nodes.crossed),
)


def run(words, limit):
    """Seconds, peak KiB and the last line of what one process printed, on whichever stream; None where it took too
    long."""
    timed = ["/usr/bin/env", "python3", "-c", RUNNER, str(limit), *words]
    said = subprocess.run(timed, stdout=subprocess.PIPE, text=True).stdout.split("\n", 2)
    return (
        (None, 0, "more than %d seconds" % limit)
        if said[0] == "late"
        else (float(said[0]), int(said[1]), said[2].strip())
    )


# a process of its own, so that a child's peak does not count what this one holds
RUNNER = """
import os, subprocess, sys, time
begin = time.perf_counter()
child = subprocess.Popen(sys.argv[2:], stdout=subprocess.PIPE, stderr=subprocess.STDOUT, text=True)
try:
    text = child.communicate(timeout=float(sys.argv[1]))[0]
except subprocess.TimeoutExpired:
    child.kill()
    sys.exit(print('late'))
seconds = time.perf_counter() - begin
import resource
print(seconds, resource.getrusage(resource.RUSAGE_CHILDREN).ru_maxrss, text.strip().split(chr(10))[-1], sep=chr(10))
"""


def measure(jobs, runs, limit):
    """The least seconds, the largest KiB and the last answer of each job and number of workers; no seconds where it
    took too long."""
    best = {}
    for _ in range(runs):
        for key, words in jobs:
            if key in best and best[key][0] is None:
                continue
            seconds, kib, text = run(words, limit)
            old = best.get(key, (seconds, kib, text))
            best[key] = (min(old[0], seconds) if seconds is not None else None, max(old[1], kib), text)
    return best


def jobs_of(given, is_city, peer, folder, workers):
    """The command lines for the layers of a folder, by their names and numbers of workers; GEOS's have none."""
    files = [os.path.join(folder, part + ".shp") for part in ("city", "parcels")]
    ends = {"check": [], "export": ["--out", os.path.join(inputs.room(), "out")]}
    asked = ["check", "export"] if given.export and is_city else ["check"]
    jobs = [((job, number), [given.program, job, *files, "--unit", "cm", "--workers", number, *ends[job]])
            for job in asked for number in workers]
    return jobs + ([((job, None), [peer, job, *files]) for job in ("union", "overlaps")] if peer and is_city else [])


def show(name, best, workers):
    """A line for each job: its seconds, its MiB and how many times `check` it takes, by the number of workers."""
    for job in dict.fromkeys(job for job, _ in best):
        told = {number: best[job, number if (job, number) in best else None] for number in workers}
        times = [told[number][0] for number in workers]
        ratios = [
            it / best["check", number][0] if it and best["check", number][0] else 0
            for it, number in zip(times, workers)
        ]
        alone = (job, None) in best
        columns = [
            "%8s" % ("" if alone and at else "late" if it is None else "%.3f" % it) for at, it in enumerate(times)
        ]
        memory = [
            "%7s" % ("" if alone and at else "%.1f" % (told[number][1] / 1024))
            for at, number in enumerate(workers)
        ]
        texts = {told[number][2] for number in workers}
        answer = texts.pop() if len(texts) == 1 else "NOT THE SAME: %s" % "; ".join(sorted(texts))
        print("%-18s %-8s" % (name, job), *columns, *memory, *("%7.2f" % it for it in ratios), "", answer, flush=True)


def main():
    parser = argparse.ArgumentParser(description=__doc__, formatter_class=argparse.RawDescriptionHelpFormatter)
    parser.add_argument("program")
    parser.add_argument("--runs", type=int, default=3)
    parser.add_argument("--workers", default="1,2,4")
    parser.add_argument("--limit", type=float, default=60)
    parser.add_argument("--only", nargs="+", default=[""])
    parser.add_argument("--without", nargs="+", default=[])
    parser.add_argument("--export", action="store_true")
    given = parser.parse_args()
    workers, peer = given.workers.split(","), inputs.built("geos_tiling.cpp", "-lgeos_c")
    heads = [end % number for end in ("%s: s", "%s: MiB", "%s: x") for number in workers]
    print("%-18s %-8s" % ("layer", "job"), *("%8s" % it for it in heads[:len(workers)]),
          *("%7s" % it for it in heads[len(workers):]), "", "answer")
    for name, make in CITIES + HOSTILE:
        if not nodes.is_asked(name, given.only) or nodes.is_asked(name, given.without):
            continue
        with inputs.layer(name, make) as folder:
            best = measure(jobs_of(given, (name, make) in CITIES, peer, folder, workers), given.runs, given.limit)
        show(name, best, workers)


if __name__ == "__main__":
    main()
