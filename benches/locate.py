#!/usr/bin/env python3
"""locate.py - `Layer::locate` and `candidates` at random places of cities S, M and L and of layers made to be slow,
beside Boost and GEOS.

  locate.py [--ours PROGRAM] [--old PROGRAM] [--runs N] [--only WORD ..]

PROGRAM is programs/bench_locate, built by build.sh unless it is given. The layers are made in a temporary folder with a
fixed seed. All programs draw the same points from the box of the city (or of its crowded corner), and run in turn, N
times; the best time of each is printed, and how many points are inside a parcel, on an edge and outside. Boost
(boost_locate.cpp, Debian's libboost-dev) and GEOS (geos_locate.cpp, libgeos-dev) are built by g++ and left out where
they can't be; how many points they have inside, and the sum of the ids, are compared. In the cities, candidates are
looked for in as many squares with a parcel's side, beside the boxes that meet them in the trees of the others, of which
there are fewer: a candidate is what stands in a cell of the square's. To make the layer is to make its index, too: its
seconds and the peak memory of the process are printed, and with --old, the same program built over an earlier state of
the crates, how long it takes as long as that one's.
"""
import argparse, os, struct, sys

HERE = os.path.dirname(os.path.abspath(__file__))
sys.dont_write_bytecode = True
import inputs
import nodes


def slanted(count):
    """Strips that lean so far that the box of each stands in nearly all cells."""

    def make(folder):
        wide, high, slant = 100, 10**9, 5 * 10**9
        rings = [nodes.box(wide * k, 0, wide * (k + 1), high, slant) for k in range(count)]
        nodes.layers(folder, nodes.box(0, 0, count * wide, high, slant), rings)

    return make


# the layer, its maker, how many points, the box that they are drawn from: the city's, or of this side at its low
# corner; and the side of the squares
JOBS = (
    ("city S", nodes.city("S"), 200000, None, 4000),
    ("city M", nodes.city("M"), 200000, None, 4000),
    ("city L", nodes.city("L"), 200000, None, 4000),
    ("corner, anywhere", nodes.corner, 200000, None, 0),
    ("corner, crowded", nodes.corner, 2000, 256 * 100 - 1, 0),
    ("strips", nodes.strips(0, False), 20000, None, 0),
    ("strips, shuffled", nodes.strips(0, True), 20000, None, 0),
    ("slanted, 4096", slanted(4096), 1000, None, 0),
    ("slanted, 65536", slanted(65536), 100, None, 0),
)

PEERS = (("boost", []), ("geos", ["-lgeos_c"]))


def peers():
    """The programs of the others that can be built."""
    made = [(name, inputs.built(name + "_locate.cpp", *libraries)) for name, libraries in PEERS]
    return [it for it in made if it[1]]


def box_of(path, side):
    """The box in the header of a main file, or the square of this side at its low corner: four whole numbers."""
    with open(path, "rb") as file:
        west, south, east, north = (int(z) for z in struct.unpack("<4d", file.read(68)[36:]))
    return (west, south, west + side, south + side) if side else (west, south, east, north)


OURS = ("load", "locate", "inside", "edge", "outside", "ids", "seek", "found")
THEIRS = ("load", "locate", "inside", "ids", "seek", "found")
TIMES = ("load", "locate", "seek")


def answer(name, words):
    """The numbers that a program prints, by their names, and the peak KiB of its process."""
    text, kib = nodes.run(words, 600)
    names = THEIRS if name in dict(PEERS) else OURS
    numbers = [int(word) for word in (text or "").split()]
    if len(numbers) != len(names):
        sys.exit("%s answered: %s" % (words[0], text))
    return dict(zip(names, numbers), kib=kib)


def keep_least(best, name, now):
    old = best.get(name, now)
    best[name] = dict(now, **{time: min(old[time], now[time]) for time in TIMES})


def measure(programs, folder, points, side, square, runs):
    """Each program's least microseconds of loading, of locating and of the squares, and its other numbers."""
    city, parcels = (os.path.join(folder, part + ".shp") for part in ("city", "parcels"))
    area = [str(z) for z in box_of(city, side)]
    best = {}
    for _ in range(runs):
        for name, program in programs:
            files = [parcels] if name in dict(PEERS) else [city, parcels]
            count = 0 if name == "old" else points
            keep_least(best, name, answer(name, [program, *files, str(count), *area, str(square)]))
    return best


def show(layer, points, square, best):
    ours = best["ours"]
    print(
        "%-17s %7d %9.3f %7d %7d %7d %8.3f %6.0f"
        % (
            layer,
            points,
            ours["locate"] / points,
            ours["inside"],
            ours["edge"],
            ours["outside"],
            ours["load"] / 1e6,
            ours["kib"] / 1024,
        ),
        end="",
    )
    if "old" in best:
        print("  %.3f of the old" % (ours["load"] / best["old"]["load"]), end="")
    for name, _ in PEERS:
        if name in best:
            its = best[name]
            same = "the same" if (its["inside"], its["ids"]) == (ours["inside"], ours["ids"]) else "NOT THE SAME"
            print(
                "  %s %.3f us, x %.2f, %s" % (name, its["locate"] / points, its["locate"] / ours["locate"], same),
                end="",
            )
    print()
    if square:
        print(
            "%-17s %7d %9.3f %7.1f each" % ("  its squares", points, ours["seek"] / points, ours["found"] / points),
            end="",
        )
        for name, _ in PEERS:
            if name in best:
                its = best[name]
                print(
                    "  %s %.3f us, x %.2f, %.1f each"
                    % (name, its["seek"] / points, its["seek"] / ours["seek"], its["found"] / points),
                    end="",
                )
        print()
    sys.stdout.flush()


def main():
    parser = argparse.ArgumentParser(description=__doc__, formatter_class=argparse.RawDescriptionHelpFormatter)
    parser.add_argument("--ours")
    parser.add_argument("--old")
    parser.add_argument("--runs", type=int, default=5)
    parser.add_argument("--only", nargs="+", default=[""])
    given = parser.parse_args()
    programs = [("ours", inputs.ours("bench_locate", given.ours))] + peers()
    if given.old:
        programs.append(("old", given.old))
    print(
        "%-17s %7s %9s %7s %7s %7s %8s %6s"
        % ("layer", "points", "us each", "inside", "on edge", "outside", "load s", "MiB")
    )
    for name, make, points, side, square in JOBS:
        if not nodes.is_asked(name, given.only):
            continue
        with inputs.layer(name, make) as folder:
            show(name, points, square, measure(programs, folder, points, side, square, given.runs))


if __name__ == "__main__":
    main()
