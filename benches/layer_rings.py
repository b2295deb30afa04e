#!/usr/bin/env python3
"""layer_rings.py - what a load does with the rings of layers that took long once: noded, checked and clipped.

  layer_rings.py [--nodes PROGRAM] [--rings PROGRAM] [--runs N] [--only WORD ..]

The programs are programs/bench_nodes and programs/bench_layer_rings, built by build.sh unless they are given. The
layers are made in a temporary folder with a fixed seed: city L, squares that paths cut into halves of some 4,096
corners (tiling.py), and 244 rings of 4,096 corners of one kind (rings.py), at most 5 * 10^8 wide, in rows of sixteen.
The least of N processes is printed for each step, in milliseconds. Noding is told of layers that tile alone.
"""
import argparse, os, subprocess, sys

HERE = os.path.dirname(os.path.abspath(__file__))
sys.dont_write_bytecode = True
import inputs
import nodes
import rings
import tiling

SMALL = 20


def many(kind):
    """244 rings of this kind, in rows of sixteen."""

    def make(folder):
        ring = [(x // SMALL, y // SMALL) for x, y in kind(4096)]
        wide = 2 * rings.R // SMALL + 1000
        apart = [[(x + wide * (k % 16), y + wide * (k // 16)) for x, y in ring] for k in range(244)]
        nodes.layers(folder, nodes.box(0, 0, wide, wide), apart)

    return make


HALVES = (
    ("zigzags", tiling.pairs(tiling.zigzag, 4092, 10**6)),
    ("spirals", tiling.pairs(tiling.spiral, 4088, 10**6)),
    ("arcs", tiling.pairs(tiling.arc, 4092, 4 * 10**7)),
)

TILINGS = (("city L", nodes.city("L")), ("strips, cut", nodes.cut(0)), ("slanted, cut", nodes.cut(5))) + HALVES

OTHERS = tuple(
    ("244 of " + kind.__name__, many(kind))
    for kind in (rings.convex, rings.star, rings.comb, rings.slanted, rings.spiral, rings.crescent)
)


def said(words, runs):
    """The numbers that each of N processes prints."""
    return [subprocess.run(words, stdout=subprocess.PIPE, text=True, check=True).stdout.split() for _ in range(runs)]


def measure(programs, folder, tiles, runs):
    """The least milliseconds of noding, where the layer tiles, of checking and of clipping."""
    parcels, city = [os.path.join(folder, part + ".shp") for part in ("parcels", "city")]
    noded = [int(line[4]) for line in said([programs[0], parcels, city], runs)] if tiles else []
    steps = [list(map(int, line)) for line in said([programs[1], parcels], runs)]
    count, corners, triangles = steps[0][:3]
    if not tiles and triangles != corners - 2 * count:
        sys.exit("a ring was refused")
    least = [min(line[at] for line in steps) / 1000 for at in (4, 5)]
    return ["%d" % min(noded) if tiles else "-"] + ["%.1f" % it for it in least]


def main():
    parser = argparse.ArgumentParser(description=__doc__, formatter_class=argparse.RawDescriptionHelpFormatter)
    parser.add_argument("--nodes")
    parser.add_argument("--rings")
    parser.add_argument("--runs", type=int, default=3)
    parser.add_argument("--only", nargs="+", default=[""])
    given = parser.parse_args()
    programs = [inputs.ours("bench_nodes", given.nodes), inputs.ours("bench_layer_rings", given.rings)]
    print("%-18s %9s %9s %9s" % ("layer", "node ms", "check ms", "clip ms"))
    for name, make in TILINGS + OTHERS:
        if not nodes.is_asked(name, given.only):
            continue
        with inputs.layer(name, make) as folder:
            told = measure(programs, folder, (name, make) in TILINGS, given.runs)
        print("%-18s %9s %9s %9s" % (name, *told), flush=True)


if __name__ == "__main__":
    main()
