#!/usr/bin/env python3
"""prepare.py - makes the layers and the programs of others that all.sh measures with, in the folder that BENCH_INPUTS
names, and says of each whether it could be had."""
import os, shutil, subprocess, sys

sys.dont_write_bytecode = True
import inputs
import locate
import nodes
import overlap
import tiling
import zoning

PEERS = (
    ("areas.c",),
    ("sessions.c",),
    ("boost_locate.cpp",),
    *((name, "-lgeos_c") for name in ("geos_locate.cpp", "geos_overlap.cpp", "geos_pairs.cpp", "geos_tiling.cpp")),
)

TILED = ("city S", "city M", "city L", "strips", "strips, shuffled", "slanted strips", "strips, cut", "slanted, cut",
         "zigzags", "spirals", "arcs", "stairs")
NODED = ("crossed", "directions, 244", "lattices, 244", "lattices, band, 244")


def layers():
    """The layers by their names, with their makers."""
    found = {name: make for name, make in tiling.CITIES + tiling.HOSTILE + zoning.SKEWED if name in TILED}
    found.update((name, make) for name, make in nodes.JOBS if name in NODED)
    found.update((job[0], job[1]) for job in locate.JOBS)
    return found


def missing():
    """What cannot be had of the programs of others."""
    found = [source[0] for source in PEERS if not inputs.built(*source)]
    found += [] if shutil.which("ogr2ogr") else ["ogr2ogr"]
    shapely = ["/usr/bin/python3", "-c", "import shapely"]
    return found + ([] if subprocess.run(shapely, stderr=subprocess.DEVNULL).returncode == 0 else ["shapely"])


def main():
    if not inputs.KEPT:
        sys.exit("BENCH_INPUTS names no folder")
    for name, make in layers().items():
        with inputs.layer(name, make) as folder:
            size = sum(os.path.getsize(it.path) for it in os.scandir(folder))
            print("%-20s %6.1f MB" % (name, size / 1e6), flush=True)
    with overlap.pairs_of(1):
        print("pairs of shapes")
    lacking = missing()
    print("programs of others:", "missing: " + ", ".join(lacking) if lacking else "all there")
    sys.exit(1 if lacking else 0)


if __name__ == "__main__":
    main()
