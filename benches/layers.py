#!/usr/bin/env python3
"""layers.py - read_layer with the index and without, and write_layer, beside a copy of the main file in memory.

  layers.py [--ours PROGRAM] [--rounds N] [--sizes SML]

Cities S, M and L are made with a fixed seed (inputs.py); PROGRAM is programs/bench_layers, built by build.sh
unless it is given. The least time of N rounds in one process is printed, and its ratio to the copy.
"""
import argparse, os, subprocess, sys

sys.dont_write_bytecode = True
import inputs


def main():
    parser = argparse.ArgumentParser(description=__doc__, formatter_class=argparse.RawDescriptionHelpFormatter)
    parser.add_argument("--ours")
    parser.add_argument("--rounds", type=int, default=10)
    parser.add_argument("--sizes", default="SML")
    given = parser.parse_args()
    program = inputs.ours("bench_layers", given.ours)
    print(
        "%-5s %9s %7s %8s %8s %22s %22s %22s"
        % (
            "city",
            "bytes",
            "rings",
            "corners",
            "copy us",
            "read with index us, x",
            "read without us, x",
            "write us, x",
        )
    )
    for size in given.sizes:
        with inputs.city_layer(size) as folder:
            words = [program] + [os.path.join(folder, "parcels" + ending) for ending in (".shp", ".shx")]
            text = subprocess.run(words + [str(given.rounds)], check=True, capture_output=True, text=True).stdout
        count, rings, corners, copy, *jobs = (int(word) for word in text.split())
        print("%-5s %9d %7d %8d %8d" % (size, count, rings, corners, copy), end="")
        for job in jobs:
            print(" %14d %7.1f" % (job, job / copy), end="")
        print(flush=True)


if __name__ == "__main__":
    main()
