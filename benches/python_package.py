#!/usr/bin/python3
"""python_package.py - `gandovel prepare` and `gandovel report` on registers of 2,000 to 200,000 parcels.

  python_package.py [PROGRAM] [--sizes N[,N..]] [--keep FOLDER] [--profile]

PROGRAM is the built parcel_tool (benches/README.md says where it lies), or what GANDOVEL_TOOL names. A register is a
city of gencity.py in metres, turned by 17 degrees, so that no corner lies on the grid, with a twentieth as many zones,
T junctions on a fifth of the sides, and three corners moved by 50 mm: gaps and overlaps. Both commands run once each,
with `--frame`, as processes of their own. A line for each has the seconds on the clock, those of them in which the
program ran, the processor's seconds without the program, and the package's largest memory; what the command printed
stands above it, and a report has to tell of gaps or overlaps. --keep leaves layers and reports in a folder; --profile
prints the functions that took most.

It needs what scripts/python_tests installs, for the system's own Python.
"""
import argparse
import json
import math
import os
import random
import subprocess
import sys
import tempfile

HERE = os.path.dirname(os.path.abspath(__file__))
sys.dont_write_bytecode = True
sys.path[:0] = [HERE, os.path.join(HERE, "..", "python", "src")]
SIZES = {  # parcels: columns, rows, columns and rows of zones
    2_000: (50, 40, 10, 10),
    10_000: (100, 100, 25, 20),
    40_000: (200, 200, 50, 40),
    200_000: (500, 400, 125, 80),
}
ANGLE, EAST, NORTH = math.radians(17.0), 561_234.567, 5_934_567.891


def turned(rings):
    """Rings in centimetres as polygons in metres, turned, and moved to where registers are."""
    from shapely.geometry import Polygon

    c, s = math.cos(ANGLE), math.sin(ANGLE)
    return [
        Polygon([(c * x / 100 - s * y / 100 + EAST, s * x / 100 + c * y / 100 + NORTH) for x, y in ring])
        for ring in rings
    ]


def cells_of(seed, wide, high, columns, rows, corners, tjunctions):
    """The cells, row by row, of a city of gencity.py, in centimetres: they tile it exactly."""
    import gencity

    pick = random.Random(seed)
    nodes, across, up = gencity.grid(pick, 0, 0, wide, high, columns, rows, corners, corners)
    other_across, other_up, _ = gencity.tjunctions(pick, nodes, across, up, columns, rows, tjunctions)
    return [
        gencity.cell(nodes, across, up, other_across, other_up, row, column)
        for row in range(rows)
        for column in range(columns)
    ]


def make(size, folder):
    """Writes parcels.gpkg and zones.gpkg of a register of this size."""
    import geopandas as gpd

    columns, rows, zone_columns, zone_rows = SIZES[size]
    wide, high = 4_000 * columns, 4_000 * rows
    parcels = cells_of(1, wide, high, columns, rows, 4, 0.2)
    zones = cells_of(2, wide, high, zone_columns, zone_rows, 6, 0.0)
    for at in range(3):
        # This cell alone has its lower left corner elsewhere now, well inside the city.
        cell = parcels[(at + 1) * rows // 4 * columns + columns // 2]
        cell[0] = (cell[0][0] + 5, cell[0][1])
    for name, rings, column in (("parcels", parcels, "parcel_no"), ("zones", zones, "zone")):
        numbers = [f"{column[0]}{at}" for at in range(len(rings))]
        frame = gpd.GeoDataFrame({column: numbers}, geometry=turned(rings), crs=25832)
        frame.to_file(os.path.join(folder, f"{name}.gpkg"), driver="GPKG")


def command(words, profiled):
    """Runs the package's command line in this process; prints what it took as the last line."""
    import cProfile
    import pstats
    import resource
    import time

    from gandovel import cli
    from gandovel.program import tool

    asked, spent = tool.run_tool, [0.0]

    def timed(*given):
        begun = time.monotonic()
        try:
            return asked(*given)
        finally:
            spent[0] += time.monotonic() - begun

    tool.run_tool = timed
    begun, profile = time.monotonic(), cProfile.Profile()
    status = profile.runcall(cli.main, words) if profiled else cli.main(words)
    took = time.monotonic() - begun
    if profiled:
        pstats.Stats(profile).sort_stats("cumulative").print_stats(25)
        pstats.Stats(profile).sort_stats("tottime").print_stats(25)
    own = resource.getrusage(resource.RUSAGE_SELF)
    print(
        json.dumps(
            {
                "clock": took,
                "program": spent[0],
                "processor": own.ru_utime + own.ru_stime,
                "memory": own.ru_maxrss / 1024,
            }
        )
    )
    return status


def measured(name, words, folder, profiled):
    """Runs a command of the package in a process of its own; prints its costs, and answers what it said."""
    options = ["--command", json.dumps(words), *["--profile"] * profiled]
    ran = subprocess.run([sys.executable, __file__, *options], cwd=folder, stdout=subprocess.PIPE, text=True)
    if ran.returncode:
        sys.exit(f"{name} ended with {ran.returncode}: {ran.stdout}")
    *said, last = ran.stdout.splitlines()
    costs = json.loads(last)
    print("\n".join(f"  {line}" for line in said))
    print(
        f"{name}: {costs['clock']:.1f} s, {costs['program']:.1f} s of it in the program; without it "
        f"{costs['processor']:.1f} s of a processor; {costs['memory']:.0f} MiB",
        flush=True,
    )
    return "\n".join(said)


def main():
    parser = argparse.ArgumentParser(description=__doc__, formatter_class=argparse.RawDescriptionHelpFormatter)
    parser.add_argument("program", nargs="?")
    parser.add_argument("--sizes", default=",".join(map(str, SIZES)))
    parser.add_argument("--keep", metavar="FOLDER")
    parser.add_argument("--profile", action="store_true")
    parser.add_argument("--make", nargs=2, help=argparse.SUPPRESS)
    parser.add_argument("--command", help=argparse.SUPPRESS)
    given = parser.parse_args()
    if given.make:
        return make(int(given.make[0]), given.make[1])
    if given.command:
        return command(json.loads(given.command), given.profile)
    if given.program:
        os.environ["GANDOVEL_TOOL"] = os.path.abspath(given.program)
    with tempfile.TemporaryDirectory() as made:
        for size in map(int, given.sizes.split(",")):
            folder = os.path.join(given.keep or made, str(size))
            os.makedirs(folder, exist_ok=True)
            subprocess.run([sys.executable, __file__, "--make", str(size), folder], check=True)
            layers = ["parcels.gpkg", "--zones", "zones.gpkg", "--frame"]
            measured(f"prepare {size}", ["prepare", *layers, "--out", "work"], folder, given.profile)
            said = measured(f"report {size}", ["report", "work", "--out", "report.gpkg"], folder, given.profile)
            if "no gaps, no overlaps" in said:
                sys.exit(f"report {size}: the planted faults are not told")


if __name__ == "__main__":
    sys.exit(main())
