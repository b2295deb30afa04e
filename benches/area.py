#!/usr/bin/env python3
"""area.py - time and peak memory of `parcel_tool area`, beside plain C, a copy of the file and GDAL's areas.

  area.py PROGRAM [--before PROGRAM] [--runs N] [--size S|M|L]

PROGRAM is the built parcel_tool (benches/README.md says where it lies), or bench_areas, which build.sh makes: the same
calls without the command line, so that the crates above need no proof for it. `--before` is one of an earlier state.

Inputs, made with a fixed seed (inputs.py): city L (65,536 records, 917,504 corners, 19.4 MB), and the same layer padded
to 64 MiB with bytes behind its declared end, which every reader ignores. Each job is one process, run N times in turn
with the others (so that all see the same noise); the best time and the largest memory are printed. Plain C is areas.c,
by gcc: once with no ring kept, as ours does, and once with all rings kept. What it prints must be what ours prints.
GDAL is `ogr2ogr` of Debian's package gdal-bin; without it that row is left out, and without gcc C's.
"""
import argparse, hashlib, os, shutil, subprocess, sys, time

sys.dont_write_bytecode = True
import inputs

LIMIT = 64 << 20


def run(words):
    """Seconds and peak KiB of one process, its output thrown away. (This script stays small, since a child's peak
    counts what it had before it became the program.)"""
    begin = time.perf_counter()
    child = subprocess.Popen(words, stdout=subprocess.DEVNULL, stderr=subprocess.PIPE)
    errors = child.stderr.read()
    _, status, usage = os.wait4(child.pid, 0)
    seconds = time.perf_counter() - begin
    if status != 0:
        sys.exit("%s failed: %s" % (words[0], errors.decode(errors="replace")))
    return seconds, usage.ru_maxrss


def refuse_others(jobs):
    """Stops where two of these print different areas."""
    texts = {
        hashlib.sha256(
            subprocess.run(words, stdout=subprocess.PIPE, stderr=subprocess.DEVNULL, check=True).stdout
        ).hexdigest()
        for words in jobs
    }
    if len(texts) > 1:
        sys.exit("the areas differ")


def jobs_of(given, path):
    """The command lines over one file, by their names."""
    jobs = [("ours", [given.program, "area", path, "--unit", "cm"])]
    if given.before:
        jobs.append(("before", [given.before, "area", path, "--unit", "cm"]))
    plain = inputs.built("areas.c")
    jobs += [("C, " + mode, [plain, mode, path]) for mode in ("sums", "rings") if plain]
    refuse_others([words for _, words in jobs])
    jobs.append(("copy", ["cp", path, os.path.join(inputs.room(), "copy")]))
    if shutil.which("ogr2ogr"):
        asked = "SELECT FID, OGR_GEOM_AREA FROM " + os.path.basename(path)[:-4]
        jobs.append(("GDAL", ["ogr2ogr", "-f", "CSV", "/vsistdout/", "-sql", asked, path]))
    return jobs


def show(name, jobs, runs):
    """Runs the jobs in turn: a line for each."""
    best = {}
    for _ in range(runs):
        for job, words in jobs:
            seconds, kib = run(words)
            old = best.get(job, (9e9, 0))
            best[job] = (min(old[0], seconds), max(old[1], kib))
    for job, (seconds, kib) in best.items():
        print("%-8s %-12s %9.3f %7.1f %9.2f" % (name, job, seconds, kib / 1024, seconds / best["ours"][0]), flush=True)


def main():
    parser = argparse.ArgumentParser(description=__doc__, formatter_class=argparse.RawDescriptionHelpFormatter)
    parser.add_argument("program")
    parser.add_argument("--before")
    parser.add_argument("--runs", type=int, default=7)
    parser.add_argument("--size", default="L")
    given = parser.parse_args()
    with inputs.city_layer(given.size) as folder:
        layer, padded = (os.path.join(it, "parcels.shp") for it in (folder, inputs.home("padded")))
        shutil.copyfile(layer, padded)
        os.truncate(padded, LIMIT)
        shutil.copy(layer[:-4] + ".shx", padded[:-4] + ".shx")
        print("%-8s %-12s %9s %7s %9s" % ("file", "job", "seconds", "MiB", "x ours"))
        for name, path in (("city " + given.size, layer), ("64 MiB", padded)):
            show(name, jobs_of(given, path), given.runs)


if __name__ == "__main__":
    main()
