#!/usr/bin/env python3
"""office.py - an office: submits beside edits, windows that locate meanwhile, its opening, and many clerks at once.

  office.py [--ours PROGRAM] [--runs N] [--count N] [--points N] [--long N] [--random N] [--only WORD ..]

PROGRAM is programs/bench_office, built by build.sh unless it is given. All edits are drawn with a fixed seed. Of N
processes the best of each is printed:

pairs    over cities S, M and L: one clerk submits COUNT edits that are accepted, each of which is made by
         `Fabric::edit` in a copy of the fabric, too. The mean microseconds of both, how many submits were published,
         and the same of the edits that are refused; the milliseconds of the load and of the office's opening, with
         their ratio; and the peak memory
locate   over city L: four windows, each in a thread of its own, locate POINTS corners each while a clerk submits:
         millions a second of each
many     over cities M and L: four clerks submit until LONG edits are accepted or draws run out: how many were accepted
         and refused, microseconds a submit, and the peak memory. L has as many parcels as a layer may have, so splits
         are refused there
random   over a city of 64 parcels: eight clerks with RANDOM edits each and four windows; the program compares each
         answer with a scan over the replayed parcels, and the fabric with the replay of its journal, and fails where
         one differs
"""
import argparse, os, sys

HERE = os.path.dirname(os.path.abspath(__file__))
sys.dont_write_bytecode = True
import inputs
import nodes

SMALL = ("--cols", "8", "--rows", "8", "--kh", "2", "--kv", "2", "--zcols", "4", "--zrows", "4")


def city_of(name):
    """The folder of a city of this size, or of the one of 64 parcels."""
    return inputs.layer("city of 64", inputs.city("S", *SMALL)) if name == "small" else inputs.city_layer(name)


def answer(program, task, folder, places, count):
    """The lines of numbers that the program prints, and its peak KiB."""
    files = [os.path.join(folder, part + ".shp") for part in ("city", "parcels")]
    text, kib = nodes.run([program, task, *files, str(places), str(count)], 1800)
    if text is None:
        sys.exit("%s %s took too long" % (program, task))
    return [[int(word) for word in line.split()] for line in text.splitlines()], kib


def each(nanos, count):
    """The mean microseconds."""
    return nanos / count / 1000 if count else 0


def show_pairs(name, program, folder, given):
    answers = [answer(program, "pairs", folder, 1, given.count) for _ in range(given.runs)]
    load, opening = (min(lines[row][0] for lines, _ in answers) for row in range(2))
    rows = [lines[2] for lines, _ in answers]
    submit, edit = (min(each(row[place], row[0]) for row in rows) for place in (1, 2))
    refused, refusing = (min(each(row[place], row[4]) for row in rows) for place in (5, 6))
    print(
        "city %s: load %.1f ms, opening %.1f (%.3f), %d MiB"
        % (name, load / 1e3, opening / 1e3, opening / load, answers[0][1] / 1024)
    )
    print(
        "  %d edits %.1f us, submits %.1f us (%.2f), %d published; %d refused %.1f us, submitted %.1f us"
        % (rows[0][0], edit, submit, submit / edit, rows[0][3], rows[0][4], refusing, refused),
        flush=True,
    )


def show_locate(name, program, folder, given):
    best = None
    for _ in range(given.runs):
        lines, _ = answer(program, "locate", folder, 4, given.points)
        readers = sorted(given.points / line[0] * 1e3 for line in lines if len(line) == 2)
        if best is None or sum(readers) > sum(best[0]):
            best = readers, lines[-1][0]
    print(
        "city %s, four windows: %s million a second, with %d submits meanwhile"
        % (name, ", ".join("%.2f" % it for it in best[0]), best[1]),
        flush=True,
    )


def show_many(name, program, folder, given):
    answers = [answer(program, "many", folder, 4, given.long) for _ in range(given.runs)]
    accepted, refused, micros = min((lines[2] for lines, _ in answers), key=lambda row: row[2])
    print(
        "city %s, four clerks: %d edits, %d refused, %.1f us a submit, %d MiB"
        % (name, accepted, refused, micros / (accepted + refused), answers[0][1] / 1024),
        flush=True,
    )


def show_random(name, program, folder, given):
    lines, kib = answer(program, "random", folder, 8, given.random)
    entries, answers = lines[2]
    print(
        "city %s, eight clerks and four windows at random: %d entries, %d answers compared, %d MiB"
        % (name, entries, answers, kib / 1024),
        flush=True,
    )


JOBS = (
    ("pairs", "S", show_pairs),
    ("pairs", "M", show_pairs),
    ("pairs", "L", show_pairs),
    ("locate", "L", show_locate),
    ("many", "M", show_many),
    ("many", "L", show_many),
    ("random", "small", show_random),
)


def main():
    parser = argparse.ArgumentParser(description=__doc__, formatter_class=argparse.RawDescriptionHelpFormatter)
    parser.add_argument("--ours")
    parser.add_argument("--runs", type=int, default=5)
    parser.add_argument("--count", type=int, default=5000)
    parser.add_argument("--points", type=int, default=2000000)
    parser.add_argument("--long", type=int, default=100000)
    parser.add_argument("--random", type=int, default=1000)
    parser.add_argument("--only", nargs="+", default=[""])
    given = parser.parse_args()
    program = inputs.ours("bench_office", given.ours)
    for task, name, show in JOBS:
        if nodes.is_asked("%s %s" % (task, name), given.only):
            with city_of(name) as folder:
                show(name, program, folder, given)


if __name__ == "__main__":
    main()
