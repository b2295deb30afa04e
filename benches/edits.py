#!/usr/bin/env python3
"""edits.py - the edits of a fabric, its opening, copies and sheets, over cities S, M and L.

  edits.py [--ours PROGRAM] [--runs N] [--count N] [--long N] [--only WORD ..]

PROGRAM is programs/bench_edits, built by build.sh unless it is given. It loads a city, opens it, copies it twice (the
first copy lies in memory that comes fresh from the system, and so does what the load makes), and makes COUNT edits that
are accepted, drawn at random with a fixed seed: splits, merges, moves, inserts and straightenings of all parcels, so
chosen that rings stay as long as they are. Of N processes the least times are printed: milliseconds of the load, the
opening and the copies, with their part of the load, and the mean microseconds of each kind of edit, the refused among
them. Then as many edits as --long says are made in one journal on city M, and the means of each tenth are printed.
"""
import argparse, os, sys

HERE = os.path.dirname(os.path.abspath(__file__))
sys.dont_write_bytecode = True
import inputs
import nodes

KINDS = ("split", "merge", "move", "insert", "straighten", "refused")


def answer(program, folder, count):
    """The microseconds of the load, the opening and the two copies; and of each tenth the numbers and nanoseconds of
    each kind."""
    files = [os.path.join(folder, part + ".shp") for part in ("city", "parcels")]
    text, kib = nodes.run([program, *files, str(count)], 600)
    lines = [[int(word) for word in line.split()] for line in (text or "").splitlines()]
    if len(lines) != 11:
        sys.exit("%s answered: %s" % (program, text))
    return lines[0], [list(zip(line[::2], line[1::2])) for line in lines[1:]], kib


def means(tenths):
    """The mean microseconds of each kind."""
    sums = [
        (sum(tenth[kind][0] for tenth in tenths), sum(tenth[kind][1] for tenth in tenths)) for kind in range(len(KINDS))
    ]
    return [nanos / count / 1000 if count else 0 for count, nanos in sums]


def show(name, program, folder, runs, count):
    answers = [answer(program, folder, count) for _ in range(runs)]
    load, opening, copy, sheet = (min(it) for it in zip(*(times for times, _, _ in answers)))
    print(
        "%s: load %.1f ms, open %.1f (%.3f), copy %.1f (%.3f), the next %.1f (%.3f), %d MiB"
        % (
            name,
            load / 1e3,
            opening / 1e3,
            opening / load,
            copy / 1e3,
            copy / load,
            sheet / 1e3,
            sheet / load,
            answers[0][2] / 1024,
        )
    )
    best = [min(it) for it in zip(*(means(tenths) for _, tenths, _ in answers))]
    print("  " + ", ".join("%s %.1f us" % it for it in zip(KINDS, best)), flush=True)


def main():
    parser = argparse.ArgumentParser(description=__doc__, formatter_class=argparse.RawDescriptionHelpFormatter)
    parser.add_argument("--ours")
    parser.add_argument("--runs", type=int, default=5)
    parser.add_argument("--count", type=int, default=10000)
    parser.add_argument("--long", type=int, default=100000)
    parser.add_argument("--only", nargs="+", default=[""])
    given = parser.parse_args()
    program = inputs.ours("bench_edits", given.ours)
    for size in "SML":
        if nodes.is_asked("city " + size, given.only):
            with inputs.city_layer(size) as folder:
                show("city " + size, program, folder, given.runs, given.count)
    if given.long and nodes.is_asked("city M, long", given.only):
        with inputs.city_layer("M") as folder:
            tenths = answer(program, folder, given.long)[1]
        for number, tenth in enumerate(tenths, 1):
            line = ", ".join("%s %.1f us" % it for it in zip(KINDS, means([tenth])))
            print("city M, edits to %d: %s" % (number * given.long // 10, line), flush=True)


if __name__ == "__main__":
    main()
