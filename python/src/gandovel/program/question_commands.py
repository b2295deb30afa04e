"""The commands `gandovel overlay` and `gandovel locate`, which ask the program and print."""
from __future__ import annotations

import argparse

from ..reading.command_options import prepared_of, say_lost


def run_overlay(options: argparse.Namespace) -> int:
    from ..out.report_formats import csv_of, json_of
    from .commands import pairs_of
    from .tool import program_version
    from ..progress import Progress

    prepared = prepared_of(options, Progress(shown=True))
    frame, _ = pairs_of(prepared)
    names = ("number", "zone", "split", "area2_mm2", "area_m2", "area_how")
    rows = list(zip(*(frame[name].tolist() for name in names)))
    split = list(dict.fromkeys(number for number, _, is_split, *_ in rows if is_split))
    say_lost(prepared)
    if options.json:
        pairs = [dict(zip(names, row)) for row in rows]
        print(json_of({"program": program_version(), "pairs": pairs, "split": split, "lost": prepared.lost}))
    elif options.csv:
        print(csv_of(names, [(number, zone, int(it), *areas) for number, zone, it, *areas in rows]), end="")
    else:
        print(f"{len(prepared.numbers)} parcels, {len(split)} of them split; {len(rows)} pairs of a parcel and a zone")
    return 0


def run_locate(options: argparse.Namespace) -> int:
    from ..out.report_formats import csv_of, json_of
    from .commands import locate
    from .tool import program_version
    from ..progress import Progress
    from ..reading.points import points_at
    from ..reading.sources import read_layer

    prepared = prepared_of(options, Progress(shown=True))
    if options.points is not None:
        points = read_layer(options.points, "points", options.points_layer)
    else:
        points = points_at([options.at], prepared.crs)
    frame = locate(prepared, points)
    columns = (frame.geometry.x, frame.geometry.y, frame["where"], frame["numbers"], frame["moved_mm"])
    rows = [
        (x, y, where, numbers.split(",") if numbers else [], moved) for x, y, where, numbers, moved in zip(*columns)
    ]
    names = ("x", "y", "where", "numbers", "moved_mm")
    say_lost(prepared)
    if options.json:
        print(json_of({"program": program_version(), "points": [dict(zip(names, row)) for row in rows]}))
    elif options.csv:
        print(csv_of(names, [(x, y, where, " ".join(numbers), moved) for x, y, where, numbers, moved in rows]), end="")
    else:
        for x, y, where, numbers, _ in rows:
            print(f"{x:.3f} {y:.3f} {where} {' '.join(numbers)}".rstrip())
    return 0
