"""The command `gandovel many`."""
from __future__ import annotations

import argparse
import sys
from typing import TYPE_CHECKING, Any, Optional

from ..errors import Refused
from ..large.options import positive

if TYPE_CHECKING:
    from .summary import Summary

SHOWN = 8


def add_command(commands: Any) -> None:
    """Adds `many` to the commands of a command line, which `argparse` keeps in an object without a public type."""
    one = commands.add_parser("many", help="many cities at once, by GNU parallel, processes, Slurm or Dask")
    one.add_argument(
        "manifest",
        metavar="MANIFEST.csv",
        help="the cities: name, city, parcels, unit; zones, edits, part_of, district",
    )
    one.add_argument("--out", required=True, metavar="FOLDER", help="the folder of results")
    one.add_argument(
        "--engine",
        choices=("parallel", "processes", "slurm", "dask"),
        help="what runs the tasks (parallel, or processes without it)",
    )
    one.add_argument(
        "--scheduler", metavar="ADDRESS", help="Dask's scheduler; without it, one with workers on this machine"
    )
    one.add_argument(
        "--jobs", metavar="N", type=positive, help="tasks at once (the processors; Slurm and a scheduler: theirs)"
    )
    one.add_argument("--threads", metavar="N", type=positive, default=1, help="threads of a run of the program (1)")
    one.add_argument(
        "--timeout", metavar="SECONDS", type=float, help="the longest that the program may take for a city"
    )
    one.add_argument(
        "--memory", metavar="MB", type=positive, help="the most address space that the program may take, in MiB"
    )
    one.add_argument(
        "--retries", metavar="N", type=int, default=2, help="how often a task without a result is tried again (2)"
    )
    one.add_argument("--resume", action="store_true", help="do not do again what has a result of the same files")
    one.add_argument(
        "--verify", action="store_true", help="do that again, too, and name results that said something else"
    )


def run_command(options: argparse.Namespace) -> int:
    """Runs the command; its status: 1 where a city does not tile, 3 where one is open or has no verdict.

    Refused T8 where it is stopped.
    """
    from .run import run_many

    try:
        summary = run_many(
            options.manifest,
            options.out,
            options.engine,
            scheduler=options.scheduler,
            jobs=options.jobs,
            threads=options.threads,
            timeout=options.timeout,
            memory_mb=options.memory,
            retries=max(0, options.retries),
            resume=options.resume,
            verify=options.verify,
            shown=True,
        )
    except KeyboardInterrupt as stopped:
        raise Refused("T8", "the run was stopped; what is done stays, and --resume goes on from there") from stopped
    for line in summary.lines():
        print(line)
    print(summary.costs(), file=sys.stderr)
    without = summary.without
    for verdict in without[:SHOWN]:
        print(f"{verdict.name}: {verdict.code} {verdict.text}".rstrip(), file=sys.stderr)
    fault = _fault_of(summary)
    if fault is not None:
        print(f"error: {fault}", file=sys.stderr)
    return summary.status


def _fault_of(summary: "Summary") -> Optional[Refused]:
    """The last line of a run that left something open or unwritten."""
    without, count = summary.without, len(summary.verdicts)
    if summary.unwritten is not None:
        return summary.unwritten
    if without:
        more = f"; {len(without) - SHOWN} more are in summary.csv" if len(without) > SHOWN else ""
        return Refused("T9", f"{len(without)} of {count} cities have no verdict{more}")
    left = [whole for whole in summary.wholes if whole.kind == "open"]
    if left:
        return Refused("T11", f"{left[0].name} is {left[0].said}")
    return None
