"""The options of the commands that take layers of any size."""
from __future__ import annotations

import argparse
from contextlib import contextmanager
from typing import Iterator

from . import A_DISTRICT, Cutting, cut_by

ENGINES = ("processes", "parallel", "slurm", "dask")


def add_options(command: argparse.ArgumentParser) -> None:
    """Adds the options that say how a large layer is cut and judged."""
    group = command.add_argument_group("layers of more than 65,536 rings are cut into districts (docs/many.md)")
    group.add_argument(
        "--parcels-a-district",
        metavar="N",
        type=_rings,
        help=f"the most rings of a district ({A_DISTRICT}); a smaller layer is cut, too, where this is given",
    )
    group.add_argument("--engine", choices=ENGINES, default="processes", help="what judges districts (processes)")
    group.add_argument("--jobs", metavar="N", type=positive, help="runs at once (the processors)")
    group.add_argument("--scheduler", metavar="ADDRESS", help="Dask's scheduler; without it, one on this machine")


def add_cut(command: argparse.ArgumentParser) -> None:
    """Adds the option by which `prepare` cuts a layer into districts that are edited."""
    command.add_argument(
        "--parcels-a-district",
        dest="most_in_district",
        metavar="N",
        type=_rings,
        help="cut into districts of at most N rings, for gandovel serve (docs/metropolis.md)",
    )


def positive(word: str) -> int:
    """A whole number from 1, as an option's type."""
    number = int(word)
    if number < 1:
        raise argparse.ArgumentTypeError("a whole number from 1")
    return number


def _rings(word: str) -> int:
    number = positive(word)
    if number > A_DISTRICT:
        raise argparse.ArgumentTypeError(f"a whole number from 1 to {A_DISTRICT}")
    return number


@contextmanager
def cut_as_told(options: argparse.Namespace) -> Iterator[None]:
    """Layers are cut as a command line says, where it has these options."""
    if not hasattr(options, "parcels_a_district"):
        yield
        return
    with cut_by(Cutting(options.parcels_a_district, options.engine, options.jobs, options.scheduler)):
        yield
