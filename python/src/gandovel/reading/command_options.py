"""What the commands that ask about a register have in common: their options, and the register that these name."""
from __future__ import annotations

import argparse
import os
import sys
from typing import TYPE_CHECKING, List, Optional

if TYPE_CHECKING:
    from ..progress import Progress
    from .prepared import Prepared


def preparing(command: argparse.ArgumentParser) -> None:
    """The options of a command that prepares layers."""
    add = command.add_argument
    add("--zones", metavar="LAYER", help="the zones, in the parcels' projection")
    add("--number", metavar="COLUMN", default="parcel_no", help="the parcels' own numbers (parcel_no), or ROW")
    add("--zone", metavar="COLUMN", help="the zones' names (zone, else the column of --number, else ROW)")
    add("--city", metavar="LAYER", help="the city's outline; without it, what the parcels cover")
    add("--neighbours", metavar="LAYER", help="the cities beside it: what parcels cover of one is reported")
    for name in ("", "zones-", "city-", "neighbours-"):
        add(f"--{name}layer", metavar="NAME", help="the layer, where its source has several")
    add("--frame", action="store_true", help="a frame as the city, with a parcel and a zone OUT; zones uncut")
    add("--unit", metavar="UNIT", help="m, mm, cm, dm, km, ft, us-ft, or metres: where the projection does not say it")
    add("--max-move", metavar="MM", type=float, default=1.0, help="refuse to move a corner farther (1)")
    add("--grid", metavar="MM", type=float, help="the step that coordinates are rounded to (it is found)")
    add("--touch", metavar="MM", type=float, help="a corner this near to a border touches it (1.42 times the grid)")
    add("--narrow", metavar="M", type=float, default=1.0, help="what is open to the outside and narrower is told (1)")
    add("--skip-invalid", action="store_true", help="go on without rows whose geometry is invalid")


def answering(command: argparse.ArgumentParser) -> None:
    """The options of a command that answers other programs, too."""
    forms = command.add_mutually_exclusive_group()
    forms.add_argument("--json", action="store_true", help="one JSON object on standard output")
    forms.add_argument("--csv", action="store_true", help="a table on standard output")


def asked_about(command: argparse.ArgumentParser, may_be_missing: bool = False) -> None:
    """The register that a command asks about."""
    what = "what prepare wrote, or the parcels' layer"
    if may_be_missing:
        command.add_argument("source", metavar="FOLDER|PARCELS", nargs="?", help=what)
    else:
        command.add_argument("source", metavar="FOLDER|PARCELS", help=what)


def prepared_of(options: argparse.Namespace, progress: Progress) -> Prepared:
    """The register that is asked about: a folder that `prepare` wrote, or layers that are prepared now."""
    from .options import test_no_option
    from .register import Options
    from .prepare import prepare
    from .prepared import load

    if options.command != "prepare" and os.path.isfile(os.path.join(options.source, "prepared.json")):
        prepared = load(options.source)
        test_no_option(prepared, vars(options), options.source)
        return prepared
    told: Options = {name: getattr(options, name) for name in Options.__annotations__}  # type: ignore[assignment]
    return prepare(options.source, options.zones, progress=progress, **told)


def read_of(options: argparse.Namespace) -> List[Optional[str]]:
    """The layers that a command reads, as they were named."""
    return [options.source, options.zones, options.city, options.neighbours]


def say_lost(prepared: Prepared) -> None:
    """Says on standard error what no use is made of."""
    for text in prepared.lost:
        print(f"note: {text}", file=sys.stderr)
