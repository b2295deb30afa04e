"""The command `gandovel`: its commands, and how each ends. What several share is in `reading/command_options.py`."""
from __future__ import annotations

import argparse
import logging
import os
import sys
from importlib.util import find_spec
from pathlib import Path
from typing import TYPE_CHECKING, Any, Callable, Dict, List, Optional

from . import __version__
from .errors import Refused
from .explain_command import add_explain, run_explain
from .large.options import add_cut, add_options, cut_as_told
from .live.journal_command import add_journal, run_journal
from .many.command import add_command, run_command
from .program.apply_command import add_apply, run_apply
from .program.question_commands import run_locate, run_overlay
from .reading.command_options import answering, asked_about, prepared_of, preparing, read_of, say_lost
from .serve.command import add_commands, run_backup, run_serve

if TYPE_CHECKING:
    from .out.report import Report
    from .progress import Progress
    from .reading.prepared import Prepared

NO_ANSWER = 4
"""The status of a command that gave no answer."""
ENDED_BY_USER = 130
"""The status of a command that its user interrupted."""


def _add_questions(commands: Any) -> None:
    """The commands that ask and write no layer, and `report`."""
    check = commands.add_parser("check", help="gaps and overlaps, printed")
    report = commands.add_parser("report", help="gaps, overlaps and split parcels as a GeoPackage")
    overlay = commands.add_parser("overlay", help="which parcels lie in which zones, printed")
    locate = commands.add_parser("locate", help="in which parcels points lie, printed")
    for command in (check, report, overlay, locate):
        asked_about(command, may_be_missing=command is check)
        preparing(command)
        add_options(command)
        answering(command)
    for command in (check, report):
        command.add_argument("--strict", action="store_true", help=argparse.SUPPRESS)  # what is always so by now
        command.add_argument("--known", metavar="FILE", help="an earlier report: its faults don't count for the status")
    check.add_argument("--certificate", metavar="FILE", help="write the verdict and what it stands on, as JSON")
    check.add_argument("--verify", metavar="FILE", help="try the verdict of a certificate again")
    report.add_argument("--out", metavar="REPORT.gpkg", help="the GeoPackage to write; split.csv beside it")
    report.add_argument(
        "--min-area", metavar="M2", type=float, default=1.0, help="parts of less, as measured, are slivers (1)"
    )
    where = locate.add_mutually_exclusive_group(required=True)
    where.add_argument("--at", nargs=2, type=float, metavar=("X", "Y"), help="a point, in the layer's unit")
    where.add_argument("--points", metavar="LAYER", help="a layer of points")
    locate.add_argument("--points-layer", metavar="NAME", help="the layer, where the source of points has several")


def parser() -> argparse.ArgumentParser:
    """The command line."""
    top = argparse.ArgumentParser(
        prog="gandovel",
        description="Parcel layers of a GIS to the proved verdict and back.",
        epilog="Status: 0 done, or the parcels tile; 1 they do not, or an edit is refused; 2 the command line is not "
        "understood; 3 the verdict is open; 4 something can't be read, run or written. `serve` and `backup` end with 1 "
        "for any refusal. A refusal is one line `error: ..`; `gandovel explain CODE` says more.",
    )
    top.add_argument("--version", action="version", version=f"gandovel {__version__}")
    commands = top.add_subparsers(dest="command", required=True)
    prepare = commands.add_parser("prepare", help="layers of a GIS to whole millimetres")
    prepare.add_argument("source", metavar="PARCELS", help="the parcels: whatever GDAL reads")
    preparing(prepare)
    prepare.add_argument("--out", required=True, metavar="FOLDER", help="the folder to write")
    add_cut(prepare)
    _add_questions(commands)
    mend = commands.add_parser("mend", help="the parcels without their slivers, as a GeoPackage")
    mend.add_argument("source", metavar="FOLDER|PARCELS", help="what prepare wrote, or the parcels' layer")
    preparing(mend)
    answering(mend)
    mend.add_argument("--width", metavar="MM", type=float, default=1.0, help="nothing wider is closed (1)")
    mend.add_argument(
        "--to",
        choices=("border", "larger", "older", "none"),
        default="border",
        help="who gets a piece: the parcel with the longest border with it (border), the largest, the first in the "
        "layer, or a row of its own",
    )
    mend.add_argument("--out", required=True, metavar="MENDED.gpkg", help="the GeoPackage to write")
    add_apply(commands)
    page = commands.add_parser("map", help="a report as one page to look at")
    page.add_argument("report", metavar="REPORT.gpkg")
    page.add_argument("--out", required=True, metavar="MAP.html")
    back = commands.add_parser("back", help="an export after edits, with projection, numbers and attributes")
    back.add_argument("export", metavar="NEW.shp", help="what parcel_tool export wrote")
    back.add_argument("--rows", required=True, metavar="FOLDER/rows.csv", help="the rows that prepare wrote for it")
    back.add_argument("--out", required=True, metavar="NEW.gpkg", help="the GeoPackage to write")
    add_command(commands)
    add_commands(commands)
    add_journal(commands)
    add_explain(commands)
    return top


def _prepare(options: argparse.Namespace) -> int:
    from .progress import Progress
    from .reading.prepared import test_own

    test_own(Path(options.out))
    progress = Progress(6, shown=True)
    try:
        prepared = prepared_of(options, progress)
        progress.step("writing")
        told = _saved(prepared, options)
    finally:
        progress.close()
    say_lost(prepared)
    print(prepared.summary() + told)
    print(progress.end(), file=sys.stderr)
    return 0


def _saved(prepared: Prepared, options: argparse.Namespace) -> str:
    """Writes the folder, with its districts where it is to be cut: what more there is to say then."""
    if options.most_in_district is None:
        prepared.save(options.out)
        return ""
    from .metropolis.cut import save_metropolis

    return f"; {save_metropolis(prepared, Path(options.out), options.most_in_district)}"


def _report(options: argparse.Namespace) -> int:
    """`check` and `report`."""
    if getattr(options, "verify", None):
        return _verify(options)
    if options.source is None:
        raise Refused("P1", "say what to check: the parcels' layer, or the folder that prepare wrote")
    from .out.gpkg import test_name
    from .out.report import report
    from .out.report_formats import answer_of, faults_csv, json_of
    from .progress import Progress

    out = getattr(options, "out", None)
    if options.command == "report" and out is None and not (options.json or options.csv):
        raise Refused("P14", "say where to write the report: --out REPORT.gpkg (or ask by --json or --csv)")
    if out is not None:
        test_name(out, read_of(options))
    progress = Progress(shown=True)
    try:
        prepared = prepared_of(options, progress)
        answer = report(prepared, None, getattr(options, "min_area", 1.0), progress)
        if out is not None:
            progress.step("writing")
            answer.save(out)
    finally:
        progress.close()
    say_lost(prepared)
    if options.json:
        print(json_of(answer_of(answer, prepared)))
    elif options.csv:
        print(faults_csv(answer), end="")
    else:
        if not os.path.isfile(os.path.join(options.source, "prepared.json")):
            print(prepared.summary())
        print(answer.basis.line())
        print(answer.summary())
    return _ended(options, answer, progress)


def _ended(options: argparse.Namespace, answer: Report, progress: Progress) -> int:
    """Writes the certificate, says what is undecided and what is known; the status by the verdict."""
    from .out.certificate import write_certificate
    from .out.known import identities, known_faults

    if getattr(options, "certificate", None):
        write_certificate(options.certificate, answer, answer.prepared)
    if answer.basis.advice():
        print(f"note: {answer.basis.advice()}", file=sys.stderr)
    status = answer.verdict.status
    if options.known:
        known, found = known_faults(options.known, answer.prepared.scale), identities(answer)
        fresh = sum(one not in known for one in found)
        print(f"note: {fresh} of {len(found)} faults are new, the others in {options.known}", file=sys.stderr)
        status = status if fresh else 0
    print(progress.end(), file=sys.stderr)
    return status


def _verify(options: argparse.Namespace) -> int:
    """`check --verify`: tries the verdict of a certificate again."""
    from .out.certificate import verify

    differences = verify(options.verify)
    for text in differences:
        print(text)
    print(f"{options.verify}: {'not the same' if differences else 'the same verdict on the same layers'}")
    return 1 if differences else 0


def _mend(options: argparse.Namespace) -> int:
    from .faults.mend import COLUMNS, mend
    from .out.gpkg import test_name
    from .out.report_formats import csv_of, json_of
    from .progress import Progress

    test_name(options.out, read_of(options))
    prepared = prepared_of(options, Progress(shown=True))
    mended = mend(prepared, options.width, options.to)
    mended.save(options.out)
    say_lost(prepared)
    if options.json:
        print(json_of({"closed": mended.closed, "left": mended.left, "verdict": str(mended.verdict)}))
    elif options.csv:
        print(csv_of(COLUMNS, [[row[name] for name in COLUMNS] for row in mended.closed]), end="")
    else:
        for row in mended.closed:
            print(f"{_place_of(row)}: {_new_owner(row)}")
        for row in mended.left:
            print(f"{_place_of(row)}: left, since {row['why']}")
        print(mended.summary())
    return mended.verdict.status


def _place_of(row: Dict[str, Any]) -> str:
    """What a piece is, how large and where."""
    least, most = row["area2_mm2"], row["area2_most_mm2"]
    doubled = least if least == most else f"{least} to {most}"
    return f"{row['kind']} of {doubled} / 2 mm2 at ({row['x']:.3f}, {row['y']:.3f})"


def _new_owner(row: Dict[str, Any]) -> str:
    """Who has a piece now."""
    return "no parcel has it now" if row["number"] is None else f"parcel {row['number']} has it now"


def _map(options: argparse.Namespace) -> int:
    from .out.gpkg import test_not_read
    from .out.map import write_map

    test_not_read(options.out, [options.report])
    if not Path(options.report).is_file():
        raise Refused("P1", f"{options.report} is not there")
    write_map(options.report, options.out)
    return 0


def _back(options: argparse.Namespace) -> int:
    from .out.exports import back_from_files
    from .out.gpkg import test_name

    test_name(options.out)
    frame = back_from_files(options.export, options.rows, options.out)
    print(f"{len(frame)} parcels, {int(frame['edited'].sum())} of them from edits")
    return 0


def _refused(options: argparse.Namespace, refused: Refused) -> int:
    """Says what is refused, on standard output too where a program asked."""
    if getattr(options, "json", False):
        from .out.report_formats import json_of, refusal_of

        print(json_of(refusal_of(refused)))
    print(f"error: {refused}", file=sys.stderr)
    return 1 if options.command in ("serve", "backup") else refused.status


def _begin_log() -> None:
    """Notes of the package go to standard error; `GANDOVEL_LOG` says from which level on (INFO)."""
    level = logging.getLevelName(os.environ.get("GANDOVEL_LOG", "INFO").upper())
    logging.basicConfig(format="note: %(message)s")
    logging.getLogger("gandovel").setLevel(level if isinstance(level, int) else logging.INFO)
    logging.getLogger("fiona").setLevel(logging.CRITICAL)


def _find_projections() -> None:
    """Shows the system's pyproj where the system's projections are, in a virtual environment.

    It looks in the environment alone, and warns that it has found none; PROJ itself knows where they are.
    """
    if sys.prefix == sys.base_prefix or {"PROJ_DATA", "PROJ_LIB"} & set(os.environ):
        return
    found, data = find_spec("pyproj"), Path(sys.base_prefix, "share/proj")
    is_own = found is not None and str(found.origin).startswith(sys.prefix)
    if not is_own and (data / "proj.db").is_file():
        os.environ["PROJ_DATA"] = str(data)


def main(arguments: Optional[List[str]] = None) -> int:
    """Runs the command line; the status."""
    line = parser()
    if "_ARGCOMPLETE" in os.environ:  # a shell asks what may come next
        import argcomplete

        argcomplete.autocomplete(line)
    options = line.parse_args(arguments)
    _begin_log()
    _find_projections()
    commands: Dict[str, Callable[[argparse.Namespace], Optional[int]]] = {
        "prepare": _prepare,
        "check": _report,
        "report": _report,
        "overlay": run_overlay,
        "locate": run_locate,
        "mend": _mend,
        "apply": run_apply,
        "map": _map,
        "back": _back,
        "many": run_command,
        "serve": run_serve,
        "backup": run_backup,
        "journal": run_journal,
        "explain": run_explain,
    }
    try:
        with cut_as_told(options):
            return commands[options.command](options) or 0
    except Refused as refused:
        return _refused(options, refused)
    except MemoryError:
        print("error: no memory", file=sys.stderr)
    except KeyboardInterrupt:
        print("error: interrupted", file=sys.stderr)
        return ENDED_BY_USER
    except BrokenPipeError:
        os.dup2(os.open(os.devnull, os.O_WRONLY), sys.stdout.fileno())
    except Exception as fault:  # whatever else is wrong with what came in: one line, and the place on demand
        logging.getLogger("gandovel").debug("where it happened", exc_info=True)
        text = f"{type(fault).__name__}: {' '.join(str(fault).split())}"
        print(f"error: T2 a fault of this package: {text} (GANDOVEL_LOG=debug says where)", file=sys.stderr)
    return NO_ANSWER


if __name__ == "__main__":
    sys.exit(main())
