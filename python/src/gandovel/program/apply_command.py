"""The command `gandovel apply`: edits by the parcels' own numbers, to a new layer."""
from __future__ import annotations

import argparse
import sys
import warnings
from pathlib import Path
from typing import TYPE_CHECKING, Any, List

from ..errors import Refused, RefusedEdit, SeveralRefusedEdits
from ..reading.command_options import asked_about, prepared_of, preparing, read_of, say_lost

if TYPE_CHECKING:
    from .edit_lines import Line


def add_apply(commands: Any) -> None:
    """Adds it to the commands of a command line."""
    command = commands.add_parser("apply", help="edits by the parcels' own numbers, to a new layer")
    asked_about(command)
    command.add_argument("edits", metavar="EDITS", help="a file of edits, or - for standard input")
    preparing(command)
    command.add_argument("--island", type=int, metavar="N", help="the part of the city whose parcels are edited alone")
    command.add_argument(
        "--keep", action="store_true", help="leave refused edits out; without it one that is refused refuses all"
    )
    command.add_argument("--out", required=True, metavar="NEW.gpkg", help="the GeoPackage to write")


def run_apply(options: argparse.Namespace) -> int:
    """Writes the layer after edits, and prints the answer to each line; the status.

    Raises
    ------
    RefusedEdit
        Edits that the program refuses, unless `--keep` is given: nothing is written.
    Refused
        L1 for lines that are no edits, all at once; P1, P13, P14.
    """
    from ..out import descriptions
    from ..out.gpkg import test_name, write_layers
    from ..progress import Progress
    from .applied import apply
    from .edit_lines import edits_of

    test_name(options.out, [*read_of(options), options.edits])
    lines = edits_of(_text_of(options.edits))
    prepared = prepared_of(options, Progress(shown=True))
    with warnings.catch_warnings():
        warnings.simplefilter("ignore", UserWarning)  # the refused ones are printed below
        frame = apply(prepared, [line.edit for line in lines], options.island, refused="keep")
    problems = _problems(lines, frame.attrs["answers"])
    if problems and not options.keep:
        raise problems[0] if len(problems) == 1 else SeveralRefusedEdits(problems)
    write_layers(options.out, [("parcels", frame)], notes=descriptions.BACK)
    say_lost(prepared)
    for line, answer in zip(lines, frame.attrs["answers"]):
        print(f"line {line.number} {answer}")
    print(f"{len(frame)} parcels, {int(frame['edited'].sum())} of them from edits")
    return 0


def _text_of(path: str) -> str:
    """The text of a file of edits."""
    try:
        data = sys.stdin.buffer.read() if path == "-" else Path(path).read_bytes()
        return data.decode("utf-8")
    except OSError as fault:
        raise Refused("P1", f"{path}: {fault.strerror}", "edits") from fault
    except UnicodeDecodeError as fault:
        raise Refused("P1", f"{path} is no text in UTF-8 (byte {fault.start})", "edits") from fault


def _problems(lines: "List[Line]", answers: List[str]) -> List[RefusedEdit]:
    """What the program refused, by the numbers of the lines."""
    problems = []
    for line, answer in zip(lines, answers):
        word, _, why = answer.partition(" ")
        if word != "ok":
            code, _, rest = why.partition(" ")
            problems.append(RefusedEdit(code, f"{rest}: line {line.number}, {line.text}".lstrip(": ")))
    return problems
