"""The command `gandovel journal`: a session's journal as a table, checked alone, without its layer."""
from __future__ import annotations

import argparse
import csv
import json
import sys
from pathlib import Path
from typing import Any, Dict, List, Optional, Tuple

from ..errors import JournalRefused, Refused
from .checkpoint import checkpoint_of, is_checkpoint
from .repair_command import run_repair
from .journals import Change, Journal, JournalRecord, changes_of, read_journal

_ADVICE = {
    "no journal": "its first line is no journal's: name the file that a session wrote by --journal",
    "changed": "this line, or the one behind it, is not as a session wrote it: take the file from a backup, or see "
    "what can be kept: gandovel journal --repair {path} --out NEW",
}


def add_journal(commands: Any) -> None:
    """Adds it to the commands of a command line."""
    command = commands.add_parser("journal", help="a session's journal as a table, checked without its layer")
    command.add_argument("file", metavar="FILE", help="the journal")
    forms = command.add_mutually_exclusive_group()
    forms.add_argument("--json", action="store_true", help="one JSON object on standard output")
    forms.add_argument("--csv", action="store_true", help="a table for other programs on standard output")
    command.add_argument(
        "--parcels", type=int, metavar="N", help="how many parcels the layer has: new ones by their ids, else +1, +2 .."
    )
    command.add_argument(
        "--repair", action="store_true", help="say what is damaged, where, and what can be kept; FILE stays as it is"
    )
    command.add_argument(
        "--checkpoint",
        action="store_true",
        help="begin a new journal over the layer that FILE leaves, with the ids kept; FILE stays as it is",
    )
    command.add_argument("--of", metavar="LAYER", help="with --checkpoint: the layer of FILE, as prepare wrote it")
    command.add_argument("--island", type=int, metavar="N", help="with --checkpoint: the part of the city, from 1")
    command.add_argument(
        "--out",
        metavar="NEW",
        help="with --repair: write the entries that are proved to a new journal; with --checkpoint: the folder",
    )
    command.add_argument("--rest", metavar="EDITS", help="with --repair: write what can be read behind the damage")
    command.set_defaults(fail=command.error)


def run_journal(options: argparse.Namespace) -> int:
    """Prints a journal, or with `--repair` what can be kept of it; the status, 1 where entries are lost.

    Refused where it can't be read, or with the first line that is not as it was written.
    """
    is_table = options.json or options.csv or options.parcels is not None
    if options.repair or options.checkpoint:
        if is_table or options.repair and options.checkpoint:
            options.fail("--repair and --checkpoint are given without --json, --csv and --parcels, and one alone")
    if options.repair:
        return run_repair(options.file, options.out, options.rest)
    if options.checkpoint:
        return _run_checkpoint(options)
    if options.out is not None or options.rest is not None:
        options.fail("--out is given with --repair or --checkpoint, and --rest with --repair")
    if options.parcels is not None and options.parcels < 1:
        raise Refused("P13", f"--parcels {options.parcels}: the layer has at least 1 parcel")
    journal, changes = _joined(options) if is_checkpoint(options.file) else _read(options.file, options.parcels)
    if options.json:
        print(json.dumps(_told(journal, changes), ensure_ascii=False))
    elif options.csv:
        writer = csv.DictWriter(sys.stdout, _COLUMNS, lineterminator="\n")
        writer.writeheader()
        writer.writerows(_row(*it) for it in zip(journal.records, changes))
    else:
        print("\n".join(table_of(journal, changes)))
    if journal.torn:
        text = f"{journal.torn} bytes behind the last entry are the beginning of one that was never answered"
        print(f"note: {options.file}: {text}", file=sys.stderr)
    return 0


def _run_checkpoint(options: argparse.Namespace) -> int:
    """Makes a checkpoint, and prints how a session goes on from it."""
    from .checkpoint_writing import make_checkpoint

    if options.of is None or options.out is None or options.rest is not None:
        options.fail("--checkpoint is given with --of LAYER and --out FOLDER")
    made = make_checkpoint(Path(options.file), Path(options.of), Path(options.out), options.island)
    print(f"{options.out}: {made.ids.count} parcels after {made.before} entries, under the ids that they have")
    print(f"go on with it: gandovel serve {options.out} --journal {made.journal}")
    return 0


def _read(path: str, parcels: Optional[int]) -> Tuple[Journal, List[Change]]:
    """A journal and what its records take out and bring. Refused as `run_journal` is."""
    try:
        journal = read_journal(path)
    except JournalRefused as fault:
        raise _refused(path, fault) from None
    return journal, changes_of(journal, parcels)


def _joined(options: argparse.Namespace) -> Tuple[Journal, List[Change]]:
    """All entries of a register that goes on from a checkpoint, in its own ids, as if they stood in one journal."""
    of = checkpoint_of(Path(options.file))
    if options.parcels is not None:
        options.fail("--parcels is of a journal's file: a checkpoint knows its ids")
    journal, changes = _read(str(of.journal), of.ids.count)
    if journal.layer != of.begins:
        text = f"{of.journal} is of another layer than {of.folder}: put the journal that was begun with it in its place"
        raise Refused("P19", text)
    records = (*(it.record for it in of.past), *map(of.record, journal.records))
    digest = journal.digest if journal.records else of.digest
    return Journal(of.layer, records, journal.torn, digest), [*of.changes, *map(of.change, changes)]


def table_of(journal: Journal, changes: List[Change]) -> List[str]:
    """A line for each record, its columns side by side, the edit last; and a line that tells of them all."""
    names = ("number", "time", "who", "why", "out", "in", "edit")
    rows = [{name: _printable(str(it)) for name, it in _row(*pair).items()} for pair in zip(journal.records, changes)]
    wide = {name: max([len(name), *(len(row[name]) for row in rows)]) for name in names[:-1]}
    heads = dict(zip(names, names))
    lines = ["  ".join([*(row[name].ljust(wide[name]) for name in wide), row["edit"]]) for row in [heads, *rows]]
    return [*lines, f"{len(rows)} entries; layer {journal.layer}; last digest {journal.digest}"]


def _told(journal: Journal, changes: List[Change]) -> Dict[str, Any]:
    records = [
        {**_row(record, change), "out": list(change.out), "in": list(change.new)}
        for record, change in zip(journal.records, changes)
    ]
    return {"layer": journal.layer, "digest": journal.digest, "torn": journal.torn, "records": records}


def _row(record: JournalRecord, change: Change) -> Dict[str, Any]:
    said = record.said
    return {
        "number": record.number,
        "time": record.moment,
        "clerk": record.clerk,
        "who": said.name,
        "why": said.why,
        "key": said.key or "",
        "edit": record.edit,
        "out": " ".join(change.out),
        "in": " ".join(change.new),
    }


_COLUMNS = ("number", "time", "clerk", "who", "why", "key", "edit", "out", "in")


def _printable(text: str) -> str:
    """A text that moves no terminal: signs that are not printed are told by their numbers."""
    return "".join(it if it.isprintable() else f"\\u{ord(it):04x}" for it in text)


def _refused(path: str, fault: JournalRefused) -> Refused:
    """What is wrong with the file, where, and what to do."""
    if fault.code == "S1":
        return Refused("S1", fault.text)
    where = path if fault.line is None else f"{path} line {fault.line}"
    return Refused(fault.code, f"{where}: {_ADVICE[fault.code].format(path=path)}")
