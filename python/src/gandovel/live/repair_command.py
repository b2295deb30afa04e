"""What `gandovel journal --repair` prints and writes. It only reads the damaged file."""
from __future__ import annotations

import fcntl
import os
from pathlib import Path
from typing import List, Optional

from ..errors import JournalInUse, JournalRefused, Refused
from ..whole_file import synchronise_folder
from .journal_repair import Repair, repair
from .journals import journal_of


def run_repair(path: str, out: Optional[str], rest: Optional[str]) -> int:
    """Says what is damaged, and what each choice keeps; writes what was chosen. The status: 1 where entries are lost.

    Raises
    ------
    Refused
        S1, "in use", "no journal": the file can't be read. P14: a file that is there already, or can't be written.
    """
    data = read_closed(path)
    try:
        made = repair(data)
    except JournalRefused:
        text = f"{path}: no journal: its first line names no layer, and no entry proves what it was: take a backup"
        raise Refused("no journal", text) from None
    print("\n".join(told_of(path, data, made)))
    if out is not None:
        assert len(journal_of(made.text).records) == made.entries
        _write_new(out, made.text)
        print(f"{out}: a journal of {made.entries} entries")
    if rest is not None:
        _write_new(rest, rest_of(made))
        print(f"{rest}: {len(made.readable)} edits that were behind the damage")
    return 0 if made.is_whole else 1


def told_of(path: str, data: bytes, made: Repair) -> List[str]:
    """The lines that say what is damaged, where, and what each choice keeps."""
    more = f", and {len(made.readable)} more can be read" if made.readable else ""
    lines = [f"{path}: {len(data)} bytes; {made.entries} entries are proved{more}"]
    for line, byte, text, is_proved in made.damages:
        lines.append(f"line {line}, byte {byte}: {text}: {'nothing is lost by it' if is_proved else 'lost'}")
    if not made.damages:
        return [*lines, "nothing is damaged"]
    lines.append(f"--out NEW writes a journal of entries 1 to {made.entries}; {path} stays as it is")
    if made.readable:
        first, last = made.readable[0].number, made.readable[-1].number
        chained = sum(entry.is_chained for entry in made.readable)
        lines.append(
            f"--rest EDITS writes entries {first} to {last} as far as they can be read, for a clerk to go through: no "
            f"journal can have them, since entries before them are lost; {chained} of them prove the one before"
        )
    return lines


def rest_of(made: Repair) -> bytes:
    """What can be read behind the damage, as a clerk's file: who and when as remarks."""
    lines = [line for entry in made.readable for line in (entry.stamp, entry.edit)]
    return "".join(f"{line}\n" for line in lines).encode()


def read_closed(path: str) -> bytes:
    """The bytes of a journal that no session has open."""
    try:
        with open(path, "rb") as file:
            try:
                fcntl.flock(file, fcntl.LOCK_SH | fcntl.LOCK_NB)
            except BlockingIOError:
                raise JournalInUse("in use", f"{path}: a session has it open: close that first") from None
            return file.read()
    except OSError as fault:
        raise Refused("S1", f"{path}: {fault.strerror}") from fault


def _write_new(path: str, data: bytes) -> None:
    """Writes a file that is not there yet, and sees that the disk has it."""
    try:
        number = os.open(path, os.O_WRONLY | os.O_CREAT | os.O_EXCL | os.O_CLOEXEC, 0o600)
    except FileExistsError:
        raise Refused("P14", f"{path} is there already: give a new name, since nothing is written over") from None
    except OSError as fault:
        raise Refused("P14", f"{path} can't be written: {fault.strerror}") from fault
    try:
        with os.fdopen(number, "wb") as file:
            file.write(data)
            file.flush()
            os.fsync(file.fileno())
        synchronise_folder(Path(path).resolve().parent)
    except OSError as fault:
        Path(path).unlink(missing_ok=True)
        raise Refused("P14", f"{path} can't be written: {fault.strerror}") from fault
