"""Copies of a register that may be open: the layer, the journal's whole records, and digests."""
from __future__ import annotations

import hashlib
import os
import shutil
import subprocess
from pathlib import Path
from typing import Dict, List

from ..errors import Refused
from ..live.answers import start_refused
from ..live.checkpoint import is_checkpoint
from ..live.journals import journal_of
from ..program.tool import find_tool

JOURNAL, LAYER, SUMS = "register.journal", "layer", "SHA256SUMS"


def back_up(folder: Path, journal: Path, out: Path) -> str:
    """Copies the layer of `folder` and the journal to `out`, whole or not at all; a line that tells what there is.

    The journal may be written to meanwhile: it is copied up to its last whole record, each of which is checked. A
    session is opened with the copy, and closed: so it can be restored. Refused P1, P14, as `read_journal` does, and as
    a session's start is, as for the journal of another layer.
    """
    if is_checkpoint(folder):
        text = "close its session, and copy the folder, and the journal that it goes on from, as they lie"
        raise Refused("P1", f"{folder} is a checkpoint, which backup does not copy: {text}")
    for path in (folder / "prepared.json", journal):
        if not path.is_file():
            raise Refused("P1", f"{path} is not there")
    if out.exists():
        raise Refused("P14", f"{out} is there: give the backup a new name")
    aside = out.with_name(f".{os.getpid()}.{out.name}")
    try:
        aside.mkdir(parents=True, mode=0o700)
        shutil.copytree(folder, aside / LAYER)
        edits = _copy_records(journal, aside / JOURNAL)
        _test_fit(aside)
        _write_sums(aside)
        os.replace(aside, out)
    except OSError as fault:
        raise Refused("P14", f"{out} can't be written: {fault.strerror}") from fault
    finally:
        shutil.rmtree(aside, ignore_errors=True)
    return f"{edits} edits"


def check_backup(folder: Path) -> str:
    """Tests that all files of a backup are there as they were written; a line that tells so. Refused P1."""
    try:
        lines = (folder / SUMS).read_text(encoding="utf-8").splitlines()
    except (OSError, UnicodeDecodeError):
        raise Refused("P1", f"{folder} is no backup: it has no {SUMS}") from None
    wanted = {name: digest for digest, name in (line.split("  ", 1) for line in lines if "  " in line)}
    found = _sums(folder)
    wrong = sorted(name for name in {*wanted, *found} if wanted.get(name) != found.get(name))
    if wrong:
        raise Refused("P1", f"{folder / wrong[0]} is not as it was written, or {len(wrong)} files: take another backup")
    return f"{len(found)} files as they were written"


def _copy_records(path: Path, out: Path) -> int:
    """Copies the whole records of a journal that grows, to the disk; how many they are."""
    content = path.read_bytes()
    journal = journal_of(content)
    with open(os.open(out, os.O_WRONLY | os.O_CREAT | os.O_EXCL, 0o600), "wb") as file:
        file.write(content[: len(content) - journal.torn])
        file.flush()
        os.fsync(file.fileno())
    return len(journal.records)


def _test_fit(backup: Path) -> None:
    """Tests that a session opens with the layer and the journal of a backup: with one island of several."""
    islands = sorted((backup / LAYER).glob("island_*")) or [backup / LAYER]
    faults: List[Refused] = []
    for folder in islands:
        words = [str(folder / "city.shp"), str(folder / "parcels.shp"), "--unit", "mm"]
        command = [find_tool(), "session", *words, "--journal", str(backup / JOURNAL)]
        ended = subprocess.run(command, input="close\n", capture_output=True, text=True, errors="replace")
        if ended.returncode == 0:
            return
        told = [line[len("error: ") :] for line in ended.stderr.splitlines() if line.startswith("error: ")]
        faults.append(start_refused(told[-1] if told else "T2", str(backup / JOURNAL)))
    others = [fault for fault in faults if fault.code != "another layer"]
    raise (others or faults)[0]


def _sums(folder: Path) -> Dict[str, str]:
    """The digest of each file, but for the list of digests itself."""
    files = sorted(path for path in folder.rglob("*") if path.is_file() and path.name != SUMS)
    return {str(path.relative_to(folder)): hashlib.sha256(path.read_bytes()).hexdigest() for path in files}


def _write_sums(folder: Path) -> None:
    lines: List[str] = [f"{digest}  {name}\n" for name, digest in _sums(folder).items()]
    with open(folder / SUMS, "w", encoding="utf-8") as file:
        file.writelines(lines)
        file.flush()
        os.fsync(file.fileno())
