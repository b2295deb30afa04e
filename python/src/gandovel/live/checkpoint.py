"""A register that goes on from a checkpoint: a journal over the layer that an earlier one led to, with the ids kept.

A checkpoint is a folder that `gandovel journal --checkpoint` wrote. Its session numbers parcels and entries anew; here
they have the ids and numbers under which the register has always known them (`Ids`, as a recut of districts).
"""
from __future__ import annotations

import hashlib
import json
import os
import re
from dataclasses import dataclass, replace
from datetime import datetime, timezone
from functools import cached_property
from pathlib import Path
from typing import Dict, List, NamedTuple, Optional, Tuple

from ..errors import Refused
from ..metropolis.ids import Ids, renamed
from .journals import Change, JournalRecord

FACTS, IDS, BEFORE, JOURNAL, ORIGIN = "checkpoint.txt", "ids.csv", "before.jsonl", "journal.txt", "origin"
HEAD = "# gandovel checkpoint 1"
NO_ID = 3_141_592_653_589_793_238
"""An id that is not in the present layer goes to the program as this much more: it never had one of these."""
_NAMING = re.compile(r"(?:(?:parcel|split) [0-9]{1,19}|(?:merge|move) [0-9]{1,19} [0-9]{1,19})(?= |$)")
"""How a line to the session begins that names parcels."""
_NAMES = ("from", "layer", "entries", "digest", "bytes", "sha256", "origin", "island", "issued", "begins")
_TAKE = "take the whole folder from a backup, or make the checkpoint anew"


class Past(NamedTuple):
    """An entry of an earlier journal, with the ids that it took out and brought, by the program."""

    record: JournalRecord
    change: Change

    @property
    def line(self) -> str:
        """It as a line of `before.jsonl`."""
        record = self.record
        told = (record.number, record.clerk, record.moment, record.who, record.edit, record.digest)
        return json.dumps([*told, " ".join(self.change.out), " ".join(self.change.new)], ensure_ascii=False)

    @classmethod
    def of(cls, line: str) -> "Past":
        """What `line` made."""
        number, clerk, moment, who, edit, digest, out, new = json.loads(line)
        time = datetime.fromisoformat(moment[:-1]).replace(tzinfo=timezone.utc)
        change = Change(tuple(out.split()), tuple(new.split()))
        return cls(JournalRecord(number, clerk, time, who, edit, digest), change)


@dataclass(frozen=True)
class Checkpoint:
    """A checkpoint whose parts belong together; `checkpoint_of` reads and tests it.

    `before` is how many entries the earlier journals have, `digest` that of the last, `layer` that with which the first
    began, and `begins` that of the present layer, which the present journal names. `ids` says how the ids of the
    present session and of the register go together, and `island` which part of the city it is, from 1.
    """

    folder: Path
    before: int
    layer: str
    digest: str
    begins: str
    island: int
    parcels: int
    ids: Ids

    @property
    def origin(self) -> Path:
        """The folder of the register as it was prepared, before the first edit of all."""
        return self.folder / ORIGIN

    @property
    def journal(self) -> Path:
        """The present journal, where none other is named."""
        return self.folder / JOURNAL

    @property
    def layers(self) -> Tuple[str, str]:
        """The city and the parcels of the present layer."""
        return str(self.folder / "city.shp"), str(self.folder / "parcels.shp")

    @cached_property
    def past(self) -> List[Past]:
        """The entries of the earlier journals, in order; read once they are asked for."""
        with open(self.folder / BEFORE, encoding="utf-8") as file:
            return [Past.of(line) for line in file]

    @property
    def changes(self) -> List[Change]:
        """What each of them took out and brought, as `changes_of` tells it: edits of corners leave all ids."""
        kinds = (it.record.edit.partition(" ")[0] for it in self.past)
        return [Change((), ()) if kind in ("insert", "straighten") else it.change for kind, it in zip(kinds, self.past)]

    @cached_property
    def taken(self) -> Dict[int, int]:
        """The earlier entry that took each id out."""
        found = ((set(it.change.out) - set(it.change.new), it.record.number) for it in self.past)
        return {int(parcel): number for gone, number in found for parcel in gone}

    def record(self, record: JournalRecord) -> JournalRecord:
        """A record of the present journal, as an entry of the register."""
        edit = renamed(record.edit, self.ids.outward)
        return replace(record, number=self.before + record.number, edit=edit)

    def change(self, change: Change) -> Change:
        """What an entry of the present journal took out and brought, in the register's ids."""
        out, new = (tuple(str(self.ids.outward(int(it))) for it in some) for some in change)
        return Change(out, new)

    def inward(self, line: str) -> str:
        """A line to the session, with the ids of the session: an edit, with or without `by WHO: `, or `parcel ID`."""
        who, colon, edit = line.rpartition(": ") if line.startswith("by ") else ("", "", line)
        found = _NAMING.match(edit)
        if found is None:  # no id, or a line that the session refuses
            return line
        word, *ids = found[0].split(" ")
        return who + colon + " ".join([word, *(str(self._inward(int(it))) for it in ids)]) + edit[found.end() :]

    def _inward(self, parcel: int) -> int:
        found = self.ids.inward(parcel)
        return found if found is not None else parcel if parcel >= NO_ID else NO_ID + parcel

    def outward(self, line: str) -> str:
        """A line of the session, with the register's ids and numbers: an answer, a line of a report, its first word or
        its last."""
        word, *words = line.split(" ")
        if word in ("ready", "entries", "closed", "published") and len(words) == 1:
            return f"{word} {self.before + int(words[0])}"
        if word in ("pair", "split", "within", "area"):
            return " ".join([word, self._outward(words[0]), *words[1:]])
        if word == "refused":
            return " ".join([word, *self._refused(words)])
        if word not in ("ok", "at", "parcel"):
            return line
        count = str(self.before + int(words[0]))
        if word == "parcel":
            return " ".join([word, count, self._outward(words[1]), *words[2:]])
        begin = 1 if word == "ok" else 4
        ids = [self._outward(it) if it.isdecimal() else it for it in words[begin:]]
        return " ".join([word, count, *words[1:begin], *ids])

    def _outward(self, text: str) -> str:
        parcel = int(text)
        return str(parcel - NO_ID if parcel >= NO_ID else self.ids.outward(parcel))

    def _refused(self, words: List[str]) -> List[str]:
        """A refusal: an id that the session never had may have been taken out before."""
        if words[0] == "E1":
            parcel = self._outward(words[1])
            taken = self.taken.get(int(parcel))
            return ["E1", parcel] if taken is None else ["E2", parcel, str(taken)]
        if words[0] == "E2":
            return ["E2", self._outward(words[1]), str(self.before + int(words[2]))]
        return ["E12", self._outward(words[1])] if words[0] == "E12" else words


def is_checkpoint(folder: object) -> bool:
    """Whether a path is the folder of a checkpoint."""
    return isinstance(folder, (str, os.PathLike)) and os.path.isfile(Path(folder) / FACTS)


def text_of(facts: Dict[str, str], files: Dict[str, str]) -> str:
    """What `checkpoint.txt` says: a line for each fact and each file, and last the SHA-256 of these lines."""
    lines = [
        HEAD,
        *(f"{name} {facts[name]}" for name in _NAMES),
        *(f"file {sum} {name}" for name, sum in files.items()),
    ]
    text = "".join(f"{line}\n" for line in lines)
    return f"{text}# {hashlib.sha256(text.encode()).hexdigest()}\n"


def sum_of(path: Path, length: Optional[int] = None) -> str:
    """SHA-256 of a file, or of its first bytes. OSError where it can't be read."""
    with open(path, "rb") as file:
        if length is not None:
            return hashlib.sha256(file.read(length)).hexdigest()
        return hashlib.file_digest(file, "sha256").hexdigest()


def checkpoint_of(folder: Path) -> Checkpoint:
    """The checkpoint of a folder.

    Raises
    ------
    Refused
        P1: a part that is not there or can't be read. P19: a part that is not as it was written, or a journal before it
        that is lost or another one. Each names the file, and what to do.
    """
    facts, files = _facts_of(folder / FACTS)
    for name, wanted in files.items():
        path = folder / name
        try:
            found = sum_of(path)
        except OSError as fault:
            raise Refused(
                "P1", f"{path}, a part of the checkpoint, can't be read: {fault.strerror}: {_TAKE}"
            ) from fault
        if found != wanted:
            raise Refused("P19", f"{path} is not as it was written: it is another's, or was changed: {_TAKE}")
    _test_before(folder, facts)
    own = [int(line.split(",", 2)[1]) for line in (folder / IDS).read_text(encoding="utf-8").splitlines()[1:]]
    ids = Ids(0, len(own), int(facts["issued"]), tuple(own))
    before, island = int(facts["entries"]), int(facts["island"])
    layers = facts["layer"], facts["digest"], facts["begins"]
    return Checkpoint(folder, before, *layers, island, int(facts["origin"]), ids)


def _facts_of(path: Path) -> Tuple[Dict[str, str], Dict[str, str]]:
    """What `checkpoint.txt` says, and the digests of the files. Refused P1, P19."""
    try:
        text = path.read_bytes().decode("utf-8")
    except (OSError, UnicodeDecodeError) as fault:
        raise Refused("P1", f"{path} can't be read: {fault}: {_TAKE}") from fault
    told, _, last = text[:-1].rpartition("\n")
    told += "\n"
    if not text.startswith(HEAD + "\n") or last != f"# {hashlib.sha256(told.encode()).hexdigest()}":
        raise Refused("P19", f"{path} is not as it was written: {_TAKE}")
    facts: Dict[str, str] = {}
    files: Dict[str, str] = {}
    for name, value in (line.split(" ", 1) for line in told.splitlines()[1:]):
        if name == "file":
            digest, file = value.split(" ", 1)
            files[file] = digest
        else:
            facts[name] = value
    return facts, files


def _test_before(folder: Path, facts: Dict[str, str]) -> None:
    """Tests that the journal that it goes on from is there as it was. Refused P19."""
    path = folder / facts["from"]
    put = f"put the one back there whose last digest is {facts['digest']}"
    try:
        found = sum_of(path, int(facts["bytes"]))
    except OSError as fault:
        text = f"{path}, the journal that {folder} goes on from, can't be read: {fault.strerror}: {put}"
        raise Refused("P19", text) from fault
    if found != facts["sha256"]:
        raise Refused("P19", f"{path} is not the journal that {folder} goes on from, or was changed: {put}")
