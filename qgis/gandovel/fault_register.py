"""The register of a layer's faults: a table in its GeoPackage, or in one beside it.

Each fault has its identity, when and by whom it was seen first and last, its state (open, accepted, mended), and for an
exception the reason, who, and when. Rows are never taken away: a mended fault stays, as mended.
"""
from __future__ import annotations

import csv
import getpass
import os
import sqlite3
from contextlib import closing
from dataclasses import dataclass
from datetime import datetime, timezone
from pathlib import Path
from typing import Dict, Iterable, List, Optional, Sequence

from osgeo import ogr

from .check_task import Fault
from .words import tr

TABLE = "gandovel_faults"
OPEN, ACCEPTED, MENDED = "open", "accepted", "mended"
COLUMNS = (
    "layer",
    "fault",
    "kind",
    "parcels",
    "area2_mm2",
    "area_m2",
    "x",
    "y",
    "state",
    "first_seen",
    "last_seen",
    "seen_by",
    "decided",
    "decided_by",
    "reason",
)
NUMBERS = ("area_m2", "x", "y")
PATIENCE = 10.0
"""Seconds that another writer of the file has to end."""
FROM_SOURCE = "|"


class RegisterFault(Exception):
    """The register can't be read or written; the text says why, and what to do."""


@dataclass(frozen=True)
class Entry:
    """What the register has of a fault: its state, and for an exception the reason."""

    state: str
    reason: str = ""


def now() -> str:
    """The time, as the register writes it."""
    return datetime.now(timezone.utc).strftime("%Y-%m-%dT%H:%M:%SZ")


def who() -> str:
    """The user's name on this machine; empty where it has none."""
    try:
        return getpass.getuser()
    except (OSError, KeyError, ImportError):
        return ""


def _make_geopackage(path: Path) -> None:
    """An empty GeoPackage. Raises `OSError`."""
    made = ogr.GetDriverByName("GPKG").CreateDataSource(str(path)) if path.parent.is_dir() else None
    if made is None:
        raise OSError(tr("there is no such folder, or it can't be written"))


def path_for(source: str) -> Optional[Path]:
    """Where the register of a layer is: its own GeoPackage, else one beside its file; None where it is in no file."""
    file = Path(source.split(FROM_SOURCE)[0])
    if not source or not file.is_file():
        return None
    return file if file.suffix.lower() == ".gpkg" else file.with_name(f"{file.stem}.faults.gpkg")


class Register:
    """The register of one layer. Raises `RegisterFault`."""

    def __init__(self, path: Path, layer: str) -> None:
        self.path, self.layer = path, layer

    def _open(self) -> sqlite3.Connection:
        try:
            if not self.path.exists():
                _make_geopackage(self.path)
            connection = sqlite3.connect(self.path, timeout=PATIENCE)
            kinds = (f"{name} {'DOUBLE' if name in NUMBERS else 'TEXT'}" for name in COLUMNS)
            connection.execute(
                f"CREATE TABLE IF NOT EXISTS {TABLE} (fid INTEGER PRIMARY KEY AUTOINCREMENT NOT NULL, "
                f"{', '.join(kinds)}, UNIQUE (layer, fault))"
            )
            connection.execute(
                "INSERT OR IGNORE INTO gpkg_contents (table_name, data_type, identifier) VALUES (?, 'attributes', ?)",
                (TABLE, TABLE),
            )
            return connection
        except (sqlite3.Error, OSError) as fault:
            raise self._fault(fault) from fault

    def _fault(self, fault: Exception) -> RegisterFault:
        text = "The register of faults in {path} can't be written ({reason}): see whether the file may be written."
        return RegisterFault(tr(text, path=self.path, reason=fault))

    def entries(self) -> Dict[str, Entry]:
        """What there is of each fault, by its identity; nothing where there is no register yet."""
        if not self.path.is_file():
            return {}
        try:
            with closing(sqlite3.connect(f"{self.path.as_uri()}?mode=ro", uri=True, timeout=PATIENCE)) as connection:
                rows = connection.execute(f"SELECT fault, state, reason FROM {TABLE} WHERE layer = ?", (self.layer,))
                return {fault: Entry(state, reason or "") for fault, state, reason in rows}
        except sqlite3.OperationalError:
            return {}
        except sqlite3.Error as fault:
            raise self._fault(fault) from fault

    def seen(self, faults: Sequence[Fault]) -> None:
        """Notes the faults of a verdict: new ones as open; those that are there no more as mended; accepted ones
        stay."""
        time, user, here = now(), who(), {fault.identity for fault in faults}
        known = self.entries()
        gone = [(time, user, self.layer, it) for it, entry in known.items() if it not in here and entry.state == OPEN]
        if not faults and not gone:
            return
        self._write(
            (
                f"INSERT INTO {TABLE} ({', '.join(COLUMNS[:12])}) VALUES (?, ?, ?, ?, ?, ?, ?, ?, '{OPEN}', ?, ?, ?) "
                "ON CONFLICT (layer, fault) DO UPDATE SET last_seen = excluded.last_seen, "
                f"state = CASE state WHEN '{MENDED}' THEN '{OPEN}' ELSE state END",
                [(*self._facts(fault), time, time, user) for fault in faults],
            ),
            (
                f"UPDATE {TABLE} SET state = '{MENDED}', decided = ?, decided_by = ? WHERE layer = ? AND fault = ?",
                gone,
            ),
        )

    def _facts(self, fault: Fault) -> "tuple[object, ...]":
        inside = fault.shape.pointOnSurface().asPoint()
        numbers = ", ".join(fault.numbers)
        facts = (fault.identity, fault.kind, numbers, fault.area2_mm2, fault.area_m2, inside.x(), inside.y())
        return (self.layer, *facts)

    def accept(self, fault: Fault, reason: str) -> None:
        """Notes that a fault is an exception, and why."""
        self.seen_too([fault])
        self._write(
            (
                f"UPDATE {TABLE} SET state = '{ACCEPTED}', decided = ?, decided_by = ?, reason = ? "
                "WHERE layer = ? AND fault = ?",
                [(now(), who(), reason, self.layer, fault.identity)],
            )
        )

    def seen_too(self, faults: Sequence[Fault]) -> None:
        """Notes faults as open where they are not known yet; says nothing of others."""
        time, user = now(), who()
        self._write(
            (
                f"INSERT OR IGNORE INTO {TABLE} ({', '.join(COLUMNS[:12])}) "
                f"VALUES (?, ?, ?, ?, ?, ?, ?, ?, '{OPEN}', ?, ?, ?)",
                [(*self._facts(fault), time, time, user) for fault in faults],
            )
        )

    def _write(self, *several: "tuple[str, Iterable[Sequence[object]]]") -> None:
        """Runs statements, each with its rows: all of them, or none."""
        try:
            with closing(self._open()) as connection, connection:
                for statement, rows in several:
                    connection.executemany(statement, rows)
        except sqlite3.Error as fault:
            raise self._fault(fault) from fault

    def export(self, path: Path) -> int:
        """Writes the register as CSV, whole or not at all; how many faults."""
        rows: List[Sequence[object]] = []
        aside = path.with_name(f".{os.getpid()}.{path.name}")
        try:
            with closing(self._open()) as connection:
                names = ", ".join(COLUMNS)
                found = connection.execute(f"SELECT {names} FROM {TABLE} WHERE layer = ? ORDER BY fid", (self.layer,))
                rows = list(found)
            with open(aside, "w", newline="", encoding="utf-8") as file:
                writer = csv.writer(file, lineterminator="\n")
                writer.writerow(COLUMNS)
                writer.writerows(rows)
            os.replace(aside, path)
        except (OSError, sqlite3.Error) as fault:
            raise RegisterFault(tr("{path} can't be written: {reason}", path=path, reason=fault)) from fault
        finally:
            if aside.exists():
                aside.unlink()
        return len(rows)
