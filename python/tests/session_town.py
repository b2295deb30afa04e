"""A small city with a journal, and clients that speak bytes: what the tests of sessions share."""
from __future__ import annotations

import hashlib
import os
import shutil
import stat
import subprocess
import sys
from pathlib import Path
from typing import Any, List, Optional, Sequence

import numpy as np
import pytest

from gandovel import Session, read_journal
from gandovel.program.layer_files import write_rings
from gandovel.program.tool import find_tool
from session_register import Register, Ring, from_least

SECONDS = 120
"""How long a call, or a start, may take before the test fails."""
FULL = bool(os.environ.get("GANDOVEL_FULL"))

SQUARE = [(0, 0), (60, 0), (100, 0), (100, 100), (60, 100), (0, 100)]
HALVES = [[(0, 0), (60, 0), (60, 100), (0, 100)], [(60, 0), (100, 0), (100, 100), (60, 100)]]
"""The city of the worked example in `docs/edits.md`, refined, and its two parcels."""


class Town:
    """A city and its parcels as files in mm in a folder, and the path of a journal there."""

    def __init__(self, folder: Path, city: Ring, rings: Sequence[Ring]) -> None:
        self.ring, self.rings = city, rings
        self.city, self.parcels, self.journal = (folder / name for name in ("city.shp", "parcels.shp", "register.txt"))
        write_rings(self.city, [np.array(city)])
        write_rings(self.parcels, [np.array(ring) for ring in rings])

    def session(self, *desks: str, **options: Any) -> Session:
        """A session with the journal, at these desks."""
        given = {"journal": self.journal, "timeout": SECONDS, "desks": desks, **options}
        return Session(self.city, self.parcels, **given)

    def register(self) -> Register:
        """The parcels as they were read."""
        return Register(self.ring, self.rings)

    def lines(self) -> List[str]:
        """The lines of the journal's edits. A record that was changed, or is torn, fails."""
        if not self.journal.exists() or not self.journal.stat().st_size:
            return []
        journal = read_journal(self.journal)
        assert journal.torn == 0 and journal.layer == self.layer()
        return [record.edit for record in journal.records]

    def layer(self) -> str:
        """The SHA-256 that names the layer in its journal."""
        rings = [self.ring, *self.rings]
        text = "".join(
            f"{number} {' '.join(f'{x} {y}' for x, y in from_least(list(ring)))}\n" for number, ring in enumerate(rings)
        )
        return hashlib.sha256(text.encode()).hexdigest()

    def text_of(self, *edits: str, clerk: int = 1) -> bytes:
        """The journal of these edits, as a session writes it, all by one clerk."""
        digest = self.layer().encode()
        parts = [b"# gandovel journal 1 mm " + digest + b"\n"]
        for number, edit in enumerate(edits, 1):
            stamp = f"# {number} {clerk} 2026-01-01T00:00:00Z ".encode()
            digest = hashlib.sha256(digest + stamp + edit.encode() + b"\n").hexdigest().encode()
            parts.append(stamp + digest + b"\n" + edit.encode() + b"\n")
        return b"".join(parts)


class Raw:
    """A client of another kind: bytes at the pipes of a desk, opened as a shell opens them."""

    def __init__(self, path: str) -> None:
        self.outward = open(f"{path}.in", "wb", buffering=0)
        self.inward = open(f"{path}.out", "rb")

    def ask(self, text: bytes, count: int = 1) -> List[bytes]:
        """Sends bytes, and answers so many lines, without their ends."""
        sent = memoryview(text)
        while sent:
            sent = sent[self.outward.write(sent) :]
        return [self.inward.readline()[:-1] for _ in range(count)]

    def close(self) -> None:
        """Closes both pipes."""
        self.outward.close()
        self.inward.close()

    def __enter__(self) -> "Raw":
        return self

    def __exit__(self, *given: Any) -> None:
        self.close()


def program(path: Path, text: str, interpreter: Optional[str] = None) -> str:
    """Writes a program in Python, or for another interpreter, and answers its path."""
    path.write_text(f"#!{interpreter or sys.executable}\n{text}")
    path.chmod(path.stat().st_mode | stat.S_IXUSR)
    return str(path)


def preloaded(folder: Path, source: str) -> Path:
    """The library of a source beside this file, compiled to a folder: it has calls of a program go otherwise. It has no
    say in a program that is linked statically."""
    if shutil.which("cc") is None:
        pytest.skip("no C compiler is here")
    if subprocess.run(["ldd", find_tool()], capture_output=True).returncode:
        pytest.skip("the program is linked statically")
    library = (folder / source).with_suffix(".so")
    subprocess.run(["cc", "-shared", "-fPIC", "-o", library, Path(__file__).parent / source, "-ldl"], check=True)
    return library


def preload(town: Town, monkeypatch: pytest.MonkeyPatch, library: Path, **variables: Any) -> None:
    """Has each session begin with this library, and with these variables of its environment."""
    words = " ".join(f'{name}="{value}"' for name, value in {"LD_PRELOAD": library, **variables}.items())
    text = f'export {words}\nexec "{find_tool()}" "$@"\n'
    monkeypatch.setenv("GANDOVEL_TOOL", program(town.journal.parent / "preloaded", text, "/bin/sh"))
