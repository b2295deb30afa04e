"""Files that are there whole or not at all."""
from __future__ import annotations

import glob
import os
from contextlib import contextmanager
from pathlib import Path
from typing import Iterator, Union

from .errors import Refused


@contextmanager
def renamed(path: Union[str, "os.PathLike[str]"]) -> Iterator[Path]:
    """Another name in the same folder, to write to: it becomes `path` at the end, or goes where that is not reached.

    What stood under `path` stays until then. OSError where it can't be written.
    """
    path = Path(path)
    aside = path.with_name(f".{os.getpid()}.{path.name}")
    try:
        yield aside
        os.replace(aside, path)
    finally:
        for left in glob.glob(f"{glob.escape(str(aside))}*"):  # SQLite has files beside its own
            os.unlink(left)


def synchronise_folder(folder: Path) -> None:
    """Brings a folder's own list of files to the disk. Raises OSError."""
    handle = os.open(folder, os.O_RDONLY | os.O_DIRECTORY | os.O_CLOEXEC)
    try:
        os.fsync(handle)
    finally:
        os.close(handle)


@contextmanager
def whole_file(path: Union[str, "os.PathLike[str]"]) -> Iterator[Path]:
    """As `renamed`; Refused P14 where it can't be written."""
    try:
        with renamed(path) as aside:
            yield aside
    except OSError as fault:
        raise Refused("P14", f"{path} can't be written: {fault}") from fault
