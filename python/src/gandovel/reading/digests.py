"""Where a layer is from, so that a verdict says of which it is: path, layer's name, SHA-256."""
from __future__ import annotations

import hashlib
import os
from pathlib import Path
from typing import Any, Dict, List

import geopandas as gpd

from ..shapes import wkb_of

BLOCK = 1 << 20


def source_of(source: Any, frame: gpd.GeoDataFrame, role: str) -> Dict[str, Any]:
    """A layer that was read as `frame`: role, path, layer, rows, and a SHA-256, of what `sha256_of` says.

    That is the `file`; of a shapefile, or a folder, all its `files`; of any other source the `shapes` as they were
    read.
    """
    path = os.fspath(source) if isinstance(source, (str, os.PathLike)) else None
    known = {"role": role, "path": path, "layer": frame.attrs.get("layer"), "rows": len(frame)}
    files = [] if path is None else _files(Path(path.partition("|layername=")[0]))
    if not files:
        return {**known, "sha256": _of_shapes(frame), "sha256_of": "shapes"}
    return {**known, "sha256": _of_files(files), "sha256_of": "file" if len(files) == 1 else "files"}


def _files(path: Path) -> List[Path]:
    """The files that a layer is in; none where that is not known."""
    if path.is_dir():
        return sorted(it for it in path.rglob("*") if it.is_file() and it.suffix.lower() != ".lock")
    if not path.is_file():
        return []
    if path.suffix.lower() != ".shp":
        return [path]
    parts = (".shp", ".shx", ".dbf", ".prj", ".cpg")
    return sorted(it for it in path.parent.glob(f"{path.stem}.*") if it.suffix.lower() in parts)


def _of_files(files: List[Path]) -> str:
    """Of one file its SHA-256; of several that of their names and their SHA-256s, as `sha256sum` prints them."""
    digests = [_of_file(path) for path in files]
    if len(files) == 1:
        return digests[0]
    lines = "".join(f"{digest}  {path.name}\n" for digest, path in zip(digests, files))
    return hashlib.sha256(lines.encode()).hexdigest()


def _of_file(path: Path) -> str:
    digest = hashlib.sha256()
    with open(path, "rb") as file:
        for block in iter(lambda: file.read(BLOCK), b""):
            digest.update(block)
    return digest.hexdigest()


def _of_shapes(frame: gpd.GeoDataFrame) -> str:
    """The SHA-256 of the rows' shapes as WKB, each after its length, in order; an empty one for a row without."""
    digest = hashlib.sha256()
    for blob in wkb_of(frame.geometry.to_numpy()):
        content = blob or b""
        digest.update(len(content).to_bytes(8, "little") + content)
    return digest.hexdigest()
