"""Layers of whole millimetres as shapefiles (`.shp` and `.shx`), the profile that the program reads; no attributes."""
from __future__ import annotations

import struct
from pathlib import Path
from typing import Any, List, Sequence, Tuple, Union

import numpy as np

from ..arrays import Array
from ..errors import Refused
from ..whole_file import renamed


def _header(words: int, low: Sequence[float], high: Sequence[float]) -> bytes:
    return (
        struct.pack(">7i", 9994, 0, 0, 0, 0, 0, words)
        + struct.pack("<2i", 1000, 5)
        + struct.pack("<4d", *low, *high)
        + bytes(32)
    )


RECORD = np.dtype(
    [
        ("position", ">i4"),
        ("words", ">i4"),
        ("kind", "<i4"),
        ("box", "<f8", 4),
        ("parts", "<i4"),
        ("points", "<i4"),
        ("first", "<i4"),
    ]
)
"""What stands in front of a polygon's corners."""
FRONT, HEAD = struct.Struct(">4xi"), struct.Struct("<i32x2i")
"""Of it the words of the record; and its kind, parts and points."""


_ENDS: Tuple[Any, ...] = (np.minimum, np.maximum)


def write_rings(main: Union[str, Path], rings: Sequence[Array]) -> None:
    """Writes counterclockwise rings, each (k, 2) int64 in mm without the first corner again, as `main` and its `.shx`.

    Both files are written under other names, then renamed. OSError where the disk does not take them.
    """
    counts = np.array([len(ring) + 1 for ring in rings], dtype=np.int64)
    heads = np.zeros(len(rings), dtype=RECORD)
    corners, begins = _closed(rings, counts)
    if len(rings):
        heads["box"] = np.hstack([ends.reduceat(corners, begins, axis=0) for ends in _ENDS])
    heads["position"], heads["words"] = np.arange(1, len(rings) + 1), 24 + 8 * counts
    heads["kind"], heads["parts"], heads["points"] = 5, 1, counts
    at = 50 + np.concatenate([[0], np.cumsum(heads["words"].astype(np.int64) + 4)])
    low, high = heads["box"][:, :2].min(axis=0, initial=np.inf), heads["box"][:, 2:].max(axis=0, initial=-np.inf)
    if not len(rings):
        low = high = np.zeros(2)
    front, back = heads.tobytes(), corners.tobytes()
    size = RECORD.itemsize
    records = [
        piece
        for i, (begin, count) in enumerate(zip(begins.tolist(), counts.tolist()))
        for piece in (front[size * i : size * (i + 1)], back[16 * begin : 16 * (begin + count)])
    ]
    index = np.column_stack([at[:-1], heads["words"]]).astype(">i4").tobytes()
    for path, content in (
        (Path(main), _header(int(at[-1]), low, high) + b"".join(records)),
        (Path(main).with_suffix(".shx"), _header(50 + 4 * len(rings), low, high) + index),
    ):
        with renamed(path) as aside:
            aside.write_bytes(content)


def _closed(rings: Sequence[Array], counts: Array) -> Tuple[Array, Array]:
    """The corners of all rings, each clockwise and with its first corner again, and where each ring begins."""
    begins = np.cumsum(counts) - counts
    step = np.arange(int(counts.sum())) - np.repeat(begins, counts)
    from_first = np.where(step == 0, 0, np.repeat(counts - 1, counts) - step)
    corners = np.concatenate([*rings, np.zeros((0, 2), dtype=np.int64)])
    return corners[np.repeat(begins - np.arange(len(counts)), counts) + from_first].astype("<f8"), begins


def read_rings(main: Union[str, Path]) -> List[Array]:
    """The rings of a layer that the program wrote or that `write_rings` did: each (k, 2) int64, counterclockwise.

    Refused (P1) where the file is torn or its polygons have several parts; the program itself has the last word on it.
    """
    data, at = Path(main).read_bytes(), 100
    counts: List[int] = []
    bodies: List[bytes] = []
    try:
        end = 2 * struct.unpack_from(">i", data, 24)[0]
        if end > len(data):
            raise ValueError("it ends too early")
        while at < end:
            words = FRONT.unpack_from(data, at)[0]
            kind, parts, count = HEAD.unpack_from(data, at + 8)
            if kind != 5 or parts != 1 or words < 24:
                raise ValueError(f"record {len(counts) + 1} is no polygon of one ring")
            body = data[at + 56 : at + 56 + 16 * count]
            if count < 0 or len(body) != 16 * count:
                raise ValueError(f"record {len(counts) + 1} ends too early")
            counts.append(count)
            bodies.append(body)
            at += 8 + 2 * words
        return _whole_rings(np.array(counts, dtype=np.int64), b"".join(bodies))
    except (ValueError, struct.error) as fault:
        raise Refused("P1", f"{main} is no layer of whole millimetres: {fault}") from fault


def _whole_rings(counts: Array, bodies: bytes) -> List[Array]:
    """The rings of closed, clockwise rings of so many corners, whose coordinates stand one behind the other."""
    corners = np.frombuffer(bodies, "<f8").reshape(-1, 2)
    whole = np.rint(corners).astype(np.int64)
    off = (whole != corners).any(axis=1)
    stops = np.cumsum(counts)
    if off.any():
        record = int(np.searchsorted(stops, int(off.argmax()), side="right")) + 1
        raise ValueError(f"record {record} is not in whole millimetres")
    ends = zip((stops - counts).tolist(), stops.tolist())
    return [whole[begin + 1 : stop][::-1] for begin, stop in ends]
