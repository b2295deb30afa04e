"""Overlays of some parcels with the whole zones near them: in a frame around both, which rows of no one fill.

So no zone is cut where a layer is. What is more than one run takes goes into shares.
"""
from __future__ import annotations

from pathlib import Path
from typing import List, Sequence, Tuple

import numpy as np

from ..arrays import Array
from ..program.layer_files import write_rings
from ..program.untiled_overlays import filled
from . import A_DISTRICT, MOST_IN_ALL
from .cutting import boxes_of
from .runs import Run

A_SHARE, CORNERS_OF_A_SHARE = A_DISTRICT, MOST_IN_ALL * 9 // 10
"""The most rings of a layer, and corners, in one overlay: what fills the rest has some, too."""

MARGIN = 1_000
"""How far around what it has a frame is, in mm."""


def near_rows(rows: Array, boxes: Array, around: Array) -> Array:
    """Those of some rows whose boxes have a common point inside with the box around others."""
    if not len(around):
        return rows[:0]
    low, high = around[:, :2].min(axis=0), around[:, 2:].max(axis=0)
    near = (boxes[rows, :2] < high).all(axis=1) & (boxes[rows, 2:] > low).all(axis=1)
    return np.asarray(rows[near])


def shares_of(rows: Array, boxes: Array, corners: Array) -> List[Array]:
    """Some rows in shares that one run takes beside what fills the rest, halved across their longer extent."""
    if len(rows) < 2 or (len(rows) <= A_SHARE and int(corners[rows].sum()) <= CORNERS_OF_A_SHARE):
        return [rows] if len(rows) else []
    middles = boxes[rows, :2] + boxes[rows, 2:]
    order = rows[np.argsort(middles[:, int(np.ptp(middles, axis=0).argmax())], kind="stable")]
    halves = order[: len(order) // 2], order[len(order) // 2 :]
    return [share for half in halves for share in shares_of(np.sort(half), boxes, corners)]


def write_overlay(
    folder: Path,
    layers: List[List[Array]],
    rows: List[List[int]],
    rounds: List[List[List[int]]],
    words: Sequence[str] = (),
) -> List[Tuple[Run, List[int], List[int]]]:
    """Writes a district's rounds; its runs, with these words more, each with the rows of its first parcels and
    zones."""
    folder.mkdir()
    corners = boxes_of([ring for layer in layers for ring in layer])
    (x0, y0), (x1, y1) = corners[:, :2].min(axis=0) - MARGIN, corners[:, 2:].max(axis=0) + MARGIN
    frame = np.array([(x0, y0), (x1, y0), (x1, y1), (x0, y1)], dtype=np.int64)
    write_rings(folder / "city.shp", [frame])
    for name, rings, several in zip(("parcels", "zones"), layers, rounds):
        for at, some in enumerate(several):
            write_rings(folder / f"{name}_{at}.shp", filled(frame, [rings[row] for row in some]))
    runs = []
    for i, some in enumerate(rounds[0]):
        for j, others in enumerate(rounds[1]):
            files = (str(folder / name) for name in ("city.shp", f"parcels_{i}.shp", f"zones_{j}.shp"))
            paths = tuple(files)
            run = Run(f"{folder.name}-{i}-{j}", ("overlay", *paths, "--unit", "mm", *words, "--workers", "1"), paths)
            runs.append((run, [rows[0][at] for at in some], [rows[1][at] for at in others]))
    return runs
