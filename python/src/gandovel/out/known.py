"""Faults that are known: those of an earlier report, by their identities (`faults.identity`)."""
from __future__ import annotations

import json
import os
from pathlib import Path
from typing import Any, List, Set, Union

import fiona

from ..errors import Refused
from ..faults.identity import identity_of
from ..reading.sources import read_layer
from .report import Report

LAYERS = {"gaps": "gap", "overlaps": "overlap", "beyond": "beyond", "open_gaps": "open_gap", "slivers": "sliver"}
"""The layers of a report that have faults, and the kind of these."""


def identities(report: Report) -> List[str]:
    """The identity of each of a report's faults, in the order of `Report.faults`."""
    frame, scale = report.faults(), report.prepared.scale
    columns = zip(frame["kind"], frame["layer"], frame.geometry)
    return [identity_of(kind, layer, shape, scale) for kind, layer, shape in columns]


def known_faults(path: Union[str, "os.PathLike[str]"], millimetres: float) -> Set[str]:
    """The identities of an earlier report's faults: of a report (GeoPackage), what `--json` printed, or a certificate.

    `millimetres` are those in a unit of the layer. Refused P1 where it is none of these.
    """
    try:
        if Path(path).suffix.lower() == ".gpkg":
            return _of_report(path, millimetres)
        told = json.loads(Path(path).read_text(encoding="utf-8"))
        return {one if isinstance(one, str) else str(one["id"]) for one in told["faults"]}
    except Refused:
        raise
    except (OSError, ValueError, KeyError, TypeError, fiona.errors.FionaError) as fault:
        text = "a report (.gpkg), what `check --json` printed, or a certificate"
        raise Refused("P1", f"{path} has no faults that are known: give {text} ({fault})") from fault


def _of_report(path: Union[str, "os.PathLike[str]"], millimetres: float) -> Set[str]:
    found: Set[str] = set()
    names: List[Any] = fiona.listlayers(str(path))
    if "gaps" not in names:
        raise ValueError("it has no layer gaps")
    for name, kind in LAYERS.items():
        if name in names:
            frame = read_layer(path, "faults", name)
            found |= {identity_of(kind, layer, it, millimetres) for layer, it in zip(frame["layer"], frame.geometry)}
    return found
