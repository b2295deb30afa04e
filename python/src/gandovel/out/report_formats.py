"""A report as one JSON object and as a table, for other programs; the keys are told in `docs/python.md`."""
from __future__ import annotations

import csv
import io
import json
from typing import Any, Dict, List, Sequence

import numpy as np

from ..errors import Refused
from ..program.tool import program_version
from ..reading.prepared import OUT_ROW, Prepared
from .known import identities
from .fault_frames import AREAS
from .report import Report

FAULT_KEYS = (
    "kind",
    "layer",
    "island",
    "area2_mm2",
    "area2_most_mm2",
    "area_m2",
    "area_how",
    "area",
    "unit",
    "depth",
    "numbers",
    "numbers_how",
    "touched",
)


def answer_of(report: Report, prepared: Prepared) -> Dict[str, Any]:
    """What a report says, as a dictionary that JSON can write: the faults with the largest area first."""
    told = prepared.told
    return {
        "program": program_version(),
        "verdict": report.verdict.value,
        "basis": report.basis.told(),
        "parcels": len(prepared.numbers),
        "rings": sum(row != OUT_ROW for island in prepared.islands for row in island.parcels.source),
        "islands": len(prepared.islands),
        "city": {"from": told["city"], "islands": len(prepared.islands)},
        "grid_mm": told["grid_mm"],
        "touch_mm": told["touch"],
        "unit": {
            "name": prepared.unit.name,
            "metres": prepared.unit.millimetres / 1000,
            "how": prepared.unit.how,
            "area_factor": prepared.unit.area_factor,
        },
        "counts": counts_of(report, prepared),
        "faults": faults_of(report),
        "touched": {"corners": told["touched"], "largest_mm": told["largest_touch"], "closed_m2": told["closed_m2"]},
        "skipped": [
            {"layer": one.role, "number": one.number, "reason": one.reason, "x": one.x, "y": one.y}
            for one in prepared.skipped
        ],
        "lost": prepared.lost,
        "split": [
            {"number": number, "zones": zones.split(",")}
            for number, zones in zip(report.split_table.columns["number"], report.split_table.columns["zones"])
        ],
        "pairs": [dict(zip(("number", "zone", "split", "area2_mm2"), pair)) for pair in report.pairs],
    }


def counts_of(report: Report, prepared: Prepared) -> Dict[str, int]:
    """How many there are of each kind."""
    return {
        "gaps": len(report.gaps),
        "overlaps": len(report.overlaps),
        "beyond": len(report.outside),
        "open_gaps": len(report.open_gaps),
        "slivers": len(report.slivers),
        "touched": prepared.told["touched"],
        "moved": prepared.told["moved"],
        "skipped": len(prepared.skipped),
        "split": len(report.split_table.columns),
    }


def faults_of(report: Report) -> List[Dict[str, Any]]:
    """Gaps, overlaps, what lies beyond the city, open gaps and slivers, each as a dictionary; the largest area
    first."""
    frame = report.faults()
    found = []
    rows = frame[list(FAULT_KEYS)].to_dict("records")
    for identity, row, shape in zip(identities(report), rows, frame.geometry):
        inside = shape.representative_point()
        numbers = [number for number in row["numbers"].split(",") if number]
        areas = {name: str(row[name]) for name in AREAS}
        found.append(
            {
                "id": identity,
                **row,
                **areas,
                "numbers": numbers,
                "x": inside.x,
                "y": inside.y,
                "bounds": list(shape.bounds),
            }
        )
    return found


def refusal_of(refused: Refused) -> Dict[str, Any]:
    """A refusal as a dictionary: all that is refused at once."""
    return {"refused": [one.record_of() for one in refused.all]}


def json_of(told: Dict[str, Any]) -> str:
    """One line of JSON; what is no number in it is null."""
    return json.dumps(told, ensure_ascii=False, allow_nan=False, default=_plain)


def _plain(value: Any) -> Any:
    return value.item() if isinstance(value, np.generic) else str(value)


def faults_csv(report: Report) -> str:
    """The faults as a table with a line of names, the largest area first; numbers are separated by spaces."""
    rows = faults_of(report)
    keys = [*FAULT_KEYS, "x", "y"]
    return csv_of(keys, [[" ".join(row[key]) if key == "numbers" else row[key] for key in keys] for row in rows])


def csv_of(columns: Sequence[str], rows: Sequence[Sequence[Any]]) -> str:
    """A table with a line of names."""
    text = io.StringIO()
    writer = csv.writer(text, lineterminator="\n")
    writer.writerow(columns)
    writer.writerows(rows)
    return text.getvalue()
