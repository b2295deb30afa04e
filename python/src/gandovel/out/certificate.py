"""A verdict to sign off: what it stands on and what it says, as one JSON file that can be tried again.

`content_sha256` is the SHA-256 of the file without that key, as JSON with sorted keys and without spaces. So a change
of the file is found; who wrote it, is not: sign it with your own means where that matters.
"""
from __future__ import annotations

import hashlib
import json
import os
from pathlib import Path
from typing import Any, Dict, List, Optional, Union

from ..errors import Refused
from ..reading.prepare import prepare
from ..reading.prepared import Prepared
from ..whole_file import whole_file
from .known import identities
from .report import Report, report
from .report_formats import counts_of

KIND = "gandovel certificate 1"


def certificate_of(verdict: Report, prepared: Prepared) -> Dict[str, Any]:
    """A verdict as a certificate: basis, verdict, counts, and the faults by their identities."""
    told = {
        "kind": KIND,
        "basis": verdict.basis.told(),
        "verdict": verdict.verdict,
        "counts": counts_of(verdict, prepared),
        "faults": sorted(identities(verdict)),
    }
    return {**told, "content_sha256": _digest(told)}


def write_certificate(path: Union[str, "os.PathLike[str]"], verdict: Report, prepared: Prepared) -> None:
    """Writes a certificate whole or not at all. Refused P14 where it can't be written."""
    with whole_file(path) as aside:
        aside.write_text(json.dumps(certificate_of(verdict, prepared), indent=1, default=str) + "\n", encoding="utf-8")


def verify(path: Union[str, "os.PathLike[str]"]) -> List[str]:
    """What differs where the verdict of a certificate is tried again: one sentence each, none where all is the same.

    The layers are read anew from the paths that it names, with its options. Refused P1 where it is no certificate, or
    was changed; or names a layer that was no file.
    """
    told = _read(path)
    basis = told["basis"]
    layers = {one["role"]: one for one in basis["sources"]}
    if "parcels" not in layers or any(one["path"] is None for one in layers.values()):
        raise Refused("P1", f"{path} is of layers that were in memory and no files: check them again where they are")
    prepared = prepare(
        layers["parcels"]["path"],
        _path(layers, "zones"),
        city=_path(layers, "city"),
        layer=layers["parcels"]["layer"],
        zones_layer=layers.get("zones", {}).get("layer"),
        city_layer=layers.get("city", {}).get("layer"),
        neighbours=_path(layers, "neighbours"),
        neighbours_layer=layers.get("neighbours", {}).get("layer"),
        **basis["options"],
    )
    return _differences(told, certificate_of(report(prepared), prepared))


def _path(layers: Dict[str, Dict[str, Any]], role: str) -> Optional[str]:
    path: Optional[str] = layers[role]["path"] if role in layers else None
    return path


def _read(path: Union[str, "os.PathLike[str]"]) -> Dict[str, Any]:
    """A certificate's content. Refused P1 where it is none, or its digest is not that of its content."""
    try:
        told = json.loads(Path(path).read_text(encoding="utf-8"))
    except (OSError, ValueError) as fault:
        raise Refused("P1", f"{path} can't be read as a certificate: {fault}") from fault
    if not isinstance(told, dict) or told.get("kind") != KIND:
        raise Refused("P1", f"{path} is no certificate: give what `gandovel check --certificate FILE` wrote")
    content = {key: value for key, value in told.items() if key != "content_sha256"}
    if _digest(content) != told.get("content_sha256"):
        raise Refused("P1", f"{path} was changed after it was written: its content_sha256 is not that of its content")
    return told


def _differences(before: Dict[str, Any], now: Dict[str, Any]) -> List[str]:
    """What of a certificate differs from one of now; times aside."""
    old, new = before["basis"], json.loads(json.dumps(now["basis"], default=str))
    found = []
    for one, other in zip(old["sources"], new["sources"]):
        if one["sha256"] != other["sha256"]:
            found.append(f"{one['role']}: {one['path']} is another file: SHA-256 {other['sha256']}")
    for key in ("program", "package", "projection", "unit", "touch_mm", "touched", "moved"):
        if old[key] != new[key]:
            found.append(f"{key}: {_short(old[key])} then, {_short(new[key])} now")
    for key in ("verdict", "counts"):
        if before[key] != now[key]:
            found.append(f"{key}: {_short(before[key])} then, {_short(now[key])} now")
    gone, fresh = set(before["faults"]) - set(now["faults"]), set(now["faults"]) - set(before["faults"])
    if gone or fresh:
        found.append(f"faults: {len(gone)} are gone, {len(fresh)} are new")
    return found


def _short(value: Any) -> str:
    return value if isinstance(value, str) else json.dumps(value, sort_keys=True)


def _digest(content: Dict[str, Any]) -> str:
    text = json.dumps(content, sort_keys=True, separators=(",", ":"), default=str)
    return hashlib.sha256(text.encode()).hexdigest()
