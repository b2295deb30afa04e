"""What parcel_tool and the Python package say of a case: `python3 -m conformance.run -- python3 -m
conformance.gandovel_answers`. The program is `GANDOVEL_TOOL`, else the one that was built here."""

from __future__ import annotations

import json
import os
import re
import subprocess
import sys
from pathlib import Path
from typing import Any, Dict, List

ROOT = Path(__file__).resolve().parent.parent
TOOL = os.environ.get("GANDOVEL_TOOL", str(ROOT / "crates/parcel_tool/out/parcel_tool"))


def said(words: List[str], given: str = "") -> str:
    """What a program prints on standard output; of a refusal what it prints before it."""
    ran = subprocess.run(words, input=given, capture_output=True, text=True, check=False)
    if ran.returncode not in (0, 1):
        raise RuntimeError(ran.stderr)
    return ran.stdout


def exact(case: Dict[str, Any]) -> Dict[str, Any]:
    """The answers of parcel_tool. Areas of gaps and overlaps are the package's to say, which takes a corner beside a
    border for one on it unless it is told not to."""
    layers, unit = [case["city"], case["parcels"]], ["--unit", case["unit"]]
    tiles = said([TOOL, "check", *layers, *unit]).startswith("tiling ")
    areas = dict(line.split() for line in said([TOOL, "area", case["parcels"], *unit]).splitlines())
    answer: Dict[str, Any] = {"tiles": tiles, "area2": areas}
    if tiles:
        answer.update({"gaps_area2": "0", "beyond_area2": {}, "overlaps_area2": []})
        if "points" in case:
            lines = "".join(f"{x} {y}\n" for x, y in case["points"])
            located = said([TOOL, "locate", *layers, *unit, "--points", "-"], lines).splitlines()
            answer["points"] = [[int(x), int(y), text] for x, y, text in (line.split(" ", 2) for line in located)]
        if "zones" in case:
            areas_of = said([TOOL, "overlay", *layers, case["zones"], "--areas", *unit])
            rows = re.findall(r"^area (\d+) (\d+) (\d+)$", areas_of, re.M)
            answer["zones_area2"] = [[int(n), int(z), area] for n, z, area in rows]
    return answer


def kept(case: Dict[str, Any]) -> Dict[str, Any]:
    """The answer of the package, which is not given how far corners may be off."""
    os.environ["PYTHONPATH"] = str(ROOT / "python/src")
    words = [sys.executable, "-m", "gandovel", "check", case["parcels"], "--number", case["number"], "--json"]
    return {"faults": [[it["kind"], *it["numbers"]] for it in json.loads(said(words))["faults"]]}


def main() -> None:
    """Answers the case on standard input."""
    case = json.loads(sys.stdin.read())
    print(json.dumps(exact(case) if case["kind"] == "exact" else kept(case)))


if __name__ == "__main__":
    main()
