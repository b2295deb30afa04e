"""Checks parcels while they are edited: a process of the package's own Python, which QGIS asks line by line.

`live.py REQUEST.json` reads the layer once. Each line of standard input is `{"version": n, "changed": [[feature,
number, shape as hexadecimal WKB or null], ..]}`, and each line of standard output one answer of JSON: the faults that
are gone, by their keys, and those that came. The arithmetic is that of the package; the verdict stays the program's.
"""
from __future__ import annotations

import json
import sys
import time
from pathlib import Path
from typing import Any, Dict, List

sys.path.insert(0, str(Path(__file__).resolve().parent))

from neighbourhood import Neighbourhood, NotLocal  # noqa: E402
from gandovel.errors import Refused  # noqa: E402

Answer = Dict[str, Any]


def loaded(request: Answer) -> Neighbourhood:
    """The layer of a request: `parcels`, `number`, `fids`, and with `city` its outline; `options` of the
    preparation."""
    return Neighbourhood.read(
        request["parcels"], request["number"], request["features"], request.get("city"), request.get("options") or {}
    )


def changes_of(line: str) -> "tuple[int, List[Any]]":
    """The version and the changes of a line."""
    asked = json.loads(line)
    return int(asked["version"]), asked["changed"]


def answered(place: Neighbourhood, version: int, changed: List[Any]) -> Answer:
    """The answer to changes: the faults that went and came; or what is refused, with the features; or that the whole
    layer has to be checked again."""
    begun = time.process_time()
    if place.lost:
        return {"version": version, "again": place.lost}
    try:
        gone, came = place.change(changed)
    except NotLocal as reason:
        place.lost = str(reason)
        return {"version": version, "again": place.lost}
    except Refused as refused:
        return {"version": version, "refused": [one.record_of() for one in refused.all]}
    seconds = time.process_time() - begun
    return {"version": version, "gone": gone, "came": came, "seconds": seconds}


def say(answer: Answer) -> None:
    """Prints one line."""
    print(json.dumps(answer), flush=True)


def main(path: str) -> int:
    """Loads the layer, and answers until the input ends; the status."""
    try:
        place = loaded(json.loads(Path(path).read_text(encoding="utf-8")))
    except Refused as refused:
        say({"version": -1, "refused": [one.record_of() for one in refused.all]})
        return 1
    except NotLocal as reason:
        say({"version": -1, "again": str(reason)})
        return 1
    say({"version": 0, "gone": [], "came": place.all_faults(), "ready": True})
    for line in sys.stdin:
        say(answered(place, *changes_of(line)))
    return 0


if __name__ == "__main__":
    sys.exit(main(sys.argv[1]))
