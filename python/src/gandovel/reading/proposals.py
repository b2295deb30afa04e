"""What each distance would give that is proposed where a layer's noise can't be told from its faults."""
from __future__ import annotations

from typing import Any, Callable, Dict

from ..errors import Refused
from .prepared import Prepared


def add_what_each_gives(prepared: Prepared, again: Callable[[float], Prepared]) -> None:
    """Adds to each proposal of an undecided register the gaps and overlaps that it would give: `gaps`, `overlaps`.

    `again` prepares the parcels once more with another distance (mm). Both are None where that is refused.
    """
    precision = prepared.told["precision"]
    if precision["how"] == "undecided":
        for one in precision["proposed"]:
            one.update(_given(again, one["touch_mm"]))


def _given(again: Callable[[float], Prepared], distance: float) -> Dict[str, Any]:
    from ..out.report import report  # it needs what this folder makes

    try:
        found = report(again(distance))
    except Refused:
        return {"gaps": None, "overlaps": None}
    return {"gaps": len(found.gaps) + len(found.open_gaps), "overlaps": len(found.overlaps) + len(found.outside)}
