"""What GEOS says of a case, by GeoPandas as its users write it: an example for a program of one's own.

    python3 -m conformance.run --within 1e-9 -- python3 -m conformance.geos_answers
"""

from __future__ import annotations

import json
import sys
from typing import Any, Dict, List, Tuple

import geopandas as gpd
from shapely.ops import unary_union


def read(path: str) -> Dict[int, Any]:
    """A layer's shapes by record number."""
    return dict(enumerate(gpd.read_file(path).geometry, 1))


def common(one: Dict[int, Any], other: Dict[int, Any]) -> List[Tuple[int, int, float]]:
    """Each two that have an area in common, with twice that area."""
    met = ((n, m, 2 * a.intersection(b).area) for n, a in one.items() for m, b in other.items() if a.intersects(b))
    return [it for it in met if it[2] > 0]


def exact(case: Dict[str, Any]) -> Dict[str, Any]:
    """Twice areas in mm² by unions, differences and intersections."""
    outline, parcels = read(case["city"])[1], read(case["parcels"])
    gaps = 2 * outline.difference(unary_union(list(parcels.values()))).area
    beyond = {str(n): 2 * it.difference(outline).area for n, it in parcels.items()}
    apart = [it for it in common(parcels, parcels) if it[0] < it[1]]
    answer: Dict[str, Any] = {
        "tiles": gaps == 0 and not apart and not any(beyond.values()),
        "area2": {str(n): 2 * it.area for n, it in parcels.items()},
        "gaps_area2": gaps,
        "beyond_area2": {n: it for n, it in beyond.items() if it > 0},
        "overlaps_area2": apart,
    }
    if "zones" in case:
        answer["zones_area2"] = common(parcels, read(case["zones"]))
    return answer


if __name__ == "__main__":
    given = json.loads(sys.stdin.read())
    print(json.dumps(exact(given) if given["kind"] == "exact" else {}))
