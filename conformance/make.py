#!/usr/bin/env python3
"""Makes the cases of this folder: layers whose answers are known without the programs that are tried on them.

    python3 -m conformance.make     at the top: writes conformance/cases.jsonl and conformance/layers/

The answers of the exact cases are computed by `reference`, in whole numbers and fractions. Those of the kept ones are
what was planted (`python/tests/planted.py`), which wants Debian's GeoPandas and GDAL.
"""

from __future__ import annotations

import json
import random
import subprocess
import sys
import tempfile
from fractions import Fraction
from pathlib import Path
from typing import Any, Dict, Iterator, List, Optional, Sequence, Tuple

from reference.draw import city, place, tiling
from reference.files import write_layer
from reference.layer import Refused, load, locate
from reference.overlays import pairs
from reference.plane import Corner, Ring, area2, levels_of, ring_fault, spans_at

HERE = Path(__file__).resolve().parent
LIMIT = 10**11
"""The farthest coordinate, in mm, that parcel_tool reads; every double up to there is exact."""
DRAWN, SIDE = 12, 9
"""How many cases are drawn, and on how wide a square: small, so that corners meet."""
FIRST_SEED_OF_KEPT, LEAST_FAULTS = 70_001, 5
"""The kept cases are of the first seed from here on, beside which no rule was made, with so many faults of both
kinds."""
SQUARE: Ring = [(0, 0), (100, 0), (100, 100), (0, 100)]
LEFT: Ring = [(0, 0), (60, 0), (60, 100), (0, 100)]
RIGHT: Ring = [(60, 0), (100, 0), (100, 100), (60, 100)]
Case = Tuple[str, str, Ring, List[Ring], List[Ring]]
WITHOUT_SHAPEFILE = ("arcs between neighbours",)
"""Ways of keeping a register that a shapefile has not: as chords, arcs that two parcels digitised differ."""


def moved(ring: Sequence[Corner], x: int, y: int, factor: int = 1) -> Ring:
    """The ring stretched and then moved."""
    return [(factor * a + x, factor * b + y) for a, b in ring]


def drawn_by_hand() -> Iterator[Case]:
    """Name, what is tried, city, parcels, zones."""
    west, east = [(0, 0), (80, 0), (70, 100), (0, 100)], [(80, 0), (100, 0), (100, 100), (70, 100)]
    yield "two", "two parcels that tile", SQUARE, [LEFT, RIGHT], [west, east]
    right = [[(60, 0), (100, 0), (100, 50), (60, 50)], [(60, 50), (100, 50), (100, 100), (60, 100)]]
    yield "t-junction", "a corner inside a neighbour's side", SQUARE, [LEFT, *right], [SQUARE]
    yield "gap", "a gap 1 mm wide", SQUARE, [LEFT, [(61, 0), (100, 0), (100, 100), (61, 100)]], []
    yield "overlap", "an overlap 1 mm wide", SQUARE, [LEFT, [(59, 0), (100, 0), (100, 100), (59, 100)]], []
    yield "missing", "a parcel that is missing", SQUARE, [LEFT, right[0]], []
    yield "twice", "the same parcel twice", SQUARE, [LEFT, RIGHT, RIGHT], []
    yield "beyond", "a parcel beyond the city", SQUARE, [LEFT, [(60, 0), (101, 0), (101, 100), (60, 100)]], []
    areas = [
        [(0, 0), (60, 0), (60, 50), (61, 50), (61, 100), (0, 100)],
        [(59, 0), (100, 0), (100, 100), (62, 100), (62, 50), (59, 50)],
    ]
    yield "areas-agree", "a gap and an overlap of the same area: the areas sum to the city's", SQUARE, areas, []
    around = [[(0, 0), (100, 0), (100, 20), (40, 20), (40, 80), (100, 80), (100, 100), (0, 100)]]
    inner = [[(40, 20), (70, 20), (70, 80), (40, 80)], [(70, 20), (100, 20), (100, 80), (70, 80)]]
    yield "around", "a parcel around others", SQUARE, around + inner, [LEFT, RIGHT]
    corner = [[(0, 0), (50, 0), (50, 50), (0, 50)], [(50, 50), (100, 50), (100, 100), (50, 100)]]
    others = [moved(corner[0], 50, 0), moved(corner[0], 0, 50)]
    yield "corner", "parcels and zones that touch in corners", SQUARE, corner + others, others + corner
    yield "corner-gap", "parcels that touch in a corner alone", SQUARE, corner, []
    low, high = [(0, 0), (100, 0), (100, 33), (0, 71)], [(0, 71), (100, 33), (100, 100), (0, 100)]
    slope = [[(0, 0), (100, 0), (0, 100)], [(100, 0), (100, 100), (0, 100)]]
    yield "diagonal", "zones that cross at no whole point", SQUARE, slope, [low, high]
    big = 10**9 + 7
    needle: Ring = [(0, 0), (big, 1), (big, big), (0, big)]
    below: Ring = [(0, 0), (big, 0), (big, 1)]
    whole: Ring = [(0, 0), (big, 0), (big, big), (0, big)]
    yield "needle", "a triangle 1,000 km long and 1 mm wide is a parcel", whole, [needle, below], []
    yield "needle-gap", "the same without that parcel", whole, [needle], []
    beside: Ring = [(0, 0), (big // 2, 1), (big, 1), (big, big), (0, big)]
    yield "off-the-line", "a corner half a millimetre off a neighbour's side", whole, [beside, below], []
    far = [moved(it, LIMIT - 100, LIMIT - 100) for it in (SQUARE, LEFT, RIGHT)]
    yield "far", "100,000 km from the origin", far[0], far[1:], far[:1]
    torn = moved([(61, 0), (100, 0), (100, 100), (61, 100)], LIMIT - 100, LIMIT - 100)
    yield "far-gap", "a gap of 1 mm there", far[0], [far[1], torn], []
    wide = [moved(it, -LIMIT, -LIMIT, 2 * 10**9) for it in (SQUARE, LEFT, RIGHT)]
    yield "widest", "the widest city that is read", wide[0], wide[1:], wide[1:]
    teeth: Ring = (
        [(0, 0), (100, 0), (100, 10)] + [(x, 90 if x % 20 == 10 else 10) for x in range(90, 0, -10)] + [(0, 10)]
    )
    above: Ring = [(100, 10), (100, 100), (0, 100), (0, 10)] + [
        (x, 90 if x % 20 == 10 else 10) for x in range(10, 100, 10)
    ]
    yield "comb", "a border of many teeth", SQUARE, [teeth, above], [LEFT, RIGHT]


def drawn_at_random() -> Iterator[Case]:
    """Cities that a generator cuts, at times with a corner that was moved."""
    for seed in range(DRAWN):
        chance = random.Random(seed)
        outline = city(chance, SIDE)
        rows, zones = tiling(chance, outline, SIDE, 8), tiling(chance, outline, SIDE, 3)
        where = place(chance, SIDE, LIMIT)
        parcels = [where.ring(it) for it in rows.values()]
        if seed % 3 == 2 and len(parcels) > 2:
            del parcels[chance.randrange(len(parcels))]
        zone_rings = [where.ring(it) for it in zones.values()] if seed % 3 != 2 else []
        yield f"drawn-{seed:02}", "drawn from a seed", where.ring(outline), parcels, zone_rings


def covered_area2(rings: Sequence[Ring], within: Ring) -> Fraction:
    """Twice the area of a ring that others cover: in each band between two levels height times covered width."""
    heights, total = levels_of([*rings, within]), Fraction(0)
    for low, high in zip(heights, heights[1:]):
        middle = (low + high) / 2
        spans = sorted(span for ring in rings for span in spans_at(ring, middle))
        for left, right in spans_at(within, middle):
            reached = left
            for begin, end in spans:
                begin, end = max(begin, reached), min(end, right)
                if end > begin:
                    total += 2 * (end - begin) * (high - low)
                    reached = end
    return total


def text_of(value: Fraction) -> str:
    """A whole number or a fraction, as text, which no reader rounds."""
    return str(value)


def points_of(outline: Ring, rings: Sequence[Ring]) -> List[Corner]:
    """Points that are asked for: corners, whole points on sides, and whole points inside and outside."""
    corners = sorted({p for ring in rings for p in ring})[:6]
    xs, ys = [p[0] for p in outline], [p[1] for p in outline]
    middle = ((min(xs) + max(xs)) // 2, (min(ys) + max(ys)) // 2)
    beside = [(corners[0][0] + 1, corners[0][1] + 1), (corners[-1][0], corners[-1][1] + 1)]
    outside = [(max(xs) + 1, min(ys)), (min(xs) - 1, min(ys))]
    return [it for it in dict.fromkeys([*corners, middle, *beside, *outside]) if max(map(abs, it)) <= LIMIT]


def exact_answer(outline: Ring, parcels: List[Ring], zones: List[Ring]) -> Dict[str, Any]:
    """What is right of the layers, in exact arithmetic."""
    rows = dict(enumerate(parcels, 1))
    try:
        layer = load(outline, list(rows.items()))
    except Refused:
        layer = None
    apart = {(n, m): it for (n, m), it in pairs(rows, rows).items() if n < m}
    inside = covered_area2(parcels, outline)
    answer: Dict[str, Any] = {
        "tiles": layer is not None,
        "area2": {str(n): text_of(Fraction(abs(area2(ring)))) for n, ring in rows.items()},
        "gaps_area2": text_of(area2(outline) - inside),
        "beyond_area2": {
            str(n): text_of(it)
            for n, ring in rows.items()
            if (it := abs(area2(ring)) - covered_area2([outline], ring)) > 0
        },
        "overlaps_area2": [[n, m, text_of(it)] for (n, m), it in apart.items()],
    }
    if layer is not None:
        whole = covered_area2([outline], outline)
        assert inside == whole == sum(area2(ring) for ring in parcels) and not apart
        answer["points"] = [[*p, locate(layer.rows, p)] for p in points_of(outline, parcels)]
        if zones:
            met = pairs(layer.rows, dict(enumerate(zones, 1)))
            answer["zones_area2"] = [[n, z, text_of(it)] for (n, z), it in met.items()]
    return answer


def write(name: str, role: str, rings: Sequence[Optional[Ring]]) -> str:
    """Writes a layer and its index; its path in this folder."""
    main, index = write_layer(list(rings))
    for ending, data in (("shp", main), ("shx", index)):
        (HERE / "layers" / f"{name}_{role}.{ending}").write_bytes(data)
    return f"layers/{name}_{role}.shp"


def exact_cases() -> Iterator[Dict[str, Any]]:
    """The cases in whole millimetres."""
    for name, tries, outline, parcels, zones in [*drawn_by_hand(), *drawn_at_random()]:
        for ring in [outline, *parcels, *zones]:
            fault = ring_fault(ring)
            assert fault is None, f"{name}: {fault}"
        files = {"city": write(name, "city", [outline]), "parcels": write(name, "parcels", parcels)}
        if zones:
            files["zones"] = write(name, "zones", zones)
        answer = exact_answer(outline, parcels, zones)
        given: Dict[str, Any] = {"case": name, "tries": tries, "kind": "exact", "unit": "mm", **files}
        if "points" in answer:
            given["points"] = [[x, y] for x, y, _ in answer["points"]]
        yield given | {"answer": answer}


def kept_cases() -> Iterator[Dict[str, Any]]:
    """Registers as registers are kept: rounded, reprojected, in feet; the answer is what was planted."""
    sys.path[:0] = [str(HERE.parent / "python/tests"), str(HERE.parent / "python/src")]
    import geopandas
    import planted

    seed = FIRST_SEED_OF_KEPT
    while True:
        faults = [it.kind for it in planted.drawn(seed, 0.01)[1]]
        if len(faults) >= LEAST_FAULTS and len(set(faults)) == 2:
            break
        seed += 1
    for way in (it for it in planted.CASES if it not in WITHOUT_SHAPEFILE):
        name = "kept-" + way.replace(" ", "-").lower()
        with tempfile.TemporaryDirectory() as folder:
            case = planted.case(way, seed, Path(folder))
            source = Path(folder) / "layer.gpkg"
            if isinstance(case.source, geopandas.GeoDataFrame):
                case.source.to_file(source, driver="GPKG")
            else:
                source = case.source
            words = ["ogr2ogr", "-overwrite", "-nlt", "CONVERT_TO_LINEAR", "-lco", "ENCODING=UTF-8"]
            out = HERE / "layers" / f"{name}_parcels.shp"
            subprocess.run(
                [*words, "-f", "ESRI Shapefile", str(out), str(source)], check=True, stderr=subprocess.DEVNULL
            )
        yield {
            "case": name,
            "tries": f"a register kept in this way: {way}",
            "kind": "kept",
            "parcels": f"layers/{name}_parcels.shp",
            "number": "parcel_no",
            "distance_mm": round(case.distance, 6),
            "answer": {"faults": [[it.kind, *it.numbers] for it in case.planted]},
        }


def main() -> int:
    """Writes all."""
    (HERE / "layers").mkdir(exist_ok=True)
    for path in (HERE / "layers").iterdir():
        path.unlink()
    cases = [*exact_cases(), *kept_cases()]
    (HERE / "cases.jsonl").write_text("".join(json.dumps(it) + "\n" for it in cases))
    print(f"{len(cases)} cases")
    return 0


if __name__ == "__main__":
    sys.exit(main())
