"""What the package answers where it has no command for it: run by the package's own Python, never by QGIS.

`answer.py REQUEST.json`: the request has `do` (prepare, locate, apply, compare), paths of layers, and options of
`gandovel.prepare`. One JSON object is printed; a refusal is `{"refused": [..]}`, status 1.
"""
from __future__ import annotations

import csv
import json
import sys
from collections import Counter, defaultdict
from pathlib import Path
from typing import Any, Callable, Dict, List, Sequence, Tuple

import gandovel as gv
import geopandas as gpd
import numpy as np
import pandas as pd
from gandovel.errors import Refused, raise_all
from gandovel.out.gpkg import write_layers
from gandovel.exact.grid import without_straight
from gandovel.reading.prepared import Island, Prepared
from gandovel.progress import Progress
from gandovel.program.untiled_overlays import area_polygons
from gandovel.reading.sources import read_layer
from shapely.geometry import MultiPolygon

Request = Dict[str, Any]
Answer = Dict[str, Any]
Ring = Any
"""A ring's corners, int64 of shape (k, 2), in mm."""
Canonical = Any
"""What two sets of rings have in common just if they cover the same: the corners of polygons, without straight ones."""
LOCATED, PREPARED = ("where", "numbers", "moved_mm", "moved_how"), ("island", "records")
"""Columns that are added to those of the user's points, and of the user's parcels."""
FARTHEST = 1e12
"""How far out (in the layer's unit) a point may lie: farther ones are in no layer, and in no 64 bits of millimetres."""
MOST_TRIES = 3
MOST_NEW_OF_AN_EDIT = 2


def prepared_of(request: Request, progress: Progress) -> Prepared:
    """The layers of a request, prepared."""
    return gv.prepare(request["parcels"], number=request["number"], progress=progress, **(request.get("options") or {}))


def do_prepare(request: Request, progress: Progress) -> Answer:
    """Layers `parcels` (with neighbours' corners) and `changes` in `out`; and the folder that is named."""
    prepared = prepared_of(request, progress)
    progress.step("writing")
    if request.get("folder"):
        prepared.save(request["folder"])
    changes = prepared.changes_frame()
    write_layers(request["out"], [("parcels", with_corners(prepared)), ("changes", changes)])
    return {"summary": prepared.summary(), "islands": len(prepared.islands)}


def with_corners(prepared: Prepared) -> gpd.GeoDataFrame:
    """The parcels as they are on the grid, holes and parts and all, with `island` and `records` of the program."""
    rings: Dict[int, List[Ring]] = defaultdict(list)
    records: Dict[int, List[str]] = defaultdict(list)
    islands: Dict[int, int] = {}
    for at, island in enumerate(prepared.islands, 1):
        for record, (ring, row) in enumerate(zip(island.parcels.rings, island.parcels.source), 1):
            rings[row].append(ring)
            records[row].append(str(record))
            islands.setdefault(row, at)
    rows = [row for row in range(len(prepared.numbers)) if rings[row]]
    attributes = pd.DataFrame(prepared.parcels.drop(columns=prepared.parcels.geometry.name)).iloc[rows]
    attributes = beside(attributes, PREPARED)
    attributes = attributes.reset_index(drop=True)
    attributes["island"] = [islands[row] for row in rows]
    attributes["records"] = [",".join(records[row]) for row in rows]
    shapes = [shape_of(prepared, rings[row]) for row in rows]
    return gpd.GeoDataFrame(attributes, geometry=shapes, crs=prepared.crs)


def shape_of(prepared: Prepared, rings: Sequence[Ring]) -> Any:
    """Rings in mm, which touch along cuts, as a multipolygon in the layer's projection."""
    polygons = area_polygons(rings) if len(rings) > 1 else [(rings[0], [])]
    return MultiPolygon([prepared.polygon(outer, holes) for outer, holes in polygons])


def do_locate(request: Request, progress: Progress) -> Answer:
    """The layer `points` in `out`, and how many lie inside, on an edge and outside."""
    prepared = prepared_of(request, progress)
    points = beside(read_layer(request["points"], "points"), LOCATED)
    singles = singles_of(points)
    progress.step("asking where the points lie")
    located = gv.locate(prepared, points.set_geometry(singles, crs=points.crs)).set_geometry(points.geometry)
    own = set(located.columns) - set(points.columns) - set(LOCATED)  # the own column, which `numbers` has
    write_layers(request["out"], [("points", located.drop(columns=own))])
    counts = Counter(located["where"])
    return {"counts": {where: counts.get(where, 0) for where in ("inside", "edge", "outside")}}


def singles_of(points: gpd.GeoDataFrame) -> List[Any]:
    """Each row's one point. Refuses all rows that have none, each by its row: `number` is the row, from 1."""
    problems = []
    singles = [single_of(point) for point in points.geometry]
    for row, point in enumerate(singles, 1):
        code, text = fault_of_point(point)
        if code:
            problems.append(Refused(code, text, "points", number=str(row)))
    raise_all(problems, "mend these points, or select the others and locate the selected ones alone")
    return singles


def single_of(point: Any) -> Any:
    """The point of a multipoint that has only one; any other shape as it is."""
    parts = getattr(point, "geoms", ())
    return parts[0] if len(parts) == 1 else point


def fault_of_point(point: Any) -> Tuple[str, str]:
    """Code and text of what keeps a point from being looked for; both empty where nothing does."""
    if point is None or point.is_empty:
        return "P4", "it has no geometry"
    if point.geom_type != "Point":
        return "P5", f"it is a {point.geom_type} and no single point"
    if not np.isfinite([point.x, point.y]).all():
        return "P6", "it has a coordinate that is no number"
    if max(abs(point.x), abs(point.y)) > FARTHEST:
        return "P9", "it lies too far out"
    return "", ""


def beside(frame: gpd.GeoDataFrame, added: Sequence[str]) -> gpd.GeoDataFrame:
    """The frame with an underscore behind those of its columns whose names are those of columns to be added."""
    used = {str(name).lower() for name in frame.columns} | {name.lower() for name in added}
    renamed = {}
    for name in frame.columns:
        if str(name).lower() in {one.lower() for one in added}:
            renamed[name] = f"{name}_"
            while renamed[name].lower() in used:
                renamed[name] += "_"
            used.add(renamed[name].lower())
    return frame.rename(columns=renamed)


def do_apply(request: Request, progress: Progress) -> Answer:
    """The layer `parcels` in `out` after the edits of a clerk's file, and the answer to each edit."""
    path = Path(request["edits"])
    try:
        lines = path.read_bytes().decode("utf-8").splitlines()
    except (OSError, UnicodeDecodeError) as fault:
        raise Refused("P1", f"{path} can't be read: {fault}", "edits") from fault
    prepared = prepared_of(request, progress)
    if request["island"] > len(prepared.islands):
        raise Refused(
            "P13", f"part {request['island']} of the city is not there: it has {len(prepared.islands)}", "parcels"
        )
    edits = [(at, line) for at, line in enumerate(lines, 1) if is_edit(at, line)]
    progress.step("applying the edits")
    frame = gv.apply(prepared, lines, island=request["island"], refused="keep")
    write_layers(request["out"], [("parcels", frame)])
    answers = zip(edits, frame.attrs["answers"])
    return {
        "answers": [
            {"line": at, "edit": line, "made": int(answer.startswith("ok")), "answer": answer}
            for (at, line), answer in answers
        ]
    }


def is_edit(at: int, line: str) -> bool:
    """Whether a line of a clerk's file, number `at` from 1, is answered."""
    return bool(line) and not line.startswith("#") and not (at == 1 and line == "grid cm")


def do_compare(request: Request, progress: Progress) -> Answer:
    """The layer `compared` in `out`: each parcel with its state in a running session, and the new ones there."""
    prepared = prepared_of(request, progress)
    if request["island"] > len(prepared.islands):
        raise Refused(
            "P13", f"part {request['island']} of the city is not there: it has {len(prepared.islands)}", "parcels"
        )
    island = prepared.islands[request["island"] - 1]
    ids, last = ids_of(request, prepared, island)
    progress.step("asking the session")
    desk_path = request["desk"]
    for end in (".in", ".out"):
        if desk_path.endswith(end):
            desk_path = desk_path[: -len(end)]
    with gv.Desk.at(desk_path, request["timeout"]) as desk:
        entries, former, fresh = outlines_at(desk, ids, last)
    progress.step("comparing")
    own: Dict[str, List[Ring]] = defaultdict(list)
    for ring, row in zip(island.parcels.rings, island.parcels.source):
        own[prepared.number_of(row)].append(ring)
    rows = [compared(prepared, number, ids[number], rings, former) for number, rings in own.items() if number in ids]
    rows += [new_row(prepared, one) for one in fresh]
    columns = ["state", "number", "ids", "area2_mm2", "former_area2_mm2", "entries", "geometry"]
    for row in rows:
        row["entries"] = entries
    frame = gpd.GeoDataFrame(pd.DataFrame(rows, columns=columns), geometry="geometry", crs=prepared.crs)
    write_layers(request["out"], [("compared", frame)])
    counts = Counter(frame["state"])
    return {
        "entries": entries,
        "counts": {state: counts.get(state, 0) for state in ("same", "moved", "retired", "new")},
    }


def ids_of(request: Request, prepared: Prepared, island: Island) -> Tuple[Dict[str, List[int]], int]:
    """The ids of each number at the session's start, and the greatest: by rows.csv, else by the layer's rows."""
    found: Dict[str, List[int]] = defaultdict(list)
    last = len(island.parcels.rings)
    if not request.get("rows"):
        for record, row in enumerate(island.parcels.source, 1):
            found[prepared.number_of(row)].append(record)
        return dict(found), last
    try:
        with open(request["rows"], newline="", encoding="utf-8") as file:
            lines = list(csv.reader(file))[1:]
        for line in lines:
            found[line[1]].append(int(line[0]))
        last = max(int(line[0]) for line in lines)
    except (OSError, ValueError, IndexError) as fault:
        raise Refused("P1", f"{request['rows']} is no rows.csv that prepare wrote: {fault}") from fault
    missing = [number for number in prepared.numbers if number not in found]
    if missing:
        raise Refused(
            "P13", "it is not in rows.csv: the session began with another layer", "parcels", number=missing[0]
        )
    return dict(found), last


def outlines_at(desk: Any, ids: Dict[str, List[int]], last: int) -> Tuple[int, Dict[int, Any], List[Any]]:
    """After how many entries, the outline of each id (None where it is retired), and those of new parcels."""
    for _ in range(MOST_TRIES):
        entries = desk.entries()
        former = {one: desk.parcel(one) for several in ids.values() for one in several}
        fresh = [desk.parcel(one) for one in range(last + 1, last + 1 + MOST_NEW_OF_AN_EDIT * entries)]
        if desk.entries() == entries:
            return entries, former, [one for one in fresh if one is not None]
    raise Refused("T4", "the session was edited while it was asked, three times: try again when it is quieter")


def compared(
    prepared: Prepared, number: str, ids: Sequence[int], rings: Sequence[Ring], former: Dict[int, Any]
) -> Answer:
    """A row for a parcel of the layer: its state in the session."""
    outlines = [former[one] for one in ids]
    mine = canonical(rings)
    row = {"number": number, "ids": ",".join(map(str, ids)), "former_area2_mm2": str(area2_of(mine))}
    if any(one is None for one in outlines):
        return {**row, "state": "retired", "area2_mm2": None, "geometry": shape_of(prepared, rings)}
    now = [one.ring for one in outlines]
    state = "same" if canonical(now) == mine else "moved"
    area2 = str(sum(one.area2 for one in outlines))
    return {**row, "state": state, "area2_mm2": area2, "geometry": shape_of(prepared, now)}


def new_row(prepared: Prepared, outline: Any) -> Answer:
    """A row for a parcel that edits brought."""
    return {
        "state": "new",
        "number": None,
        "ids": str(outline.id),
        "area2_mm2": str(outline.area2),
        "former_area2_mm2": None,
        "geometry": MultiPolygon([prepared.polygon(outline.ring)]),
    }


def canonical(rings: Sequence[Ring]) -> Canonical:
    """What the rings cover, exactly: the same however it is cut, and wherever straight corners are."""
    loops = []
    for outer, holes in area_polygons(rings):
        for loop in (outer, *holes):
            corners = [tuple(corner) for corner in without_straight(np.asarray(loop, dtype=np.int64)).tolist()]
            first = corners.index(min(corners))
            loops.append(tuple(corners[first:] + corners[:first]))
    return tuple(sorted(loops))


def area2_of(loops: Canonical) -> int:
    """Twice the area in mm2, exact."""
    return sum(
        x * y_next - x_next * y for loop in loops for (x, y), (x_next, y_next) in zip(loop, (*loop[1:], loop[0]))
    )


DOES: Dict[str, Callable[[Request, Progress], Answer]] = {
    "prepare": do_prepare,
    "locate": do_locate,
    "apply": do_apply,
    "compare": do_compare,
}


def main(path: str) -> int:
    """Answers a request; the status."""
    request = json.loads(Path(path).read_text(encoding="utf-8"))
    progress = Progress(shown=True)
    try:
        print(json.dumps(DOES[request["do"]](request, progress)))
        return 0
    except Refused as refused:
        print(json.dumps({"refused": [one.record_of() for one in refused.all]}))
        return int(refused.status)
    except MemoryError:
        print("error: no memory", file=sys.stderr)
        return 1
    finally:
        progress.close()


if __name__ == "__main__":
    sys.exit(main(sys.argv[1]))
