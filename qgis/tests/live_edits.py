"""Random edits, judged by the neighbourhood and by the whole program: run by the package's own Python.

`live_edits.py agree SEED EDITS FOLDER [city]` prints how often both were compared, and how often the neighbourhood was
too small; it fails where they differ. `live_edits.py speed SIDE FOLDER` prints the seconds of a change among SIDE times
SIDE parcels.
"""
from __future__ import annotations

import json
import random
import sys
import time
from pathlib import Path
from typing import Any, Dict, List, Optional, Tuple

import gandovel as gv
import geopandas as gpd
from layers_made import CRS, turned
from shapely.geometry import Polygon, box
from shapely.ops import unary_union

sys.path.insert(0, str(Path(__file__).resolve().parents[1] / "gandovel/package_side"))
from neighbourhood import Neighbourhood, NotLocal  # noqa: E402

AT_ONCE = 5
"""How many edits there are between two verdicts of the program."""
MOST_FAULTS = 40
"""With so many faults the layer is made anew."""
Shapes = Dict[int, Polygon]


def rounded(shape: Polygon, digits: int = 3) -> Polygon:
    """The shape with coordinates as files have them."""
    return Polygon([(round(x, digits), round(y, digits)) for x, y in shape.exterior.coords[:-1]])


def made(rows: int, columns: int) -> Shapes:
    """Parcels in rows whose sides do not meet, by features from 1."""
    shapes: Shapes = {}
    for row in range(rows):
        cuts = [0.0, *(17.0 * (at + 0.3 * ((row * 7 + at * 3) % 5) / 5) for at in range(1, columns)), 17.0 * columns]
        for left, right in zip(cuts, cuts[1:]):
            shapes[len(shapes) + 1] = rounded(turned(box(left, row * 30.0, right, row * 30.0 + 30.0)))
    return shapes


def frame_of(shapes: Shapes) -> gpd.GeoDataFrame:
    """A layer of shapes."""
    numbers = [str(feature) for feature in shapes]
    return gpd.GeoDataFrame({"parcel_no": numbers}, geometry=list(shapes.values()), crs=CRS)


def place_of(shapes: Shapes, folder: Path, city: Optional[Polygon] = None, **options: Any) -> Any:
    """A neighbourhood of a layer."""
    frame_of(shapes).to_file(folder / "parcels.gpkg", driver="GPKG")
    path = None
    if city is not None:
        path = str(folder / "city.gpkg")
        gpd.GeoDataFrame(geometry=[city], crs=CRS).to_file(path, driver="GPKG")
    return Neighbourhood.read(str(folder / "parcels.gpkg"), "parcel_no", list(shapes), path, options)


Told = List[Tuple[str, str, Tuple[str, ...]]]


def told_live(place: Any) -> Told:
    """The faults that the neighbourhood tells."""
    faults = place.all_faults()
    return sorted((it["kind"], it["area2_mm2"], tuple(sorted(it["numbers"]))) for it in faults)


def told_whole(shapes: Shapes, touch: float, city: Optional[Polygon] = None) -> Told:
    """The faults that the program and the package tell of the whole layer."""
    around = None if city is None else gpd.GeoDataFrame(geometry=[city], crs=CRS)
    prepared = gv.prepare(frame_of(shapes), number="parcel_no", touch=touch, city=around)
    faults = gv.report(prepared).faults()
    columns = zip(faults["kind"], faults["area2_mm2"], faults["numbers"])
    return sorted((kind, str(area), tuple(sorted(numbers.split(",")))) for kind, area, numbers in columns)


def moved(shape: Polygon, corner: Tuple[float, float], to: Tuple[float, float]) -> Polygon:
    """The shape with a corner somewhere else."""
    return Polygon([to if here == corner else here for here in shape.exterior.coords[:-1]])


def edited(shapes: Shapes, chance: random.Random) -> Shapes:
    """What one edit of a clerk changes: features with their new shapes, None for those that are gone."""
    feature = chance.choice(list(shapes))
    shape = shapes[feature]
    x, y = chance.choice(shape.exterior.coords[:-1])
    far = chance.choice([0.0004, 0.003, 0.05, 0.4, 3.0, 9.0])
    to = (x + chance.uniform(-far, far), y + chance.uniform(-far, far))
    if chance.random() < 0.7:
        to = (round(to[0], 3), round(to[1], 3))
    kind = chance.random()
    if kind < 0.35:
        changed = {feature: moved(shape, (x, y), to)}
    elif kind < 0.6:
        changed = {at: moved(it, (x, y), to) for at, it in shapes.items() if (x, y) in it.exterior.coords[:]}
    elif kind < 0.7 and len(shapes) > 12:
        return {feature: None}  # type: ignore[dict-item]
    elif kind < 0.8:
        corners = shape.exterior.coords[:-1]
        changed = {feature: Polygon([corners[0], to, *corners[1:]])}
    elif kind < 0.9:
        changed = {max(shapes) + 1: rounded(box(x, y, x + far + 1, y + far + 1))}
    else:
        parts = unary_union([shape, shapes[chance.choice(list(shapes))]])
        changed = {feature: parts} if parts.geom_type == "Polygon" else {}
    return {at: it for at, it in changed.items() if it.is_valid and it.area > 0.5}


def hexed(changed: Shapes) -> List[Any]:
    """Changes as QGIS sends them."""
    return [(at, str(at), None if shape is None else shape.wkb_hex) for at, shape in changed.items()]


def agree(seed: int, edits: int, folder: Path, with_city: bool) -> Dict[str, int]:
    """Edits a layer at random, and compares kinds, exact areas and parcels of all faults, again and again."""
    chance, shapes = random.Random(seed), made(5, 5)
    city = rounded(unary_union(list(shapes.values())).convex_hull) if with_city else None
    place = place_of(shapes, folder, city)
    touch = place.touch
    compared = again = most = 0
    for count in range(edits):
        changed = edited(shapes, chance)
        shapes = {at: it for at, it in {**shapes, **changed}.items() if it is not None}
        try:
            place.change(hexed(changed))
        except NotLocal:
            place, again = place_of(shapes, folder, city, touch=touch), again + 1
        if count % AT_ONCE == AT_ONCE - 1:
            live, whole = told_live(place), told_whole(shapes, touch, city)
            assert live == whole, f"after {count + 1} edits: live {live}, whole {whole}"
            compared, most = compared + 1, max(most, len(live))
        if len(told_live(place)) > MOST_FAULTS:
            shapes = made(5, 5)
            place = place_of(shapes, folder, city, touch=touch)
    return {"compared": compared, "again": again, "most": most}


def speed(side: int, folder: Path) -> Dict[str, float]:
    """The seconds of a process that the load and a change take, the slowest of ten."""
    shapes = made(side, side)
    begun = time.process_time()
    place = place_of(shapes, folder)
    loaded, slowest = time.process_time() - begun, 0.0
    for count in range(10):
        feature = side * side // 2 + 3 * count
        corner = shapes[feature].exterior.coords[1]
        changed = {feature: moved(shapes[feature], corner, (corner[0] + 0.4, corner[1] + 0.3))}
        begun = time.process_time()
        place.change(hexed(changed))
        slowest = max(slowest, time.process_time() - begun)
    return {"load": loaded, "change": slowest, "faults": len(told_live(place))}


if __name__ == "__main__":
    if sys.argv[1] == "agree":
        print(json.dumps(agree(int(sys.argv[2]), int(sys.argv[3]), Path(sys.argv[4]), "city" in sys.argv[5:])))
    else:
        print(json.dumps(speed(int(sys.argv[2]), Path(sys.argv[3]))))
