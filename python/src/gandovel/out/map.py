"""A page to look at a report: one HTML file with no outside reference, drawn by Leaflet and scripts of `map_page`."""
from __future__ import annotations

import base64
import html
import json
import os
import re
import sqlite3
import struct
from collections import defaultdict
from contextlib import closing
from fractions import Fraction
from pathlib import Path
from typing import Any, Dict, List, Optional, Sequence, Set, Tuple, Union

import numpy as np
from pyproj import CRS
from pyproj.exceptions import CRSError
from shapely.errors import ShapelyError

from ..errors import Refused
from ..shapes import MULTIPOLYGON, POLYGON, kind_of, rings_of, shapes_of, wkb_in
from ..whole_file import whole_file
from .verdict import Verdict

PAGE = Path(__file__).parent / "map_page"
TOLD_UNIT = re.compile(r"Unit \((?:told|of the projection)\): (?P<name>.+?), (?P<metres>[0-9.e+-]+) m;")
"""What a report says of its unit (`notes.unit_text`)."""
MILLIMETRES = 1000.0
MOST_MILLIMETRES = 2**31 - 1
STANDS_ON = "The verdict stands on: "
"""What a report says before its basis (`basis.Basis.text`)."""
UNDECIDED = "it can't be decided"
FAULT_LAYERS = ("gaps", "overlaps", "beyond", "open_gaps", "slivers")
FAULT_COLUMNS = ("area2_mm2", "area_m2", "numbers", "numbers_how", "layer")
COLUMNS: Dict[str, Sequence[str]] = {
    "parcels": ("number", "status"),
    "zones": ("number",),
    "touched": ("distance_mm",),
    "skipped": ("number", "reason"),
    **{name: FAULT_COLUMNS for name in FAULT_LAYERS},
}
"""What the page shows of each layer of a report. A column that is not there counts as empty."""
ABOUT = "SELECT description, last_change FROM gpkg_contents WHERE table_name = 'parcels'"
GEOMETRY = "SELECT column_name, srs_id FROM gpkg_geometry_columns WHERE table_name = ?"
SYSTEM = "SELECT definition FROM gpkg_spatial_ref_sys WHERE srs_id = ?"
Rings = List["np.ndarray[Any, Any]"]


def write_map(report: Union[str, Path], out: Union[str, Path]) -> None:
    """Writes the map of a report.

    `report` is a GeoPackage that `gandovel report` wrote: its layer `parcels`, and those of `zones`, `gaps`,
    `overlaps`, `beyond`, `open_gaps`, `slivers`, `touched`, `skipped`, `split` and `split_parts` that are there.
    `out` is the
    page, written under another name and then renamed. Coordinates are rounded to millimetres for the drawing. Areas of
    faults are the report's exact ones, and those of parts the report's, too; those of parcels and zones are measured by
    the page, and which parcels overlap by GEOS, which the page says. Refused P1 where the report is no such file, P14
    where the page can't be written.
    """
    page = page_of(Path(report))
    with whole_file(out) as aside:
        if os.path.exists(out) and os.path.samefile(report, out):
            raise Refused("P14", f"{out} is the report: give the page another name")
        aside.write_text(page, encoding="utf-8")


def page_of(report: Path) -> str:
    """The page's text. Refused P1 where the file is no report."""
    data = json.dumps(_data_of(report), separators=(",", ":")).replace("<", "\\u003c")
    title = html.escape(report.stem.encode("utf-8", "replace").decode("utf-8"))
    parts = {"TITLE": title, "STYLE": _text("page.css"), "DATA": data, "SHEET": _text("sheet.js")}
    parts = {**parts, "SCRIPT": _text("page.js"), **drawing_parts()}
    pieces = _text("page.html").split("@")
    return "".join(parts[piece] if at % 2 else piece for at, piece in enumerate(pieces))


def drawing_parts() -> Dict[str, str]:
    """What a page needs to draw parcels by `ParcelMap` (`map_page/drawing.js` says how): texts that load nothing.

    LEAFLET, RASTER and DRAWING are scripts, in this order, LEAFLET_STYLE is a style sheet, and LICENCE is Leaflet's.
    """
    script = re.sub(r"\n//# sourceMappingURL=\S*", "", _text("leaflet.min.js"))
    style = re.sub(r"(background-image|behavior):url\([^)]*\);?", "", _text("leaflet.css"))
    style = re.sub(r"\n/\*# sourceMappingURL=\S* \*/", "", style)
    return {
        "LEAFLET": script,
        "LEAFLET_STYLE": style,
        "LICENCE": _text("leaflet.licence.txt").rstrip(),
        "RASTER": _text("raster.js"),
        "DRAWING": _text("drawing.js"),
    }


def _text(name: str) -> str:
    """A file of `map_page`."""
    return (PAGE / name).read_text(encoding="utf-8")


# ---- the report


class _Layer:
    """A layer of a report: `columns` by name, each a list of texts, and `shapes`, the rings (k, 2) of each row."""

    def __init__(self, columns: Dict[str, List[Any]], shapes: List[Rings]) -> None:
        self.columns = columns
        self.shapes = shapes

    def __len__(self) -> int:
        return len(self.shapes)


def _data_of(report: Path) -> Dict[str, Any]:
    """The shapes and texts of the page."""
    if not report.is_file():
        raise Refused("P1", f"{report} is not there, or no file")
    try:
        with closing(sqlite3.connect(f"{report.resolve().as_uri()}?mode=ro", uri=True)) as connection:
            connection.text_factory = lambda text: text.decode("utf-8", "replace")
            layers = {name: _layer(connection, name, columns) for name, columns in COLUMNS.items()}
            unit, about = _unit(connection), connection.execute(ABOUT).fetchone()
            split = _table(connection, "split", ("number", "zones"))
            parts = _table(connection, "split_parts", ("number", "zone", "area_m2", "area_how"))
    except (sqlite3.Error, OSError) as fault:
        raise Refused("P1", f"{report} can't be read as a GeoPackage: {fault}") from fault
    kept = {name: layer for name, layer in layers.items() if layer is not None}
    if "parcels" not in kept:
        raise Refused("P1", f"{report} has no layer parcels: it is none of the files that gandovel report writes")
    told = _told(about, kept)
    _add_split(kept["parcels"], split, parts)
    _add_order(kept)
    metres = unit[1]
    low = _low(kept, report)
    _add_areas(kept, metres)
    return {
        "unit": {"name": unit[0], "metres": metres},
        "told": told,
        "low": [value * metres for value in low],
        "layers": {name: _packed(layer, low, metres, report) for name, layer in kept.items()},
    }


def _told(about: Optional[Tuple[Any, Any]], layers: Dict[str, _Layer]) -> Dict[str, str]:
    """The verdict in words, when it was written, and its basis, which an older report does not have."""
    description, time = (str(it or "") for it in about or ("", ""))
    basis = description.partition(STANDS_ON)[2]
    count = {name: len(layers[name]) if name in layers else 0 for name in FAULT_LAYERS}
    open_gaps = count.pop("open_gaps")
    verdict = Verdict.OPEN if open_gaps else Verdict.TILES
    if any(count.values()):
        verdict = Verdict.DOES_NOT_TILE
    if verdict is not Verdict.TILES and UNDECIDED in basis:
        verdict = Verdict.UNDECIDED
    return {"verdict": verdict.words, "time": time, "basis": basis}


def _unit(connection: sqlite3.Connection) -> Tuple[str, float]:
    """The name of the unit of the parcels' coordinates, and how many metres it is.

    As the report tells it in the description of its parcels; else that of the projection; else metres.
    """
    told = connection.execute("SELECT description FROM gpkg_contents WHERE table_name = 'parcels'").fetchone()
    found = TOLD_UNIT.search(str(told[0])) if told else None
    if found:
        return _short(found["name"]), float(found["metres"])
    row = connection.execute(GEOMETRY, ("parcels",)).fetchone()
    definition = connection.execute(SYSTEM, (row[1],)).fetchone() if row else None
    try:
        system = CRS.from_user_input(definition[0]) if definition else None
    except CRSError:
        return "m", 1.0
    if system is None or not system.axis_info or system.is_geographic:
        return "m", 1.0
    axis = system.axis_info[0]
    return _short(str(axis.unit_name)), float(axis.unit_conversion_factor)


def _short(name: str) -> str:
    return "m" if name == "metre" else name


def _columns_of(connection: sqlite3.Connection, name: str) -> Set[str]:
    """The columns of a table; none where there is no such table."""
    return {str(row[1]) for row in connection.execute(f'PRAGMA table_info("{name}")')}


def _table(connection: sqlite3.Connection, name: str, wanted: Sequence[str]) -> List[Tuple[Any, ...]]:
    """These columns of a layer's rows; no row where the layer or one of them is not there."""
    if not set(wanted) <= _columns_of(connection, name):
        return []
    names = ", ".join(f'"{column}"' for column in wanted)
    return connection.execute(f'SELECT {names} FROM "{name}"').fetchall()


def _layer(connection: sqlite3.Connection, name: str, wanted: Sequence[str]) -> Optional[_Layer]:
    """A layer of a report; None where it has none of this name. Refused P1 where a shape can't be read."""
    found = connection.execute(GEOMETRY, (name,)).fetchone()
    if found is None:
        return None
    there = _columns_of(connection, name)
    if name == "parcels" and "number" not in there:
        raise Refused("P1", "the layer parcels has no column number: it is none of those that gandovel report writes")
    names = [column for column in wanted if column in there]
    selected = ", ".join(f'"{column}"' for column in [found[0], *names])
    rows = connection.execute(f'SELECT {selected} FROM "{name}"').fetchall()
    columns: Dict[str, List[Any]] = {column: [""] * len(rows) for column in wanted}
    for at, column in enumerate(names, 1):
        columns[column] = ["" if row[at] is None else str(row[at]) for row in rows]
    shapes = []
    for at, row in enumerate(rows, 1):
        try:
            shapes.append(_rings(row[0]))
        except (struct.error, ValueError, IndexError, TypeError, ShapelyError) as fault:
            raise Refused("P1", f"the shape of row {at} can't be read: {fault}", role=name) from fault
    return _Layer(columns, shapes)


def _rings(blob: Optional[bytes]) -> Rings:
    """The rings of a GeoPackage's shape, each (k, 2) in the layer's unit and not closed; a point is one of one
    corner."""
    if blob is None:
        return []
    if blob[:2] != b"GP":
        raise ValueError("no shape of a GeoPackage")
    wkb = wkb_in(blob)
    if wkb[0] == 1 and kind_of(wkb) % 1000 in (POLYGON, MULTIPOLYGON):
        return [ring for rings in rings_of(wkb) for ring in _oriented([it[:-1] for it in rings if len(it) > 1])]
    return _rings_of_shape(shapes_of([wkb])[0])


def _rings_of_shape(shape: Any) -> Rings:
    """The rings of any shape of Shapely's; a line is taken as a ring."""
    if shape.is_empty:
        return []
    if hasattr(shape, "geoms"):
        return [ring for part in shape.geoms for ring in _rings_of_shape(part)]
    if shape.geom_type == "Polygon":
        return _oriented([np.asarray(ring.coords)[:-1, :2] for ring in (shape.exterior, *shape.interiors)])
    return [np.asarray(shape.coords)[:, :2]]


def _oriented(rings: Rings) -> Rings:
    """A polygon's rings, the outer one counterclockwise and the holes clockwise, so that their areas add up."""
    return [ring if (_area(ring) > 0) == (at == 0) else ring[::-1] for at, ring in enumerate(rings)]


def _area(ring: "np.ndarray[Any, Any]") -> float:
    """The area of a ring (k, 2), measured in floating point from its first corner; negative if clockwise."""
    x, y = (ring - ring[0]).T
    return float(x[:-1] @ y[1:] - x[1:] @ y[:-1]) / 2


def _add_areas(layers: Dict[str, _Layer], metres: float) -> None:
    """Gives parcels and zones `square_metres`, measured; `metres` is how long a unit of their coordinates is."""
    for name in ("parcels", "zones"):
        if name in layers:
            areas = [sum(map(_area, shape)) * metres**2 for shape in layers[name].shapes]
            layers[name].columns["square_metres"] = [area if np.isfinite(area) else 0.0 for area in areas]


def _add_split(parcels: _Layer, split: List[Tuple[Any, ...]], parts: List[Tuple[Any, ...]]) -> None:
    """Gives the parcels `zones` (text), `parts` (zone and area in m2) and `parts_how` (text), None if not split."""
    zones_of = {str(number): str(zones) for number, zones in split}
    parts_of: Dict[str, List[Tuple[str, float]]] = defaultdict(list)
    measured = {str(number) for number, _, _, how in parts if how != "proved"}
    for number, zone, area, _ in parts:
        if isinstance(area, (int, float)):
            parts_of[str(number)].append((str(zone), float(area)))
    numbers = parcels.columns["number"]
    parcels.columns["zones"] = [zones_of.get(number) for number in numbers]
    parcels.columns["parts"] = [parts_of.get(number) if number in zones_of else None for number in numbers]
    parcels.columns["parts_how"] = ["measured" if number in measured else "proved" for number in numbers]


def _add_order(layers: Dict[str, _Layer]) -> None:
    """Gives faults `numbers` as lists, `square_metres`, and `order`: 0 for the largest, of all layers of faults."""
    known = {name: _with_commas(layers.get(name)) for name in ("parcels", "zones")}
    areas: List[Tuple[Fraction, str, int]] = []
    for name in FAULT_LAYERS:
        if name not in layers:
            continue
        columns = layers[name].columns
        roles = ["zones" if layer == "zones" else "parcels" for layer in columns["layer"]]
        columns["numbers"] = [_numbers(text, known[role]) for text, role in zip(columns["numbers"], roles)]
        exact = [_area2(*texts) for texts in zip(columns["area2_mm2"], columns.pop("area_m2"))]
        columns["square_metres"] = [float(area / 2_000_000) for area in exact]
        columns["order"] = [0] * len(exact)
        areas += [(-area, name, row) for row, area in enumerate(exact)]
    for order, (_, name, row) in enumerate(sorted(areas)):
        layers[name].columns["order"][row] = order


def _area2(exact: str, rounded: str) -> Fraction:
    """Twice an area in mm2: of the exact text, else of square metres, else 0."""
    for text, factor in ((exact, 1), (rounded, 2_000_000)):
        try:
            return Fraction(text) * factor
        except (ValueError, ZeroDivisionError):
            continue
    return Fraction(0)


def _with_commas(layer: Optional[_Layer]) -> Set[str]:
    """The numbers of a layer that have commas in them."""
    return {number for number in layer.columns["number"] if "," in number} if layer is not None else set()


def _numbers(text: str, with_commas: Set[str]) -> List[str]:
    """The numbers of a text that separates them by commas, which some of them have themselves."""
    pieces, found, at = text.split(",") if text else [], [], 0
    while at < len(pieces):
        ends = range(min(len(pieces), at + 5), at + 1, -1) if with_commas else ()
        end = next((end for end in ends if ",".join(pieces[at:end]) in with_commas), at + 1)
        found.append(",".join(pieces[at:end]))
        at = end
    return found


# ---- what the page gets


def _low(layers: Dict[str, _Layer], report: Path) -> Tuple[float, float]:
    """The lower left corner of all layers, in their unit."""
    rings = [ring for layer in layers.values() for shape in layer.shapes for ring in shape]
    if not rings:
        return 0.0, 0.0
    low = np.concatenate(rings).min(axis=0)
    if not np.isfinite(low).all():
        raise Refused("P1", f"{report} has a coordinate that is no number")
    return float(low[0]), float(low[1])


def _packed(layer: _Layer, low: Tuple[float, float], metres: float, report: Path) -> Dict[str, Any]:
    """A layer as the page reads it: columns, and as base64 rings a row, corners a ring, and x, y in mm from `low`."""
    rings = [ring for shape in layer.shapes for ring in shape]
    places = np.rint((np.concatenate(rings) - low) * (metres * MILLIMETRES)) if rings else np.zeros((0, 2))
    if not (np.abs(places) <= MOST_MILLIMETRES).all():
        raise Refused("P1", f"{report} has places more than 2,000 km apart, or a coordinate that is no number")
    return {
        "columns": layer.columns,
        "rings": _base64([len(shape) for shape in layer.shapes]),
        "corners": _base64([len(ring) for ring in rings]),
        "places": _base64(places),
    }


def _base64(values: Any) -> str:
    """Whole numbers as little-endian int32, in base64."""
    return base64.b64encode(np.asarray(values).astype("<i4").tobytes()).decode("ascii")
