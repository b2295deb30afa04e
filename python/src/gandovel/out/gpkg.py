"""GeoPackages, written fast: Fiona makes each layer's tables, and SQLite, which a GeoPackage is, takes the rows.

(GeoPandas 0.12 writes some 10,000 rows a second, and a prepared city of 40,000 parcels has half a million to tell.)
"""
from __future__ import annotations

import datetime
import math
import os
import sqlite3
import struct
from contextlib import closing
from dataclasses import dataclass
from pathlib import Path
from typing import Any, Dict, List, Optional, Sequence, Set, Tuple, Union

import fiona
import geopandas as gpd
import numpy as np
import pandas as pd
from fiona._err import CPLE_BaseError
from pyproj import CRS

from ..errors import Refused
from ..shapes import MULTIPOLYGON, POLYGON, array_of, bounds_of, heads_of, kind_of, multipolygon_wkb
from ..shapes import shapes_of, wkb_in, wkb_of
from ..whole_file import whole_file


@dataclass
class Table:
    """A layer as it is written: its columns, the WKB of its shapes, their projection, and the box around them.

    `shapes` are its shapes where they are there already; `kind` is what Fiona calls the layer's shapes where there is
    none.
    """

    columns: pd.DataFrame
    blobs: Sequence[Optional[bytes]]
    crs: Any
    bounds: Tuple[float, ...]
    shapes: Optional[Sequence[Any]] = None
    kind: str = "Unknown"

    @classmethod
    def of(cls, frame: Union[gpd.GeoDataFrame, "Table"]) -> "Table":
        """A frame as a table."""
        if isinstance(frame, Table):
            return frame
        shapes = frame.geometry.to_numpy()
        columns = pd.DataFrame(frame.drop(columns=frame.geometry.name))
        return cls(columns, wkb_of(shapes), frame.crs, bounds_of(shapes), shapes)

    def frame(self) -> gpd.GeoDataFrame:
        """It as a frame."""
        shapes = self.shapes if self.shapes is not None else shapes_of(self.blobs)
        return gpd.GeoDataFrame(self.columns, geometry=array_of(shapes, self.crs))

    @property
    def kinds(self) -> Set[int]:
        """The kinds of its shapes."""
        return {kind_of(head) & 0xFF for head in heads_of(self.blobs)}

    @property
    def geometry(self) -> str:
        """The kind of its shapes as Fiona names it: of polygons and multipolygons the latter."""
        kinds = self.kinds
        if not kinds:
            return self.kind
        if not (kinds <= {POLYGON, MULTIPOLYGON} or len(kinds) == 1):
            return "Unknown"
        has_heights = any(kind_of(head) & HEIGHTS for head in heads_of(self.blobs))
        return ("3D " if has_heights else "") + NAMES[max(kinds) - 1]


NAMES = "Point LineString Polygon MultiPoint MultiLineString MultiPolygon GeometryCollection".split()
HEIGHTS = 0x80000000
"""The mark of heights in the kind of a WKB, as GEOS writes it."""
COLUMN = "SELECT column_name FROM gpkg_geometry_columns WHERE table_name = ?"
TRIGGERS = (
    "SELECT name, sql FROM sqlite_master WHERE type = 'trigger' AND tbl_name = ? AND name LIKE 'trigger_insert_feat%'"
)
COUNTED = "UPDATE gpkg_ogr_contents SET feature_count = feature_count + ? WHERE lower(table_name) = lower(?)"
"""As GDAL's trigger counts: from a count that is not known (NULL) on it stays so, and is taken when it is asked for."""
BOX = "SELECT min_x, min_y, max_x, max_y FROM gpkg_contents WHERE table_name = ?"


def write_layers(
    path: Union[str, Path],
    layers: Sequence[Tuple[str, Union[gpd.GeoDataFrame, Table]]],
    styles: Optional[Dict[str, str]] = None,
    notes: Optional[Dict[str, str]] = None,
) -> None:
    """Writes layers, in order, as one GeoPackage: under another name, then renamed.

    `styles` are QGIS styles, and `notes` descriptions, by layer. Refused P14 where the disk does not take it.
    """
    try:
        with whole_file(path) as aside:
            _write(aside, [(name, Table.of(frame)) for name, frame in layers], styles or {}, notes or {})
    except (sqlite3.Error, fiona.errors.FionaError, CPLE_BaseError, RuntimeError, UnicodeError) as fault:
        raise Refused("P14", f"{path} can't be written: {fault}") from fault


def _write(path: Path, tables: Sequence[Tuple[str, Table]], styles: Dict[str, str], notes: Dict[str, str]) -> None:
    for name, table in tables:
        _make_table(path, name, table)
    with closing(sqlite3.connect(str(path))) as connection:
        # The file has another name until it is whole: nothing is lost where a journal and its waiting are left out.
        for option in ("synchronous = OFF", "journal_mode = OFF", "cache_size = -65536"):
            connection.execute(f"PRAGMA {option}")
        for name, table in tables:
            _fill(connection, name, table)
        described = [(text, name) for name, text in notes.items()]
        connection.executemany("UPDATE gpkg_contents SET description = ? WHERE table_name = ?", described)
        if styles:
            _put_styles(connection, styles)
        connection.commit()


def test_name(path: Union[str, Path], read: Sequence[Optional[str]] = ()) -> None:
    """Refuses (P14) a name that no GeoPackage has, since nothing else is written, and that of a file that is `read`."""
    if Path(path).suffix.lower() != ".gpkg":
        raise Refused("P14", f"{path} would be a GeoPackage: give it a name that ends with .gpkg")
    test_not_read(path, read)
    test_folder(path)


def test_folder(path: Union[str, Path]) -> None:
    """Refuses (P14) what would lie in a folder that is not there."""
    if not Path(path).absolute().parent.is_dir():
        raise Refused("P14", f"{path} can't be written: there is no folder {Path(path).parent}")


def test_not_read(path: Union[str, Path], read: Sequence[Optional[str]]) -> None:
    """Refuses (P14) the name of a file that is read: it would be written over."""
    for source in read:
        file = (source or "").partition("|")[0]
        if file and os.path.exists(file) and os.path.exists(path) and os.path.samefile(file, path):
            raise Refused("P14", f"{path} is read, and would be written over: give another name")


def _make_table(path: Path, name: str, table: Table) -> None:
    crs = table.crs.to_wkt("WKT1_GDAL") if table.crs is not None else None
    columns = table.columns
    names = _names(columns.columns)
    schema = {"geometry": table.geometry, "properties": {names[it]: type_of(columns[it]) for it in columns.columns}}
    with fiona.open(str(path), "w", driver="GPKG", layer=name, schema=schema, crs_wkt=crs, SPATIAL_INDEX="NO"):
        pass


def _names(columns: Sequence[Any]) -> Dict[Any, str]:
    """The names of columns in a GeoPackage, in which those of the row and the shape are taken, whatever their case."""
    taken, names = {"fid", "geom"}, {}
    for column in columns:
        name = str(column).replace('"', "'").replace("\0", "")
        while name.lower() in taken:
            name += "_"
        taken.add(name.lower())
        names[column] = name
    return names


def type_of(values: pd.Series) -> str:
    """The type, as Fiona names it, of a column in a GeoPackage."""
    kinds = {"b": "bool", "i": "int", "u": "int", "f": "float", "M": "datetime"}
    if getattr(values.dtype, "kind", "O") == "u" and (values.dropna() >= 2**63).any():
        return "str"
    if not isinstance(values.dtype, pd.CategoricalDtype) and values.dtype != object:
        kind = "M" if isinstance(values.dtype, pd.DatetimeTZDtype) else getattr(values.dtype, "kind", "O")
        return kinds.get(kind, "str")
    known = values.dropna().tolist()
    for kind, name in ((bool, "bool"), (bytes, "bytes"), (datetime.datetime, "datetime"), (datetime.date, "date")):
        if known and all(isinstance(value, kind) for value in known):
            return name
    if known and all(isinstance(value, (int, np.integer)) for value in known):
        return "int" if all(abs(int(value)) < 2**63 for value in known) else "str"
    return "float" if known and all(isinstance(value, (int, float, np.number)) for value in known) else "str"


def _fill(connection: sqlite3.Connection, name: str, table: Table) -> None:
    if not len(table.blobs):
        return
    geometry, srs = connection.execute(
        "SELECT column_name, srs_id FROM gpkg_geometry_columns WHERE table_name = ?", (name,)
    ).fetchone()
    columns = table.columns
    known = _names(columns.columns)
    names = ", ".join(f'"{column}"' for column in [geometry, *(known[column] for column in columns.columns)])
    marks = ", ".join("?" for _ in range(len(columns.columns) + 1))
    head = b"GP\0\x01" + struct.pack("<i", srs)
    values = [_plain_values(columns[column]) for column in columns.columns]
    rows = zip((blob and head + blob for blob in _of_one_kind(table)), *values)
    # GDAL's trigger counts row by row, which takes as long as the rows; it is left out until they are in.
    triggers = connection.execute(TRIGGERS, (name,)).fetchall()
    for trigger, _ in triggers:
        connection.execute(f'DROP TRIGGER "{trigger}"')
    connection.executemany(f'INSERT INTO "{name}" ({names}) VALUES ({marks})', rows)
    for _, text in triggers:
        connection.execute(text)
    connection.execute(COUNTED, (len(table.blobs), name))
    if not math.isnan(table.bounds[0]):
        connection.execute(
            "UPDATE gpkg_contents SET min_x = ?, min_y = ?, max_x = ?, max_y = ? WHERE table_name = ?",
            (*table.bounds, name),
        )


def _plain_values(values: pd.Series) -> List[Any]:
    """A column's values as SQLite takes them."""
    kind = type_of(values)
    if isinstance(values.dtype, np.dtype) and values.dtype.kind in "bif":
        return [None if value != value else value for value in values.tolist()]
    plain = [value if type(value) is str else _plain(value) for value in values.tolist()]
    return [str(value) if value is not None else None for value in plain] if kind == "str" else plain


def _of_one_kind(table: Table) -> Sequence[Optional[bytes]]:
    """The shapes, where they are polygons and multipolygons the former as the latter."""
    if table.kinds != {POLYGON, MULTIPOLYGON}:
        return table.blobs
    single = {head for head in heads_of(table.blobs) if kind_of(head) & 0xFF == POLYGON}
    return [multipolygon_wkb([blob]) if blob is not None and blob[:5] in single else blob for blob in table.blobs]


def _is_missing(value: Any) -> bool:
    return (
        value is None
        or value is pd.NA
        or value is pd.NaT
        or (isinstance(value, (float, np.floating)) and value != value)
    )


def _plain(value: Any) -> Any:
    if _is_missing(value):
        return None
    if isinstance(value, np.generic):
        return value.item()
    if isinstance(value, datetime.datetime):
        moment = value.astimezone(datetime.timezone.utc) if value.tzinfo is not None else value
        return f"{moment.strftime('%Y-%m-%dT%H:%M:%S')}.{moment.microsecond // 1000:03d}Z"
    if isinstance(value, (int, float, str, bytes)):
        return value
    return value.isoformat() if hasattr(value, "isoformat") else str(value)


def _put_styles(connection: sqlite3.Connection, styles: Dict[str, str]) -> None:
    """The table `layer_styles` in which QGIS looks for a layer's style."""
    connection.execute(
        "CREATE TABLE layer_styles (id INTEGER PRIMARY KEY AUTOINCREMENT, f_table_catalog TEXT(256),"
        " f_table_schema TEXT(256), f_table_name TEXT(256), f_geometry_column TEXT(256), styleName TEXT(30),"
        " styleQML TEXT, styleSLD TEXT, useAsDefault BOOLEAN, description TEXT, owner TEXT(30), ui TEXT(30),"
        " update_time DATETIME DEFAULT (strftime('%Y-%m-%dT%H:%M:%fZ', 'now')))"
    )
    connection.execute(
        "INSERT INTO gpkg_contents (table_name, data_type, identifier, srs_id) VALUES"
        " ('layer_styles', 'attributes', 'layer_styles', 0)"
    )
    rows: List[Tuple[str, str, str]] = []
    for name, style in styles.items():
        found = connection.execute(COLUMN, (name,)).fetchone()
        if found:
            rows.append((name, found[0], style))
    connection.executemany(
        "INSERT INTO layer_styles (f_table_catalog, f_table_schema, f_table_name, f_geometry_column, styleName,"
        " styleQML, styleSLD, useAsDefault, description, owner)"
        " VALUES ('', '', ?1, ?2, ?1, ?3, '', 1, 'gandovel', '')",
        rows,
    )


def read_layer_of(path: Union[str, Path], name: str, change: Optional[str] = None) -> gpd.GeoDataFrame:
    """A layer that `write_layers` wrote, by SQLite, in a tenth of the time that GeoPandas takes; or its rows of a
    `change`."""
    return read_table_of(path, name, change).frame()


def read_table_of(path: Union[str, Path], name: str, change: Optional[str] = None) -> Table:
    """As `read_layer_of`, with shapes that are not made yet. The box is that of the whole layer."""
    with closing(sqlite3.connect(f"{Path(path).resolve().as_uri()}?mode=ro", uri=True)) as connection:
        geometry = connection.execute(COLUMN, (name,)).fetchone()[0]
        box = connection.execute(BOX, (name,)).fetchone()
        table = connection.execute(f'PRAGMA table_info("{name}")').fetchall()
        kinds = {column: kind for _, column, kind, _, _, is_key in table if not is_key and column != geometry}
        listed = ", ".join(f'"{column}"' for column in (geometry, *kinds))
        chosen = ("", ()) if change is None else ("WHERE change = ?", (change,))
        rows = connection.execute(f'SELECT {listed} FROM "{name}" {chosen[0]} ORDER BY fid', chosen[1]).fetchall()
    found, *cells = zip(*rows) if rows else [()] * (1 + len(kinds))
    blobs = [None if blob is None else wkb_in(blob) for blob in found]
    values = {column: _typed_values(list(cell), kind) for (column, kind), cell in zip(kinds.items(), cells)}
    with fiona.open(str(path), layer=name) as opened:
        crs = CRS.from_user_input(opened.crs_wkt) if opened.crs_wkt else None
    bounds = (math.nan,) * 4 if None in box else box
    return Table(pd.DataFrame(values, index=pd.RangeIndex(len(blobs))), blobs, crs, bounds)


def _typed_values(values: List[Any], kind: str) -> pd.Series:
    """A column of a GeoPackage, as SQLite has it, with its type."""
    missing = any(value is None for value in values)
    if kind == "DATE":
        return pd.to_datetime(pd.Series(values, dtype=object), errors="coerce").dt.date.astype(object)
    if kind == "DATETIME":
        return pd.to_datetime(pd.Series(values, dtype=object), errors="coerce", utc=True)
    if kind == "BOOLEAN":
        return pd.Series(
            [None if value is None else bool(value) for value in values], dtype=_with_gaps("bool", missing)
        )
    if "INT" in kind:
        return pd.Series(values, dtype=_with_gaps("int64", missing))
    return pd.Series(values, dtype=float if kind in ("REAL", "FLOAT", "DOUBLE") else object)


def _with_gaps(kind: str, missing: bool) -> str:
    """The name of a type of pandas, or where values are missing of the one that takes that."""
    return {"bool": "boolean", "int64": "Int64"}[kind] if missing else kind


WHOLE = ("int", "int32", "int64")


def typed(frame: gpd.GeoDataFrame, types: Dict[str, str]) -> gpd.GeoDataFrame:
    """The frame with the types that its source has where pandas gave others: dates, whole numbers with gaps, truths."""
    for column, kind in types.items():
        if column not in frame.columns or column == frame.geometry.name:
            continue
        kind = kind.partition(":")[0]
        if kind == "date":
            frame[column] = pd.to_datetime(frame[column], errors="coerce").dt.date.astype(object)
        elif kind in WHOLE and not pd.api.types.is_integer_dtype(frame[column].dtype):
            frame[column] = frame[column].astype("Int64")
        elif kind == "bool" and frame[column].dtype != bool:
            frame[column] = frame[column].astype("boolean")
    return frame
