"""Large GeoPackages, read by SQLite: Fiona takes some 200 us a row, and a million rows are to be had in seconds."""
from __future__ import annotations

import os
import sqlite3
from contextlib import closing
from pathlib import Path
from typing import List, Optional, Tuple, Union

import fiona
import geopandas as gpd
import pandas as pd
from shapely.errors import ShapelyError

from ..shapes import array_of, shapes_of, wkb_in

MANY = 2_000
"""From so many rows on a GeoPackage is read so."""

PLAIN = ("INT", "INTEGER", "MEDIUMINT", "SMALLINT", "TINYINT", "REAL", "DOUBLE", "FLOAT", "TEXT")
"""The types of columns whose values are taken as they are. A layer with others is read by Fiona."""


def read_large(source: Union[str, "os.PathLike[str]"], name: str) -> Optional[gpd.GeoDataFrame]:
    """A layer of a GeoPackage with many rows; None of any other source, and where Fiona has to say what is wrong."""
    path = Path(source)
    if path.suffix.lower() != ".gpkg" or not path.is_file():
        return None
    try:
        return _read(path, name)
    except (sqlite3.Error, ShapelyError, IndexError):
        return None


def _read(path: Path, name: str) -> Optional[gpd.GeoDataFrame]:
    with closing(sqlite3.connect(f"{path.resolve().as_uri()}?mode=ro", uri=True)) as connection:
        found = _columns(connection, name)
        if found is None:
            return None
        geometry, columns = found
        listed = ", ".join(f'"{column}"' for column in [geometry, *columns])
        rows = connection.execute(f'SELECT {listed} FROM "{name}" ORDER BY rowid').fetchall()
    with fiona.open(str(path), layer=name) as layer:
        crs = layer.crs_wkt or None
    cells = list(zip(*rows))
    shapes = shapes_of(None if blob is None else wkb_in(blob) for blob in cells[0])
    table = {column: pd.Series(list(values)) for column, values in zip(columns, cells[1:])}
    return gpd.GeoDataFrame(table, geometry=array_of(shapes, crs))


def _columns(connection: sqlite3.Connection, name: str) -> Optional[Tuple[str, List[str]]]:
    """A layer's column of geometries and the others; None where it has few rows, or columns that are not plain."""
    found = connection.execute("SELECT column_name FROM gpkg_geometry_columns WHERE table_name = ?", (name,)).fetchone()
    if found is None:
        return None
    geometry = found[0]
    if connection.execute(f'SELECT count(*) FROM "{name}"').fetchone()[0] < MANY:
        return None
    columns = []
    for _, column, kind, _, _, is_key in connection.execute(f'PRAGMA table_info("{name}")').fetchall():
        if is_key or column == geometry:
            continue
        if kind.upper().partition("(")[0].strip() not in PLAIN:
            return None
        columns.append(column)
    return geometry, columns
