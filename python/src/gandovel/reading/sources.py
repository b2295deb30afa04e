"""Sources of layers: paths and whatever else GDAL opens, GeoDataFrames, GeoSeries; and what of them is lost."""
from __future__ import annotations

import datetime
import logging
import os
import re
import tempfile
import zipfile
from pathlib import Path
from typing import Any, Dict, List, Optional, Sequence, Tuple, Union

import fiona
import geopandas as gpd
import numpy as np
import pandas as pd

from ..errors import Refused
from ..large.reading import read_large
from ..out.gpkg import typed
from ..shapes import array_of
from .curves import Drawn, straightened

Source = Union[str, "os.PathLike[str]", gpd.GeoDataFrame, gpd.GeoSeries]
"""A layer: a path, or text that GDAL opens (`/vsizip/..`, `PG:..`, an URL of a file, `PATH|layername=NAME`), or
frames."""
LOG = logging.getLogger("gandovel")
ANY_DRIVER = {"allow_unsupported_drivers": True}
"""Fiona opens what GDAL does, and not those formats alone that its own tests try: PostgreSQL is none of them."""
ANY = ("GeometryCollection", "3D GeometryCollection", "Unknown")
AREAS = ("Polygon", "MultiPolygon", "3D Polygon", "3D MultiPolygon", *ANY)
POINTS = ("Point", "3D Point", *ANY)
LAYER_FILES = (".shp", ".gpkg", ".geojson", ".json", ".gml", ".xml", ".fgb", ".tab", ".dxf", ".kml", ".sqlite")
"""How the names of files end that have layers."""
MOST_NAMED = 4


def frame_of(source: Source, role: str, layer: Optional[str] = None) -> gpd.GeoDataFrame:
    """The layer as a frame of plain columns; `.attrs["lost"]` has a sentence for each thing that is lost.

    Refused P1 where it can't be opened or is torn, or has several layers with areas and none is named; TypeError for
    what is no source.
    """
    if isinstance(source, gpd.GeoDataFrame):
        return plain(source, role, [])
    if isinstance(source, gpd.GeoSeries):
        return plain(gpd.GeoDataFrame(geometry=source.reset_index(drop=True), crs=source.crs), role, [])
    if isinstance(source, (str, os.PathLike)):
        return read_layer(source, role, layer)
    raise TypeError(f"{role}: a path, a GeoDataFrame or a GeoSeries is wanted, and not {type(source).__name__}")


def read_layer(source: Union[str, "os.PathLike[str]"], role: str, layer: Optional[str] = None) -> gpd.GeoDataFrame:
    """A layer of what GDAL opens. Refused (P1) where it can't be opened or is torn, or where a layer is to be named."""
    path, layer = _address(os.fspath(source), layer)
    if not re.match(r"/vsi|[A-Za-z][A-Za-z0-9+]+:", path) and not os.path.exists(path):
        raise Refused("P1", f"{path or 'a layer without a name'} is not there", role=role)
    name = layer or ""
    try:
        name = _layer_name(path, layer, role)
        if _may_curve(path, name):
            return _straightened(path, name, role)
        with fiona.open(path, layer=name, **ANY_DRIVER) as opened:
            types = dict(opened.schema["properties"])
        frame = read_large(path, name)
        if frame is None:
            frame = gpd.read_file(path, layer=name, engine="fiona", **ANY_DRIVER)
    except Refused:
        raise
    except fiona.errors.UnsupportedGeometryTypeError:
        return _straightened(path, name, role)
    except Exception as fault:
        text = f"{source} can't be read: {' '.join(str(fault).split()).rstrip('.')}"
        raise Refused("P1", f"{text}{_advice_on(path)}", role=role) from fault
    if not isinstance(frame, gpd.GeoDataFrame):
        raise Refused("P1", f"{source} has no geometry", role=role)
    lost, truths = _beyond_fiona(path, name)
    result = plain(typed(frame, {**types, **truths}), role, lost)
    result.attrs["layer"] = name
    return result


def _advice_on(path: str) -> str:
    """What to do where a file can't be read: of a zip file, how GDAL opens it."""
    if not path.lower().endswith(".zip") or path.startswith("/vsi"):
        return ""
    place = f"/vsizip/{os.path.abspath(path)}"
    try:
        with zipfile.ZipFile(path) as archive:
            names = [name for name in archive.namelist() if name.lower().endswith(LAYER_FILES)]
    except (OSError, zipfile.BadZipFile):
        return ", and is no zip file that can be read"
    if not names:
        return f": of a zip file, name the layer within: {place}/NAME (`unzip -l` lists the names)"
    return f": of a zip file, name the layer within: {', or '.join(f'{place}/{name}' for name in names[:MOST_NAMED])}"


def _address(text: str, layer: Optional[str]) -> Tuple[str, Optional[str]]:
    """What GDAL opens, and the layer's name where one is told: `PATH|layername=NAME` is as QGIS writes it."""
    path, _, rest = text.partition("|layername=")
    if re.match(r"(https?|ftp)://", path):
        path = f"/vsicurl/{path}"
    return path, layer or rest.partition("|")[0] or None


def _layer_name(path: str, layer: Optional[str], role: str) -> str:
    """The layer that is told, or the only one that has areas (points, for points). Refused P1 where there is a
    choice."""
    names = fiona.listlayers(path)
    if layer is not None:
        if layer not in names:
            raise Refused("P1", f"{path} has no layer {layer}; there are {', '.join(names)}", role=role)
        return layer
    if len(names) == 1:
        return str(names[0])
    fitting = [name for name in names if _may_have(POINTS if role == "points" else AREAS, path, name)]
    if len(fitting) != 1:
        option = "--layer" if role == "parcels" else f"--{role}-layer"
        text = f"{path} has {len(names)} layers: name one by {option} NAME, or as PATH|layername=NAME"
        raise Refused("P1", f"{text}; there are {', '.join(fitting or names)}", role=role)
    what = "points" if role == "points" else "areas"
    LOG.info("%s: the layer %s of %s, the only one with %s", role, fitting[0], path, what)
    return str(fitting[0])


def _may_have(kinds: Tuple[str, ...], path: str, name: str) -> bool:
    """Whether a layer's shapes are of these kinds, as far as its source says. Curves, which Fiona can't open, are
    areas."""
    try:
        with fiona.open(path, layer=name, **ANY_DRIVER) as opened:
            return opened.schema["geometry"] in kinds and name != "layer_styles"
    except fiona.errors.UnsupportedGeometryTypeError:
        return kinds is AREAS


def _may_curve(path: str, name: str) -> bool:
    """Whether a layer whose shapes may be of any kind has curves, as far as GDAL's own module for Python is there."""
    try:
        from osgeo import ogr
    except ImportError:
        return False
    opened = ogr.Open(path)
    layer = opened.GetLayerByName(name) if opened is not None else None
    if layer is None or ogr.GT_Flatten(layer.GetGeomType()) not in (ogr.wkbUnknown, ogr.wkbGeometryCollection):
        return False
    shapes = (feature.GetGeometryRef() for feature in layer)
    return any(shape is not None and shape.HasCurveGeometry(True) for shape in shapes)


def _straightened(path: str, name: str, role: str) -> gpd.GeoDataFrame:
    """A layer with curves, these as chords; `.attrs["chords"]` says how many. Refused P5 without GDAL's own module for
    Python."""
    try:
        from osgeo import gdal
    except ImportError as fault:
        way = f"ogr2ogr -nlt CONVERT_TO_LINEAR NEW.gpkg {path}"
        text = f"{path} has curves: install python3-gdal, or make them straight by `{way}`"
        raise Refused("P5", text, role=role) from fault
    gdal.UseExceptions()
    with tempfile.TemporaryDirectory() as folder:
        straight = str(Path(folder) / "straight.gpkg")
        try:
            opened = gdal.OpenEx(path, gdal.OF_VECTOR)
            curved = [_own_geometry(feature) for feature in opened.GetLayerByName(name)]
            options = ["-f", "GPKG", "-nlt", "CONVERT_TO_LINEAR", "-unsetFid", name]
            done = gdal.VectorTranslate(straight, opened, options=options)
            del done
        except RuntimeError as fault:
            raise Refused("P1", f"{path} can't be read: {fault}", role=role) from fault
        frame = read_layer(straight, role)
    frame.attrs.update(layer=name, drawn=Drawn.of(curved, _millimetres(frame.crs)))
    result: gpd.GeoDataFrame = with_chords([frame])[0]
    return result


def with_chords(frames: Sequence[Optional[gpd.GeoDataFrame]]) -> List[Any]:
    """Layers with their arcs as chords, the same for all that lie on one curve; `.attrs["chords"]` says how many."""
    drawn = [at for at, frame in enumerate(frames) if frame is not None and "drawn" in frame.attrs]
    made: List[Any] = list(frames)
    if not drawn or (len(drawn) == 1 and "chords" in made[drawn[0]].attrs):
        return made
    for at, (shapes, chords) in zip(drawn, straightened([made[at].attrs["drawn"] for at in drawn])):
        frame = made[at]
        every = frame.geometry.to_numpy().copy()
        for row, shape in shapes.items():
            every[row] = shape
        made[at] = frame.set_geometry(gpd.GeoSeries(array_of(every, frame.crs)))
        made[at].attrs.update(frame.attrs, chords=chords)
    return made


def _own_geometry(feature: Any) -> Any:
    """A feature's geometry, which outlives it; None where it has none."""
    shape = feature.GetGeometryRef()
    return None if shape is None else shape.Clone()


def _millimetres(crs: Any) -> float:
    """How many millimetres a unit of a projection is; those of a metre where it does not say."""
    axes = [] if crs is None else [axis for axis in crs.axis_info if crs.is_projected]
    return 1000.0 * float(axes[0].unit_conversion_factor) if axes else 1000.0


def _beyond_fiona(path: str, name: str) -> Tuple[List[str], Dict[str, str]]:
    """What a layer has that Fiona does not hand on: measures (M), and which columns hold truths.

    Nothing is known without GDAL's own module.
    """
    try:
        from osgeo import ogr
    except ImportError:
        return [], {}
    opened = ogr.Open(path)
    layer = opened.GetLayerByName(name) if opened is not None else None
    if layer is None:
        return [], {}
    fields = layer.GetLayerDefn()
    columns = [fields.GetFieldDefn(at) for at in range(fields.GetFieldCount())]
    truths = {column.GetName(): "bool" for column in columns if column.GetSubType() == ogr.OFSTBoolean}
    return ["measures (M)"] if ogr.GT_HasM(layer.GetGeomType()) else [], truths


def plain(frame: gpd.GeoDataFrame, role: str, lost: List[str]) -> gpd.GeoDataFrame:
    """A copy with an index from 0, columns named by text, each once, and values that a GeoPackage takes.

    `.attrs["lost"]` has a sentence for each thing that is lost.
    """
    try:
        geometry = frame.geometry
    except AttributeError as fault:
        raise Refused("P1", "the frame has no geometry column", role=role) from fault
    columns = {}
    for at, name in enumerate(frame.columns):
        if name == frame.geometry.name:
            continue
        if str(name) in columns or str(name) == "geometry":
            lost = [*lost, f"a second column {name}"]
            continue
        values, what = _plain_column(frame.iloc[:, at].reset_index(drop=True))
        lost = [*lost, f"{what} of the column {name}"] if what else lost
        if values is not None:
            columns[str(name)] = values
    result = gpd.GeoDataFrame(columns, geometry=geometry.reset_index(drop=True).rename("geometry"), crs=frame.crs)
    if any(shape is not None and shape.has_z for shape in result.geometry.to_numpy()):
        lost = [*lost, "heights (Z), which stay in the layers as they were given"]
    result.attrs["lost"] = [f"{role}: no use is made of {it}" for it in lost]
    return result


def _plain_column(values: pd.Series) -> Tuple[Optional[pd.Series], str]:
    """A column as a GeoPackage takes it, or None; and what is lost of it."""
    if isinstance(values.dtype, gpd.array.GeometryDtype):
        return None, "the geometries"
    if isinstance(values.dtype, pd.SparseDtype):
        values = values.sparse.to_dense()
    if isinstance(values.dtype, np.dtype) and values.dtype.kind == "f" and values.dtype.itemsize > 8:
        return values.astype(float), "the last digits"
    if isinstance(values.dtype, pd.CategoricalDtype):
        return values.astype(values.cat.categories.dtype if not values.isna().any() else object), ""
    if isinstance(values.dtype, (pd.PeriodDtype, pd.IntervalDtype)) or values.dtype.kind in "mc":
        return values.astype(str).where(values.notna(), None), "the type"
    if values.dtype == object:
        known = values.dropna()
        simple = (str, bytes, bool, int, float, datetime.date, datetime.datetime)
        if not all(isinstance(value, simple) or hasattr(value, "item") for value in known):
            return values.map(lambda value: str(value), na_action="ignore"), "the type"
    return values, ""
