"""From layers of a GIS to layers of whole millimetres, as the proved program reads them.

Nothing is mended in silence. What is done is told: corners put into the borders that they touch, corners moved to the
grid, holes, parts and big rings made rings of their own, rows that are left out.
"""
from __future__ import annotations

from dataclasses import replace
from typing import Optional, Tuple, Union

import geopandas as gpd
import numpy as np

from ..faults.neighbours import neighbours_of
from ..program.limits import too_large
from ..progress import Progress
from .digests import source_of
from .islands import islands_of
from .keys import key_of
from .layers import Layers, box_around, test_beside, tested_layers
from .loops import PARCELS, ROLES, ROW
from .prepared import Changes, Prepared
from .proposals import add_what_each_gives
from .sources import Source, frame_of, with_chords
from .touching import test_distances
from .work import outlines_and_zones, taken_apart, tell_moves, to_grid


def prepare(
    parcels: Source,
    zones: Optional[Source] = None,
    number: str = "parcel_no",
    zone: Optional[str] = None,
    city: Optional[Source] = None,
    frame: bool = False,
    max_move: float = 1.0,
    touch: Optional[float] = None,
    progress: Optional[Progress] = None,
    *,
    grid: Optional[float] = None,
    unit: Union[str, float, None] = None,
    skip_invalid: bool = False,
    narrow: float = 1.0,
    layer: Optional[str] = None,
    zones_layer: Optional[str] = None,
    city_layer: Optional[str] = None,
    neighbours: Optional[Source] = None,
    neighbours_layer: Optional[str] = None,
) -> Prepared:
    """Layers of a GIS in whole millimetres, as the program reads them.

    Parameters
    ----------
    parcels, zones, city, neighbours : GeoDataFrame, GeoSeries or path
        Polygons and multipolygons in one projection. `neighbours` are the cities beside it (column `name`), of which
        parcels are to cover nothing. A path is whatever GDAL opens.
    number : str
        The column of the parcels' own numbers, no two the same, or `ROW`.
    zone : str, optional
        That of the zones' names, which may stand for several rows: by default `zone`, else `number`, else the row.
    frame : bool
        A rectangle around all is the city, with a parcel and a zone `OUT`, and zones are uncut. Else the city is
        `city`, or what the parcels cover, its holes filled, one for each connected part, and zones are cut to it.
    max_move, touch, grid : float
        In mm: how far a corner is moved to the grid at most; how far off a border one touches it (by default 1.42 times
        the grid; 0 compares exactly); the layer's own grid, which is found.
    unit : str or float, optional
        m, mm, .. or how many metres it is, where the projection does not say it.
    skip_invalid : bool
        Goes on without polygons that are invalid.
    narrow : float
        In m: what is open to the outside and narrower is said.
    layer, zones_layer, city_layer, neighbours_layer : str, optional
        The layer, where its source has several.

    Returns
    -------
    Prepared
        The register; what was changed is in its `changes`, what is made no use of in `lost`.

    Raises
    ------
    Refused
        P1 .. P14, by number and place; of what is invalid all at once.

    Examples
    --------
    >>> import geopandas, gandovel
    >>> from shapely.geometry import box
    >>> plots = geopandas.GeoDataFrame({"parcel_no": [7]}, geometry=[box(0, 0, 10, 10)], crs=25832)
    >>> gandovel.prepare(plots).numbers
    ['7']
    """
    test_distances(grid=grid, touch=touch, max_move=max_move, narrow=narrow * 1000.0)
    progress = progress or Progress()
    progress.step("reading the layers")
    frames = with_chords(
        [
            frame_of(parcels, "parcels", layer),
            None if zones is None else frame_of(zones, "zones", zones_layer),
            None if city is None else frame_of(city, "city", city_layer),
        ]
    )
    if isinstance(parcels, gpd.GeoSeries) and number not in frames[0].columns:
        number = ROW
    names = str(number), None if zone is None else str(zone)
    layers = tested_layers(frames[0], frames[1], frames[2], *names, unit, skip_invalid)
    prepared = _prepared(layers, frame, max_move, (grid, touch), narrow * 1000.0, progress)
    without_zones = replace(layers, zones=None, zone="", labels=(layers.labels[0], []))
    add_what_each_gives(
        prepared,
        lambda distance: _prepared(without_zones, frame, max_move, (grid, distance), narrow * 1000.0, Progress()),
    )
    prepared.told["sources"] = [
        source_of(source, read, role)
        for source, read, role in zip((parcels, zones, city), frames, ROLES)
        if source is not None and read is not None
    ]
    options = {"number": number, "zone": zone, "frame": frame, "max_move": max_move, "touch": touch, "grid": grid}
    prepared.told["options"] = {**options, "unit": unit, "skip_invalid": skip_invalid, "narrow": narrow}
    if neighbours is not None:
        beside = frame_of(neighbours, "neighbours", neighbours_layer)
        test_beside(beside, "neighbours", layers.parcels, box_around(layers.parcels), layers.unit)
        prepared.neighbours = neighbours_of(beside, layers.scale)
        prepared.told["sources"].append(source_of(neighbours, beside, "neighbours"))
    prepared.given_keys["parcels"] = key_of(parcels, layers.parcels, layers.number)
    if layers.zones is not None:
        prepared.given_keys["zones"] = key_of(zones, layers.zones, layers.zone)
    return prepared


def _prepared(
    layers: Layers,
    frame: bool,
    max_move: float,
    told: Tuple[Optional[float], Optional[float]],
    narrow: float,
    progress: Progress,
) -> Prepared:
    work = taken_apart(layers, *told)
    progress.step("putting neighbours' corners into borders")
    work.put_in(np.unique(work.loops.corners), work.reaches.of_sides, work.reaches.of_points)
    progress.step("finding the outline")
    parts, islands_of_zones, gaps = outlines_and_zones(work, layers, frame, narrow)
    progress.step("moving corners to the grid")
    tell_moves(work, max_move, layers.labels)
    to_grid(work)
    progress.step("cutting holes")
    islands = islands_of(work, parts, islands_of_zones, frame, layers.labels)
    changes = Changes.joined(work.changes)
    facts = {
        "city": "frame" if frame else "parcels" if layers.city is None else "layer",
        "narrow_mm": narrow,
        "touch": work.reaches.touch,
        "touch_of_zones": work.reaches.touch_of("zones"),
        "noise": work.noise,
        "grid_mm": work.reaches.layers[PARCELS].grid,
        "precision": work.reaches.layers[PARCELS].told(),
        "curves": [{"layer": role, **it.told()} for role, it in layers.chords.items() if it.arcs],
        **changes.told(),
    }
    prepared = Prepared(
        layers.parcels,
        layers.labels[0],
        layers.number,
        layers.unit,
        islands,
        layers.zones,
        layers.labels[1],
        layers.zone,
        changes,
        facts,
        gaps,
        layers.skipped,
        layers.lost,
    )
    refused = too_large(prepared)
    if refused is not None:
        raise refused
    return prepared
