"""The register's projection and others: coordinates out, boxes in. All but the register's own are measured."""
from __future__ import annotations

import math
from typing import List, Optional, Sequence, Tuple

import numpy as np
from pyproj import CRS, Transformer
from pyproj.exceptions import CRSError, ProjError
from shapely.geometry import MultiPolygon, Point, Polygon
from shapely.geometry.base import BaseGeometry

from ..arrays import Array
from ..errors import Refused
from .faults import BadRequest

CRS84 = "http://www.opengis.net/def/crs/OGC/1.3/CRS84"
WGS84 = "http://www.opengis.net/def/crs/EPSG/0/4326"
MERCATOR = "http://www.opengis.net/def/crs/EPSG/0/3857"
DECIMALS = 9
"""Of degrees: a tenth of a millimetre on the ground."""
PIECE = 0.002
"""Degrees of a piece of a box's side: between its ends it is off the curved side by less than half a millimetre."""
MOST_PIECES = 4096
CONFIDENCE = 70
"""From which likeness on, of 100, PROJ takes a projection and an authority's code for the same."""
RADIUS = 6_378_137.0
"""Metres of the sphere of Web Mercator."""
FARTHEST = 1e14
"""Millimetres from 0 beyond which no place is looked for: the program's coordinates end far before."""
MARGIN = 0.001
"""Degrees that the register's own box is widened by: it is measured."""


def projection_of(told: Optional[str], given: Optional[str]) -> CRS:
    """The projection of a layer by its authority's code, where it has one: `told` is the source's text of it.

    `given` (`--crs`) is taken where the layer has none, or one without a code. Refused W3.
    """
    own = None if told is None else CRS.from_user_input(told)
    known = None if own is None else own.to_authority(min_confidence=CONFIDENCE)
    if given is None:
        if own is None:
            raise Refused("W3", "the layer has no projection: name it by --crs, as in --crs EPSG:25832")
        return own if known is None else CRS.from_authority(*known)
    try:
        named = CRS.from_user_input(given)
    except CRSError:
        raise Refused("W3", f"{given} is no projection that is known: write it as EPSG:25832") from None
    if known is not None and named.to_authority() != known:
        text = f"the layer is in {':'.join(known)}, and --crs names {given}: leave --crs out"
        raise Refused("W3", text)
    return named


class Projection:
    """A projection, how many millimetres its unit has (`scale`), and the box of the register in mm, in which it is
    used: `low` and `high`."""

    def __init__(self, crs: CRS, scale: float, low: Sequence[float], high: Sequence[float]) -> None:
        """Refused W3 where it has no way to degrees, or the register is where it is not defined."""
        self.crs, self.scale = crs, scale
        authority = crs.to_authority(min_confidence=CONFIDENCE)
        self.uri: Optional[str] = None
        if authority is not None:
            self.uri = f"http://www.opengis.net/def/crs/{authority[0]}/0/{authority[1]}"
        self.name: Optional[str] = None if authority is None else ":".join(authority)
        """As `EPSG:25832`."""
        self.is_north_first = _is_north_first(crs)
        try:
            self._out = Transformer.from_crs(crs, "OGC:CRS84", always_xy=True)
            self._in = Transformer.from_crs("OGC:CRS84", crs, always_xy=True)
        except ProjError:
            raise Refused("W3", f"{crs.name} has no way to longitude and latitude: name another by --crs") from None
        self.middle, self.west, self.south, self.east, self.north = self._frame(np.array([low, high]) / scale)

    def _frame(self, corners: Array) -> Tuple[float, float, float, float, float]:
        """The register's box in degrees, its longitudes as differences from that of its middle."""
        (low_x, low_y), (high_x, high_y) = corners
        steps = np.linspace(0.0, 1.0, 65)
        xs, ys = np.meshgrid(low_x + (high_x - low_x) * steps, low_y + (high_y - low_y) * steps)
        longitudes, latitudes = self._out.transform(xs.ravel(), ys.ravel())
        if not (np.isfinite(longitudes).all() and np.isfinite(latitudes).all()):
            text = f"the layer's coordinates do not lie where {self.crs.name} is defined: name its own projection"
            raise Refused("W3", text)
        middle = float(longitudes[len(longitudes) // 2])
        off = (longitudes - middle + 180) % 360 - 180
        return (
            middle,
            max(-180.0, float(off.min()) - MARGIN),
            max(-90.0, float(latitudes.min()) - MARGIN),
            min(180.0, float(off.max()) + MARGIN),
            min(90.0, float(latitudes.max()) + MARGIN),
        )

    @property
    def uris(self) -> List[str]:
        """What `crs` may be, the default first."""
        own = [self.uri] if self.uri and self.uri not in (WGS84, MERCATOR) else []
        return [CRS84, *own, WGS84, MERCATOR]

    @property
    def extent(self) -> List[float]:
        """The register's box: west, south, east, north in degrees; west is above east where it crosses 180 degrees."""
        west, east = (round((self.middle + off + 180) % 360 - 180, DECIMALS) for off in (self.west, self.east))
        return [west, round(self.south, DECIMALS), east, round(self.north, DECIMALS)]

    def named(self, uri: Optional[str], what: str) -> str:
        """The URI of a projection that a client named. Raises `BadRequest`."""
        if uri is None:
            return CRS84
        for known in self.uris:
            if uri in (known, f"<{known}>", f"[{known}]"):
                return known
        raise BadRequest(what, f"{what} has to be one of {', '.join(self.uris)}")

    def coordinates(self, corners: Array, uri: str) -> Array:
        """Corners in mm (k, 2) as coordinates in the axes' order of a projection: degrees are rounded."""
        places = np.asarray(corners, dtype=float) / self.scale
        if uri == self.uri:
            return places[:, ::-1] if self.is_north_first else places
        degrees = np.asarray(np.round(np.column_stack(self._out.transform(*places.T)), DECIMALS))
        if uri == MERCATOR:
            return _mercator(degrees)
        return degrees[:, ::-1] if uri == WGS84 else degrees

    def millimetres(self, x: float, y: float, uri: str) -> Tuple[int, int, float]:
        """The nearest whole millimetres of a place in a projection, and how far off it is in mm (measured)."""
        if not (np.isfinite(x) and np.isfinite(y)):
            raise BadRequest("x", "x and y are numbers")
        x, y = self._own(x, y, uri)
        if not (np.isfinite(x) and np.isfinite(y)) or max(abs(x), abs(y)) * self.scale > FARTHEST:
            raise BadRequest("x", "the place is too far out for the projection")
        whole = round(x * self.scale), round(y * self.scale)
        return (*whole, float(np.hypot(x * self.scale - whole[0], y * self.scale - whole[1])))

    def _own(self, x: float, y: float, uri: str) -> Tuple[float, float]:
        """A place of a projection in the layer's own, in its unit; not finite where it has none."""
        if uri == WGS84 or uri == self.uri and self.is_north_first:
            x, y = y, x
        if uri != self.uri:
            x, y = self._in.transform(*(_degrees_of(x, y) if uri == MERCATOR else (x, y)))
        return x, y

    def point(self, x: float, y: float, uri: str) -> BaseGeometry:
        """A place of a projection in mm, measured; no place where the projection is not defined."""
        x, y = self._own(x, y, uri)
        is_place = np.isfinite(x) and np.isfinite(y) and max(abs(x), abs(y)) * self.scale < FARTHEST
        return Point(x * self.scale, y * self.scale) if is_place else Point()

    def area(self, box: Sequence[float], uri: str) -> Optional[BaseGeometry]:
        """A box of a projection as an area in mm; None where the whole register is in it.

        In degrees it may go round the earth: first longitude above last.
        """
        if uri == self.uri:
            low, high = _ends(box, self.is_north_first)
            return _rectangle(low * self.scale, high * self.scale)
        if uri == MERCATOR:
            low, high = _ends(box, False)
            west, south, east, north = [*_degrees_of(*low), *_degrees_of(*high)]
            return self._area(west, south, east, north)
        west, south, east, north = (box[1], box[0], box[3], box[2]) if uri == WGS84 else box
        if south > north or max(abs(west), abs(east)) > 180 or max(abs(south), abs(north)) > 90:
            raise BadRequest("bbox", "bbox is west, south, east, north in degrees, south not above north")
        return self._area(west, south, east if west <= east else east + 360, north)

    def _area(self, west: float, south: float, east: float, north: float) -> Optional[BaseGeometry]:
        """A box in degrees, `east` at least `west`, as an area in mm: what has nothing of the register is cut off
        before it is transformed, so that it is transformed where the projection is good."""
        low, high = max(south, self.south), min(north, self.north)
        parts: List[Polygon] = []
        for turn in (-360, 0, 360):
            left, right = max(west - self.middle + turn, self.west), min(east - self.middle + turn, self.east)
            if left <= right and low <= high:
                if (left, low, right, high) == (self.west, self.south, self.east, self.north):
                    return None
                parts.append(self._part(left + self.middle, low, right + self.middle, high))
        return MultiPolygon([it for part in parts for it in _polygons(part)])

    def _part(self, west: float, south: float, east: float, north: float) -> BaseGeometry:
        """A box in degrees as an area in mm, its sides cut into pieces."""
        across, up = _steps(east - west), _steps(north - south)
        xs = np.concatenate([west + (east - west) * across, np.full(len(up), east), east + (west - east) * across])
        ys = np.concatenate([np.full(len(across), south), south + (north - south) * up, np.full(len(across), north)])
        xs, ys = np.append(xs, np.full(len(up), west)), np.append(ys, north + (south - north) * up)
        places = np.column_stack(self._in.transform(xs, ys)) * self.scale
        return Polygon(places[np.isfinite(places).all(axis=1)]).buffer(0)


def _is_north_first(crs: CRS) -> bool:
    axes = [axis.direction for axis in crs.axis_info]
    return axes[:1] in (["north"], ["south"])


def _ends(box: Sequence[float], is_north_first: bool) -> Tuple[Array, Array]:
    """The low and the high corner of a box, x first. Raises `BadRequest`."""
    low, high = np.array(box[:2]), np.array(box[2:])
    if (low > high).any():
        raise BadRequest("bbox", "bbox has the least coordinates first, then the greatest")
    return (low[::-1], high[::-1]) if is_north_first else (low, high)


def _rectangle(low: Array, high: Array) -> Polygon:
    return Polygon([(low[0], low[1]), (high[0], low[1]), (high[0], high[1]), (low[0], high[1])])


def _polygons(shape: BaseGeometry) -> List[Polygon]:
    return [it for it in getattr(shape, "geoms", [shape]) if not it.is_empty]


def _mercator(degrees: Array) -> Array:
    """Longitudes and latitudes in Web Mercator, to a tenth of a millimetre."""
    turned = np.radians(degrees)
    return np.asarray(np.round(RADIUS * np.column_stack([turned[:, 0], np.arctanh(np.sin(turned[:, 1]))]), 4))


def _degrees_of(x: float, y: float) -> Tuple[float, float]:
    """Longitude and latitude of a place in Web Mercator, whose sides are meridians and parallels."""
    turned = max(-180.0, min(180.0, math.degrees(x / RADIUS)))
    return turned, math.degrees(2 * math.atan(math.exp(max(-700.0, min(700.0, y / RADIUS)))) - math.pi / 2)


def _steps(span: float) -> Array:
    """The beginnings of a side's pieces, from 0 to 1, without its end."""
    return np.linspace(0.0, 1.0, max(8, min(MOST_PIECES, math.ceil(span / PIECE))) + 1)[:-1]
