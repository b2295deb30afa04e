"""The collection of parcels over all districts, page by page: those of the districts one behind the other."""
from __future__ import annotations

from dataclasses import dataclass
from typing import Any, Dict, List, Mapping, Optional, Sequence
from urllib.parse import urlencode

import numpy as np
from shapely.geometry import Polygon
from shapely.prepared import prep

from ..arrays import Array
from ..serve.crs import CRS84, Projection
from ..serve.entries import Row, Versions
from ..serve.faults import BadRequest, Gone, NoSuchThing
from ..serve.features import Collections, link, now
from ..serve.queries import DEFAULT_LIMIT, MOST_LIMIT, whole
from ..serve.register import Register
from .district import District
from .office import Metropolis
from .vectors import Vector, text_of, vector_of


@dataclass(frozen=True)
class Page:
    """What an answer has: its body, the versions of the districts that it has looked at, and its projection's URI."""

    body: Dict[str, Any]
    versions: Vector
    crs: str


@dataclass(frozen=True)
class Asked:
    """What a request asks for: `area` is a box as a shape in mm, None for all; `versions` what it names."""

    limit: int
    offset: int
    crs: str
    area: Any
    number: Optional[str]
    versions: Vector

    @classmethod
    def of(cls, given: Mapping[str, str], projection: Projection) -> "Asked":
        """Reads it. Raises `BadRequest`."""
        area = None
        if "bbox" in given:
            area = projection.area(_box(given["bbox"]), projection.named(given.get("bbox-crs"), "bbox-crs"))
        limit, offset = whole(given, "limit", DEFAULT_LIMIT, 1), whole(given, "offset", 0, 0)
        crs, versions = projection.named(given.get("crs"), "crs"), vector_of(given.get("entries"))
        return cls(min(limit, MOST_LIMIT), offset, crs, area, given.get("number"), versions)


class Features:
    """The parcels of all districts as a collection."""

    def __init__(self, metropolis: Metropolis) -> None:
        self._all = metropolis

    async def projection(self) -> Projection:
        """The projection of all districts, for the box of all. Raises `NotServing`."""
        async with self._all.districts[1].open() as register:
            own = register.layer.projection
        _, boxes = self._all.boxes()
        return Projection(own.crs, own.scale, boxes[:, :2].min(axis=0), boxes[:, 2:].max(axis=0))

    async def told(self, base: str) -> Dict[str, Any]:
        """What an answer says of the collection."""
        async with self._all.districts[1].open():
            told = _of(self._all.districts[1]).told("parcels", base)
        missing = ("schema", "queryables", "tiles")
        links = [it for it in told["links"] if not any(word in it["href"] for word in missing)]
        extent = (await self.projection()).extent
        return {**told, "links": links, "extent": {"spatial": {"bbox": [extent], "crs": CRS84}}}

    async def page(self, given: Mapping[str, str], base: str) -> Page:
        """A page of features. Raises `BadRequest`, `Gone`, `NotServing`."""
        projection = await self.projection()
        asked = Asked.of(given, projection)
        matched, shown = 0, dict(asked.versions)
        features: List[Dict[str, Any]] = []
        async with self._all.reading(self._asked(asked)) as districts:
            for district in districts:
                is_plain = asked.area is None and asked.number is None
                if district.unasked is not None and len(features) >= asked.limit and is_plain:
                    matched += district.unasked
                    shown[district.number] = district.entries
                    continue
                async with district.open() as register:
                    version = await _version(district, register, asked.versions)
                    view = await _of(district).view("parcels", version)
                    shown[district.number] = district.seat.before + version
                    places = _matching(register, view.versions, view.places(_bounds(asked.area)), asked)
                    some = places[max(0, asked.offset - matched) :][: asked.limit - len(features)]
                    rows = [view.versions.row(at) for at in some.tolist()]
                    features += [self.outward(district, it) for it in _features(district, rows, projection, asked.crs)]
                    matched += len(places)
        return Page(self._body(given, base, asked, matched, features, shown), shown, asked.crs)

    def _asked(self, asked: Asked) -> List[int]:
        """The districts that a page may have something of."""
        found = set(self._all.districts)
        if asked.area is not None:
            bounds = _bounds(asked.area)
            found &= set() if asked.area.is_empty else set(self._all.near(bounds[:2], bounds[2:]))
        if asked.number is not None:
            found &= set(self._all.now.numbered(asked.number))
        return sorted(found)

    def outward(self, district: District, feature: Dict[str, Any]) -> Dict[str, Any]:
        """A feature of a district with its global id."""
        parcel = district.seat.ids.outward(feature["id"])
        entry = feature["properties"]["entry"]
        told = {"id": parcel, "district": district.number, "entry": entry and district.seat.before + entry}
        return {**feature, "id": parcel, "properties": {**feature["properties"], **told}}

    def _body(
        self,
        given: Mapping[str, str],
        base: str,
        asked: Asked,
        matched: int,
        features: List[Dict[str, Any]],
        shown: Vector,
    ) -> Dict[str, Any]:
        limit, offset, at = asked.limit, asked.offset, f"{base}/collections/parcels/items"
        links = [link(f"{at}?{urlencode(dict(given))}".rstrip("?"), "self", "application/geo+json", "this page")]
        links.append(link(f"{at}?{urlencode({**given, 'f': 'html'})}", "alternate", "text/html", "this page"))
        if features and offset + len(features) < matched:
            more = {**given, "limit": limit, "offset": offset + len(features), "entries": text_of(shown)}
            links.append(link(f"{at}?{urlencode(more)}", "next", "application/geo+json", "the next page"))
        return {
            "type": "FeatureCollection",
            "timeStamp": now(),
            "numberMatched": matched,
            "numberReturned": len(features),
            "links": links,
            "features": features,
        }

    async def feature(self, parcel: int, given: Mapping[str, str], base: str) -> Page:
        """One feature. Raises `NoSuchThing`, `BadRequest`, `NotServing`."""
        projection, district = await self.projection(), self._all.home(parcel)
        crs = projection.named(given.get("crs"), "crs")
        local = None if district is None else district.seat.ids.inward(parcel)
        if district is not None and local is not None:
            async with district.open() as register:
                version = await register.shown()
                row = register.versions.find(local, version)
                if row is not None:
                    (found,) = _features(district, [row], projection, crs)
                    at = f"{base}/collections/parcels/items/{parcel}"
                    body = {
                        **self.outward(district, found),
                        "links": [link(at, "self", "application/geo+json", "this")],
                    }
                    return Page(body, {district.number: district.seat.before + version}, crs)
        raise NoSuchThing("feature", f"parcels has no feature {parcel}")


def _box(text: str) -> List[float]:
    """The four numbers of a box. Raises `BadRequest`."""
    try:
        numbers = [float(word) for word in text.split(",")]
    except ValueError:
        numbers = []
    if len(numbers) not in (4, 6) or not np.isfinite(numbers).all():
        raise BadRequest("bbox", "bbox is four numbers, or six, with commas between")
    return numbers if len(numbers) == 4 else [*numbers[:2], *numbers[3:5]]


def _bounds(area: Any) -> Any:
    """The box around an area; None of none."""
    return None if area is None or area.is_empty else area.bounds


def _matching(register: Register, versions: Versions, places: Array, asked: Asked) -> Array:
    """Those rows whose shapes meet the area, measured at its edge, and that have the number."""
    if asked.number is not None:
        places = places[np.isin(versions.ids(places), register.layer.parcels_named(asked.number))]
    if asked.area is None:
        return places
    meets = prep(asked.area)
    kept = [meets.intersects(Polygon(versions.row(at).ring)) for at in places.tolist()]
    return np.asarray(places[np.array(kept, dtype=bool)])


def _features(district: District, rows: Sequence[Row], projection: Projection, crs: str) -> List[Dict[str, Any]]:
    """Parcels of a district as GeoJSON, with local ids."""
    if not rows:
        return []
    ends = np.cumsum([len(row.ring) for row in rows])
    rings = np.split(projection.coordinates(np.concatenate([row.ring for row in rows]), crs), ends[:-1])
    told = []
    for row, ring in zip(rows, rings):
        shape = {"type": "Polygon", "coordinates": [[*ring.tolist(), ring[0].tolist()]]}
        own = _of(district).parcel_properties(row)
        told.append({"type": "Feature", "id": row.id, "geometry": shape, "properties": own})
    return told


async def _version(district: District, register: Register, versions: Vector) -> int:
    """The local version of a district that a request asks for. Raises `Gone`."""
    newest = await register.shown()
    if district.number not in versions:
        return 0 if versions and not district.entries else newest
    wanted = versions[district.number] - district.seat.before
    if wanted < 0:
        raise Gone("entries", f"district {district.number} was recut since: begin again without entries")
    return wanted


def _of(district: District) -> Collections:
    """The collections of a district that is awake."""
    assert district.collections is not None
    return district.collections


def parcel_json(district: District, row: Row, version: Optional[int] = None) -> Dict[str, Any]:
    """A parcel of a district, in whole millimetres, with its global id."""
    own = _of(district).parcel_properties(row)
    entry = row.born and district.seat.before + row.born
    told = {"id": district.seat.ids.outward(row.id), "district": district.number, "entry": entry}
    more = {} if version is None else {"entries": f"{district.number}:{version}"}
    return {**own, **told, **more, "ring_mm": row.ring.tolist()}
