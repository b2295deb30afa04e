"""Pages of features: which match, in which order, and the page as one text that is joined of parts made once."""
from __future__ import annotations

import asyncio
import re
from collections import OrderedDict
from dataclasses import dataclass
from typing import Any, Callable, Dict, List, Mapping, Optional, Sequence, Tuple
from urllib.parse import urlencode

import numpy as np
from shapely import affinity
from shapely.geometry import Polygon, box
from shapely.geometry.base import BaseGeometry
from shapely.prepared import prep

from ..arrays import Array
from .crs import Projection
from .entries import Row
from .faults import Gone, NoSuchThing
from .faulty import FaultRow
from .features import Collections, link, now
from .filters import kind_of, valued
from .queries import Asked
from .register import Register
from .schemas import Types
from .views import View, encoded, feature_text, shapes_of, with_more

PIECE = 500
"""Rows that are filtered at once: then other requests have a turn."""
MOST_KEPT = 16
"""Answers to what matches that are kept, for the pages that follow a first one."""
Matched = Tuple[int, Array]
"""The turn of the rows, and where those that match are, in order."""
GEOJSON = "application/geo+json"


@dataclass(frozen=True)
class Page:
    """What an answer has: its body as JSON, its links, the version's number, and the URI of its projection."""

    content: bytes
    links: List[Dict[str, str]]
    entries: int
    crs: str


class Items:
    """Pages of the features of a register's collections."""

    def __init__(self, register: Register, collections: Collections) -> None:
        self._register, self._collections = register, collections
        self._matched: "OrderedDict[Any, Matched]" = OrderedDict()

    async def page(self, name: str, given: Mapping[str, str], base: str) -> Page:
        """A page of features, as the parameters of a request say. Raises `BadRequest`, and as `view` does."""
        kinds = self._collections.types(name)
        asked = Asked.of(given, self._register, kinds)
        first, end = asked.offset, asked.offset + asked.limit
        if name == "faults":
            found = self._faults(asked, kinds)
            texts = [self._fault_text(it, asked) for it in found[first:end]]
            return self._paged(name, given, base, asked, (len(found), texts, 0))
        view = await self._collections.view_at(name, asked)
        turn, places = await self._places(name, view, asked, kinds)
        while turn != view.versions.turn:  # rows were forgotten meanwhile
            if view.version < view.versions.first:
                raise Gone("entries", f"version {view.version} is not kept any more: begin again without entries")
            turn, places = await self._places(name, view, asked, kinds)
        rows = [view.versions.row(at) for at in places[first:end].tolist()]
        texts = await self._texts(rows, view, asked)
        return self._paged(name, given, base, asked, (len(places), texts, view.entries))

    async def feature(self, name: str, number: str, given: Mapping[str, str], base: str) -> Page:
        """One feature. Raises `NoSuchThing`, `BadRequest`."""
        asked = Asked.of(given, self._register, self._collections.types(name))
        at, entries = f"{base}/collections/{name}", 0
        wanted = int(number) if re.fullmatch("[0-9]{1,18}", number) else -1
        if name == "faults":
            texts = [self._fault_text(it, asked) for it in self._register.faults or [] if it.id == wanted]
        else:
            view = await self._collections.view(name, asked.entries)
            entries, row = view.entries, view.find(wanted)
            texts = await self._texts([] if row is None else [row], view, asked)
        if not texts:
            raise NoSuchThing("feature", f"{name} has no feature {number[:40]} after {entries} entries")
        links = [
            link(f"{at}/items/{wanted}", "self", GEOJSON, "this feature"),
            link(f"{at}/items/{wanted}?f=html", "alternate", "text/html", "this feature"),
            link(at, "collection", "application/json", self._collections.TITLES[name][0]),
        ]
        content = with_more(texts[0], b'"links":' + encoded(links))
        return Page(content, links, entries, asked.crs)

    async def _texts(self, rows: Sequence[Row], view: View, asked: Asked) -> List[bytes]:
        """Features as GeoJSON, with the properties that are asked for."""
        shapes = await shapes_of(rows, self._register.layer.projection, asked.crs)
        if asked.chosen is None:
            return [feature_text(row.id, shape, view.text(row)) for row, shape in zip(rows, shapes)]
        found = []
        for row, shape in zip(rows, shapes):
            known = view.properties(row)
            chosen = {name: known[name] for name in asked.chosen if name in known}
            found.append(feature_text(row.id, shape, encoded(chosen)))
        return found

    def _paged(
        self, name: str, given: Mapping[str, str], base: str, asked: Asked, found: Tuple[int, List[bytes], int]
    ) -> Page:
        """A page of the features that were found: how many match, those of the page, and their version."""
        matched, texts, entries = found
        at, after = f"{base}/collections/{name}/items", asked.offset + len(texts)
        title = self._collections.TITLES[name][0]
        links = [link(f"{at}?{urlencode(dict(given))}".rstrip("?"), "self", GEOJSON, "this page")]
        links.append(link(f"{at}?{urlencode({**given, 'f': 'html'})}", "alternate", "text/html", "this page"))
        links.append(link(f"{base}/collections/{name}", "collection", "application/json", title))
        if after < matched and texts:
            more = urlencode({**given, "limit": asked.limit, "offset": after, "entries": entries})
            links.append(link(f"{at}?{more}", "next", GEOJSON, "the next page"))
        head = {
            "type": "FeatureCollection",
            "timeStamp": now(),
            "numberMatched": matched,
            "numberReturned": len(texts),
            "links": links,
        }
        content = with_more(encoded(head), b'"features":[' + b",".join(texts) + b"]")
        return Page(content, links, entries, asked.crs)

    # which match

    async def _places(self, name: str, view: View, asked: Asked, kinds: Types) -> Matched:
        """Where the rows that match are, in the order that is asked for; kept for the pages that follow."""
        turn = view.versions.turn
        key = (name, view.version, view.since, view.entries, turn, asked.words)
        known = self._matched.get(key)
        if known is None:
            places = _meeting(view, asked.area)
            if asked.number is not None:
                places = places[np.isin(view.versions.ids(places), self._named(name, asked.number))]
            if asked.filter is not None:
                places = await self._filtered(places, view, asked)
                if turn != view.versions.turn:
                    return turn, places
            known = turn, self._ordered(name, places, view, asked, kinds)
            while len(self._matched) >= MOST_KEPT:
                self._matched.popitem(last=False)
            self._matched[key] = known
        return known

    def _named(self, name: str, number: str) -> List[int]:
        """The ids that a number stands for."""
        layer = self._register.layer
        return layer.zones_named(number) if name == "zones" else layer.parcels_named(number)

    async def _filtered(self, places: Array, view: View, asked: Asked) -> Array:
        """The rows that pass the filter, a piece of them at a time."""
        meets = _Shapes(self._register.layer.projection, asked.filter_crs)
        rows = [view.versions.row(at) for at in places.tolist()]
        kept = np.zeros(len(rows), dtype=bool)
        assert asked.filter is not None
        for at, row in enumerate(rows):
            if at % PIECE == PIECE - 1:
                await asyncio.sleep(0)
            kept[at] = asked.filter.test(view.properties(row).get, meets.of(row)) is True
        return np.asarray(places[kept])

    def _ordered(self, name: str, places: Array, view: View, asked: Asked, kinds: Types) -> Array:
        """Rows in the order that is asked for; else by ids, but such that no page has numbers alone that look like
        dates."""
        if asked.order:
            told = [view.properties(view.versions.row(at)) for at in places.tolist()]
            return np.asarray(places[np.array(_sorted(told, asked, kinds), dtype=np.int64)])
        if name == "zones":
            return places
        return _spread(places, self._register.layer.date_like(view.versions.ids(places)))

    def _faults(self, asked: Asked, kinds: Types) -> List[FaultRow]:
        """The faults of the layer that a request asks for, in its order."""
        projection = self._register.layer.projection
        scale = projection.scale
        area = None if asked.area is None else affinity.scale(asked.area, 1 / scale, 1 / scale, origin=(0, 0))
        shapes = _Shapes(projection, asked.filter_crs)
        found = [
            it
            for it in self._register.faults or []
            if (area is None or it.shape.intersects(area))
            and (asked.number is None or it.is_of(asked.number))
            and (asked.filter is None or asked.filter.test(it.properties.get, shapes.of_shape(it.shape)) is True)
        ]
        return [found[at] for at in _sorted([it.properties for it in found], asked, kinds)]

    def _fault_text(self, row: FaultRow, asked: Asked) -> bytes:
        shape = row.geometry(self._register.layer.projection, asked.crs)
        chosen = asked.chosen
        told = row.properties if chosen is None else {name: row.properties[name] for name in chosen}
        return feature_text(row.id, encoded(shape), encoded(told))


class _Shapes:
    """What a filter's shapes are in mm: each is transformed once."""

    def __init__(self, projection: Projection, crs: str) -> None:
        self._projection, self._crs = projection, crs
        self._known: Dict[Tuple[float, ...], Any] = {}

    def of(self, row: Row) -> Callable[[Tuple[float, ...]], bool]:
        """What tells whether a row's ring meets a box or a point."""
        return lambda numbers: self._meets(numbers, lambda: Polygon(row.ring))

    def of_shape(self, shape: BaseGeometry) -> Callable[[Tuple[float, ...]], bool]:
        """The same of a shape in the layer's unit."""
        scale = self._projection.scale
        return lambda numbers: self._meets(numbers, lambda: affinity.scale(shape, scale, scale, origin=(0, 0)))

    def _meets(self, numbers: Tuple[float, ...], shape: Callable[[], BaseGeometry]) -> bool:
        if numbers not in self._known:
            if len(numbers) == 2:
                area: Optional[BaseGeometry] = self._projection.point(numbers[0], numbers[1], self._crs)
            else:
                area = self._projection.area(numbers, self._crs)
            self._known[numbers] = None if area is None else prep(area)
        known = self._known[numbers]
        return known is None or bool(known.intersects(shape()))


def _sorted(told: Sequence[Mapping[str, Any]], asked: Asked, kinds: Types) -> List[int]:
    """The places of features in the order that is asked for; those without a value come last."""
    order = list(range(len(told)))
    for name, is_greatest_first in reversed(asked.order):
        kind = kind_of(kinds[name])
        values = [valued(it.get(name), kind) for it in told]
        there = [at for at in order if values[at] is not None]
        there.sort(key=lambda at: values[at], reverse=is_greatest_first)  # type: ignore[arg-type,return-value]
        order = [*there, *(at for at in order if values[at] is None)]
    return order


def _meeting(view: View, area: Optional[BaseGeometry]) -> Array:
    """The rows whose shape meets the box: exact but for the edge of the box, where GEOS measures."""
    if area is None:
        return view.places()
    if area.is_empty:
        return np.zeros(0, dtype=np.int64)
    versions, places = view.versions, view.places(area.bounds)
    meets, inner = prep(area), _inner(area)
    is_sure = np.zeros(len(places), dtype=bool)
    if inner is not None and meets.contains(inner):
        is_sure = versions.within(places, inner.bounds)
    kept = [
        sure or meets.intersects(Polygon(versions.row(at).ring)) for at, sure in zip(places.tolist(), is_sure.tolist())
    ]
    return np.asarray(places[np.array(kept, dtype=bool)])


def _spread(places: Array, is_date: Optional[Array]) -> Array:
    """Rows in an order in which those whose numbers may be taken for dates, if any, and the others are spread evenly.

    So a page is not all dates, where a tenth of the numbers is none: a client that guesses types takes them for text.
    """
    if is_date is None or is_date.all() or not is_date.any():
        return places
    parts = places[is_date], places[~is_date]
    keys = np.concatenate([(np.arange(len(part)) + 0.5) / len(part) for part in parts])
    return np.asarray(np.concatenate(parts)[np.argsort(keys, kind="stable")])


def _inner(area: Any) -> Any:
    """A rectangle that most of the area is in, to be tested; None where it has none. Rows in it need no test."""
    shapes = getattr(area, "geoms", [area])
    if len(shapes) != 1:
        return None
    steps = np.asarray(shapes[0].exterior.coords)[:-1]
    corners = steps[:: max(1, len(steps) // 4)][:4]
    (_, west, east, _), (_, south, north, _) = np.sort(corners[:, 0]), np.sort(corners[:, 1])
    x, y = (east - west) / 1000, (north - south) / 1000
    return box(west + x, south + y, east - x, north - y) if east > west and north > south else None
