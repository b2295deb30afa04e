"""The addresses of a metropolis."""
from __future__ import annotations

import asyncio
import re
from typing import Any, Dict, List, Mapping, Optional

from fastapi import APIRouter, FastAPI, Query, Request
from fastapi.responses import HTMLResponse, JSONResponse, Response
from starlette.datastructures import Headers

from ..errors import NoZones, Refused
from ..serve.edit_bodies import edit_of
from ..serve.faults import BadRequest, NoSuchThing, NotServing
from ..serve.features import CONFORMANCE, link
from ..serve.metrics import Metrics
from ..serve.models import Points, told_by
from ..serve.openapi import definition
from ..serve.queries import DEFAULT_LIMIT, MOST_LIMIT
from ..serve.routes.edits import key_of, said_of
from ..serve.routes.parameters import FORM
from ..serve.site import GEOJSON, OPENAPI, kind_of, shown
from .edits import Edits, Made
from .features import Features, Page, parcel_json
from .lineage import Lineage, entry_json
from .office import Metropolis, Where
from .page import page_of
from .vectors import Vector, text_of, vector_of
from .zones import Zones, names_at

VERSIONS = Query(None, description="after how many entries of each district, as 3:17,8:2")
MOST_ENTRIES = 10_000
WHY = Query(None, description="the reason, where the body is text/plain")
BBOX = Query(None, description="west,south,east,north, in the projection of bbox-crs")
CRS = Query(None, description="the projection of the answer: one of the collection's `crs`")
BBOX_CRS = Query(None, alias="bbox-crs", description="the projection of bbox: one of the collection's `crs`")
LIMIT: Any = Query(100, ge=1, description="how many at most; more than 1000 are taken as 1000")
OFFSET = Query(None, ge=0, description="how many are left out; `next` has it")
NUMBER = Query(None, description="only what has this number, or comes from it")
BOX = Query(None, description="west,south,east,north in whole millimetres")


class Place:
    """The metropolis with all that its answers need."""

    def __init__(
        self, metropolis: Metropolis, metrics: Metrics, zones: Optional[Zones], base: Optional[str] = None
    ) -> None:
        self.all, self.metrics, self.zones, self._base = metropolis, metrics, zones, base
        self.edits, self.features, self.lineage = Edits(metropolis), Features(metropolis), Lineage(metropolis)

    def base(self, request: Request) -> str:
        """The server's address, without a slash at its end."""
        return (self._base or str(request.base_url)).rstrip("/")


def versioned(body: Dict[str, Any], versions: Vector) -> Response:
    """A body as JSON, and of which versions it is."""
    text = text_of(versions)
    return JSONResponse({"entries": text, **body}, headers={"gandovel-entries": text})


def routers(place: Place, app: FastAPI, issuer: Optional[str]) -> List[APIRouter]:
    """All routes."""
    return [_pages(place, app, issuer), _places(place), _parcels(place), _journals(place), _features(place)]


def _pages(place: Place, app: FastAPI, issuer: Optional[str]) -> APIRouter:
    found = APIRouter(tags=["Metropolis"])

    @found.get("/", summary="The districts, and the newest entry of each", responses=told_by(None))
    async def landing(request: Request, f: Optional[str] = FORM) -> Response:
        if kind_of(request) == "html":
            return HTMLResponse(page_of(await _districts(place)))
        base = place.base(request)
        names = ("districts", "collections", "entries", "conformance", "api", "health")
        links = [link(f"{base}/{name}", "related", "application/json", name) for name in names]
        return shown(request, {"title": app.title, "description": app.description, "links": links}, app.title)

    @found.get("/districts", summary="The districts", responses=told_by(None))
    async def districts() -> Response:
        return versioned({"districts": await _districts(place)}, place.all.versions())

    @found.get("/conformance", summary="What the server conforms to", responses=told_by(None))
    async def conformance(request: Request, f: Optional[str] = FORM) -> Response:
        kept = [it for it in CONFORMANCE if "features" in it and it.endswith(("core", "geojson", "crs", "oas30"))]
        return shown(request, {"conformsTo": kept}, "Conformance")

    @found.get("/api", summary="This document", responses=told_by(None, OPENAPI))
    async def api(request: Request) -> Response:
        document = {**definition(app, issuer), "servers": [{"url": place.base(request)}]}
        return JSONResponse(document, media_type=OPENAPI)

    @found.get("/health", summary="Whether it is open", responses=told_by(None))
    async def health() -> Response:
        body = place.all.health()
        return JSONResponse(body, 200 if body["state"] == "serving" else 503, {"cache-control": "no-store"})

    @found.get("/metrics", summary="Counters, as Prometheus reads them", responses=told_by(None, "text/plain"))
    async def metrics() -> Response:
        return Response(place.metrics.text(), media_type="text/plain; version=0.0.4")

    return found


async def _districts(place: Place) -> List[Dict[str, Any]]:
    """What is told of each district."""
    newest = await place.all.newest()
    told = []
    for number, district in sorted(place.all.districts.items()):
        row, entry = district.seat.row, newest[number]
        told.append(
            {
                "district": number,
                "island": row.island,
                "state": district.state,
                "entries": district.entries,
                "neighbours": list(row.neighbours),
                "layer": row.layer,
                "newest": None if entry is None else entry_json((number, entry)),
            }
        )
    return told


def _places(place: Place) -> APIRouter:
    found = APIRouter(tags=["Metropolis"])

    @found.get("/locate", summary="Where a point lies, in whole millimetres", responses=told_by(None))
    async def locate(x: int, y: int) -> Response:
        where = await located(place.all, x, y)
        return versioned(_where(where, x, y), where.versions)

    @found.post("/locate", summary="Where several points lie", responses=told_by(None))
    async def locate_several(body: Points) -> Response:
        places = await asyncio.gather(*(located(place.all, x, y) for x, y in body.points))
        told = [_where(where, x, y) for where, (x, y) in zip(places, body.points)]
        return JSONResponse({"places": told})

    @found.get("/overlay", summary="Which parcels and zones overlap", responses=told_by(None))
    async def overlay() -> Response:
        zones, pairs, versions = _zones(place), [], {}
        async with place.all.reading(sorted(place.all.districts)) as districts:
            for district in districts:
                of_it = await zones.of(district)
                versions[district.number] = of_it.entries
                pairs += [[district.seat.ids.outward(parcel), zone] for parcel, zone in of_it.pairs.tolist()]
        pairs.sort()
        count: Dict[int, int] = {}
        for parcel, _ in pairs:
            count[parcel] = count.get(parcel, 0) + 1
        split = sorted(parcel for parcel, times in count.items() if times > 1)
        within = [pair for pair in pairs if count[pair[0]] == 1]
        return versioned({"zones": zones.names, "pairs": pairs, "split": split, "within": within}, versions)

    return found


def _where(where: Where, x: int, y: int) -> Dict[str, Any]:
    told = {"x": x, "y": y, "where": where.where, "parcels": where.parcels}
    return {"entries": text_of(where.versions), **told}


async def located(metropolis: Metropolis, x: int, y: int) -> Where:
    """Where a point lies. Raises `BadRequest`, `NotServing`."""
    if max(abs(x), abs(y)) > 100_000_000_000:
        raise BadRequest("x", "a coordinate is at most 100000000000 mm from 0")
    return await metropolis.locate(x, y)


def _zones(place: Place) -> Zones:
    if place.zones is None:
        raise NoZones("no zones", "the layer was prepared without zones")
    return place.zones


def _parcels(place: Place) -> APIRouter:
    found = APIRouter(tags=["Metropolis"])
    _add_several(found, place)

    @found.get("/parcels/{parcelId}", summary="A parcel, in whole millimetres", responses=told_by(None))
    async def parcel(parcelId: str) -> Response:
        number = _id(parcelId)
        district = place.all.home(number)
        local = None if district is None else district.seat.ids.inward(number)
        if district is not None and local is not None:
            async with district.open() as register:
                version = await register.shown()
                row = register.versions.find(local, version)
                if row is not None:
                    versions = {district.number: district.seat.before + version}
                    return versioned(parcel_json(district, row), versions)
        raise await place.lineage.missing(number)

    @found.get("/parcels/{parcelId}/history", summary="The entries that made and took it", responses=told_by(None))
    async def history(parcelId: str) -> Response:
        number = _id(parcelId)
        entries, district, version = await place.lineage.history(number)
        return versioned({"parcel": number, "history": [entry_json(it) for it in entries]}, {district: version})

    @found.get("/parcels/{parcelId}/lineage", summary="What it was made of, and became", responses=told_by(None))
    async def lineage(parcelId: str) -> Response:
        number = _id(parcelId)
        told = await place.lineage.lineage(number)
        return versioned({"parcel": number, "parcels": told}, place.all.versions())

    @found.get("/parcels/{parcelId}/zones", summary="The zones that it overlaps", responses=told_by(None))
    async def zones(parcelId: str) -> Response:
        number, of = _id(parcelId), _zones(place)
        district = place.all.home(number)
        local = None if district is None else district.seat.ids.inward(number)
        if district is not None and local is not None:
            pairs = await of.of(district)
            places = pairs.pairs[pairs.pairs[:, 0] == local, 1].tolist()
            if places:
                versions = {district.number: pairs.entries}
                return versioned({"parcel": number, "zones": names_at(of, places)}, versions)
        raise await place.lineage.missing(number)

    return found


def _add_several(found: APIRouter, place: Place) -> None:
    @found.get("/parcels", summary="Parcels by number or box, in whole millimetres", responses=told_by(None))
    async def parcels(
        number: Optional[str] = NUMBER, bbox: Optional[str] = BOX, limit: int = LIMIT, offset: Optional[int] = OFFSET
    ) -> Response:
        """Those with a number or that come from it, those whose boxes meet a box, or all; by district, then id."""
        box, several = _box(bbox), place.all
        numbers = sorted(several.districts) if box is None else several.near(box[:2], box[2:])
        if number is not None:
            numbers = sorted(set(numbers) & set(several.now.numbered(number)))
        told: List[Dict[str, Any]] = []
        versions: Vector = {}
        first, count, matched = offset or 0, min(limit or DEFAULT_LIMIT, MOST_LIMIT), 0
        async with several.reading(numbers) as districts:
            for district in districts:
                if district.unasked is not None and len(told) >= count and box is None and number is None:
                    matched += district.unasked
                    versions[district.number] = district.entries
                    continue
                async with district.open() as register:
                    version = await register.shown()
                    versions[district.number] = district.seat.before + version
                    places = register.versions.places(version, box).tolist()
                    if number is not None:
                        named = set(register.layer.parcels_named(number))
                        places = [it for it in places if register.versions.row(it).id in named]
                    some = places[max(0, first - matched) :][: count - len(told)]
                    told += [parcel_json(district, register.versions.row(at)) for at in some]
                    matched += len(places)
        return versioned({"matched": matched, "parcels": told}, versions)


def _box(text: Optional[str]) -> Optional[Any]:
    if text is None:
        return None
    words = text.split(",")
    if len(words) != 4 or not all(re.fullmatch("-?[0-9]{1,12}", word) for word in words):
        raise BadRequest("bbox", "bbox is four whole numbers of millimetres, with commas between")
    west, south, east, north = map(float, words)
    return west, south, east, north


def _id(text: str) -> int:
    if not re.fullmatch("[0-9]{1,18}", text):
        raise NoSuchThing("parcel", "a parcel is named by its id, a whole number: find it by /parcels?number=")
    return int(text)


def _journals(place: Place) -> APIRouter:
    found = APIRouter(tags=["Metropolis"])

    @found.get("/entries", summary="Entries of all districts, by time", responses=told_by(None))
    async def entries(after: Optional[str] = VERSIONS, limit: int = LIMIT) -> Response:
        """`next` is what to give as `after` for those behind them."""
        begin = vector_of(after, "after")
        some, versions = await place.all.entries_after(begin, min(limit, MOST_ENTRIES))
        following = dict(begin)
        for number, entry in some:
            following[number] = entry.number
        records = [entry_json(it) for it in some]
        return versioned({"records": records, "next": text_of(following)}, versions)

    @found.post("/edits", summary="Makes an edit", responses=told_by(None))
    async def edit(request: Request, why: Optional[str] = WHY) -> Response:
        """An edit as JSON, or a clerk's line as text/plain. 200 comes once the journals have it on the disk."""
        return await made(place, request.state.client.name, request.headers, why, await request.body())

    return found


async def made(place: Place, name: str, given: Headers, why: Optional[str], body: bytes) -> Response:
    """Makes an edit: the answer. Raises `Refused`."""
    line, reason = edit_of(body, given.get("content-type", "application/json"), why)
    said = said_of(name, reason, key_of(given.get("idempotency-key")))
    at = vector_of(given.get("if-match") if given.get("if-match") != "*" else None, "If-Match")
    try:
        done = await place.edits.submit(line, said, at)
    except TimeoutError:
        place.metrics.refused.labels("unknown").inc()
        text = "whether the edit was made is not known yet: send it again with the same key"
        raise NotServing("unknown", text) from None
    except Refused as fault:
        place.metrics.refused.labels(fault.code).inc()
        raise
    return _answer(place, done)


def _answer(place: Place, done: Made) -> Response:
    versions = {number: entry.number for number, entry in [*done.also, (done.district, done.entry)]}
    text = text_of(versions)
    headers = {"gandovel-entries": text, "etag": f'"{text}"'}
    if done.is_repeated:
        headers["gandovel-repeated"] = "true"
    else:
        place.metrics.accepted.inc()
    body = entry_json((done.district, done.entry))
    if done.also:
        body["also"] = [entry_json(it) for it in done.also]
    return JSONResponse(body, headers=headers)


def _features(place: Place) -> APIRouter:
    found = APIRouter(tags=["OGC API Features"])

    @found.get("/collections", summary="The collection of parcels", responses=told_by(None))
    async def collections(request: Request, f: Optional[str] = FORM) -> Response:
        base = place.base(request)
        links = [link(f"{base}/collections", "self", "application/json", "this document")]
        body = {"links": links, "collections": [await place.features.told(base)]}
        return shown(request, body, "Collections")

    @found.get("/collections/parcels", summary="What it is", responses=told_by(None))
    async def collection(request: Request, f: Optional[str] = FORM) -> Response:
        return shown(request, await place.features.told(place.base(request)), "parcels")

    @found.get("/collections/parcels/items", summary="Features", responses=told_by(None, GEOJSON))
    async def items(
        request: Request,
        bbox: Optional[str] = BBOX,
        bbox_crs: Optional[str] = BBOX_CRS,
        crs: Optional[str] = CRS,
        limit: Optional[int] = LIMIT,
        offset: Optional[int] = OFFSET,
        entries: Optional[str] = VERSIONS,
        number: Optional[str] = NUMBER,
        f: Optional[str] = FORM,
    ) -> Response:
        return _page(request, await place.features.page(request.query_params, place.base(request)))

    @found.get("/collections/parcels/items/{featureId}", summary="A feature", responses=told_by(None, GEOJSON))
    async def item(request: Request, featureId: str, crs: Optional[str] = CRS, f: Optional[str] = FORM) -> Response:
        given: Mapping[str, str] = request.query_params
        return _page(request, await place.features.feature(_id(featureId), given, place.base(request)))

    return found


def _page(request: Request, page: Page) -> Response:
    response = shown(request, page.body, "parcels", GEOJSON)
    response.headers["gandovel-entries"] = text_of(page.versions)
    response.headers["content-crs"] = f"<{page.crs}>"
    return response
