"""Where all begins: links to all, the page for clerks, the definition of the API."""
from __future__ import annotations

import mimetypes
from typing import Any, Dict, List, Optional

from fastapi import APIRouter, Request
from fastapi.responses import HTMLResponse, Response

from ..faults import NoSuchThing
from ..features import CONFORMANCE, link
from ..models import Conformance, Landing, Settings, told_by
from ..openapi import definition
from ..pages import HERE, openapi_html
from ..site import OPENAPI, Site, kind_of, shown, versioned
from ..views import encoded
from .parameters import FORM, SITE

MAP = HERE.parents[1] / "out/map_page"
"""The drawing of parcels, with Leaflet."""
_FILES = {"": HERE, "map/": MAP}
_KEPT = {
    prefix + path.name: (path.read_bytes(), mimetypes.guess_type(path.name)[0] or "text/plain")
    for prefix, folder in _FILES.items()
    for path in folder.iterdir()
    if path.is_file()
}
"""The files of the page, which are few: each is read once, and no other is looked for."""
router = APIRouter(tags=["OGC API Features"])


@router.get("/", summary="Links to all, or the page for clerks", responses=told_by(Landing))
async def landing(request: Request, f: Optional[str] = FORM, site: Site = SITE) -> Response:
    """The page where the client takes HTML and no JSON."""
    if kind_of(request) == "html":
        return HTMLResponse((HERE / "register.html").read_text(encoding="utf-8"))
    app, links = request.app, _links(site.base(request))
    return shown(request, {"title": app.title, "description": app.description, "links": links}, app.title)


@router.get("/conformance", summary="What the server conforms to", responses=told_by(Conformance))
async def conformance(request: Request, f: Optional[str] = FORM) -> Response:
    """The classes of the standards."""
    return shown(request, {"conformsTo": CONFORMANCE}, "Conformance")


@router.get("/api", summary="This document", responses=told_by(None, OPENAPI))
async def api(request: Request, f: Optional[str] = FORM, site: Site = SITE) -> Response:
    """As OpenAPI 3.0, or as a table."""
    document = {**definition(request.app, request.app.state.issuer), "servers": [{"url": site.base(request)}]}
    if kind_of(request) == "html":
        return HTMLResponse(openapi_html(document))
    return Response(encoded(document), media_type=OPENAPI)


@router.get("/settings", summary="What the page begins with", responses=told_by(Settings))
async def settings(site: Site = SITE) -> Response:
    """How many parcels there are, where, in which projection; and the base map."""
    register, projection = site.register, site.register.layer.projection
    view = await site.collections.view("parcels", None)
    body = {
        "entries": view.entries,
        "parcels": len(view.places()),
        "box_mm": [int(it) for it in view.versions.bounds()],
        "crs": projection.uri,
        "epsg": projection.name,
        "unit_mm": projection.scale,
        "north_first": projection.is_north_first,
        "zones": register.layer.zones is not None,
        "base_map": site.base_map,
    }
    return versioned(body, view.entries)


@router.get("/page/{name:path}", include_in_schema=False)
async def file(name: str) -> Response:
    """A file of the page."""
    if name not in _KEPT:
        raise NoSuchThing("address", "there is no such page: / has links to all")
    content, kind = _KEPT[name]
    return Response(content, media_type=kind)


def _links(base: str) -> List[Dict[str, str]]:
    json_kind = "application/json"
    told: List[Any] = [
        link(f"{base}/?f=json", "self", json_kind, "this document"),
        link(f"{base}/?f=html", "alternate", "text/html", "the page for clerks"),
        link(f"{base}/api", "service-desc", OPENAPI, "the definition of the API"),
        link(f"{base}/api?f=html", "service-doc", "text/html", "the API to read"),
        link(f"{base}/conformance", "conformance", json_kind, "what the server conforms to"),
        link(f"{base}/collections", "data", json_kind, "the collections"),
        link(f"{base}/tileMatrixSets", "http://www.opengis.net/def/rel/ogc/1.0/tiling-schemes", json_kind, "tilings"),
        link(f"{base}/styles", "http://www.opengis.net/def/rel/ogc/1.0/styles", json_kind, "styles for maps"),
        link(f"{base}/entries", "related", json_kind, "the journal"),
        link(f"{base}/changes", "related", "text/event-stream", "each entry as it is published"),
    ]
    return told
