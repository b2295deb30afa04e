"""Styles of the collections: for Mapbox GL and MapLibre, and for QGIS."""
from __future__ import annotations

from typing import Any, Dict, Optional

from fastapi import APIRouter, Query, Request
from fastapi.responses import Response

from ..faults import NoSuchThing
from ..features import link
from ..models import Open, told_by
from ..site import Site, shown
from ..styles import MAPBOX, QML, mapbox_style, qml_style
from ..tiles import DEEPEST
from ..views import encoded
from .parameters import FORM, SITE

KIND = Query("mapbox", description="mapbox or qml", regex="^(mapbox|qml)$")
_STYLE: Dict[Any, Any] = {
    200: {
        "content": {MAPBOX: {"schema": {"type": "object"}}, QML: {"schema": {"type": "string"}}},
        "description": "the style",
    }
}
router = APIRouter(tags=["OGC API Styles"])


@router.get("/styles", summary="Styles for maps", responses=told_by(Open))
async def styles(request: Request, f: Optional[str] = FORM, site: Site = SITE) -> Response:
    """One of each collection that has tiles, in two forms."""
    told, base = [], site.base(request)
    for name in site.collections.tiled:
        at = f"{base}/styles/{name}"
        links = [
            link(f"{at}?f=mapbox", "stylesheet", MAPBOX, "for Mapbox GL and MapLibre"),
            link(f"{at}?f=qml", "stylesheet", QML, "for QGIS"),
        ]
        told.append({"id": name, "title": site.collections.TITLES[name][0], "links": links})
    return shown(request, {"styles": told, "links": []}, "Styles")


@router.get("/styles/{styleId}", summary="A style", responses=_STYLE)
async def style(request: Request, styleId: str, f: str = KIND, site: Site = SITE) -> Response:
    """The tiles of Mapbox GL's begin at the level at which a parcel of usual size is drawn."""
    if styleId not in site.collections.tiled:
        raise NoSuchThing("style", f"the styles are {' and '.join(site.collections.tiled)}")
    if f == "qml":
        return Response(qml_style(styleId), media_type=QML)
    box, level = site.register.layer.projection.extent, site.tiles.first_level()
    return Response(encoded(mapbox_style(styleId, site.base(request), level, DEEPEST, box)), media_type=MAPBOX)
