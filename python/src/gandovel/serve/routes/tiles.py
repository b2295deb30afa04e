"""OGC API Tiles: vector tiles of parcels and zones, in Web Mercator."""
from __future__ import annotations

from typing import Any, Dict, List, Optional

from fastapi import APIRouter, Request
from fastapi.responses import Response

from ..crs import MERCATOR
from ..faults import NoSuchThing
from ..features import MVT, link
from ..models import Open, told_by
from ..site import Site, shown
from ..tiles import limits_of, matrices_of, tile_number
from .parameters import COLLECTION, FORM, SITE

QUAD = "WebMercatorQuad"
_SET = f"http://www.opengis.net/def/tilematrixset/OGC/1.0/{QUAD}"
_SCHEME = "http://www.opengis.net/def/rel/ogc/1.0/tiling-scheme"
_TILE: Dict[Any, Any] = {
    200: {"content": {MVT: {"schema": {"type": "string", "format": "binary"}}}, "description": "the tile"}
}
router = APIRouter(tags=["OGC API Tiles"])


@router.get("/tileMatrixSets", summary="How maps are cut into tiles", responses=told_by(Open))
async def sets(request: Request, f: Optional[str] = FORM, site: Site = SITE) -> Response:
    """One way: that of most maps on the web."""
    at = link(f"{site.base(request)}/tileMatrixSets/{QUAD}", "self", "application/json", QUAD)
    return shown(request, {"tileMatrixSets": [{"id": QUAD, "title": QUAD, "uri": _SET, "links": [at]}]}, "Tilings")


@router.get("/tileMatrixSets/{tileMatrixSetId}", summary="The levels of a tiling", responses=told_by(Open))
async def one_set(request: Request, tileMatrixSetId: str, f: Optional[str] = FORM) -> Response:
    """The size and the place of each level's tiles."""
    _test(tileMatrixSetId)
    body = {"id": QUAD, "title": QUAD, "uri": _SET, "crs": MERCATOR, "tileMatrices": matrices_of()}
    return shown(request, body, QUAD)


@router.get("/collections/{collectionId}/tiles", summary="A collection's tilesets", responses=told_by(Open))
async def tilesets(
    request: Request, collectionId: str = COLLECTION, f: Optional[str] = FORM, site: Site = SITE
) -> Response:
    """One, of vector tiles."""
    body = {"tilesets": [_told(site, request, collectionId)], "links": []}
    return shown(request, body, f"{collectionId}: tiles")


@router.get("/collections/{collectionId}/tiles/{tileMatrixSetId}", summary="A tileset", responses=told_by(Open))
async def tileset(
    request: Request, tileMatrixSetId: str, collectionId: str = COLLECTION, f: Optional[str] = FORM, site: Site = SITE
) -> Response:
    """Its layers, and which rows and columns of each level have something."""
    _test(tileMatrixSetId)
    told = _told(site, request, collectionId)
    fields = {name: kind for name, kind in site.collections.types(collectionId).items()}
    layer = {"id": collectionId, "dataType": "vector", "geometryDimension": 2}
    layer["propertiesSchema"] = {"type": "object", "properties": fields}
    limits = limits_of(site.register.layer.projection)
    return shown(request, {**told, "layers": [layer], "tileMatrixSetLimits": limits}, f"{collectionId}: {QUAD}")


@router.get(
    "/collections/{collectionId}/tiles/{tileMatrixSetId}/{tileMatrix}/{tileRow}/{tileCol}",
    summary="A vector tile",
    responses=_TILE,
)
async def tile(
    request: Request,
    tileMatrixSetId: str,
    tileMatrix: str,
    tileRow: str,
    tileCol: str,
    collectionId: str = COLLECTION,
    site: Site = SITE,
) -> Response:
    """A Mapbox Vector Tile: for drawing, its corners are rounded. Shapes of less than two pixels are left out."""
    _test(tileMatrixSetId)
    numbers: List[Optional[int]] = [tile_number(text) for text in (tileMatrix, tileRow, tileCol)]
    level, row, column = (-1 if it is None else it for it in numbers)
    found, entries = await site.tiles.tile(collectionId, level, row, column)
    headers = {"gandovel-entries": str(entries), "etag": f'W/"{site.begun}-{found.since}-mvt"'}
    return Response(found.content, media_type=MVT, headers=headers)


def _told(site: Site, request: Request, name: str) -> Dict[str, Any]:
    """What is told of a collection's tileset. Raises `NoSuchThing`."""
    site.collections.test(name)
    if name not in site.collections.tiled:
        raise NoSuchThing("collection", f"tiles are of {' and '.join(site.collections.tiled)}")
    base = site.base(request)
    at = f"{base}/collections/{name}/tiles/{QUAD}"
    template = link(f"{at}/{{tileMatrix}}/{{tileRow}}/{{tileCol}}", "item", MVT, "the tiles")
    return {
        "title": site.collections.TITLES[name][0],
        "dataType": "vector",
        "crs": MERCATOR,
        "tileMatrixSetURI": _SET,
        "links": [
            link(at, "self", "application/json", "this tileset"),
            link(f"{base}/tileMatrixSets/{QUAD}", _SCHEME, "application/json", QUAD),
            {**template, "templated": True},
        ],
    }


def _test(name: str) -> None:
    if name != QUAD:
        raise NoSuchThing("tileMatrixSet", f"tiles are cut as {QUAD}")
