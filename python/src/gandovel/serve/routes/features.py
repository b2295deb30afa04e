"""OGC API Features: collections, their schemas and their features."""
from __future__ import annotations

from typing import Any, Optional

from fastapi import APIRouter, Query, Request
from fastapi.responses import Response

from ..features import link
from ..models import Collection, Collections, Feature, FeatureCollection, GeoJson, JsonSchema, Schema, told_by
from ..schemas import KIND
from ..site import Site, page_shown, shown
from .parameters import COLLECTION, ENTRIES, FORM, SITE

BBOX = Query(None, description="west,south,east,north, in the projection of bbox-crs")
CRS = Query(None, description="the projection of the answer: one of the collection's `crs`")
BBOX_CRS = Query(None, alias="bbox-crs", description="the projection of bbox: one of the collection's `crs`")
LIMIT: Any = Query(100, ge=1, maximum=1000, description="features of a page; more than 1000 are taken as 1000")
OFFSET = Query(None, ge=0, description="how many features are left out; `next` has it")
MOMENT = Query(None, description="the register as it was at a moment of RFC 3339, or what was there in an interval")
NUMBER = Query(None, description="only what has this number, or comes from it")
FILTER = Query(None, description="a filter of CQL2, as text or JSON, on what `queryables` has")
LANGUAGE = Query(None, alias="filter-lang", description="cql2-text or cql2-json", regex="^cql2-(text|json)$")
FILTER_CRS = Query(None, alias="filter-crs", description="the projection of the filter's shapes")
SORTBY = Query(None, description="properties with commas between; - before one for the greatest first")
PROPERTIES = Query(None, description="the properties that are told, with commas between; else all")
router = APIRouter(tags=["OGC API Features"])


@router.get("/collections", summary="The collections", responses=told_by(Collections))
async def collections(request: Request, f: Optional[str] = FORM, site: Site = SITE) -> Response:
    """Each is offered in its own projection, in WGS 84 and in Web Mercator."""
    base = site.base(request)
    links = [
        link(f"{base}/collections", "self", "application/json", "this document"),
        link(f"{base}/collections?f=html", "alternate", "text/html", "this document"),
    ]
    told = [site.collections.told(name, base) for name in site.collections.names]
    body = {"links": links, "crs": site.register.layer.projection.uris, "collections": told}
    return shown(request, body, "Collections")


@router.get("/collections/{collectionId}", summary="A collection", responses=told_by(Collection))
async def collection(
    request: Request, collectionId: str = COLLECTION, f: Optional[str] = FORM, site: Site = SITE
) -> Response:
    """Its extent, its projections, and links to its features and schemas."""
    return shown(request, site.collections.told(collectionId, site.base(request)), collectionId)


@router.get(
    "/collections/{collectionId}/items",
    summary="Features",
    responses=told_by(FeatureCollection),
    response_class=GeoJson,
)
async def items(
    request: Request,
    collectionId: str = COLLECTION,
    bbox: Optional[str] = BBOX,
    bbox_crs: Optional[str] = BBOX_CRS,
    crs: Optional[str] = CRS,
    limit: Optional[int] = LIMIT,
    offset: Optional[int] = OFFSET,
    datetime: Optional[str] = MOMENT,
    entries: Optional[int] = ENTRIES,
    number: Optional[str] = NUMBER,
    filter: Optional[str] = FILTER,
    filter_lang: Optional[str] = LANGUAGE,
    filter_crs: Optional[str] = FILTER_CRS,
    sortby: Optional[str] = SORTBY,
    properties: Optional[str] = PROPERTIES,
    f: Optional[str] = FORM,
    site: Site = SITE,
) -> Response:
    """All pages of a request are of one version: `next` names it."""
    page = await site.items.page(collectionId, request.query_params, site.base(request))
    return page_shown(request, page, collectionId)


@router.get(
    "/collections/{collectionId}/items/{featureId}",
    summary="A feature",
    responses=told_by(Feature),
    response_class=GeoJson,
)
async def item(
    request: Request,
    featureId: str,
    collectionId: str = COLLECTION,
    crs: Optional[str] = CRS,
    entries: Optional[int] = ENTRIES,
    f: Optional[str] = FORM,
    site: Site = SITE,
) -> Response:
    """By its id."""
    page = await site.items.feature(collectionId, featureId, request.query_params, site.base(request))
    return page_shown(request, page, f"{collectionId} {featureId}")


def _add_schema(kind: str, text: str) -> None:
    async def schema(
        request: Request, collectionId: str = COLLECTION, f: Optional[str] = FORM, site: Site = SITE
    ) -> Response:
        body = site.collections.schema(collectionId, kind, site.base(request))
        return shown(request, body, f"{collectionId}: {kind}", KIND)

    path = f"/collections/{{collectionId}}/{kind}"
    router.get(path, summary=text, responses=told_by(Schema), response_class=JsonSchema, operation_id=f"{kind}_of")(
        schema
    )


_add_schema("schema", "The properties of a collection, and their types")
_add_schema("queryables", "What features can be asked for by")
_add_schema("feature-schema", "What a feature is as GeoJSON, and its properties' types")
