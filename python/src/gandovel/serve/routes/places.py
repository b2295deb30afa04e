"""Where points lie, by the proved program."""
from __future__ import annotations

import asyncio
import math
import re
from typing import Optional, Tuple

from fastapi import APIRouter, Request
from fastapi.responses import Response

from ...live.journals import FARTHEST
from ..faults import BadRequest
from ..models import ManyPlaces, Place, Points, told_by
from ..register import Register
from ..site import Ready, Site, versioned
from ..views import encoded
from .parameters import SITE, DirectRoute, only, parameter, site_of

_WHOLE = re.compile(rb"x=(-?[0-9]{1,11})&y=(-?[0-9]{1,11})")
_PLAIN = re.compile(r"[-+]?([0-9]+\.?[0-9]*|\.[0-9]+)([eE][-+]?[0-9]+)?")
_TOLD = {
    "parameters": [
        parameter("x", "number", "in whole millimetres; with crs in its unit", True),
        parameter("y", "number", "as x", True),
        parameter("crs", "string", "the projection of x and y: one of a collection's `crs`"),
    ]
}
router = APIRouter(tags=["Register"])


async def locate(request: Request) -> Response:
    """`x` and `y` in whole millimetres; with `crs` in its unit, rounded to whole millimetres (measured)."""
    asked, site = _WHOLE.fullmatch(request.scope["query_string"]), site_of(request)
    if asked:  # as nearly all are
        x, y, off = int(asked[1]), int(asked[2]), None
    else:
        only(request, "x", "y", "crs")
        x, y, off = _place(request, site)
    entries, body = await _located(site.register, x, y)
    if off is not None:
        body = body[:-1] + b',"moved_mm":%b,"moved_how":"measured"}' % encoded(off)
    return Ready(body, entries)


router.add_api_route(
    "/locate",
    locate,
    route_class_override=DirectRoute,
    summary="Where a point lies",
    openapi_extra=_TOLD,
    responses=told_by(Place),
)


@router.post("/locate", summary="Where several points lie", responses=told_by(ManyPlaces))
async def locate_several(body: Points, site: Site = SITE) -> Response:
    """The answers are in the order of the points."""
    found = await asyncio.gather(*(_located(site.register, x, y) for x, y in body.points))
    content = b'{"places":[%b]}' % b",".join(text for _, text in found)
    return versioned(content, min((entries for entries, _ in found), default=len(site.register.entries)))


async def _located(register: Register, x: int, y: int) -> Tuple[int, bytes]:
    """Where a point (mm) lies, as JSON, and of which version that is. Raises as `Register.locate_line`."""
    if max(abs(x), abs(y)) > FARTHEST:
        raise BadRequest("x", f"a coordinate is at most {FARTHEST} mm from 0")
    words = (await register.locate_line(x, y)).split(b" ")
    content = b'{"entries":%b,"x":%d,"y":%d,"where":"%b","parcels":[%b]}'
    return int(words[1]), content % (words[1], x, y, words[4], b",".join(words[5:]))


def _place(request: Request, site: Site) -> Tuple[int, int, Optional[float]]:
    """The whole millimetres that a request names, and how far off they are where it names a projection."""
    given = request.query_params
    x, y = (_number(given.get(name), name) for name in ("x", "y"))
    projection = site.register.layer.projection
    if "crs" in given:
        return projection.millimetres(x, y, projection.named(given["crs"], "crs"))
    if x != int(x) or y != int(y):
        raise BadRequest("x", "x and y are whole millimetres; with crs they are in its unit")
    return int(x), int(y), None


def _number(text: Optional[str], name: str) -> float:
    value = float(text) if text is not None and len(text) < 100 and _PLAIN.fullmatch(text.strip()) else math.inf
    if not math.isfinite(value):
        raise BadRequest(name, f"{name} is a number")
    return value
