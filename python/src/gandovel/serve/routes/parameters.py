"""What routes share: the site that they answer for, the version and the collection that are asked for, tests of
parameters, and routes that are handed the request as it is."""
from __future__ import annotations

from typing import Any, Callable, FrozenSet, Optional, cast

from fastapi import Depends, Header, Path, Query, Request
from fastapi.dependencies.utils import get_flat_dependant
from fastapi.routing import APIRoute

from ..faults import BadRequest
from ..site import Site

FORM = Query(None, description="json or html; else what the client accepts", regex="^(json|html)$")
ENTRIES = Query(None, ge=0, description="the version: as it was after so many entries")
COLLECTION = Path(description="parcels, history, zones, split or faults")


def site_of(request: Request) -> Site:
    """The site that an application answers for."""
    return cast(Site, request.app.state.site)


SITE: Site = Depends(site_of)
"""The site, as a parameter of a route."""


class DirectRoute(APIRoute):
    """A route whose endpoint is handed the request as it is, for addresses that are asked for most: nothing but this
    endpoint answers them. Its parameters stand in `openapi_extra`, and it tests them itself (`only`)."""

    def get_route_handler(self) -> Callable[[Request], Any]:
        """The endpoint."""
        return cast(Callable[[Request], Any], self.endpoint)


def parameter(name: str, kind: str, text: str, required: bool = False, where: str = "query") -> Any:
    """A parameter of a `DirectRoute`, as OpenAPI has it."""
    return {"name": name, "in": where, "required": required, "description": text, "schema": {"type": kind}}


def only(request: Request, *names: str) -> None:
    """Tests that a request has no parameters but these, each once. Raises `BadRequest`."""
    _test(request, frozenset(names))


async def known_parameters(request: Request) -> None:
    """Tests that a request has the parameters of its address alone, each once. Raises `BadRequest`."""
    _test(request, _names_of(request.scope["route"]))


def _test(request: Request, names: FrozenSet[str]) -> None:
    given = [name for name, _ in request.query_params.multi_items()]
    for name in given:
        if name not in names:
            there = f"there are {', '.join(sorted(names))}" if names else "this address takes none"
            raise BadRequest("parameter", f"{name[:40]} is no parameter here: {there}")
    if len(set(given)) < len(given):
        raise BadRequest("parameter", "a parameter may be given once")


def _names_of(route: Any) -> FrozenSet[str]:
    """The parameters of a route, which are looked for once."""
    if not hasattr(route, "known_names"):
        route.known_names = frozenset(field.alias for field in get_flat_dependant(route.dependant).query_params)
    return cast(FrozenSet[str], route.known_names)


def version(entries: Optional[int] = ENTRIES) -> Optional[int]:
    """The version that is asked for. Raises `BadRequest`."""
    if entries is not None and entries >= 10**15:
        raise BadRequest("entries", "entries is a whole number of at most 15 digits")
    return entries


VERSION: Optional[int] = Depends(version)
"""The version, as a parameter of a route; None for that of now."""
LAST_EVENT = Header(None, description="as `after`, where that is not given")
