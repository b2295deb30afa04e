"""The application: the routers, and how what is refused is answered. Its OpenAPI document is at `/api`."""
from __future__ import annotations

from typing import Any, List, Optional

from fastapi import Depends, FastAPI, Request
from fastapi.exceptions import RequestValidationError
from fastapi.responses import JSONResponse, Response
from starlette.exceptions import HTTPException
from starlette.requests import ClientDisconnect
from starlette.routing import Match

from ..errors import Refused
from .faults import as_json
from .models import Refusal
from .routes import drafts, edits, features, pages, parcels, places, state, styles, tiles
from .routes.parameters import known_parameters
from .site import Site, answer_of, gone

_TEXTS = {
    400: "the body can't be read: send it as the definition at /api has it",
    404: "there is no such page: / has links to all",
    405: "this address does not take this method",
}


def application(site: Site, issuer: Optional[str] = None) -> FastAPI:
    """The application of a register."""
    app = bare_application(
        "A parcel register",
        "Parcels that tile a city, exactly, by a formally verified program. Coordinates of edits and of "
        "`/locate` are whole millimetres.",
    )
    app.state.site, app.state.issuer = site, issuer
    themes = (edits, places, parcels, pages, features, tiles, styles, drafts, state)
    for module in themes:  # the first ones are found soonest
        app.include_router(module.router)
    return app


def bare_application(title: str, description: str) -> FastAPI:
    """An application without routes, that answers what is refused."""
    app = FastAPI(
        title=title,
        version="2.0.0",
        description=description,
        openapi_url=None,
        docs_url=None,
        redoc_url=None,
        dependencies=[Depends(known_parameters)],
        responses={400: {"model": Refusal, "description": "a parameter or a body that is not understood"}},
    )
    _add_faults(app)
    return app


def _add_faults(app: FastAPI) -> None:
    async def refused(request: Request, fault: Any) -> Response:
        return answer_of(fault)

    async def invalid(request: Request, fault: Any) -> Response:
        first = fault.errors()[0]
        place = ".".join(map(str, first["loc"] if first["loc"][0] == "body" else first["loc"][1:]))
        text = f"{place}: {first['msg']}"
        return JSONResponse(as_json(400, "parameter", text[:300]), 400)

    async def none(request: Request, fault: Any) -> Response:
        status = fault.status_code
        headers = {"allow": ", ".join(_methods_of(app, request))} if status == 405 else {}
        if status == 405 and request.method == "OPTIONS":
            return Response(status_code=204, headers=headers)
        return JSONResponse(as_json(status, "address", _TEXTS.get(status, "no")), status, headers)

    async def cut(request: Request, fault: Any) -> Response:
        return gone()

    async def fault(request: Request, fault: Any) -> Response:
        return JSONResponse(as_json(500, "fault", "the server has a fault here: tell its operator when"), 500)

    app.add_exception_handler(Exception, fault)
    app.add_exception_handler(Refused, refused)
    app.add_exception_handler(RequestValidationError, invalid)
    app.add_exception_handler(HTTPException, none)
    app.add_exception_handler(ClientDisconnect, cut)


def _methods_of(app: FastAPI, request: Request) -> List[str]:
    """The methods that an address takes."""
    scope = {**request.scope, "method": "OPTIONS"}
    found = {"OPTIONS"}
    for route in app.routes:
        if route.matches(scope)[0] != Match.NONE:
            found |= getattr(route, "methods", None) or set()
    return sorted(found | ({"HEAD"} if "GET" in found else set()))
