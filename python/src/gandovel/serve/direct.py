"""Addresses that are asked for most: their endpoints are called past the framework's layers."""
from __future__ import annotations

from typing import Any, Dict, MutableMapping, Tuple

from fastapi import FastAPI, Request
from starlette.requests import ClientDisconnect

from ..errors import Refused
from .routes.parameters import DirectRoute
from .site import answer_of, gone


class Direct:
    """Calls the endpoint of a `DirectRoute` itself, and hands all else on to the application.

    The endpoint is the one that the application has, so the answer is the same, but for an ETag: it is small, and is
    asked for at another place each time.
    """

    def __init__(self, app: FastAPI, otherwise: Any) -> None:
        """`otherwise` is what answers the rest: the application, or what stands around it."""
        self._app, self._otherwise = app, otherwise
        routes = [route for route in app.routes if isinstance(route, DirectRoute)]
        self._endpoints: Dict[Tuple[str, str], Any] = {
            (method, route.path): route.endpoint for route in routes for method in route.methods
        }

    async def __call__(self, scope: MutableMapping[str, Any], receive: Any, send: Any) -> None:
        endpoint = self._endpoints.get((scope["method"], scope["path"])) if scope["type"] == "http" else None
        if endpoint is None:
            await self._otherwise(scope, receive, send)
            return
        scope["app"] = self._app
        try:
            response = await endpoint(Request(scope, receive))
        except Refused as fault:
            response = answer_of(fault)
        except ClientDisconnect:
            response = gone()
        await response(scope, receive, send)
