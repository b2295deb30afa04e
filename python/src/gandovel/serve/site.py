"""What all answers need of a server: its register, its counters, its address; and the forms of answers."""
from __future__ import annotations

import json
import secrets
from typing import Any, Dict, Optional, Sequence, Union

from fastapi import Request
from fastapi.responses import HTMLResponse, JSONResponse, Response

from ..errors import JournalBroken, NoMemory, NoSuchLine, NoZones, Refused, RefusedEdit, SessionError
from .faults import BadRequest, Fault, as_json, parcel_of, words_of
from .drafts import Drafts
from .features import Collections
from .items import Items, Page
from .metrics import Metrics
from .pages import html_of
from .register import Register
from .tiles import Tiles
from .views import encoded

OPENAPI = "application/vnd.oai.openapi+json;version=3.0"
GEOJSON = "application/geo+json"


class Site:
    """The register with all that its answers need. `base` is the server's address as clients know it, and `base_map` a
    WMS that the page shows below the parcels."""

    def __init__(
        self, register: Register, metrics: Metrics, base: Optional[str] = None, base_map: Optional[str] = None
    ) -> None:
        self.register, self.metrics, self._base, self.base_map = register, metrics, base, base_map
        self.collections = Collections(register)
        self.items = Items(register, self.collections)
        self.tiles = Tiles(self.collections, register.layer.projection)
        self.drafts = Drafts(register)
        self.begun = secrets.token_hex(4)
        """Of this run of the server: an older one may have made the same version otherwise."""

    def base(self, request: Request) -> str:
        """The server's address, without a slash at its end."""
        return (self._base or str(request.base_url)).rstrip("/")

    def proof(self, entries: int) -> Dict[str, Any]:
        """The digests of the journal's chain: of the layer, with which it begins, and of its entry with this number."""
        register = self.register
        digest = register.entries[entries - 1].digest if entries else register.layer_digest
        return {"layer": register.layer_digest, "entries": entries, "digest": digest}


def kind_of(request: Request) -> str:
    """`html` or `json`: by `f`, else by what the client takes. Raises `BadRequest`."""
    asked = request.query_params.get("f")
    if asked in ("json", "html"):
        return asked
    if asked is not None:
        raise BadRequest("f", "f is json or html")
    accepts = request.headers.get("accept", "")
    return "html" if "text/html" in accepts and "json" not in accepts else "json"


def shown(
    request: Request, body: Dict[str, Any], title: str, kind: str = "application/json", entries: Optional[int] = None
) -> Response:
    """A body as JSON of this media type, or as a page of HTML; its links as a header, too; of which version it is."""
    headers = {} if entries is None else {"gandovel-entries": str(entries)}
    if "links" in body:
        headers["link"] = _headers_of(body["links"])
    if kind_of(request) == "html":
        return HTMLResponse(html_of(title, body), headers=headers)
    return Response(encoded(body), media_type=kind, headers=headers)


def page_shown(request: Request, page: Page, title: str) -> Response:
    """A page of features, or a feature, with its projection as a header."""
    headers = {"gandovel-entries": str(page.entries), "link": _headers_of(page.links), "content-crs": f"<{page.crs}>"}
    if kind_of(request) == "html":
        return HTMLResponse(html_of(title, json.loads(page.content)), headers=headers)
    return Response(page.content, media_type=GEOJSON, headers=headers)


class Ready(Response):
    """An answer of JSON whose headers are known, made with as little as may be: each `locate` is one."""

    def __init__(self, body: bytes, entries: int) -> None:
        self.status_code, self.background, self.body = 200, None, body
        self.raw_headers = [
            (b"content-type", b"application/json"),
            (b"content-length", b"%d" % len(body)),
            (b"gandovel-entries", b"%d" % entries),
        ]


def versioned(body: Union[bytes, Dict[str, Any]], entries: int) -> Response:
    """A body as JSON, and of which version it is."""
    content = body if isinstance(body, bytes) else encoded(body)
    return Response(content, media_type="application/json", headers={"gandovel-entries": str(entries)})


def _headers_of(links: Sequence[Dict[str, str]]) -> str:
    return ", ".join(map(_header_of, links))


def _header_of(link: Dict[str, str]) -> str:
    """A link as RFC 8288 has it."""
    address = link["href"].encode("ascii", "backslashreplace").decode()
    return f'<{address}>; rel="{link["rel"]}"; type="{link["type"]}"'


def gone() -> Response:
    """The answer where a body did not come whole: too long, too slow, or cut off."""
    text = "a body has at most 1048576 bytes, and comes within 20 seconds"
    return JSONResponse(as_json(413, "size", text), 413, {"connection": "close"})


def answer_of(fault: Refused) -> Response:
    """The answer for a refusal. No text of the program's is in it but codes and numbers."""
    if isinstance(fault, Fault):
        body = as_json(fault.status_code, fault.code, fault.text, **fault.more)
        headers = {"retry-after": "1"} if fault.status_code in (429, 503) else {}
        return JSONResponse(body, fault.status_code, headers)
    if isinstance(fault, RefusedEdit) and fault.code != "no memory":
        body = as_json(409, fault.code, words_of(fault), named=fault.text, parcel=parcel_of(fault))
        return JSONResponse(body, 409)
    if isinstance(fault, NoZones):
        return JSONResponse(as_json(404, "no zones", "the layer was prepared without zones"), 404)
    if isinstance(fault, NoSuchLine):
        return JSONResponse(as_json(400, "L1", "the program does not take this line"), 400)
    if isinstance(fault, JournalBroken):
        text = "the journal can't be written: tell the operator to see that its disk has room"
        return JSONResponse(as_json(503, "journal", text), 503, {"retry-after": "5"})
    text = "the register can't answer now: try again" if isinstance(fault, (SessionError, NoMemory)) else "try again"
    return JSONResponse(as_json(503, fault.code, text), 503, {"retry-after": "1"})
