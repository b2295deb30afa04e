"""Edits: each is answered once the journal has it on the disk."""
from __future__ import annotations

import re
from typing import Any, Awaitable, Dict, Optional, Tuple

from fastapi import APIRouter, Request
from fastapi.responses import Response
from pydantic import schema_of

from ...errors import Refused
from ...live.journals import MOST_WORD, Said
from ..edit_bodies import EditBody, edit_of
from ..entries import Asked, Entry
from ..faults import BadRequest, NotServing
from ..models import EntryTold, Refusal, told_by
from ..site import Site
from .parameters import DirectRoute, only, parameter, site_of

_KEY = re.compile(r"[\x21-\x7e]{1,100}")
_REFUSED = {
    409: "the edit is refused: its code is E1 to E12",
    412: "the register has gone on",
    413: "a body that is too long, or takes too long",
    422: "the key came with another edit",
}
ANSWERS = {
    **told_by(EntryTold, text="the entry: with its digest, it is the clerk's receipt"),
    **{it: {"model": Refusal, "description": text} for it, text in _REFUSED.items()},
}
router = APIRouter(tags=["Register"], route_class=DirectRoute)


def edit_told() -> Dict[str, Any]:
    """What the definition says of an edit's parameters and its body."""
    schema = dict(schema_of(EditBody, title="Edit", ref_template="#/components/schemas/{model}"))
    content = {"application/json": {"schema": schema}, "text/plain": {"schema": {"type": "string"}}}
    key = "an edit with this key is made once: 1 to 100 signs of ASCII, no space"
    parameters = [
        parameter("why", "string", "the reason, where the body is text/plain"),
        parameter("If-Match", "string", "the edit is made only where this entry is the newest", where="header"),
        parameter("Idempotency-Key", "string", key, where="header"),
    ]
    return {"parameters": parameters, "requestBody": {"content": content, "required": True}}


@router.post("/edits", summary="Makes an edit", openapi_extra=edit_told(), responses=ANSWERS)
async def edit(request: Request) -> Response:
    """An edit as JSON, or a line of a clerk's file as text/plain. 200 comes once the journal has it on the disk."""
    line, reason = await body_of(request)
    site, given = site_of(request), request.headers
    asked = Asked(line, said_of(request.state.client.name, reason, key_of(given.get("idempotency-key"))))
    return await made(site, site.register.submit(asked, at_of(given.get("if-match"))))


async def body_of(request: Request) -> Tuple[str, str]:
    """The edit that a request has, as a line, and its reason. Raises `BadRequest`."""
    only(request, "why")
    why = request.query_params.get("why")
    return edit_of(await request.body(), request.headers.get("content-type", "application/json"), why)


async def made(site: Site, submitted: Awaitable[Tuple[Entry, bool]]) -> Response:
    """The answer to an edit that is under way. Raises as `Register.submit`."""
    refused = site.metrics.refused
    try:
        entry, is_repeated = await submitted
    except TimeoutError:
        refused.labels("unknown").inc()
        text = "whether the edit was made is not known yet: send it again with the same key"
        raise NotServing("unknown", text) from None
    except Refused as fault:
        refused.labels(fault.code).inc()
        raise
    headers = {"gandovel-entries": str(entry.number), "etag": f'"{entry.number}"'}
    if is_repeated:
        headers["gandovel-repeated"] = "true"
    else:
        site.metrics.accepted.inc()
    return Response(entry.text.encode(), headers=headers, media_type="application/json")


def key_of(text: Optional[str]) -> Optional[str]:
    """The key of a request. Raises `BadRequest`."""
    if text is None or _KEY.fullmatch(text):
        return text
    raise BadRequest("Idempotency-Key", "a key is 1 to 100 signs of ASCII without a space")


def said_of(name: str, why: str, key: Optional[str]) -> Said:
    """What the journal's record has of a client. Raises `BadRequest`."""
    said = Said(name, why, key)
    size = len(said.word.encode())
    if size > MOST_WORD:
        text = f"name, key and reason have {size} bytes in the journal, and {MOST_WORD} is the most: shorten the reason"
        raise BadRequest("why", text)
    return said


def at_of(text: Optional[str]) -> Optional[int]:
    """The number of `If-Match`; None for any. Raises `BadRequest`."""
    if text is None or text.strip() == "*":
        return None
    found = re.fullmatch(r'\s*"?([0-9]{1,15})"?\s*', text)
    if not found:
        raise BadRequest("If-Match", "If-Match is the number of the newest entry that you know")
    return int(found[1])
