"""The journal's entries, as they are and as they come, and whether the register is open."""
from __future__ import annotations

from typing import Any, AsyncIterator, Dict, List, Optional

from fastapi import APIRouter, Query
from fastapi.responses import JSONResponse, Response, StreamingResponse

from ..changes import told_as_events
from ..entries import Entry
from ..models import Entries, Health, told_by
from ..queries import whole
from ..site import Site, versioned
from .parameters import LAST_EVENT, SITE

MOST_ENTRIES = 10_000
AFTER = Query(None, description="entries after this number", regex="^[0-9]{1,15}$")
LIMIT = Query(1000, ge=1, description=f"how many; more than {MOST_ENTRIES} are taken as {MOST_ENTRIES}")
_METRICS: Dict[Any, Any] = {
    200: {"content": {"text/plain": {"schema": {"type": "string"}}}, "description": "the counters"}
}
_EVENTS: Dict[Any, Any] = {
    200: {"content": {"text/event-stream": {"schema": {"type": "string"}}}, "description": "the entries"}
}
router = APIRouter()


@router.get("/entries", summary="Entries of the journal", tags=["Register"], responses=told_by(Entries))
async def entries(after: Optional[str] = AFTER, limit: int = LIMIT, site: Site = SITE) -> Response:
    """Each with the digest of the chain up to it; `proof` has those that the chain begins and ends with."""
    register, first = site.register, int(after or 0)
    shown = await register.shown()
    told: List[Entry] = register.entries[first : min(first + min(limit, MOST_ENTRIES), shown)]
    body = {"entries": shown, "records": [entry.as_json() for entry in told], "proof": site.proof(shown)}
    answer = versioned(body, shown)
    answer.headers["etag"] = f'"{shown}"'
    return answer


@router.get(
    "/changes", summary="Each entry as it is published, as server-sent events", tags=["Register"], responses=_EVENTS
)
async def changes(
    after: Optional[str] = AFTER, last_event_id: Optional[str] = LAST_EVENT, site: Site = SITE
) -> Response:
    """From now on, or from after a number."""
    given = {name: it for name, it in (("after", after or last_event_id),) if it is not None}
    first = whole(given, "after", len(site.register.entries), 0)
    events: AsyncIterator[bytes] = told_as_events(site.register, first)
    headers = {"cache-control": "no-store", "x-accel-buffering": "no"}
    return StreamingResponse(events, media_type="text/event-stream", headers=headers)


@router.get("/health", summary="Whether the register is open", tags=["State"], responses=told_by(Health))
async def health(site: Site = SITE) -> Response:
    """503 where it is not."""
    body = site.register.health()
    return JSONResponse(body, 200 if body["state"] in ("serving", "faulty") else 503, {"cache-control": "no-store"})


@router.get("/metrics", summary="Counters, as Prometheus reads them", tags=["State"], responses=_METRICS)
async def all_metrics(site: Site = SITE) -> Response:
    """For the role `operator`."""
    return Response(site.metrics.text(), media_type="text/plain; version=0.0.4")
