"""Drafts: an edit that a clerk keeps, sees as it would be, and that a second clerk approves."""
from __future__ import annotations

from typing import Any, Dict, Optional

from fastapi import APIRouter, Request
from fastapi.responses import Response

from ...errors import RefusedEdit
from ..drafts import Draft, Seen
from ..entries import Asked
from ..faults import words_of
from ..models import DraftSeen, DraftsTold, EntryTold, Refusal, told_by
from ..site import Site, versioned
from .edits import ANSWERS, body_of, edit_told, made, said_of
from .parameters import SITE, DirectRoute, parameter, site_of

_BODY = {"parameters": [parameter("why", "string", "the reason")], "requestBody": edit_told()["requestBody"]}
_REFUSED: Dict[Any, Any] = {409: ANSWERS[409], 413: ANSWERS[413]}
_STALE: Dict[Any, Any] = {409: ANSWERS[409], 412: {"model": Refusal, "description": "an entry concerns a parcel of it"}}
_DROPPED: Dict[Any, Any] = {204: {"description": "it is dropped"}}
router = APIRouter(tags=["Drafts"])


@router.get("/drafts", summary="The drafts that are kept", responses=told_by(DraftsTold))
async def drafts(site: Site = SITE) -> Response:
    """The oldest first. `stale_by` is the first entry since then that concerns one of a draft's parcels."""
    entries = await site.register.shown()
    return _unkept(versioned({"drafts": [_told(site, it) for it in site.drafts.all]}, entries))


async def keep(request: Request) -> Response:
    """An edit as `POST /edits` takes it, that could be made now. The answer has it as it would be."""
    site = site_of(request)
    line, reason = await body_of(request)
    said_of(request.state.client.name, _reason(reason, request.state.client.name), "draft-" + "0" * 16)
    draft, seen = await site.drafts.keep(line, reason, request.state.client.name)
    return versioned(_seen(site, draft, seen, None), seen.entries)


router.add_api_route(
    "/drafts",
    keep,
    methods=["POST"],
    route_class_override=DirectRoute,
    summary="Keeps an edit as a draft",
    openapi_extra=_BODY,
    responses={**told_by(DraftSeen), **_REFUSED},
)


@router.get("/drafts/{draftId}", summary="A draft as it would be now", responses=told_by(DraftSeen))
async def draft(draftId: str, site: Site = SITE) -> Response:
    """Checked by the program: the parcels that it would bring, their areas and zones; or why it could not be made."""
    found, seen, refused = site.drafts.find(draftId), None, None
    try:
        seen = await site.drafts.seen(found.edit)
    except RefusedEdit as fault:
        refused = f"{fault.code}: {words_of(fault)}"
    entries = seen.entries if seen is not None else len(site.register.entries)
    return _unkept(versioned(_seen(site, found, seen, refused), entries))


@router.post("/drafts/{draftId}/approval", summary="Makes a draft's edit", responses={**told_by(EntryTold), **_STALE})
async def approve(request: Request, draftId: str, site: Site = SITE) -> Response:
    """By another clerk than its own. The journal's record has who approved it, and in the reason who kept it."""
    name, key = request.state.client.name, f"draft-{draftId}"
    known = site.register.published.keys.get((name, key))
    if known is not None:  # its answer was lost
        return await made(site, site.register.submit(Asked(known.edit, said_of(name, known.why, key))))
    found = site.drafts.find(draftId)
    said = said_of(name, _reason(found.why, found.who), key)
    return await made(site, site.drafts.approve(found, Asked(found.edit, said)))


@router.delete("/drafts/{draftId}", summary="Drops a draft", responses=_DROPPED, status_code=204)
async def drop(request: Request, draftId: str, site: Site = SITE) -> Response:
    """Its clerk or an operator may."""
    client = request.state.client
    site.drafts.drop(site.drafts.find(draftId), client.name, client.role == 2)
    return Response(status_code=204)


def _reason(why: str, who: str) -> str:
    return f"{why} (draft of {who})".strip()


def _unkept(answer: Response) -> Response:
    """An answer that no cache keeps: drafts come and go without an entry."""
    answer.headers["cache-control"] = "no-store"
    return answer


def _told(site: Site, draft: Draft) -> Dict[str, Any]:
    stale = site.drafts.stale_by(draft)
    known = {name: getattr(draft, name) for name in ("id", "who", "time", "why", "edit", "at")}
    return {**known, "parcels": list(draft.parcels), "stale_by": None if stale is None else stale.as_json()}


def _seen(site: Site, draft: Draft, seen: Optional[Seen], refused: Optional[str]) -> Dict[str, Any]:
    new = [
        {
            "id": parcel,
            "area2_mm2": str(area2),
            "area_m2": area2 / 2_000_000,
            "ring_mm": ring.tolist(),
            "zones": [] if seen is None else seen.zones.get(parcel, []),
        }
        for parcel, area2, ring in (seen.new if seen is not None else [])
    ]
    entries = seen.entries if seen is not None else len(site.register.entries)
    out = list(seen.out) if seen is not None else []
    return {**_told(site, draft), "entries": entries, "out": out, "new": new, "refused": refused}
