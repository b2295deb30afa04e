"""Parcels in whole millimetres, what became of them, and the zones that they overlap."""
from __future__ import annotations

import re
from typing import Any, Dict, List, Optional

from fastapi import APIRouter, Path, Query
from fastapi.responses import Response

from ..entries import Row
from ..faults import Fault, Gone, NoSuchThing
from ..models import History, Lineage, Overlay, Parcel, Parcels, ParcelZones, told_by
from ..queries import MOST_LIMIT
from ..register import Register
from ..site import Site, versioned
from ..views import View, encoded, ring_text, with_more
from .parameters import SITE, VERSION

LIMIT = Query(100, ge=1, description=f"parcels of a page; more than {MOST_LIMIT} are taken as {MOST_LIMIT}")
OFFSET = Query(0, ge=0, le=10**15 - 1, description="how many parcels are left out; `next` has it")
BOX = Query(
    None,
    description="x,y,x,y in whole millimetres: those whose own box meets it",
    regex="^-?[0-9]{1,12}(,-?[0-9]{1,12}){3}$",
)
ID = Path(description="the parcel's id, a whole number")
router = APIRouter(tags=["Register"])


@router.get("/parcels", summary="Parcels of one version, in whole millimetres", responses=told_by(Parcels))
async def parcels(
    limit: int = LIMIT,
    offset: int = OFFSET,
    box: Optional[str] = BOX,
    entries: Optional[int] = VERSION,
    site: Site = SITE,
) -> Response:
    """`next` is the address of the next page, or null."""
    count = min(limit, MOST_LIMIT)
    view = await site.collections.view("parcels", entries)
    places = view.places(None if box is None else tuple(map(int, box.split(","))))
    rows = [view.versions.row(at) for at in places[offset : offset + count].tolist()]
    after, within = offset + len(rows), "" if box is None else f"&box={box}"
    more = None
    if rows and after < len(places):
        more = f"/parcels?limit={count}&offset={after}&entries={view.entries}{within}"
    told = b",".join(with_more(view.text(row), b'"ring_mm":' + ring_text(row)) for row in rows)
    head = encoded({"entries": view.entries, "matched": len(places), "next": more})
    return versioned(with_more(head, b'"parcels":[' + told + b"]"), view.entries)


@router.get("/parcels/{parcelId}", summary="A parcel, in whole millimetres", responses=told_by(Parcel))
async def parcel(parcelId: str = ID, entries: Optional[int] = VERSION, site: Site = SITE) -> Response:
    """As it is, or as it was after so many entries."""
    view = await site.collections.view("parcels", entries)
    number = _id(parcelId)
    row = view.find(number)
    if row is None:
        raise _missing(site.register, number, view.entries)
    return versioned(_whole(view, row), view.entries)


def _whole(view: View, row: Row) -> bytes:
    return with_more(view.text(row), b'"entries":%d,"ring_mm":%b' % (view.entries, ring_text(row)))


@router.get("/parcels/{parcelId}/history", summary="The entries that made and took it", responses=told_by(History))
async def history(parcelId: str = ID, site: Site = SITE) -> Response:
    """Also those that changed its corners. `proof` has the digests that the journal's chain begins and ends with."""
    register = site.register
    entries, number = await register.shown(), _id(parcelId)
    _test_known(register, number)
    told = [entry.as_json() for entry in register.past.of(number)]
    body = {"parcel": number, "entries": entries, "history": told, "proof": site.proof(entries)}
    return versioned(body, entries)


@router.get("/parcels/{parcelId}/lineage", summary="What it was made of, and became", responses=told_by(Lineage))
async def lineage(parcelId: str = ID, site: Site = SITE) -> Response:
    """The parcel, all that it was made of, and all that was made of it, by ascending ids."""
    register = site.register
    entries, number = await register.shown(), _id(parcelId)
    _test_known(register, number)
    told = [_told(register, it) for it in register.past.lineage(number)]
    body = {"parcel": number, "entries": entries, "parcels": told, "proof": site.proof(entries)}
    return versioned(body, entries)


def _told(register: Register, parcel: int) -> Dict[str, Any]:
    """A parcel of a lineage: what it was made of, what became of it, and the entries that did it."""
    past, known = register.past, register.layer.properties(parcel)
    made, taken = past.made_by(parcel), past.taken_by(parcel)
    return {
        "id": parcel,
        "number": known["number"],
        "came_from": known["came_from"],
        "replaces": list(past.parents(parcel)),
        "replaced_by": list(past.children(parcel)),
        "made_by": None if made is None else made.as_json(),
        "taken_by": None if taken is None else taken.as_json(),
    }


@router.get("/parcels/{parcelId}/zones", summary="The zones that it overlaps", responses=told_by(ParcelZones))
async def zones(parcelId: str = ID, site: Site = SITE) -> Response:
    """By name, each once."""
    register = site.register
    overlaps, number = await register.overlaps(), _id(parcelId)
    records = overlaps.pairs[overlaps.pairs[:, 0] == number, 1].tolist()
    if not records:
        raise _missing(register, number, overlaps.entries)
    body = {"parcel": number, "entries": overlaps.entries, "zones": register.layer.zone_names(records)}
    return versioned(body, overlaps.entries)


@router.get("/overlay", summary="Which parcels and zones overlap", responses=told_by(Overlay))
async def overlay(site: Site = SITE) -> Response:
    """Zones by their place in `zones`, from 1."""
    register = site.register
    overlaps, found = await register.overlaps(), register.layer.island.zones
    names: List[str] = [register.layer.zone_names([at])[0] for at in range(1, len(found.rings) + 1)] if found else []
    body = {
        "entries": overlaps.entries,
        "zones": names,
        "pairs": overlaps.pairs.tolist(),
        "split": list(overlaps.split),
        "within": overlaps.within.tolist(),
    }
    return versioned(body, overlaps.entries)


def _id(text: str) -> int:
    if not re.fullmatch("[0-9]{1,18}", text):
        raise NoSuchThing(
            "parcel", "a parcel is named by its id, a whole number: find it by /collections/parcels/items?number="
        )
    return int(text)


def _test_known(register: Register, parcel: int) -> None:
    """Tests that a parcel is or was there. Raises `NoSuchThing`."""
    if not register.past.of(parcel) and not 0 < parcel <= register.layer.count:
        raise NoSuchThing("E1", f"there never was a parcel {parcel}")


def _missing(register: Register, parcel: int, entries: int) -> Fault:
    """Why a version has no such parcel."""
    taken = register.past.taken_by(parcel)
    if taken is not None and taken.number <= entries:
        return Gone("E2", f"parcel {parcel} is gone: entry {taken.number} took it out", by=taken.as_json())
    return NoSuchThing("E1", f"there is no parcel {parcel} after {entries} entries")
