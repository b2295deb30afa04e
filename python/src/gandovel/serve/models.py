"""What answers and bodies have, as the definition of the API says it."""
from __future__ import annotations

from typing import TYPE_CHECKING, Any, Dict, List, Literal, Optional, Tuple

from fastapi.responses import JSONResponse
from pydantic import BaseModel, Extra, Field, conint, conlist

from ..live.journals import FARTHEST

MOST_POINTS = 10_000
if TYPE_CHECKING:
    Whole = int
    Places = List[Tuple[int, int]]
else:
    Whole = conint(strict=True, ge=-FARTHEST, le=FARTHEST)
    Places = conlist(Tuple[Whole, Whole], max_items=MOST_POINTS)


class Points(BaseModel):
    """Points in whole millimetres."""

    points: Places = Field(description="[x, y] each, in whole millimetres")

    class Config:
        extra = Extra.forbid


class Refusal(BaseModel):
    """Why a request is not carried out."""

    code: str = Field(description="a word for programs")
    description: str = Field(description="what to do, in words")
    status: int = Field(description="the status of HTTP")

    class Config:
        extra = Extra.allow


class Place(BaseModel):
    """Where a point lies."""

    entries: int = Field(description="after how many entries of the journal")
    x: int
    y: int
    where: Literal["inside", "edge", "outside"]
    parcels: List[int] = Field(description="the parcel that it is inside, or all with the point on an edge")
    moved_mm: Optional[float] = Field(None, description="how far the whole millimetres are from the place (measured)")
    moved_how: Optional[Literal["measured"]]


class ManyPlaces(BaseModel):
    """Where several points lie, in their order."""

    places: List[Place]


class EntryTold(BaseModel):
    """An entry of the journal."""

    number: int
    time: str = Field(description="UTC")
    who: Optional[str]
    why: str
    edit: str = Field(description="as a line of a clerk's file")
    out: List[int] = Field(description="ids of the parcels that it took out")
    new: List[int] = Field(description="ids of the parcels that it brought")
    digest: str = Field(description="SHA-256 of the journal's chain up to it: the clerk's receipt")


class Proof(BaseModel):
    """The digests that the journal's chain begins and ends with: that of the layer, and that of the newest entry."""

    layer: str
    entries: int
    digest: str


class Entries(BaseModel):
    """Entries of the journal."""

    entries: int
    records: List[EntryTold]
    proof: Proof


class Parcel(BaseModel):
    """A parcel, with the attributes of the layer."""

    id: int
    number: Optional[str]
    came_from: str
    entry: int
    area2_mm2: str
    area_m2: float
    ring_mm: List[List[int]]

    class Config:
        extra = Extra.allow


class Parcels(BaseModel):
    """Parcels of one version."""

    entries: int
    matched: int = Field(description="how many there are, on all pages")
    parcels: List[Parcel]
    next: Optional[str]


class History(BaseModel):
    """Which entries brought a parcel, and took it out."""

    parcel: int
    entries: int
    history: List[EntryTold]
    proof: Proof


class Ancestor(BaseModel):
    """A parcel of a lineage."""

    id: int
    number: Optional[str]
    came_from: str
    replaces: List[int] = Field(description="the parcels that it was made of")
    replaced_by: List[int] = Field(description="the parcels that were made of it")
    made_by: Optional[EntryTold]
    taken_by: Optional[EntryTold]


class Lineage(BaseModel):
    """A parcel, all that it was made of, and all that was made of it, by ascending ids."""

    parcel: int
    entries: int
    parcels: List[Ancestor]
    proof: Proof


class ParcelZones(BaseModel):
    """The zones that a parcel overlaps."""

    parcel: int
    entries: int
    zones: List[str]


class Overlay(BaseModel):
    """Which parcels and zones overlap: zones by their place in `zones`, from 1."""

    entries: int
    zones: List[str]
    pairs: List[List[int]]
    split: List[int]
    within: List[List[int]]


class DraftTold(BaseModel):
    """An edit that is kept and not made yet."""

    id: str
    who: str
    time: str = Field(description="UTC")
    why: str
    edit: str = Field(description="as a line of a clerk's file")
    at: int = Field(description="after how many entries it was kept")
    parcels: List[int] = Field(description="ids of the parcels that it would take out")
    stale_by: Optional[EntryTold] = Field(description="the first entry since then that concerns one of them")


class DraftsTold(BaseModel):
    """The drafts, the oldest first."""

    drafts: List[DraftTold]


class NewParcel(BaseModel):
    """A parcel that a draft would bring."""

    id: int
    area2_mm2: str
    area_m2: float
    ring_mm: List[List[int]]
    zones: List[str]


class DraftSeen(DraftTold):
    """A draft, and what it would be now."""

    entries: int
    out: List[int]
    new: List[NewParcel]
    refused: Optional[str] = Field(description="why it could not be made now")


class Health(BaseModel):
    """Whether the register is open."""

    state: str
    entries: int
    kept_from: int
    restarts: int
    trouble: str


class Settings(BaseModel):
    """What the page needs to know of the register before it loads parcels."""

    entries: int
    parcels: int
    box_mm: List[int] = Field(description="the box of all parcels: least x and y, greatest x and y")
    crs: Optional[str] = Field(description="the own projection, as `crs` of items has it")
    epsg: Optional[str]
    unit_mm: float = Field(description="millimetres of the projection's unit")
    north_first: bool = Field(description="whether the projection's first coordinate is northing")
    zones: bool
    base_map: Optional[str]


class Open(BaseModel):
    """An object that may have more members than are named."""

    class Config:
        extra = Extra.allow


class Link(BaseModel):
    """A link of an answer."""

    href: str
    rel: str
    type: str
    title: str
    templated: Optional[bool]


class Landing(BaseModel):
    """Where all begins."""

    title: str
    description: str
    links: List[Link]


class Conformance(BaseModel):
    """The classes of the standards that the server conforms to."""

    conformsTo: List[str]


class Collection(Open):
    """A collection of features."""

    id: str
    title: str
    description: str
    itemType: Literal["feature"]
    extent: Dict[str, Any]
    crs: List[str]
    storageCrs: Optional[str]
    links: List[Link]


class Collections(BaseModel):
    """The collections."""

    links: List[Link]
    crs: List[str]
    collections: List[Collection]


class Schema(Open):
    """A JSON schema."""

    type: Literal["object"]
    title: str
    properties: Dict[str, Any]


class Feature(BaseModel):
    """A feature, as GeoJSON."""

    type: Literal["Feature"]
    id: int
    geometry: Dict[str, Any]
    properties: Dict[str, Any]
    links: Optional[List[Link]]


class FeatureCollection(BaseModel):
    """A page of features, as GeoJSON."""

    type: Literal["FeatureCollection"]
    timeStamp: str
    numberMatched: int
    numberReturned: int
    links: List[Link]
    features: List[Feature]


class GeoJson(JSONResponse):
    """Says of a route that it answers GeoJSON."""

    media_type = "application/geo+json"


class JsonSchema(JSONResponse):
    """Says of a route that it answers a JSON schema."""

    media_type = "application/schema+json"


def told_by(model: Any, kind: str = "application/json", text: str = "the answer") -> Dict[Any, Dict[str, Any]]:
    """What the definition says of a success: the model, in the media type of the route's `response_class`; or any
    object of a media type where it is None."""
    if model is not None:
        return {200: {"model": model, "description": text}}
    return {200: {"content": {kind: {"schema": {"type": "object"}}}, "description": text}}
