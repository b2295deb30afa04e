"""JSON schemas of the collections: what a feature has, and of which type, so that no client has to guess it."""
from __future__ import annotations

from typing import Any, Dict

from .layer import Layer

KIND = "application/schema+json"
_DRAFT = "https://json-schema.org/draft/2020-12/schema"
Types = Dict[str, Dict[str, Any]]
_AREAS: Types = {
    "area2_mm2": {"type": "string", "title": "twice the area in mm2, exact"},
    "area_m2": {"type": "number", "title": "the area in m2, rounded"},
}
_PARCELS: Types = {
    "id": {"type": "integer", "title": "the parcel's id in the program", "x-ogc-role": "id"},
    "number": {"type": "string", "title": "its own number; null where it has none"},
    "entry": {"type": "integer", "title": "the entry of the journal that made it, 0 for none"},
    **_AREAS,
    "came_from": {"type": "string", "title": "the numbers of the parcels that it comes from"},
}
_ZONES: Types = {
    "id": {"type": "integer", "title": "the zone's record", "x-ogc-role": "id"},
    "name": {"type": "string", "title": "the zone's name"},
}
_SPLIT: Types = {
    "zones": {"type": "string", "title": "the zones that it overlaps"},
    "zone_count": {"type": "integer", "title": "how many they are"},
}


_HISTORY: Types = {
    "since": {"type": "string", "format": "date-time", "title": "when it was made; null for one of the layer"},
    "until": {"type": "string", "format": "date-time", "title": "when it was taken out; null for one that is there"},
    "ended_by": {"type": "integer", "title": "the entry that took it out; null for one that is there"},
    "replaces": {"type": "string", "title": "ids of the parcels that it was made of"},
    "replaced_by": {"type": "string", "title": "ids of the parcels that were made of it"},
}
_FAULTS: Types = {
    "id": {"type": "integer", "title": "its place among the faults, the largest first", "x-ogc-role": "id"},
    "kind": {"type": "string", "title": "gap, overlap, open_gap or sliver"},
    "layer": {"type": "string", "title": "parcels or zones"},
    "numbers": {"type": "string", "title": "the parcels beside it, or in it"},
    **_AREAS,
}


def types_of(name: str, layer: Layer) -> Types:
    """The properties of a collection's features, in their order."""
    if name == "faults":
        return _FAULTS
    if name == "zones":
        return {**_ZONES, **layer.zone_kinds, **_AREAS}
    more = {"split": _SPLIT, "history": _HISTORY}
    return {**_PARCELS, **layer.kinds, **more.get(name, {})}


def schema_of(name: str, title: str, layer: Layer, address: str) -> Dict[str, Any]:
    """The schema of a collection's properties, as OGC API Features, Part 5 has it."""
    shape = {"format": "geometry-any" if name == "faults" else "geometry-polygon", "x-ogc-role": "primary-geometry"}
    return _schema(address, title, {"geometry": shape, **types_of(name, layer)})


def queryables_of(name: str, title: str, layer: Layer, address: str) -> Dict[str, Any]:
    """What features can be asked for by in a filter, and sorted by: all properties, and the shape."""
    return {**schema_of(name, title, layer, address), "additionalProperties": False}


def feature_schema_of(name: str, title: str, layer: Layer, address: str) -> Dict[str, Any]:
    """The schema of a feature as GeoJSON has it.

    Any property may be null. Text says so as JSON schema does; numbers and days by the word of OpenAPI, since GDAL
    takes a type that is a list for text. The id is the feature's own, which GDAL would have twice.
    """
    types = {key: _or_null(kind) for key, kind in types_of(name, layer).items() if key != "id"}
    told: Types = {
        "type": {"type": "string", "enum": ["Feature"]},
        "id": {"type": "integer"},
        "geometry": {"$ref": f"https://geojson.org/schema/{'Geometry' if name == 'faults' else 'Polygon'}.json"},
        "properties": {"type": "object", "properties": types},
    }
    return {**_schema(address, title, told), "required": ["type", "geometry", "properties"]}


def _or_null(kind: Dict[str, Any]) -> Dict[str, Any]:
    return (
        {**kind, "type": ["string", "null"]}
        if kind["type"] == "string" and "format" not in kind
        else {**kind, "nullable": True}
    )


def _schema(address: str, title: str, properties: Types) -> Dict[str, Any]:
    return {"$schema": _DRAFT, "$id": address, "type": "object", "title": title, "properties": properties}
