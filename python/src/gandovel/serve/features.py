"""OGC API Features: the collections of a register, each in any version that is kept."""
from __future__ import annotations

from dataclasses import replace
from datetime import datetime, timezone
from functools import partial
from typing import Any, Dict, List, Optional, Sequence

import numpy as np

from .crs import CRS84
from .entries import Entry, Row
from .faults import Gone, NoSuchThing, NotServing
from .queries import Asked
from .register import Register
from .schemas import KIND, Types, feature_schema_of, queryables_of, schema_of, types_of
from .views import View, encoded, kept_text, with_more

_OGC = "http://www.opengis.net/spec"
CONFORMANCE = [
    *(f"{_OGC}/ogcapi-features-1/1.0/conf/{name}" for name in ("core", "oas30", "html", "geojson")),
    f"{_OGC}/ogcapi-features-2/1.0/conf/crs",
    *(f"{_OGC}/ogcapi-features-3/1.0/conf/{name}" for name in ("queryables", "filter", "features-filter")),
    *(f"{_OGC}/cql2/1.0/conf/{name}" for name in ("cql2-text", "cql2-json", "basic-cql2", "basic-spatial-functions")),
    *(f"{_OGC}/ogcapi-tiles-1/1.0/conf/{name}" for name in ("core", "mvt")),
]
_RELATIONS = "http://www.opengis.net/def/rel/ogc/1.0"
MVT = "application/vnd.mapbox-vector-tile"
TRIES = 30
"""Seconds that overlaps wait until their version is published."""


class Collections:
    """The collections of a register: `parcels`, `history`, and with zones `zones` and `split`; or `faults`."""

    TITLES = {
        "parcels": ("Parcels", "The parcels, on the grid of whole millimetres. Measured: degrees."),
        "history": (
            "Parcels that are or were",
            "Each with its times, and the ids that it replaces. Measured: degrees.",
        ),
        "zones": ("Zones", "The zones on the grid of whole millimetres. Measured: degrees."),
        "faults": ("Faults of the parcels", "Gaps, overlaps and slivers, the largest first, by the program."),
        "split": ("Parcels with several zones", "Exact, by the program: which parcels, and zones. Measured: degrees."),
    }

    def __init__(self, register: Register) -> None:
        self._register = register
        self._zones = register.layer.zone_rows()

    @property
    def names(self) -> List[str]:
        """The collections that this register has."""
        zones = ["zones"] if self._register.layer.zones is not None else []
        if self._register.faults is not None:
            return ["parcels", "faults", *zones]
        return ["parcels", "history", *zones, *(["split"] if zones else [])]

    def told(self, name: str, base: str) -> Dict[str, Any]:
        """What an answer says of a collection. `base` is the server's address. Raises `NoSuchThing`."""
        self.test(name)
        title, text = self.TITLES[name]
        projection = self._register.layer.projection
        at = f"{base}/collections/{name}"
        told = {
            "id": name,
            "title": title,
            "description": text,
            "itemType": "feature",
            "extent": {"spatial": {"bbox": [projection.extent], "crs": CRS84}},
            "crs": projection.uris,
            "links": [
                link(at, "self", "application/json", title),
                link(f"{at}?f=html", "alternate", "text/html", title),
                link(f"{at}/items", "items", "application/geo+json", title),
                link(f"{at}/items?f=html", "items", "text/html", title),
                link(f"{at}/feature-schema", "describedby", KIND, "the schema of a feature"),
                link(f"{at}/feature-schema", "describedBy", KIND, "the same, by the name that GDAL 3.6 looks for"),
                link(f"{at}/schema", f"{_RELATIONS}/schema", KIND, "the schema of the properties"),
                link(f"{at}/queryables", f"{_RELATIONS}/queryables", KIND, "what can be asked for"),
                *(
                    [link(f"{at}/tiles", f"{_RELATIONS}/tilesets-vector", "application/json", "its vector tiles")]
                    if name in self.tiled
                    else []
                ),
            ],
        }
        return {**told, "storageCrs": projection.uri} if projection.uri else told

    @property
    def tiled(self) -> List[str]:
        """The collections that are offered as vector tiles."""
        return [name for name in self.names if name in ("parcels", "zones")]

    def types(self, name: str) -> Types:
        """The properties of a collection's features, and their schemas. Raises `NoSuchThing`."""
        self.test(name)
        return types_of(name, self._register.layer)

    def schema(self, name: str, kind: str, base: str) -> Dict[str, Any]:
        """A schema of a collection: `schema`, `queryables` or `feature-schema`. Raises `NoSuchThing`."""
        self.test(name)
        makes = {"schema": schema_of, "queryables": queryables_of, "feature-schema": feature_schema_of}
        at = f"{base}/collections/{name}/{kind}"
        return makes[kind](name, self.TITLES[name][0], self._register.layer, at)

    async def view(self, name: str, entries: Optional[int]) -> View:
        """A collection after so many entries, or of now. Raises `NoSuchThing`, `Gone`."""
        self.test(name)
        register = self._register
        newest = await register.shown()
        wanted = newest if entries is None else entries
        if wanted > newest:
            raise NoSuchThing("entries", f"there are {newest} entries, and no version {wanted}")
        if wanted < register.versions.first:
            raise Gone("entries", f"version {wanted} is not kept any more: begin again without entries")
        if name == "zones":
            return View(self._zones, 0, wanted, self._zone_properties, self._zone_text)
        if name == "split":
            return await self._split(entries, newest)
        if name == "history":
            told = partial(self._past_properties, wanted), partial(self._past_text, wanted)
            return View(register.versions, wanted, wanted, *told, None, register.versions.first)
        return View(register.versions, wanted, wanted, self.parcel_properties, self.parcel_text)

    def now(self, name: str) -> Optional[View]:
        """The parcels as they are published now, for what need not be exact; None of other collections."""
        versions = self._register.versions
        last = versions.last
        return View(versions, last, last, self.parcel_properties, self.parcel_text) if name == "parcels" else None

    async def view_at(self, name: str, asked: Asked) -> View:
        """A collection as it was at a moment, or with all that was there in an interval."""
        if asked.moments is None or name == "zones":
            return await self.view(name, asked.entries)
        begin, end = asked.moments
        newest = await self._register.shown() if asked.entries is None else asked.entries
        last = newest if end is None else min(newest, self._register.past.version_at(end))
        view = await self.view(name, None if last == newest and asked.entries is None else last)
        if begin == end:
            return replace(view, since=None)
        since = 0 if begin is None else self._register.past.version_at(begin)
        if since < view.versions.first:
            raise Gone("datetime", "what was there so early is not kept any more: name a later moment")
        return replace(view, since=min(since, view.version))

    async def _split(self, entries: Optional[int], newest: int) -> View:
        register = self._register
        overlaps = await register.kept_overlaps(newest if entries is None else entries)
        if overlaps is None:
            overlaps = await register.overlaps()
            for _ in range(TRIES):
                if register.versions.last >= overlaps.entries:
                    break
                await register.news(register.versions.last, 1.0)
            else:
                raise NotServing("behind", "the register is behind: try again")
        if entries is not None and overlaps.entries != entries:
            raise Gone(
                "entries", f"the split parcels of version {entries} are not kept any more: begin again without entries"
            )
        zones: Dict[int, List[int]] = {}
        for parcel, zone in overlaps.pairs.tolist():
            zones.setdefault(parcel, []).append(zone)

        def more(row: Row) -> Dict[str, Any]:
            names = register.layer.zone_names(zones.get(row.id, []))
            return {"zones": ",".join(names), "zone_count": len(names)}

        def properties(row: Row) -> Dict[str, Any]:
            return {**self.parcel_properties(row), **more(row)}

        def text(row: Row) -> bytes:
            return with_more(self.parcel_text(row), encoded(more(row))[1:-1])

        only = np.array(sorted(overlaps.split), dtype=np.int64)
        return View(register.versions, overlaps.entries, overlaps.entries, properties, text, only)

    def parcel_properties(self, row: Row) -> Dict[str, Any]:
        """What a parcel is, but for its shape. The area in m2 is the exact one, rounded."""
        own = self._register.layer.properties(row.id)
        exact = {"entry": row.born, "area2_mm2": str(row.area2), "area_m2": row.area2 / 2_000_000}
        return {"id": row.id, "number": own["number"], **exact, **own}

    def parcel_text(self, row: Row) -> bytes:
        """`parcel_properties` as JSON: all of it stays as it is for as long as the row is there."""
        return kept_text(row, "parcel", self.parcel_properties)

    def _past_properties(self, version: int, row: Row) -> Dict[str, Any]:
        """What a parcel is or was, and when, as it was known after so many entries."""
        past = self._register.past
        made, taken = past.made_by(row.id), self._taken_by(version, row)
        times = {"since": made and made.time, "until": taken and taken.time, "ended_by": taken and taken.number}
        ids = {"replaces": past.parents(row.id), "replaced_by": past.children(row.id) if taken else ()}
        return {**self.parcel_properties(row), **times, **{name: _joined(it) for name, it in ids.items()}}

    def _past_text(self, version: int, row: Row) -> bytes:
        """`_past_properties` as JSON: it changes once, where the parcel is taken out."""
        name = "gone" if self._taken_by(version, row) else "past"
        return kept_text(row, name, partial(self._past_properties, version))

    def _taken_by(self, version: int, row: Row) -> Optional[Entry]:
        taken = self._register.past.taken_by(row.id)
        return taken if taken is not None and taken.number <= version else None

    def _zone_properties(self, row: Row) -> Dict[str, Any]:
        own = self._register.layer.zone_properties(row.id)
        return {"id": row.id, **own, "area2_mm2": str(row.area2), "area_m2": row.area2 / 2_000_000}

    def _zone_text(self, row: Row) -> bytes:
        return kept_text(row, "zone", self._zone_properties)

    def test(self, name: str) -> None:
        """Tests that there is such a collection. Raises `NoSuchThing`."""
        if name not in self.names:
            raise NoSuchThing("collection", f"the collections are {', '.join(self.names)}")


def _joined(ids: Sequence[int]) -> str:
    return ",".join(map(str, ids))


def link(address: str, relation: str, kind: str, title: str) -> Dict[str, str]:
    """A link of an answer."""
    return {"href": address, "rel": relation, "type": kind, "title": title}


def now() -> str:
    """The moment, in UTC, as RFC 3339 has it."""
    return datetime.now(timezone.utc).isoformat(timespec="milliseconds").replace("+00:00", "Z")
