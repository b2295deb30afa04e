"""A collection in one version: which rows it has, and what is told of each, as JSON that is made once."""
from __future__ import annotations

import asyncio
import json
from dataclasses import dataclass
from typing import Any, Callable, Dict, List, Optional, Sequence

import numpy as np

from ..arrays import Array
from .crs import Projection
from .entries import Row, Versions

PIECE = 100
"""Rows whose shapes are made at once: then other requests have a turn."""
Properties = Callable[[Row], Dict[str, Any]]
_ENCODE = json.JSONEncoder(ensure_ascii=False, separators=(",", ":")).encode


def encoded(value: Any) -> bytes:
    """A value as JSON."""
    return _ENCODE(value).encode("utf-8", "replace")


@dataclass(frozen=True)
class View:
    """A collection in one version: the rows of `versions` at `version`, of which `only` has the ids, if not all.

    With `since` those, too, that were there after so many entries and are not any more. `text` is what is told of a
    row, `properties` as JSON.
    """

    versions: Versions
    version: int
    entries: int
    properties: Properties
    text: Callable[[Row], bytes]
    only: Optional[Array] = None
    since: Optional[int] = None

    def places(self, bounds: Any = None) -> Array:
        """Where its rows are in `versions`, by ascending ids."""
        found = self.versions.places(self.version, bounds, self.since)
        if self.only is None:
            return found
        return found[np.isin(self.versions.ids(found), self.only)]

    def find(self, number: int) -> Optional[Row]:
        """The row with this id."""
        row = self.versions.find(number, self.version, self.since)
        return row if row is None or self.only is None or number in self.only else None


def kept_text(row: Row, name: str, properties: Properties) -> bytes:
    """What is told of a row, as JSON: made once for each name."""
    text = row.texts.get(name)
    if text is None:
        text = row.texts[name] = encoded(properties(row))
    return text


def with_more(text: bytes, more: bytes) -> bytes:
    """A JSON object, and further members of it."""
    return text[:-1] + (b"," if len(text) > 2 else b"") + more + b"}"


async def shapes_of(rows: Sequence[Row], projection: Projection, crs: str) -> List[bytes]:
    """The shapes of rows in a projection, as GeoJSON: each is made once, a piece of the rows at a time."""
    missing = [row for row in rows if crs not in row.texts]
    for at in range(0, len(missing), PIECE):
        if at:
            await asyncio.sleep(0)
        _draw(missing[at : at + PIECE], projection, crs)
    return [row.texts[crs] for row in rows]


def _draw(rows: Sequence[Row], projection: Projection, crs: str) -> None:
    sizes = np.cumsum([len(row.ring) for row in rows])
    corners = projection.coordinates(np.concatenate([row.ring for row in rows]), crs)
    for row, part in zip(rows, np.split(corners, sizes[:-1])):
        ring = part.tolist()
        row.texts[crs] = b'{"type":"Polygon","coordinates":[' + encoded([*ring, ring[0]]) + b"]}"


def ring_text(row: Row) -> bytes:
    """The ring of a row in whole millimetres, as JSON: made once."""
    text = row.texts.get("ring_mm")
    if text is None:
        text = row.texts["ring_mm"] = encoded(row.ring.tolist())
    return text


def feature_text(number: int, shape: bytes, properties: bytes) -> bytes:
    """A feature as GeoJSON."""
    return b'{"type":"Feature","id":%d,"geometry":%b,"properties":%b}' % (number, shape, properties)
