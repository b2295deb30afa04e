"""What a request for features asks for: its parameters, each tested."""
from __future__ import annotations

import math
import re
from dataclasses import dataclass
from datetime import datetime
from typing import Any, List, Mapping, Optional, Tuple

from .faults import BadRequest
from .filters import Filter, filter_of
from .register import Register

DEFAULT_LIMIT, MOST_LIMIT = 100, 1000
_INSTANT = re.compile(r"\d{4}-\d\d-\d\d[Tt]\d\d:\d\d:\d\d(\.\d+)?([Zz]|[+-]\d\d:\d\d)")
MOST_KEYS = 10
"""Properties to sort by."""
Moments = Tuple[Optional[datetime], Optional[datetime]]
"""The first and the last moment of an interval, None where it is open; the same twice for a moment."""


@dataclass(frozen=True)
class Asked:
    """The parameters of a request for features."""

    limit: int
    offset: int
    entries: Optional[int]
    crs: str
    area: Any
    number: Optional[str]
    moments: Optional[Moments]
    filter: Optional[Filter]
    filter_crs: str
    order: Tuple[Tuple[str, bool], ...]
    """Properties to sort by, each with whether the greatest comes first."""
    chosen: Optional[Tuple[str, ...]]
    """The properties that are told; None for all."""
    words: Tuple[Tuple[str, str], ...]
    """Which features are asked for, and in which order, in the request's own words."""

    @classmethod
    def of(cls, given: Mapping[str, str], register: Register, kinds: Mapping[str, Mapping[str, Any]]) -> "Asked":
        """Reads them, for a collection whose properties have these schemas. Raises `BadRequest`."""
        projection = register.layer.projection
        area = None
        if "bbox" in given:
            area = projection.area(_box(given["bbox"]), projection.named(given.get("bbox-crs"), "bbox-crs"))
        entries = whole(given, "entries", -1, 0)
        language = given.get("filter-lang", "cql2-text")
        return cls(
            limit=min(whole(given, "limit", DEFAULT_LIMIT, 1), MOST_LIMIT),
            offset=whole(given, "offset", 0, 0),
            entries=None if entries < 0 else entries,
            crs=projection.named(given.get("crs"), "crs"),
            area=area,
            number=given.get("number"),
            moments=_moments(given["datetime"]) if "datetime" in given else None,
            filter=filter_of(given["filter"], language, kinds) if "filter" in given else None,
            filter_crs=projection.named(given.get("filter-crs"), "filter-crs"),
            order=_order(given.get("sortby", ""), kinds),
            chosen=_chosen(given["properties"], kinds) if "properties" in given else None,
            words=tuple((name, given[name]) for name in _WHICH if name in given),
        )


_WHICH = ("bbox", "bbox-crs", "number", "filter", "filter-lang", "filter-crs", "sortby")


def _order(text: str, kinds: Mapping[str, Any]) -> Tuple[Tuple[str, bool], ...]:
    """Properties to sort by. Raises `BadRequest`."""
    words = [word.strip() for word in text.split(",")] if text.strip() else []
    found = tuple((word[1:] if word[:1] in ("+", "-") else word, word.startswith("-")) for word in words)
    if len(found) > MOST_KEYS or any(name not in kinds for name, _ in found):
        raise BadRequest(
            "sortby", f"sortby has properties with commas between, - for the greatest first: {_told(kinds)}"
        )
    return found


def _chosen(text: str, kinds: Mapping[str, Any]) -> Tuple[str, ...]:
    """The properties that are told. Raises `BadRequest`."""
    names = [word.strip() for word in text.split(",")]
    if any(name not in kinds for name in names):
        raise BadRequest("properties", f"properties has names with commas between: {_told(kinds)}")
    return tuple(name for name in kinds if name in names)


def _told(kinds: Mapping[str, Any]) -> str:
    return ", ".join(kinds)[:300]


def _box(text: str) -> List[float]:
    try:
        numbers = [float(word) for word in text.split(",")]
    except ValueError:
        numbers = []
    if len(numbers) not in (4, 6) or not all(map(math.isfinite, numbers)):
        raise BadRequest("bbox", "bbox is four numbers, or six, with commas between")
    return numbers if len(numbers) == 4 else [*numbers[:2], *numbers[3:5]]


def _moments(text: str) -> Moments:
    """A moment of RFC 3339, or an interval. Raises `BadRequest`."""
    words = text.split("/")
    found = [_moment(word) for word in words]
    is_open = [word in ("", "..") for word in words]
    if len(words) > 2 or all(is_open) or any(it is None and not free for it, free in zip(found, is_open)):
        raise BadRequest("datetime", "datetime is a moment of RFC 3339, or two with a / between, .. for open")
    begin, end = found[0], found[-1]
    if begin is not None and end is not None and begin > end:
        raise BadRequest("datetime", "datetime has the earlier moment first")
    return begin, end


def _moment(text: str) -> Optional[datetime]:
    """A moment of RFC 3339; None where it is none."""
    try:
        return datetime.fromisoformat(text.upper()) if _INSTANT.fullmatch(text) else None
    except ValueError:
        return None


def whole(given: Mapping[str, str], name: str, otherwise: int, least: int) -> int:
    """A parameter as a whole number. Raises `BadRequest`."""
    if name not in given:
        return otherwise
    text = given[name]
    if not re.fullmatch("[0-9]{1,15}", text) or int(text) < least:
        raise BadRequest(name, f"{name} is a whole number from {least}")
    return int(text)
