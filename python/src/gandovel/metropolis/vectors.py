"""Versions of several districts at once: after how many entries of each, as `3:17,8:2`."""
from __future__ import annotations

import re
from typing import Dict, Mapping, Optional

from ..serve.faults import BadRequest

Vector = Dict[int, int]
_VECTOR = re.compile(r"[0-9]{1,6}:[0-9]{1,15}(,[0-9]{1,6}:[0-9]{1,15})*")


def text_of(versions: Mapping[int, int]) -> str:
    """The versions as the header `Gandovel-Entries` has them; `0` where no district is named."""
    return ",".join(f"{district}:{versions[district]}" for district in sorted(versions)) or "0"


def vector_of(text: Optional[str], name: str = "entries") -> Vector:
    """What `text_of` made. Raises `BadRequest`."""
    if text is None or text.strip().strip('"') in ("", "0"):
        return {}
    words = text.strip().strip('"')
    if not _VECTOR.fullmatch(words) or len(words) > 100_000:
        raise BadRequest(name, f"{name} says after how many entries of each district, as 3:17,8:2")
    pairs = [word.split(":") for word in words.split(",")]
    return {int(district): int(entries) for district, entries in pairs}
