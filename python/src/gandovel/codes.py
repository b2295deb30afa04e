"""The package's own codes in words: what each means, what usually causes it, what to do. The program has its own.

All codes, the program's too, stand in one table, `codes.toml`, of which the page of codes and the man page are made.
"""
from __future__ import annotations

import tomllib
from pathlib import Path
from typing import Any, Dict, List, NamedTuple

TABLE = Path(__file__).with_name("codes.toml")


class Words(NamedTuple):
    """A code in words."""

    meaning: str
    cause: str
    remedy: str


def _own() -> Dict[str, Words]:
    """The words of the codes that the package itself refuses by."""
    rows: List[Dict[str, Any]] = tomllib.loads(TABLE.read_text(encoding="utf-8"))["code"]
    own = (row for row in rows if row["by"].startswith("gandovel"))
    return {row["code"]: Words(_meaning_of(row), row.get("cause", ""), row["remedy"]) for row in own}


def _meaning_of(row: Dict[str, Any]) -> str:
    """The meaning with its details."""
    return f"{row['meaning']}: {row['detail']}" if "detail" in row else str(row["meaning"])


OWN = _own()
"""Each code of the package that a refusal begins with, in the order in which they are listed."""


def lines_of(code: str, words: Words) -> List[str]:
    """A code in words, as the program prints its own."""
    cause = [f"usual cause: {words.cause}"] if words.cause else []
    return [f"{code}: {words.meaning}", *cause, f"what to do: {words.remedy}"]
