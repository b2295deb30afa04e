"""The words of the plugin in the user's language: English in the source, others in `i18n` (files of Qt Linguist)."""
from __future__ import annotations

from pathlib import Path
from typing import Any, Dict, Optional
from xml.etree import ElementTree

from qgis.core import QgsApplication

FOLDER = Path(__file__).with_name("i18n")
CONTEXT = "Gandovel"
_read: Dict[str, Dict[str, str]] = {}
"""The translations of each language that was asked for, by their English text."""


def language() -> str:
    """The first two letters of the language in which QGIS speaks."""
    try:
        return str(QgsApplication.locale() or "en")[:2].lower()
    except AttributeError:
        return "en"


def translations(name: str) -> Dict[str, str]:
    """The translations of a language that are finished; empty where there is no file of it, or it can't be read."""
    if name not in _read:
        found: Dict[str, str] = {}
        try:
            for message in ElementTree.parse(FOLDER / f"gandovel_{name}.ts").iter("message"):
                told = message.find("translation")
                if told is not None and told.get("type") is None and told.text:
                    found[message.findtext("source") or ""] = told.text
        except (OSError, ElementTree.ParseError):
            pass
        _read[name] = found
    return _read[name]


def tr(text: str, /, **values: Any) -> str:
    """A text in the user's language, with `values` in the places that it names in braces."""
    told = translations(language()).get(text, text)
    return told.format(**values) if values else told


def counted(count: int, one: str, several: str, none: Optional[str] = None) -> str:
    """A number with its noun: `one` for 1, `several` else (a text with `{count}`); `none` for 0 where it is given."""
    if count == 0 and none is not None:
        return none
    return one.format(count=count) if count == 1 else several.format(count=f"{count:,}")
