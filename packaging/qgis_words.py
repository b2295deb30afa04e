#!/usr/bin/env python3
"""Collects the words of the plugin of QGIS, and brings its translations (`qgis/gandovel/i18n`) up to date with them.

    packaging/qgis_words.py [--check]

Words are texts that stand in `tr(..)`, or in a name that `tr` is called with in the same function; titles, helps and
tables of algorithms, too. A translation whose text is there no more is dropped, and a new one is unfinished. With
`--check` nothing is written: the status is 1 where a language lacks a text, or has one too many.
"""
from __future__ import annotations

import ast
import re
import sys
from pathlib import Path
from typing import Dict, Iterator, List, Optional, Set
from xml.etree import ElementTree
from xml.sax.saxutils import escape

PLUGIN = Path(__file__).resolve().parent.parent / "qgis/gandovel"
LANGUAGES = ("en", "de")
TABLES = ("COUNTS", "VERDICT", "SETTINGS", "OUTPUTS", "EXACT")
"""Names of modules whose texts are shown."""
PLACE = re.compile(r"{\w*}")


def text_of(node: ast.AST) -> Optional[str]:
    """The text of a literal; None of anything else."""
    return node.value if isinstance(node, ast.Constant) and isinstance(node.value, str) else None


def is_tr(node: ast.AST) -> bool:
    """Whether a node is a call of `tr`."""
    return isinstance(node, ast.Call) and isinstance(node.func, ast.Name) and node.func.id == "tr"


def in_function(function: ast.AST) -> Iterator[str]:
    """The texts that a function hands to `tr`."""
    assigned: Dict[str, List[str]] = {}
    calls = []
    for node in ast.walk(function):
        if isinstance(node, ast.Assign) and len(node.targets) == 1 and isinstance(node.targets[0], ast.Name):
            text = text_of(node.value)
            if text is not None:
                assigned.setdefault(node.targets[0].id, []).append(text)
        if is_tr(node):
            calls.append(node)
    for call in calls:
        first = call.args[0]  # type: ignore[attr-defined]
        text = text_of(first)
        if text is not None:
            yield text
        elif isinstance(first, ast.Name):
            yield from assigned.get(first.id, [])


def in_tables(tree: ast.Module) -> Iterator[str]:
    """The texts of the tables of a module, and the titles, helps and results of its algorithms."""
    for node in ast.walk(tree):
        if isinstance(node, ast.Assign):
            yield from _assigned(node)
        if isinstance(node, ast.Call) and isinstance(node.func, ast.Attribute) and node.func.attr == "add_results":
            yield from (value for one in ast.walk(node) for value in [text_of(one)] if value and " " in value)
            for name in (it for it in ast.walk(node) if isinstance(it, ast.Name)):
                del name


def _assigned(node: ast.Assign) -> Iterator[str]:
    names = [it.id for target in node.targets for it in ast.walk(target) if isinstance(it, ast.Name)]
    if "TITLE" in names and isinstance(node.value, ast.Tuple) and len(node.value.elts) > 1:
        yield text_of(node.value.elts[1]) or ""
    elif "HELP" in names:
        literal = node.value.left if isinstance(node.value, ast.BinOp) else node.value
        yield text_of(literal) or ""
    elif any(name in TABLES for name in names):
        yield from (value for it in ast.walk(node.value) for value in [text_of(it)] if value and " " in value)


def words() -> Set[str]:
    """All texts of the plugin."""
    found: Set[str] = set()
    for path in sorted(PLUGIN.rglob("*.py")):
        if "package_side" in path.parts:
            continue
        tree = ast.parse(path.read_text(encoding="utf-8"))
        found |= set(in_function(tree)) | set(in_tables(tree))
    return {text for text in found if text}


def translations(path: Path) -> Dict[str, str]:
    """The texts of a language with their translations; empty ones where they are unfinished."""
    if not path.is_file():
        return {}
    messages = ElementTree.parse(path).iter("message")
    return {it.findtext("source") or "": it.findtext("translation") or "" for it in messages}


def file_of(language: str, known: Dict[str, str], texts: Set[str]) -> str:
    """The file of a language, as Qt Linguist reads it."""
    lines = ['<?xml version="1.0" encoding="utf-8"?>', "<!DOCTYPE TS>", f'<TS version="2.1" language="{language}">']
    lines += ["<context>", "    <name>Gandovel</name>"]
    for text in sorted(texts):
        told = known.get(text) or (text if language == "en" else "")
        kind = "" if told else ' type="unfinished"'
        lines += ["    <message>", f"        <source>{escape(text)}</source>"]
        lines += [f"        <translation{kind}>{escape(told)}</translation>", "    </message>"]
    return "\n".join([*lines, "</context>", "</TS>", ""])


def faults_of(language: str, known: Dict[str, str], texts: Set[str]) -> List[str]:
    """What is amiss with a language."""
    amiss = [f"{language}: not translated: {text[:90]}" for text in sorted(texts) if not known.get(text)]
    amiss += [f"{language}: no longer there: {text[:90]}" for text in sorted(set(known) - texts)]
    for text, told in known.items():
        if told and sorted(PLACE.findall(text)) != sorted(PLACE.findall(told)):
            amiss.append(f"{language}: other places in braces: {text[:90]}")
    return amiss


def main() -> int:
    """Brings the files up to date, or says what is amiss; the status."""
    texts, amiss = words(), []
    for language in LANGUAGES:
        path = PLUGIN / "i18n" / f"gandovel_{language}.ts"
        known = translations(path)
        if "--check" in sys.argv[1:]:
            amiss += faults_of(language, known, texts)
        else:
            path.parent.mkdir(exist_ok=True)
            path.write_text(file_of(language, known, texts), encoding="utf-8")
    print("\n".join(amiss), end="\n" if amiss else "")
    return 1 if amiss else 0


if __name__ == "__main__":
    sys.exit(main())
