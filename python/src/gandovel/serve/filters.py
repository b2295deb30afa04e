"""Filters of features: the basic class of CQL2, as text and as JSON, with `S_INTERSECTS` of boxes and points.

A filter is exact: whole numbers are compared as they are, texts by their signs, and what is null is neither equal to a
value nor different from it (SQL's logic of three values). Only where a shape meets a box is measured, by GEOS.
"""
from __future__ import annotations

import json
import math
import operator
import re
from dataclasses import dataclass
from datetime import date, datetime
from typing import Any, Callable, Dict, List, Mapping, Optional, Sequence, Tuple, Union

from .faults import BadRequest

DEEPEST = 40
"""Levels of brackets, `NOT` and JSON in a filter: more are refused before they are read."""
MOST_SIGNS = 8_000
"""Signs of a filter as text or as JSON."""
COMPARISONS: Dict[str, Callable[[Any, Any], bool]] = {
    "=": operator.eq,
    "<>": operator.ne,
    "<": operator.lt,
    "<=": operator.le,
    ">": operator.gt,
    ">=": operator.ge,
}
_TURNED = {"<": ">", "<=": ">=", ">": "<", ">=": "<="}
_TOKEN = re.compile(
    r"\s*(?:(?P<text>'(?:[^']|'')*')|(?P<name>\"(?:[^\"]|\"\")+\"|[^\W\d][\w.:]*)"
    r"|(?P<number>[-+]?(?:[0-9]+(?:\.[0-9]*)?|\.[0-9]+)(?:[eE][-+]?[0-9]+)?)|(?P<sign><>|<=|>=|[=<>(),]))"
)
_MOMENT = re.compile(r"\d{4}-\d\d-\d\dT\d\d:\d\d:\d\d(\.\d+)?Z")

Value = Union[str, int, float, bool, date, datetime]
Values = Callable[[str], Any]
"""The value of a feature's property, null for one that is not known."""


@dataclass(frozen=True)
class Compared:
    """A property against a value, or against another property."""

    name: str
    sign: str
    value: Optional[Value]
    other: Optional[str]
    kind: str

    def test(self, values: Values, meets: Any) -> Optional[bool]:
        """Whether it holds; None where it is not known."""
        mine = valued(values(self.name), self.kind)
        theirs = self.value if self.other is None else valued(values(self.other), self.kind)
        return None if mine is None or theirs is None else COMPARISONS[self.sign](mine, theirs)


@dataclass(frozen=True)
class IsNull:
    """Whether a property has no value."""

    name: str

    def test(self, values: Values, meets: Any) -> Optional[bool]:
        """Whether it holds."""
        return values(self.name) is None


@dataclass(frozen=True)
class Meets:
    """Whether the shape has a point in common with a box, or a point: `numbers` are four, or two, in `filter-crs`."""

    numbers: Tuple[float, ...]

    def test(self, values: Values, meets: Callable[[Tuple[float, ...]], bool]) -> Optional[bool]:
        """Whether it holds."""
        return meets(self.numbers)


@dataclass(frozen=True)
class Constant:
    """`TRUE` or `FALSE`."""

    is_true: bool

    def test(self, values: Values, meets: Any) -> Optional[bool]:
        """Whether it holds."""
        return self.is_true


@dataclass(frozen=True)
class Joined:
    """Several conditions with `and` or `or`, or one with `not`."""

    word: str
    parts: Tuple["Filter", ...]

    def test(self, values: Values, meets: Any) -> Optional[bool]:
        """Whether it holds; None where that is not known."""
        if self.word == "not":
            found = self.parts[0].test(values, meets)
            return None if found is None else not found
        ends, is_sure = self.word == "or", True
        for part in self.parts:
            found = part.test(values, meets)
            if found is ends:
                return ends
            is_sure = is_sure and found is not None
        return not ends if is_sure else None


Filter = Union[Compared, IsNull, Meets, Constant, Joined]


def filter_of(text: str, language: str, kinds: Mapping[str, Mapping[str, Any]]) -> Filter:
    """A filter of a language, `cql2-text` or `cql2-json`, on properties of these JSON schemas. Raises `BadRequest`."""
    if len(text) > MOST_SIGNS:
        raise bad(f"has at most {MOST_SIGNS} signs")
    if language == "cql2-text":
        return _Text(text, kinds).read()
    if language != "cql2-json":
        raise BadRequest("filter-lang", "filter-lang is cql2-text or cql2-json")
    try:
        told = json.loads(text, parse_constant=_no_number)
    except (ValueError, RecursionError):
        raise bad("is no JSON: send an object with op and args, or give filter-lang=cql2-text") from None
    return _Json(kinds).read(told, 0)


def bad(text: str) -> BadRequest:
    """Why a filter is not understood."""
    return BadRequest("filter", f"the filter {text}"[:300])


def kind_of(schema: Mapping[str, Any]) -> str:
    """What values a property has: `text`, `number`, `boolean`, `date` or `moment`."""
    if schema.get("format") in ("date", "date-time"):
        return "date" if schema["format"] == "date" else "moment"
    return {"integer": "number", "number": "number", "boolean": "boolean"}.get(schema.get("type", ""), "text")


def valued(value: Any, kind: str) -> Optional[Value]:
    """A property's value as it is compared; None where it is null, or none of its kind."""
    if value is None:
        return None
    if kind == "text":
        return value if isinstance(value, str) else str(value)
    if kind == "moment":
        return datetime.fromisoformat(value)
    if kind == "date":
        return date.fromisoformat(value)
    return value if isinstance(value, (int, float)) else None


def _no_number(word: str) -> Any:
    raise ValueError(word)


def _literal(kind: str, text: Any) -> Value:
    """A day or a moment. Raises `BadRequest`."""
    try:
        if kind == "date" and isinstance(text, str):
            return date.fromisoformat(text)
        if kind == "moment" and isinstance(text, str) and _MOMENT.fullmatch(text):
            return datetime.fromisoformat(text)
    except ValueError:
        pass
    raise bad("has a day or a moment that is none: DATE('2026-03-01'), TIMESTAMP('2026-03-01T00:00:00Z')")


def _kind_of_value(value: Value) -> str:
    if isinstance(value, bool):
        return "boolean"
    if isinstance(value, str):
        return "text"
    return "moment" if isinstance(value, datetime) else "date" if isinstance(value, date) else "number"


@dataclass(frozen=True)
class _Named:
    """The name of a property, as an operand."""

    name: str


def _compared(sign: str, one: Any, other: Any, kinds: Mapping[str, Mapping[str, Any]]) -> Compared:
    """A comparison of two operands, each a `_Named` or a value. Raises `BadRequest`."""
    if not isinstance(one, _Named):
        if not isinstance(other, _Named):
            raise bad("compares two values: one of them has to be a property")
        one, other, sign = other, one, _TURNED.get(sign, sign)
    kind = kind_of(_known(one.name, kinds))
    theirs = kind_of(_known(other.name, kinds)) if isinstance(other, _Named) else _kind_of_value(other)
    if theirs != kind:
        raise bad(f"compares {one.name}, a {kind}, with a {theirs}: texts stand in single quotes")
    if kind == "boolean" and sign not in ("=", "<>"):
        raise bad(f"asks which of two booleans is greater: {one.name} is true or false")
    if isinstance(other, _Named):
        return Compared(one.name, sign, None, other.name, kind)
    return Compared(one.name, sign, other, None, kind)


def _known(name: str, kinds: Mapping[str, Mapping[str, Any]]) -> Mapping[str, Any]:
    if name not in kinds:
        raise bad(f"names {name[:40]}, and the properties are {', '.join(kinds)}")
    return kinds[name]


def _shape(numbers: Sequence[Any]) -> Meets:
    """A box or a point. Raises `BadRequest`."""
    try:
        found = [float(it) if isinstance(it, (int, float)) and not isinstance(it, bool) else math.nan for it in numbers]
    except OverflowError:
        found = []
    if len(found) not in (2, 4, 6) or not all(map(math.isfinite, found)):
        raise bad("has a shape that is neither a box of four numbers nor a point of two")
    return Meets(tuple([*found[:2], *found[3:5]] if len(found) == 6 else found))


def _joined(word: str, parts: Sequence[Filter]) -> Filter:
    return parts[0] if len(parts) == 1 and word != "not" else Joined(word, tuple(parts))


class _Text:
    """A filter as CQL2 text, read word by word."""

    def __init__(self, text: str, kinds: Mapping[str, Mapping[str, Any]]) -> None:
        self._kinds, self._at = kinds, 0
        self._words: List[Tuple[str, str]] = []
        place, text = 0, text.rstrip()
        while place < len(text):
            found = _TOKEN.match(text, place)
            if not found or found.lastgroup is None:
                raise bad(f"is not understood from {text[place:][:20]!r} on")
            self._words.append((found.lastgroup, found[found.lastgroup]))
            place = found.end()

    def read(self) -> Filter:
        """The whole of it."""
        found = self._either(0)
        if self._at < len(self._words):
            raise bad(f"goes on where it should end, at {self._words[self._at][1][:20]!r}")
        return found

    def _next(self, *wanted: str) -> bool:
        """Whether the next word is one of these; it is taken then."""
        kind, word = self._words[self._at] if self._at < len(self._words) else ("", "")
        if word.upper() in wanted and kind in ("name", "sign"):
            self._at += 1
            return True
        return False

    def _take(self, wanted: str) -> None:
        if not self._next(wanted):
            there = self._words[self._at][1][:20] if self._at < len(self._words) else "its end"
            raise bad(f"has {there!r} where {wanted} should stand")

    def _either(self, depth: int) -> Filter:
        if depth > DEEPEST:
            raise bad(f"has more than {DEEPEST} brackets in one another")
        parts = [self._all(depth)]
        while self._next("OR"):
            parts.append(self._all(depth))
        return _joined("or", parts)

    def _all(self, depth: int) -> Filter:
        parts = [self._one(depth)]
        while self._next("AND"):
            parts.append(self._one(depth))
        return _joined("and", parts)

    def _one(self, depth: int) -> Filter:
        if self._next("NOT"):
            if depth > DEEPEST:
                raise bad(f"has more than {DEEPEST} NOT in a row")
            return _joined("not", [self._one(depth + 1)])
        if self._next("("):
            found = self._either(depth + 1)
            self._take(")")
            return found
        if self._next("S_INTERSECTS"):
            return self._meets()
        one = self._operand()
        if self._next("IS"):
            is_not = self._next("NOT")
            self._take("NULL")
            if not isinstance(one, _Named):
                raise bad("asks of a value whether it is null: only a property can be")
            _known(one.name, self._kinds)
            return _joined("not", [IsNull(one.name)]) if is_not else IsNull(one.name)
        for sign in COMPARISONS:
            if self._next(sign):
                return _compared(sign, one, self._operand(), self._kinds)
        if isinstance(one, bool):
            return Constant(one)
        raise bad(f"has no =, <>, <, <=, >, >= or IS NULL after {self._words[self._at - 1][1][:20]!r}")

    def _operand(self) -> Any:
        if self._at >= len(self._words):
            raise bad("ends where a property or a value should stand")
        kind, word = self._words[self._at]
        self._at += 1
        if kind == "text":
            return word[1:-1].replace("''", "'")
        if kind == "number":
            return _number(word)
        if kind == "sign":
            raise bad(f"has {word!r} where a property or a value should stand")
        if word.upper() in ("TRUE", "FALSE"):
            return word.upper() == "TRUE"
        if word.upper() in ("DATE", "TIMESTAMP") and self._next("("):
            value = self._operand()
            self._take(")")
            return _literal("date" if word.upper() == "DATE" else "moment", value)
        return _Named(word[1:-1].replace('""', '"') if word.startswith('"') else word)

    def _meets(self) -> Filter:
        """`S_INTERSECTS(geometry, BBOX(1, 2, 3, 4))`, after its first word; or with `POINT(1 2)`."""
        self._take("(")
        self._take("GEOMETRY")
        self._take(",")
        is_box = self._next("BBOX")
        if not is_box:
            self._take("POINT")
        self._take("(")
        numbers = [self._operand()]
        while not self._next(")"):
            if is_box:
                self._take(",")
            numbers.append(self._operand())
        self._take(")")
        if len(numbers) == 2 and is_box or len(numbers) > 2 and not is_box:
            raise bad("has a shape that is neither a box of four numbers nor a point of two")
        return _shape(numbers)


def _number(word: str) -> Union[int, float]:
    if re.fullmatch("[-+]?[0-9]{1,300}", word):
        return int(word)
    value = float(word)
    if not math.isfinite(value):
        raise bad(f"has a number that is too large: {word[:20]}")
    return value


class _Json:
    """A filter as CQL2 JSON."""

    def __init__(self, kinds: Mapping[str, Mapping[str, Any]]) -> None:
        self._kinds = kinds

    def read(self, told: Any, depth: int) -> Filter:
        """A condition. Raises `BadRequest`."""
        if isinstance(told, bool):
            return Constant(told)
        if depth > DEEPEST or not isinstance(told, dict) or not isinstance(told.get("args"), list):
            raise bad(f"is an object with op and args, and has at most {DEEPEST} in one another")
        name, args = str(told.get("op")).lower(), told["args"]
        if name in ("and", "or") and args or name == "not" and len(args) == 1:
            return _joined(name, [self.read(it, depth + 1) for it in args])
        if name == "isnull" and len(args) == 1:
            operand = self._operand(args[0])
            if isinstance(operand, _Named):
                _known(operand.name, self._kinds)
                return IsNull(operand.name)
        if name in COMPARISONS and len(args) == 2:
            return _compared(name, self._operand(args[0]), self._operand(args[1]), self._kinds)
        if name == "s_intersects" and len(args) == 2 and args[0] == {"property": "geometry"}:
            return self._meets(args[1])
        raise bad(f"has {name[:20]!r} with {len(args)} args: and, or, not, isNull, =, <>, <, <=, >, >=, s_intersects")

    def _operand(self, told: Any) -> Any:
        if isinstance(told, (str, int, float)):
            return told
        if isinstance(told, dict) and len(told) == 1:
            ((name, value),) = told.items()
            if name == "property" and isinstance(value, str):
                return _Named(value)
            if name in ("date", "timestamp"):
                return _literal("date" if name == "date" else "moment", value)
        raise bad("has an operand that is neither a property, a text, a number, a boolean, a day nor a moment")

    def _meets(self, told: Any) -> Filter:
        if isinstance(told, dict) and isinstance(told.get("bbox"), list) and len(told["bbox"]) in (4, 6):
            return _shape(told["bbox"])
        place = told.get("coordinates") if isinstance(told, dict) and told.get("type") == "Point" else None
        if isinstance(place, list) and len(place) == 2:
            return _shape(place)
        raise bad('has a shape that is neither {"bbox": [..]} nor a Point of GeoJSON')
