"""One edit in the body of a request: as JSON, or as a line of a clerk's file."""
from __future__ import annotations

import json
import re
from typing import TYPE_CHECKING, Annotated, Any, List, Literal, Optional, Tuple, Union

from pydantic import BaseModel, Extra, Field, ValidationError, conint, parse_obj_as

from ..live.journals import FARTHEST, MOST_WORD
from ..program import edits
from .faults import BadRequest

MOST_WHY = MOST_WORD
"""Bytes of a reason."""
_PATH = r"(?: -?[0-9]{1,19} -?[0-9]{1,19})"
LINE = re.compile(
    rf"split [0-9]{{1,19}}{_PATH}+|merge [0-9]{{1,19}} [0-9]{{1,19}}|move [0-9]{{1,19}} [0-9]{{1,19}}{_PATH}+"
    rf"|insert{_PATH}{{3}}|straighten{_PATH}"
)

if TYPE_CHECKING:
    Id = int
    Whole = int
else:
    Id = conint(strict=True, ge=0, le=10**18 - 1)
    Whole = conint(strict=True, ge=-FARTHEST, le=FARTHEST)
Corner = Tuple[Whole, Whole]
Path = Annotated[List[Corner], Field(min_items=1, max_items=4096)]


class _Body(BaseModel):
    why: str = Field("", description=f"the reason, at most {MOST_WHY} bytes")

    class Config:
        extra = Extra.forbid


class SplitBody(_Body):
    """The parcel is cut in two along the path, whose ends are corners of its border."""

    kind: Literal["split"]
    parcel: Id
    path: Path


class MergeBody(_Body):
    """The two parcels become one."""

    kind: Literal["merge"]
    one: Id
    other: Id


class MoveBody(_Body):
    """The border of two parcels becomes the path, in the direction of the first one's ring."""

    kind: Literal["move"]
    one: Id
    other: Id
    path: Path


class InsertBody(_Body):
    """The corner `new` is put into the edge between the corners `first` and `last`."""

    kind: Literal["insert"]
    first: Corner
    last: Corner
    new: Corner


class StraightenBody(_Body):
    """Removes the corner from every parcel that contains it, provided no ring bends there."""

    kind: Literal["straighten"]
    corner: Corner


class LineBody(_Body):
    """A line of a clerk's file."""

    kind: Literal["line"]
    line: str


EditBody = Annotated[
    Union[SplitBody, MergeBody, MoveBody, InsertBody, StraightenBody, LineBody], Field(discriminator="kind")
]


def edit_of(body: bytes, kind: str, why: Optional[str]) -> Tuple[str, str]:
    """The edit's line and its reason, of a body of this media type. Raises `BadRequest`."""
    if kind.partition(";")[0].strip().lower() == "text/plain":
        return _line(body.decode("utf-8", "replace").rstrip("\r\n")), _reason(why or "")
    try:
        given = json.loads(body)
        if not isinstance(given, dict) or not isinstance(given.get("kind"), str):
            raise BadRequest("body", "the body is no edit: it is an object, and its kind is a word")
        value: Any = parse_obj_as(EditBody, given)  # type: ignore[arg-type]
    except (ValueError, RecursionError) as fault:
        raise BadRequest("body", _told(fault)) from None
    return _line(_text(value)), _reason(value.why or why or "")


def _told(fault: Exception) -> str:
    """What is wrong with a body, in one line."""
    if isinstance(fault, ValidationError):
        first = fault.errors()[0]
        where = ".".join(str(it) for it in first["loc"] if it != "__root__")
        return f"the body is no edit: {where or 'it'}: {first['msg']}"[:300]
    return "the body is no JSON: send an edit as JSON, or a clerk's line as text/plain"


def _text(value: Any) -> str:
    if isinstance(value, LineBody):
        return value.line
    given = {name: getattr(value, name) for name in value.__fields__ if name not in ("kind", "why")}
    edit = getattr(edits, value.kind.capitalize())(**given)
    return edits.line_of(edit, int, lambda path: " ".join(f"{x} {y}" for x, y in path))


def _line(line: str) -> str:
    """The line as a journal has it: each number in its one form."""
    if LINE.fullmatch(line):
        name, *words = line.split(" ")
        return " ".join([name, *(str(int(word)) for word in words)])
    raise BadRequest(
        "L1", "the line is no edit: split, merge, move, insert or straighten, whole numbers, one space between"
    )


def _reason(why: str) -> str:
    why = why.strip()
    if len(why.encode("utf-8", "replace")) > MOST_WHY or not why.isprintable():
        raise BadRequest("why", f"the reason has at most {MOST_WHY} bytes, in one line")
    return why
