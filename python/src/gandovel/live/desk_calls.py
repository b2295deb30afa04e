"""What can be asked at a desk of a running session: edits and questions, each a line out and a line in."""
from __future__ import annotations

import numbers
from collections import deque
from typing import Any, Deque, List, Optional, Sequence, Tuple

from ..program.edits import Edit, Insert, Merge, Move, Split, Straighten, line_of
from .answers import Accepted, Outline, Place, accepted_of, count_of, outline_of, place_of, test_error
from .checkpoint import Checkpoint
from .pipes import Wire, limit_of

Corner = Tuple[int, int]
"""A corner (x, y), in mm."""
Corners = Sequence[Corner]
"""Corners in mm, also as an array of integers of shape (k, 2)."""


AHEAD = 1000
"""How many lines are sent before the first answer is waited for."""


class Calls:
    """The calls of a desk. For one thread at a time.

    `timeout` is how many seconds each call may take, None for any; it may be set anew. A call that takes longer raises
    `TimedOut`: its line may still be taken, and its answer is read and forgotten by the next call. Each call may raise
    a `SessionError` (`gandovel.errors`): what the session answers by `error: ..`, or that the program ended.

    Ids and coordinates are whole numbers, coordinates in mm; what is given as anything else is a TypeError.
    """

    def __init__(self, wire: Wire, timeout: Optional[float] = None) -> None:
        """Takes a wire at whose other end lines are answered."""
        self.timeout = timeout
        self._wire = wire
        self._owed: Deque[bool] = deque()
        self._report: List[str] = []

    def split(self, parcel: int, path: Corners) -> Accepted:
        """Cuts a parcel in two along a path, whose ends are corners of its ring. Raises as `edit` does."""
        return self.edit(Split(parcel, path))

    def merge(self, one: int, other: int) -> Accepted:
        """Makes one parcel of two neighbours. Raises as `edit` does."""
        return self.edit(Merge(one, other))

    def move(self, one: int, other: int, path: Corners) -> Accepted:
        """Makes the path the border of two parcels, in the direction of the first one's ring. Raises as `edit` does."""
        return self.edit(Move(one, other, path))

    def insert(self, first: Corner, last: Corner, new: Corner) -> Accepted:
        """Puts the corner `new` into the edge between the corners `first` and `last`. Raises as `edit` does."""
        return self.edit(Insert(first, last, new))

    def straighten(self, corner: Corner) -> Accepted:
        """Removes the corner from every parcel that contains it, provided no ring bends there. Raises as `edit`
        does."""
        return self.edit(Straighten(corner))

    def edit(self, edit: Edit, who: Optional[str] = None) -> Accepted:
        """Makes an edit, with ids as its parcels. Raises `RefusedEdit` where nothing has changed.

        `who` says who edits and why, as it is to stand in the journal: 1 to 200 bytes without control characters, else
        `NoSuchLine`. Where it raises `ProgramEnded`, `TimedOut` or `JournalBroken`, the edit may stand in the journal
        all the same.
        """
        return self.edit_line(line_of(edit, _whole, _path), who)

    def edit_line(self, line: str, who: Optional[str] = None) -> Accepted:
        """As `edit`, of an edit as the line of a clerk's file."""
        return accepted_of(self.ask(line if who is None else f"by {who}: {line}"))

    def locate(self, x: int, y: int) -> Place:
        """Where a point (mm) lies among the parcels. It waits for no clerk."""
        x, y = _whole(x), _whole(y)
        return place_of(self.ask(f"locate {x} {y}"), x, y)

    def locate_all(self, points: Sequence[Corner]) -> List[Place]:
        """Where points (mm) lie, in order: many are asked for before the first answer is waited for."""
        whole = [(_whole(x), _whole(y)) for x, y in points]
        answers = self.ask_all([f"locate {x} {y}" for x, y in whole])
        return [place_of(answer, x, y) for answer, (x, y) in zip(answers, whole)]

    def ask_all(self, lines: Sequence[str]) -> List[str]:
        """As `ask`, of many lines: the answers in order, of which the first may come before the last line is sent."""
        found: List[str] = []
        for at in range(0, len(lines), AHEAD):
            part = lines[at : at + AHEAD]
            for line in part:
                self._put(line, False)
            for place in range(1, len(part) + 1):
                answer = self._answered(len(part) - place)[0]
                test_error(answer)
                found.append(answer)
        return found

    def parcel(self, parcel: int) -> Optional[Outline]:
        """The ring of the parcel with this id and twice its area; None where no parcel has the id now."""
        number = _whole(parcel)
        return outline_of(self.ask(f"parcel {number}"), number)

    def entries(self) -> int:
        """How many entries the newest version has that this desk finds."""
        return count_of(self.ask("entries"), "entries")

    def ask(self, line: str) -> str:
        """The answer to any line that one line answers, as it is. Raises what an `error: ..` says."""
        answer = self._exchanged(line, False)[0]
        test_error(answer)
        return answer

    def _reported(self, line: str) -> List[str]:
        """The lines of the report that a line asks for. Raises what an `error: ..` says."""
        answer = self._exchanged(line, True)
        test_error(answer[-1] if answer else "")
        return answer

    def _exchanged(self, line: str, is_report: bool) -> List[str]:
        self._put(line, is_report)
        return self._answered()

    def _put(self, line: str, is_report: bool) -> None:
        self._wire.put(_sendable(line))
        self._owed.append(is_report)

    def _answered(self, behind: int = 0) -> List[str]:
        """The lines of the answer to the last line that was put, or to one with so many behind it; those of earlier
        ones are forgotten."""
        until = limit_of(self.timeout)
        while True:
            answer = self._next_answer(self._owed[0], until)
            self._owed.popleft()
            if len(self._owed) == behind:
                return answer

    def _next_answer(self, is_report: bool, until: Optional[float]) -> List[str]:
        """The lines of an answer. One that was begun by a call that timed out is gone on with."""
        while True:
            line = self._wire.line(until).decode("utf-8", "backslashreplace")
            ends_report = line == "."
            if not (is_report and ends_report):
                self._report.append(line)
            if not is_report or ends_report or line.startswith("error: "):
                answer, self._report = self._report, []
                return answer


class RenamedDesk(Calls):
    """A desk of a session over a checkpoint, at which parcels and entries have the register's ids and numbers."""

    def __init__(self, desk: Calls, checkpoint: Checkpoint) -> None:
        """Takes the desk, in the ids of its session."""
        self._desk, self._checkpoint = desk, checkpoint

    def ask(self, line: str) -> str:
        """As a desk's."""
        return self._checkpoint.outward(self._desk.ask(self._checkpoint.inward(line)))

    def ask_all(self, lines: Sequence[str]) -> List[str]:
        """As a desk's."""
        return list(map(self._checkpoint.outward, self._desk.ask_all(list(map(self._checkpoint.inward, lines)))))


def _sendable(line: str) -> bytes:
    if "\n" in line:
        raise ValueError("a line of a session has no line feed in it")
    return line.encode("utf-8", "surrogateescape") + b"\n"


def _whole(value: Any) -> int:
    if isinstance(value, bool) or not isinstance(value, numbers.Integral):
        raise TypeError(f"not a whole number: {value!r}")
    return int(value)


def _path(places: Any) -> str:
    return " ".join(_place(place) for place in places)


def _place(place: Any) -> str:
    try:
        x, y = place
    except (TypeError, ValueError) as fault:
        raise TypeError(f"not a corner (x, y): {place!r}") from fault
    return f"{_whole(x)} {_whole(y)}"
