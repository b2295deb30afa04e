"""What is refused, and how it is said: one line, a code, and the place."""
from __future__ import annotations

from typing import Any, Dict, List, Optional, Sequence


STATUS = {"H1": 1, "H2": 1, "P18": 2, "T8": 3, "T9": 3, "T11": 3}
"""The exit status by the code of a refusal; of all others it is 4."""


class Refused(Exception):
    """A layer, a command or a file that is refused.

    ``code`` is the proved program's (H2, F6 ..; `docs/cli.md`) or this package's (P1 ..; `docs/python.md`).
    ``role`` is ``parcels``, ``zones``, ``city`` or ``""``; ``record`` the record of the program, counted from 1;
    ``number`` the parcel's (or zone's) own number; ``geometry`` the place in the layer's projection, where there is
    one.
    """

    def __init__(
        self,
        code: str,
        text: str,
        role: str = "",
        record: Optional[int] = None,
        number: Optional[str] = None,
        geometry: Any = None,
    ) -> None:
        super().__init__(text)
        self.code = code
        self.text = text
        self.role = role
        self.record = record
        self.number = number
        self.geometry = geometry

    def __str__(self) -> str:
        parts = [f"{self.role}: " if self.role else "", f"{self.code} "]
        if self.number is not None:
            parts.append(f"{'zone' if self.role == 'zones' else 'parcel'} {self.number}: ")
        parts.append(" ".join(self.text.split()))
        return "".join(parts).rstrip()

    @property
    def status(self) -> int:
        """The exit status of a command that is refused so.

        1: the program's verdict is that a layer does not tile, or an edit does not fit. 2: the options contradict.
        3: the verdict is open. 4: something can't be read, run or written, so there is no verdict.
        """
        return 1 if isinstance(self, RefusedEdit) else STATUS.get(self.code, 4)

    @property
    def all(self) -> "List[Refused]":
        """Each single refusal: this one, where there are not several at once."""
        return [self]

    def record_of(self) -> Dict[str, Any]:
        """It as a dictionary: code, role, number, text, x, y (in the layer's projection, or None)."""
        x, y = (self.geometry.x, self.geometry.y) if self.geometry is not None else (None, None)
        text = " ".join(self.text.split())
        return {"code": self.code, "role": self.role, "number": self.number, "text": text, "x": x, "y": y}


MOST_IN_A_LINE = 200


class SeveralRefused(Refused):
    """Several features that are refused at once: `all` has each; code, role, number and place are the first one's."""

    def __init__(self, problems: Sequence[Refused], advice: str) -> None:
        first = problems[0]
        super().__init__(first.code, first.text, first.role, first.record, first.number, first.geometry)
        self._problems = list(problems)
        self.advice = advice

    @property
    def all(self) -> List[Refused]:
        """Each single refusal."""
        return self._problems

    def __str__(self) -> str:
        alike = len({problem.code for problem in self._problems}) == 1
        texts = []
        for problem in self._problems[:MOST_IN_A_LINE]:
            what = "" if alike else f"{problem.code} "
            if problem.number is not None:
                what += f"{'zone' if self.role == 'zones' else 'parcel'} {problem.number}: "
            texts.append(what + " ".join(problem.text.split()))
        rest = len(self._problems) - len(texts)
        texts += [f"and {rest} more, which --json lists"] if rest else []
        head = f"{self.role}: " if self.role else ""
        return f"{head}{self.code} {len(self._problems)} rows are refused: {'; '.join(texts)}. {self.advice}"


def raise_all(problems: Sequence[Refused], advice: str) -> None:
    """Raises what is refused, all at once; `advice` says what to do. Nothing where nothing is."""
    if len(problems) == 1:
        only = problems[0]
        only.text = f"{only.text}: {advice}"
        raise only
    if problems:
        raise SeveralRefused(problems, f"{advice[:1].upper()}{advice[1:]}")


class RefusedEdit(Refused):
    """An edit that a session did not make: ``code`` is E1 .. E12 or ``no memory``, ``text`` what it names.

    Nothing has changed (`docs/edits.md`).
    """


class SeveralRefusedEdits(RefusedEdit):
    """Several edits that are refused: `all` has each; code and text are the first one's."""

    def __init__(self, problems: "Sequence[RefusedEdit]") -> None:
        first, rest = problems[0], len(problems) - 1
        super().__init__(first.code, f"{first.text}; and {rest} more edit{'' if rest == 1 else 's'}, which .all has")
        self._problems = list(problems)

    @property
    def all(self) -> List[Refused]:
        """Each single refusal."""
        return list(self._problems)


class PartlyMade(RefusedEdit):
    """A transaction of which not all edits were made, since another clerk's came between, or the session ended.

    `made` has the answers to those that were made, in order; `unsure` those whose answer did not come: they may be in
    the journal; `left` those that were not made. Each edit is one of the three.
    """

    def __init__(self, code: str, text: str, made: Sequence[Any], unsure: Sequence[Any], left: Sequence[Any]) -> None:
        super().__init__(code, text)
        self.made, self.unsure, self.left = list(made), list(unsure), list(left)


class SessionError(Refused):
    """What a session answers in place of what it was asked for; ``code`` stands behind ``error: `` in its answer."""


class NoSuchLine(SessionError):
    """L1: the line is none of a session's, or longer than 1 MiB."""


class NoVersion(SessionError):
    """K4: there is no version of the register to answer from."""


class NoMemory(SessionError):
    """``no memory``: an allocation failed. The same line may be answered later."""


class OperatorsOnly(SessionError):
    """``operator``: the line is the operator's, and was sent at another desk."""


class NoCard(SessionError):
    """``no card``: an edit at the operator's desk of a session that has desks with names."""


class NoWindow(SessionError):
    """``no window``: a question at the operator's desk of a session with eight desks."""


class JournalBroken(SessionError):
    """``journal``: the journal could not be written, and no edit is taken any more. Questions go on."""


class SessionClosed(SessionError):
    """``closed``: the session was closed; the line was not taken."""


class NoZones(SessionError):
    """``no zones``: the session was begun without zones."""


class CardsMissing(SessionError):
    """K2: fewer cards came back than there are clerks, when the session was closed; both numbers are in ``text``."""


class JournalRefused(SessionError):
    """A session did not begin for its journal: ``line`` of it, from 1, was changed, or its edit doesn't fit (E1 ..).

    "no journal": the file is not empty, and no journal. "another layer": it was begun with other parcels. S1: it can't
    be opened, made or read, or is no regular file. The file is not touched.
    """

    def __init__(self, code: str, text: str, line: Optional[int] = None) -> None:
        super().__init__(code, text, "journal")
        self.line = line

    def __str__(self) -> str:
        if self.line is None:
            return super().__str__()
        return f"journal line {self.line}: {' '.join([self.code, *self.text.split()])}"


class JournalInUse(JournalRefused):
    """``in use``: another session holds the journal."""


class ProgramEnded(SessionError):
    """T2: the program ended, or the desk did, before it answered. A line may have been taken."""


class BadAnswer(SessionError):
    """T3: an answer that is no line of a session's, or doesn't answer what was asked."""


class TimedOut(SessionError, TimeoutError):
    """T4: no answer within the time that the caller gave. The line may still be taken."""


class DeskTaken(SessionError):
    """T5: another client of this package has the desk."""


def place(x: float, y: float) -> str:
    """A place as it is printed: user's units, with three decimals."""
    return f"at ({x:.3f}, {y:.3f})"
