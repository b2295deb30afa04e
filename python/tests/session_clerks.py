"""Clerks and readers that work at the desks of a session, each in a process of its own, and keep all that was said.

What they kept is compared with the journal as `session_register` reads it: `compare`.
"""
from __future__ import annotations

import multiprocessing
import random
import time
from bisect import bisect_left, bisect_right
from collections import deque
from itertools import accumulate
from math import gcd
from multiprocessing.connection import Connection
from typing import Any, Callable, Dict, List, NamedTuple, Optional, Sequence, Tuple

from gandovel import Desk, Outline, Refused, RefusedEdit
from session_register import Corner, Refusal, Register, Ring

EDITS = ("split", "merge", "move", "insert", "straighten")
LONG = 20
"""A ring of more corners is cut or straightened next."""


class Said(NamedTuple):
    """A line and its answer, and when both went over (ns of the machine's clock); None where no answer came."""

    sent: int
    heard: int
    line: str
    answer: Optional[str]


class Recorder(Desk):
    """A desk that keeps what was said at it."""

    def __init__(self, *given: Any) -> None:
        super().__init__(*given)
        self.said: List[Said] = []

    def ask(self, line: str) -> str:
        """As a desk's, and kept."""
        sent, answer = time.monotonic_ns(), None
        try:
            answer = super().ask(line)
            return answer
        finally:
            self.said.append(Said(sent, time.monotonic_ns(), line, answer))


class Clerk:
    """Draws edits at random of what its desk says that there is, so that most are accepted."""

    def __init__(self, desk: Recorder, seed: int, wide: int, high: int) -> None:
        """Works in the box from (0, 0) to (wide, high), in mm."""
        self.desk, self.draw = desk, random.Random(seed)
        self.wide, self.high = wide, high
        self.gone = [1]

    def work(self, accepted: int) -> None:
        """Edits until so many edits were accepted."""
        while accepted > 0:
            outline = self.some_parcel()
            if outline is None:
                continue
            try:
                made = self.edit(outline)
            except RefusedEdit:
                continue
            if made is not None:
                self.gone += made.out
                accepted -= 1

    def read(self, count: int) -> None:
        """Asks so many questions."""
        for _ in range(count // 3):
            self.some_parcel()
            self.desk.entries()

    def some_parcel(self) -> Optional[Outline]:
        """The outline of a parcel at a random place, unless it was retired meanwhile."""
        place = self.desk.locate(self.draw.randint(0, self.wide), self.draw.randint(0, self.high))
        return self.desk.parcel(self.draw.choice(place.ids))

    def edit(self, outline: Outline) -> Any:
        """Tries an edit of a parcel; None where none was found."""
        ring = [(x, y) for x, y in outline.ring.tolist()]
        if self.draw.random() < 0.04:
            return self.silly(outline.id, ring)
        kinds = ("split", "straighten") if len(ring) > LONG else EDITS
        return getattr(self, self.draw.choice(kinds))(outline.id, ring)

    def silly(self, parcel: int, ring: Ring) -> Any:
        """An edit that is refused, of one kind or another, unless others have made it right."""
        desk, (a, b, c) = self.desk, ring[:3]
        return self.draw.choice(
            [
                lambda: desk.merge(parcel, parcel),
                lambda: desk.merge(parcel, self.draw.choice(self.gone)),
                lambda: desk.split(10**18 + parcel, ring[:2]),
                lambda: desk.split(parcel, [a, b, a]),
                lambda: desk.split(parcel, [a, (b[0] + 1, b[1] + 1), c]),
                lambda: desk.split(parcel, [b, a, c]),
                lambda: desk.insert(a, c, b),
                lambda: desk.insert(a, b, c),
                lambda: desk.insert(a, b, a),
                lambda: desk.straighten(a),
                lambda: desk.straighten((a[0] + 1, a[1] + 3)),
                lambda: desk.move(parcel, 1, ring),
                lambda: desk.merge(parcel, self.draw.randint(1, 2 * parcel)),
            ]
        )()

    def split(self, parcel: int, ring: Ring) -> Any:
        """Along a chord of the ring, at times bent in the middle."""
        if len(ring) < 4:
            return None
        first = self.draw.randrange(len(ring))
        last = (first + self.draw.randint(2, len(ring) - 2)) % len(ring)
        path = [ring[first], ring[last]]
        if self.draw.random() < 0.2:
            path.insert(1, self.near_middle(*path))
        return self.desk.split(parcel, path)

    def merge(self, parcel: int, ring: Ring) -> Any:
        """With a neighbour."""
        other = self.neighbour(parcel, ring)
        return None if other is None else self.desk.merge(parcel, other)

    def move(self, parcel: int, ring: Ring) -> Any:
        """The border with a neighbour, to a path by a corner near its middle."""
        other = self.neighbour(parcel, ring)
        outline = None if other is None else self.desk.parcel(other)
        if outline is None:
            return None
        u, v = border_of(ring, [(x, y) for x, y in outline.ring.tolist()])
        return self.desk.move(parcel, outline.id, [u, self.near_middle(u, v), v])

    def insert(self, parcel: int, ring: Ring) -> Any:
        """A whole point of an edge."""
        k = self.draw.randrange(len(ring))
        (x, y), (u, v) = ring[k - 1], ring[k]
        steps = gcd(u - x, v - y)
        if steps < 2:
            return None
        at = self.draw.randrange(1, steps)
        return self.desk.insert(ring[k - 1], ring[k], (x + (u - x) // steps * at, y + (v - y) // steps * at))

    def straighten(self, parcel: int, ring: Ring) -> Any:
        """A corner in which the ring is straight."""
        straight = [ring[k - 1] for k in range(len(ring)) if is_straight(ring[k - 2], ring[k - 1], ring[k])]
        return self.desk.straighten(self.draw.choice(straight)) if straight else None

    def neighbour(self, parcel: int, ring: Ring) -> Optional[int]:
        """A parcel that has both ends of a random edge, too."""
        k = self.draw.randrange(len(ring))
        there = [set(self.desk.locate(*ring[k - it]).ids) for it in (0, 1)]
        both = sorted((there[0] & there[1]) - {parcel})
        return both[0] if both else None

    def near_middle(self, a: Corner, b: Corner) -> Corner:
        """A corner near the middle of two, whose coordinates are multiples of 8."""
        far = max(abs(a[0] - b[0]), abs(a[1] - b[1])) // 6 + 1
        return tuple((p + q) // 16 * 8 + self.draw.randint(-far, far) // 8 * 8 for p, q in zip(a, b))


def is_straight(a: Corner, b: Corner, c: Corner) -> bool:
    """Whether b lies on the line from a to c."""
    return (b[0] - a[0]) * (c[1] - a[1]) == (b[1] - a[1]) * (c[0] - a[0])


def border_of(ring: Ring, other: Ring) -> Tuple[Corner, Corner]:
    """The first and the last corner of the run of edges that two rings share, in the first one's direction."""
    theirs = set(zip(other[1:] + other[:1], other))
    edges = list(zip(ring, ring[1:] + ring[:1]))
    shared = [edge in theirs for edge in edges]
    begins = [k for k in range(len(ring)) if shared[k] and not shared[k - 1]] or [0]
    k = begins[0]
    return edges[k][0], edges[(k + max(1, sum(shared)) - 1) % len(ring)][1]


class Heard(NamedTuple):
    """What a process brings back: what was said at its desk, and the error that ended its work, if one did."""

    said: List[Said]
    fault: Optional[str]


def at_desk(path: str, seed: int, wide: int, high: int, job: str, count: int, back: Connection) -> None:
    """The work of a process: opens the desk, does `work` or `read`, and sends back what it heard."""
    said: List[Said] = []
    fault = None
    try:
        with Recorder.at(path, 100) as desk:
            said = desk.said
            getattr(Clerk(desk, seed, wide, high), job)(count)
    except Refused as ended:
        fault = type(ended).__name__
    back.send(Heard(said, fault))


def started(jobs: Sequence[Tuple[Any, ...]]) -> Callable[[], List[Heard]]:
    """Starts a process for each job: the arguments of `at_desk` without the last. The answer, called, waits for all."""
    context = multiprocessing.get_context("fork")
    begun = []
    for job in jobs:
        mine, its = context.Pipe(duplex=False)
        process = context.Process(target=at_desk, args=(*job, its), daemon=True)
        process.start()
        its.close()
        begun.append((process, mine))

    def finished() -> List[Heard]:
        heard = [mine.recv() for _, mine in begun]
        for process, _ in begun:
            process.join()
        return heard

    return finished


def edits_of(said: Sequence[Said]) -> List[Said]:
    """What was said of edits."""
    return [it for it in said if it.line.split(" ", 1)[0] in EDITS]


def accepted_of(said: Sequence[Said]) -> Dict[int, Said]:
    """The edits that were answered `ok`, by their entries' numbers, each of which comes once."""
    found: Dict[int, Said] = {}
    for it in edits_of(said):
        if it.answer is not None and it.answer.startswith("ok "):
            number = int(it.answer.split()[1])
            assert number not in found, f"two edits are entry {number}: {it.line} and {found[number].line}"
            found[number] = it
    return found


def compare(register: Register, journal: Sequence[str], desks: Sequence[Sequence[Said]], killed: bool = False) -> None:
    """Replays the journal's lines that the register has not read yet, and compares each answer of the desks with it.

    An accepted edit and a question are compared at the entry that they name. A refused edit was refused in some state
    between the last entry that anybody had heard of when it was sent, and the first that was sent after its answer.
    Where the program was killed, questions and refusals may tell of an edit that did not come to the disk any more.
    """
    said = [it for desk in desks for it in desk]
    accepted = accepted_of(said)
    times = _Times(accepted, register.entries, len(journal))
    refused = [_Refused(it, *times.bounds(it)) for it in edits_of(said) if (it.answer or "").startswith("refused ")]
    waiting = deque(sorted(refused, key=lambda it: it.first))
    questions: Dict[int, List[Said]] = {}
    for desk in desks:
        _test_order(desk)
        for it in desk:
            if it.answer is not None and it.answer.startswith(("at ", "parcel ", "entries ")):
                questions.setdefault(int(it.answer.split()[1]), []).append(it)
    if killed:
        questions = {entries: asked for entries, asked in questions.items() if entries <= len(journal)}
    due: List[_Refused] = []
    while True:
        for it in questions.pop(register.entries, ()):
            assert it.answer == answer_of(register, it.line)
        while waiting and waiting[0].first <= register.entries:
            due.append(waiting.popleft())
        due = [it for it in due if not it.is_due(register)]
        if register.entries == len(journal):
            break
        line = journal[register.entries]
        number, out, new = register.apply(line)
        if number in accepted:
            wanted = " ".join(map(str, ["ok", number, "out", *out, "new", *new]))
            assert (accepted[number].line, accepted[number].answer) == (line, wanted)
    assert not questions and not waiting and (killed or not due), (questions, waiting, due)
    assert max(accepted, default=0) <= len(journal)


class _Refused:
    """A refused edit, and the entries between which its state lies."""

    def __init__(self, said: Said, first: int, last: int) -> None:
        self.said, self.first, self.last, self.tried = said, first, last, []

    def __repr__(self) -> str:
        return f"{self.said.line}: {self.said.answer}, in {self.first} to {self.last}"

    def is_due(self, register: Register) -> bool:
        """Whether the register refuses the edit so now. Fails where it did so in none of the states that may be."""
        assert register.entries <= self.last, f"{self} has no reason: {self.tried}"
        try:
            self.tried.append(register.change(self.said.line))
        except Refusal as refusal:
            self.tried.append(str(refusal))
        return self.said.answer == f"refused {self.tried[-1]}"


class _Times:
    """When which entry was heard of for the first time, and which was not yet sent."""

    def __init__(self, accepted: Dict[int, Said], least: int, most: int) -> None:
        heard = sorted((it.heard, number) for number, it in accepted.items())
        sent = sorted((it.sent, number - 1) for number, it in accepted.items())
        self.heard, self.sent = [time for time, _ in heard], [time for time, _ in sent]
        self.known = list(accumulate((number for _, number in heard), max, initial=least))
        self.not_yet = list(accumulate((number for _, number in reversed(sent)), min, initial=most))[::-1]

    def bounds(self, refused: Said) -> Tuple[int, int]:
        """The entries between which the state lies in which an edit was refused."""
        return self.known[bisect_right(self.heard, refused.sent)], self.not_yet[bisect_left(self.sent, refused.heard)]


def _test_order(said: Sequence[Said]) -> None:
    """A desk's questions are answered from versions that never go back, and have the desk's own edits."""
    least = 0
    for it in said:
        words = (it.answer or "").split()
        if words and words[0] in ("at", "parcel", "entries"):
            assert int(words[1]) >= least, it
            least = int(words[1])
        elif words and words[0] == "ok":
            least = int(words[1])


def answer_of(register: Register, line: str) -> str:
    """How a session answers a question now."""
    word, *words = line.split()
    if word == "locate":
        return f"at {register.entries} {' '.join(words)} {register.locate(*map(int, words))}"
    if word == "parcel":
        return f"parcel {register.entries} {words[0]} {register.parcel(int(words[0]))}"
    return f"entries {register.entries}"
