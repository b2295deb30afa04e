"""Sessions at the very numbers behind which something might stop: an entry's, a clerk's, a reader's.

No contract says that an accepted edit is shown at once, since memory may run out before. So desks are asked behind each
entry around such a number, and each answer is compared with the independent reader's.
"""
from __future__ import annotations

import re
from itertools import islice
from pathlib import Path
from types import TracebackType
from typing import Dict, Iterator, List, Optional, Sequence, Tuple, Type

import pytest

import gandovel as gv
from gandovel.program.tool import ask
from session_clerks import answer_of
from session_register import MOST_ENTRIES, Refusal, Register, Ring, area2, corners_of, grid_city
from session_town import FULL, SECONDS, Raw, Town

pytestmark = pytest.mark.usefixtures("in_time")
NAMES = tuple(f"desk{k}" for k in range(1, 9))
NUMBERS = [65_536, 1_000_000, MOST_ENTRIES] if FULL else [65_536]
NEAR = 4
"""So many entries before such a number, and behind it, each desk is asked after each entry."""
PORTION = 997
"""So many edits go to a desk at once elsewhere: an odd number, so that what is shown then is odd and even in turn."""
ROUNDS = 100 if FULL else 20
PATIENCE = (20 if FULL else 1) * SECONDS


@pytest.fixture
def strip(tmp_path: Path) -> Town:
    """A city of eight parcels in a row, one for each desk."""
    return Town(tmp_path, *grid_city(len(NAMES), 1, 7))


def opened(town: Town, kept: bool) -> gv.Session:
    """A session with all desks, with its journal or without."""
    return town.session(*NAMES, journal=town.journal if kept else None, timeout=PATIENCE)


class Desks:
    """Clients at all desks of a session, and the independent reader, which makes each edit beside them."""

    def __init__(self, session: gv.Session, town: Town, register: Optional[Register] = None) -> None:
        self.session, self.rings = session, town.rings
        self.register = town.register() if register is None else register
        self.made: List[str] = []
        self.clients = [Raw(session.path(name)) for name in NAMES]

    def __enter__(self) -> "Desks":
        return self

    def __exit__(
        self, kind: Optional[Type[BaseException]], fault: Optional[BaseException], trace: Optional[TracebackType]
    ) -> None:
        for client in self.clients:
            client.close()

    def send(self, at: int, lines: Sequence[str]) -> None:
        """Sends lines to a desk, whose answers are read later; they have to find room in its pipe."""
        self.clients[at].ask("".join(f"{line}\n" for line in lines).encode(), 0)

    def heard(self, at: int, count: int) -> List[str]:
        """The next so many answers of a desk."""
        return [answer.decode() for answer in self.clients[at].ask(b"", count)]

    def edit(self, at: int, lines: Sequence[str]) -> None:
        """Makes edits at a desk, which answers as the independent reader does."""
        self.send(at, lines)
        assert self.heard(at, len(lines)) == [accepted(self.register, line) for line in lines]
        self.made += lines

    def show(self) -> None:
        """Each desk, one after the other, shows all entries, and the parcels as they lead to."""
        for at in range(len(NAMES)):
            lines = questions(self.register, self.rings)
            self.send(at, lines)
            assert self.heard(at, len(lines)) == [answer_of(self.register, line) for line in lines]

    def step_to(self, entries: int) -> None:
        """Edits, each desk in its turn, until there are so many entries. Each desk shows each of them."""
        while self.register.entries < entries:
            at = self.register.entries % len(NAMES)
            self.edit(at, [next_of(self.register, self.rings, at)])
            self.show()

    def go_to(self, entries: int) -> None:
        """The same in portions, behind each of which each desk shows what it led to."""
        at = 0
        while self.register.entries < entries:
            count = min(PORTION, entries - self.register.entries)
            self.edit(at, list(islice(sides(self.register, self.rings[at]), count)))
            self.show()
            at = (at + 1) % len(NAMES)

    def publish(self) -> None:
        """The operator is told that all is shown, and that what there is tiles the city."""
        assert self.session.publish() == self.register.entries
        rings = self.register.rings.values()
        assert self.session.check() == gv.Tiling(len(rings), sum(map(area2, rings)))


def accepted(register: Register, line: str) -> str:
    """Makes an edit in the register: how a session answers it."""
    number, out, new = register.apply(line)
    return " ".join(map(str, ["ok", number, "out", *out, "new", *new]))


def south(ring: Ring) -> Tuple[str, str]:
    """The edits that put a corner into the south side of a parcel, and take it out."""
    (x, y), (u, v) = ring[:2]
    middle = f"{(x + u) // 2} {y}"
    return f"insert {x} {y} {u} {v} {middle}", f"straighten {middle}"


def sides(register: Register, ring: Ring) -> Iterator[str]:
    """Edits for ever that put a corner into a parcel's south side and take it out, in turn, as it is due next."""
    put, take = south(ring)
    if register.at.get(corners_of(take.split()[1:])[0]):
        yield take
    while True:
        yield put
        yield take


def border(register: Register, rings: Sequence[Ring]) -> str:
    """The edit that moves the border of the first two parcels to where it is: both get new numbers."""
    (x, y), (u, v) = rings[0][1:3]
    one, other = (register.locate(*inner(rings[at])).split()[1] for at in (0, 1))
    return f"move {one} {other} {x} {y} {u} {v}"


def next_of(register: Register, rings: Sequence[Ring], at: int) -> str:
    """An edit for the desk at this place: each eleventh moves a border."""
    return border(register, rings) if register.entries % 11 == 10 else next(sides(register, rings[at]))


def inner(ring: Ring) -> Tuple[int, int]:
    """A whole point inside a parcel."""
    return ring[0][0] + 100, ring[0][1] + 100


def questions(register: Register, rings: Sequence[Ring]) -> List[str]:
    """What each desk is asked: the entries, where points of two parcels lie, and rings of parcels there and gone."""
    places = ["locate {} {}".format(*inner(rings[at])) for at in (0, register.entries % len(rings))]
    numbers = [
        register.locate(*inner(ring)).split()[1] for ring in (rings[0], rings[(register.entries - 1) % len(rings)])
    ]
    return ["entries", *places, *(f"parcel {number}" for number in numbers), "parcel 1"]


@pytest.mark.parametrize("kept", [False, True], ids=["no journal", "journal"])
def test_each_of_eight_clerks_is_shown_at_each_desk(strip: Town, kept: bool) -> None:
    """Also the last of them, from the first entry on, and at odd numbers of entries as at even ones."""
    with opened(strip, kept) as session, Desks(session, strip) as desks:
        for entries in range(1, 4 * len(NAMES) + 1):
            desks.step_to(entries)
            desks.publish()
    assert session.close() == 4 * len(NAMES)
    if kept:
        records = gv.read_journal(strip.journal).records
        assert [record.clerk for record in records] == 4 * list(range(1, len(NAMES) + 1))


def test_each_of_eight_clerks_files(strip: Town, tmp_path: Path) -> None:
    """Each cuts its own parcel and puts a corner in: all is told, and found where points are asked for."""
    words = ["--unit", "mm"]
    for at, ring in enumerate(strip.rings):
        (x, y), (u, _), (_, v), _ = ring
        middle = (x + u) // 2
        lines = [f"insert {x} {y} {u} {y} {middle} {y}", f"insert {ring[2][0]} {v} {ring[3][0]} {v} {middle} {v}"]
        lines += [f"split {at + 1} {middle} {y} {middle} {v}", f"insert {x} {y} {middle} {y} {x + 1} {y}"]
        (tmp_path / f"clerk{at + 1}.txt").write_text("".join(f"{line}\n" for line in lines))
        words += ["--clerk", str(tmp_path / f"clerk{at + 1}.txt"), "--at", str(x + 100), str(y + 100)]
        words += ["--at", str(middle), str(y + 100)]
    answers = ask(["locate", str(strip.city), str(strip.parcels), *words]).splitlines()
    told = [re.fullmatch(r"clerk (\d) line (\d) ok (\d+)", answer) for answer in answers[: 4 * len(NAMES)]]
    assert [it and it.group(1, 2) for it in told] == [(str(k), str(line)) for k in range(1, 9) for line in range(1, 5)]
    register = strip.register()
    lines_of: Dict[int, str] = {}
    for it in filter(None, told):
        lines_of[int(it[3])] = (tmp_path / f"clerk{it[1]}.txt").read_text().splitlines()[int(it[2]) - 1]
    for number in range(1, 4 * len(NAMES) + 1):
        assert register.apply(lines_of[number])[0] == number
    places = [tuple(map(int, words[at + 1 : at + 3])) for at, word in enumerate(words) if word == "--at"]
    assert answers[4 * len(NAMES) :] == [f"{x} {y} {register.locate(x, y)}" for x, y in places]


def test_each_desk_shows_each_entry_around_a_number(strip: Town) -> None:
    """In one session, by edits of its own, so that whatever counts them since its start comes by that number, too."""
    with opened(strip, False) as session, Desks(session, strip) as desks:
        for number in NUMBERS:
            desks.go_to(number - NEAR)
            desks.step_to(min(number + NEAR, MOST_ENTRIES))
            desks.publish()
        if FULL:
            are_full(desks)
    assert session.close() == min(NUMBERS[-1] + NEAR, MOST_ENTRIES)


@pytest.mark.parametrize("number", NUMBERS)
def test_a_journal_is_shown_around_a_number(strip: Town, number: int) -> None:
    """A session that goes on with a journal just before that number, and another one behind it."""
    register = strip.register()
    lines = list(islice(sides(register, strip.rings[0]), number - NEAR))
    for line in lines:
        register.apply(line)
    before = strip.text_of(*lines)
    strip.journal.write_bytes(before)
    for entries in (min(number + NEAR, MOST_ENTRIES), min(number + 2 * NEAR, MOST_ENTRIES)):
        with opened(strip, True) as session, Desks(session, strip, register) as desks:
            assert session.replayed == register.entries
            desks.show()
            desks.step_to(entries)
            desks.publish()
            if entries == MOST_ENTRIES:
                are_full(desks)
        assert session.close() == entries
        lines += desks.made
    assert strip.journal.read_bytes().startswith(before) and strip.lines() == lines


@pytest.mark.skipif(not FULL, reason="the disk is waited for at each edit: scripts/python_tests --full")
def test_a_journal_of_one_session_around_a_number(strip: Town) -> None:
    """As without a journal: the disk has each of all these entries before it is shown."""
    number = NUMBERS[0]
    with opened(strip, True) as session, Desks(session, strip) as desks:
        desks.go_to(number - NEAR)
        desks.step_to(number + NEAR)
        desks.publish()
    assert session.close() == number + NEAR and strip.lines() == desks.made


def are_full(desks: Desks) -> None:
    """No desk makes an edit any more, and all go on showing each entry."""
    for at in range(len(NAMES)):
        line = next(sides(desks.register, desks.rings[at]))
        with pytest.raises(Refusal, match="^E9$"):
            desks.register.apply(line)
        desks.send(at, [line])
        assert desks.heard(at, 1) == ["refused E9"]
    desks.show()
    desks.publish()


def test_readers_beside_each_other_while_one_lags(strip: Town) -> None:
    """Six desks read as fast as they can while one edits. The last asks at the start and takes no answer till the end.

    What a desk shows never goes back, has all that was answered before it was asked, and is the parcels after exactly
    so many entries: a reader that had its place together with another would see what that one sees, or nothing.
    """
    place = "locate {} {}".format(*inner(strip.rings[0]))
    asked = ["entries", place, "parcel 3"]
    right: Dict[str, str] = {}
    with opened(strip, False) as session, Desks(session, strip) as desks:
        keep_right(desks.register, asked, right)
        desks.send(7, asked * 1_000)
        for _ in range(ROUNDS):
            before = desks.register.entries
            edits, wanted = [], []
            for _ in range(100):
                edits.append(border(desks.register, strip.rings))
                wanted.append(accepted(desks.register, edits[-1]))
                keep_right(desks.register, asked, right)
            desks.send(0, edits)
            for at in range(1, 7):
                desks.send(at, asked * 200)
            assert desks.heard(0, len(edits)) == wanted
            for at in range(1, 7):
                are_right(desks.heard(at, len(asked) * 200), asked, right, before)
        are_right(desks.heard(7, len(asked) * 1_000), asked, right, 0)
        desks.show()
    assert session.close() == 100 * ROUNDS


def keep_right(register: Register, asked: Sequence[str], right: Dict[str, str]) -> None:
    """Keeps how a session answers these questions now, by the entries and the question."""
    right.update({f"{register.entries} {line}": answer_of(register, line) for line in asked})


def are_right(answers: Sequence[str], asked: Sequence[str], right: Dict[str, str], least: int) -> None:
    """Answers to these questions, asked again and again, are those after as many entries as they say, and go on."""
    for at, answer in enumerate(answers):
        words = answer.split()
        assert words[0] in ("entries", "at", "parcel"), answer
        entries = int(words[1])
        assert entries >= least and answer == right[f"{entries} {asked[at % len(asked)]}"]
        least = entries
