"""The pipes of desks: clients that come as the last one goes, lines of every length and of every byte, and clients that
are killed."""
from __future__ import annotations

import os
import random
import re
import subprocess
import sys
import threading
from concurrent.futures import ThreadPoolExecutor
from pathlib import Path
from typing import Iterator, List, Tuple

import pytest

import gandovel as gv
from session_town import FULL, SECONDS, Raw, Town

pytestmark = pytest.mark.usefixtures("in_time")
BUFFER = 8_192
"""How many bytes of a pipe the program reads at once."""
CLIENTS = 5_000 if FULL else 500
"""How many clients come to each desk, one at once after the other."""
DESKS = ("anna", "bert", "cleo", "dora")


@pytest.fixture
def square(tmp_path: Path) -> Town:
    """A city of one square parcel."""
    ring = [(0, 0), (10_000, 0), (10_000, 10_000), (0, 10_000)]
    return Town(tmp_path, ring, [ring])


@pytest.fixture
def desk(tmp_path: Path) -> Path:
    """The path of two pipes at which no program is."""
    for name in ("anna.in", "anna.out"):
        os.mkfifo(tmp_path / name, 0o600)
    return tmp_path / "anna"


def test_a_pipe_that_nobody_reads_for_a_moment(desk):
    """The desk closes the lines of the client before, opens them anew, and answers what the next client said
    meanwhile."""
    served = threading.Thread(target=closed_once, args=(desk,), daemon=True)
    served.start()
    with gv.Desk.at(desk, SECONDS) as client:
        assert client.entries() == 7 and client.entries() == 7


def closed_once(desk: Path) -> None:
    """A desk whose reader of the lines is gone until its first client has seen that, though the answers stay open."""
    before = os.open(f"{desk}.in", os.O_RDONLY)
    with open(f"{desk}.out", "wb", buffering=0) as answers:
        greeting = b""
        while greeting.count(b"\n") < 2:
            greeting += os.read(before, 1 << 16)
        os.close(before)
        threading.Event().wait(0.5)
        with open(f"{desk}.in", "rb") as lines:
            answer_all(greeting.splitlines(), answers)
            answer_all(lines, answers)
    with open(f"{desk}.in", "rb") as lines, open(f"{desk}.out", "wb", buffering=0) as answers:
        answer_all(lines, answers)


def answer_all(lines, answers) -> None:
    """The answers of a desk whose parcels are none after seven entries, until a client takes no more."""
    try:
        for line in lines:
            asked = re.match(rb"parcel ([0-9]+)", line)
            answers.write(b"parcel 7 %s none\n" % asked[1] if asked else b"entries 7\n")
    except BrokenPipeError:
        pass


def test_the_next_client_comes_at_once(town):
    """Each client asks once and goes, and the next one is there before the desk knows: none sees another's end."""

    def come_and_go(name: str) -> None:
        for _ in range(CLIENTS):
            with session.desk(name, SECONDS) as desk:
                assert desk.entries() == 0

    with town.session(*DESKS) as session:
        with ThreadPoolExecutor(len(DESKS)) as at_once:
            list(at_once.map(come_and_go, DESKS))
        assert session.entries() == 0


def test_the_next_client_of_another_kind_comes_at_once(town):
    """Such a client may see the end of the answers to the one before. It never writes to a pipe that nobody reads."""

    def come_and_go(name: str) -> None:
        for _ in range(CLIENTS):
            answer = b""
            while not answer:
                with Raw(session.path(name)) as raw:
                    answer = raw.ask(b"entries\n")[0]
            assert answer == b"entries 0"

    with town.session(*DESKS) as session:
        with ThreadPoolExecutor(len(DESKS)) as at_once:
            list(at_once.map(come_and_go, DESKS))
        assert session.entries() == 0


def lengths() -> Iterator[int]:
    """How long lines are, with their ends: around whole buffers of the program, and around what a pipe holds."""
    for buffers in (1, 2, 3, 8, 9):
        yield from range(buffers * BUFFER - 3, buffers * BUFFER + 4)
    yield from random.Random(7).sample(range(6_000, 80_000), 40 if FULL else 4)


def long_line(parcel: int, length: int, end: bytes) -> Tuple[bytes, str]:
    """A split of a parcel from (0, 0) to (10000, 10000) in a line of so many bytes; and its words as a journal has
    them."""
    corners = [(0, 0), *((x, x + x % 2) for x in range(1_000, 1_000 + length // 30)), (10_000, 10_000)]
    words = [str(number) for corner in corners for number in corner]
    edit = f"split {parcel} {' '.join(words)}"
    left = length - len(edit) - len(end)
    for place, word in enumerate(words):
        zeros = min(left, 19 - len(word))
        words[place] = "0" * zeros + word
        left -= zeros
    assert left == 0
    return f"split {parcel} {' '.join(words)}".encode() + end, edit


@pytest.mark.parametrize("end", [b"\n", b"\r\n"])
def test_lines_of_every_length_around_a_buffers(square, end):
    """Not a byte of a line is lost, doubled or taken for another's: the journal has each, with all its corners."""
    edits: List[str] = []
    with square.session("anna") as session, Raw(session.path("anna")) as raw:
        parcel = 1
        for number, length in enumerate(lengths()):
            line, edit = long_line(parcel, length, end)
            assert len(line) == length
            told = parted(raw, line + b"entries\n", number)
            done = 2 * number + 1
            found = re.fullmatch(rb"ok %d out %d new ([0-9]+) ([0-9]+)" % (done, parcel), told[0])
            assert found and told[1] == b"entries %d" % done
            one, other = map(int, found.groups())
            parcel = other + 1
            assert raw.ask(b"merge %d %d" % (one, other) + end) == [
                b"ok %d out %d %d new %d" % (done + 1, one, other, parcel)
            ]
            edits += [edit, f"merge {one} {other}"]
    assert square.lines() == edits


def parted(raw: Raw, text: bytes, number: int) -> List[bytes]:
    """Sends two lines whole, or in parts that end anywhere, or at a buffer's end: the answers."""
    if number % 3 == 0:
        return raw.ask(text, 2)
    draw = random.Random(number)
    while text:
        size = BUFFER - number % 4 if number % 3 == 1 else draw.randint(1, 3 * BUFFER)
        raw.ask(text[:size], 0)
        text = text[size:]
    return raw.ask(b"", 2)


def test_lines_of_every_byte(town):
    """A line is what stands before its line feed, whatever bytes these are; one carriage return before it is its
    end's."""
    every = bytes(byte for byte in range(256) if byte != 10)
    draw = random.Random(7)
    with town.session("anna") as session, Raw(session.path("anna")) as raw:
        for byte in every:
            one = bytes([byte])
            said = b"skipped" if one in (b"#", b"\r") else b"error: L1"
            assert raw.ask(one + b"\nentries" + one + b"\n#" + one * 3 + b"\n", 3) == [
                said,
                b"entries 0" if one == b"\r" else b"error: L1",
                b"skipped",
            ]
        for length in (BUFFER - 1, BUFFER, BUFFER + 1, 70_000, 500_000):
            noise = b"".join(draw.choice(every).to_bytes(1, "big") for _ in range(length))
            assert raw.ask(b"#" + noise + b"\n!" + noise + b"\nentries\n", 3) == [
                b"skipped",
                b"error: L1",
                b"entries 0",
            ]
        for place in range(BUFFER - 3, BUFFER + 3):
            padded = b"#" * (place - len(b"\nentries\r")) + b"\nentries\r\nentries\r\r\nentries\r\n"
            assert raw.ask(padded, 4) == [b"skipped", b"entries 0", b"error: L1", b"entries 0"]
    assert town.lines() == []


MIDST = """
import os, sys, time
path, text, count = sys.argv[1], sys.argv[2].encode(), int(sys.argv[3])
outward, inward = os.open(path + ".in", os.O_WRONLY), os.open(path + ".out", os.O_RDONLY)
while text:
    text = text[os.write(outward, text[:65536]) :]
while count:
    count -= len(os.read(inward, count))
print("there", flush=True)
time.sleep(600)
"""
LINES = {
    "of a line": ("merge 1 2", 0),
    "of a long line": ("#" + "x" * 70_000, 0),
    "of a line behind another": ("entries\nmerge 1 2", 10),
    "of the bytes of an answer": ("locate 1 1\nlocate 2 2\n", 7),
    "of an answer that is longer than a pipe": ("locate 1 1\n" * 6_000, 70_001),
    "of answers that it never reads": ("locate 1 1\n" * 3_000, 0),
}


@pytest.mark.parametrize("midst", sorted(LINES))
def test_a_client_that_is_killed_in_the_midst(square, midst):
    """Half of a line is no edit, and whatever of an answer was not read is not the next client's."""
    text, count = LINES[midst]
    edits = []
    with square.session("anna", "bert") as session, session.desk("bert", SECONDS) as other:
        for turn in range(1, 4):
            words = [sys.executable, "-c", MIDST, session.path("anna"), text, str(count)]
            client = subprocess.Popen(words, stdout=subprocess.PIPE)
            try:
                assert client.stdout.readline() == b"there\n"
            finally:
                client.kill()
                client.wait()
                client.stdout.close()
            assert other.entries() == turn - 1
            with session.desk("anna", SECONDS) as desk:
                assert desk.locate(-turn, 5) == gv.Place(turn - 1, -turn, 5, "outside", ())
                assert desk.insert((turn - 1, 0), (10_000, 0), (turn, 0)).number == turn
                edits.append(f"insert {turn - 1} 0 10000 0 {turn} 0")
    assert square.lines() == edits


def test_a_client_that_reads_late_has_all_its_answers(town):
    """Its answers fill the pipe, and no memory: once it reads, it has them all, in order."""
    count = 100_000 if FULL else 20_000
    asked = b"".join(b"locate %d 1\n" % -x for x in range(1, count + 1))
    with town.session("anna") as session, Raw(session.path("anna")) as raw:
        sender = threading.Thread(target=raw.ask, args=(asked, 0), daemon=True)
        sender.start()
        sender.join(0.5)
        assert sender.is_alive() and session.entries() == 0
        for x in range(1, count + 1):
            assert raw.inward.readline() == b"at 0 %d 1 outside\n" % -x
        sender.join(SECONDS)
        assert not sender.is_alive()
