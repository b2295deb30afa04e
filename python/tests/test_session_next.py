"""The next client of a desk: whenever it comes while the desk finds out that the one before has gone, nobody breaks off
what it writes, and nothing that anybody wrote in whole lines is lost."""
from __future__ import annotations

import os
import random
import re
import secrets
import time
from concurrent.futures import ThreadPoolExecutor
from pathlib import Path

import pytest

from session_town import FULL, Raw, Town, preload, preloaded

pytestmark = pytest.mark.usefixtures("in_time")
PAUSE = 200
"""Milliseconds that a desk waits at each step of its pipes."""
STEPS = range(8) if FULL else (0, 4, 5)
"""How many halves of a step later a client asks than it comes."""
CLIENTS = 1_000 if FULL else 100
"""How many clients come to each desk, one at once after the other, where a step takes a millisecond."""
DESKS = ("anna", "bert", "cleo", "dora")


@pytest.fixture(scope="module")
def slow(tmp_path_factory: pytest.TempPathFactory) -> Path:
    """The library that has a desk wait at each step of its pipes."""
    return preloaded(tmp_path_factory.mktemp("preload"), "slow_pipes.c")


def told(path: str, waits: float = 0) -> int:
    """How many edits there are, as a client is answered that came at once and asks so many seconds later. It skips what
    was asked before it came, and opens both pipes anew where it reads the end of the answers to the one before."""
    while True:
        nobody = 2**62 + secrets.randbits(61)
        with Raw(path) as raw:
            time.sleep(waits)
            raw.ask(b"parcel %d\n" % nobody, 0)
            for line in raw.inward:
                found = re.fullmatch(rb"parcel ([0-9]+) %d none\n" % nobody, line)
                if found:
                    return int(found[1])


def wait_for_end(path: str) -> bytes:
    """Waits until the answers to a client have ended that has gone, and answers those that it did not read."""
    answers, left = os.open(f"{path}.out", os.O_RDONLY | os.O_NONBLOCK), b""
    try:
        while True:
            try:
                part = os.read(answers, 1 << 16)
            except BlockingIOError:
                time.sleep(0.001)
                continue
            if not part:
                return left
            left += part
    finally:
        os.close(answers)


@pytest.mark.parametrize("halves", STEPS)
def test_who_comes_before_the_answers_have_ended(town, monkeypatch, slow, halves):
    """The one before has closed its pipes, and the desk has read its end: the next one opens both, and asks later."""
    preload(town, monkeypatch, slow, PAUSE=PAUSE)
    with town.session("anna") as session:
        with Raw(session.path("anna")) as before:
            assert before.ask(b"entries\n") == [b"entries 0"]
        assert told(session.path("anna"), halves * PAUSE / 2000) == 0


@pytest.mark.parametrize("halves", STEPS)
@pytest.mark.parametrize("comes", [0, 1.5])
def test_who_comes_after_one_that_reads_no_answer(town, monkeypatch, slow, comes, halves):
    """The next one opens both pipes before or after the desk has found nobody who reads, and asks in the same step or a
    later one."""
    preload(town, monkeypatch, slow, PAUSE=PAUSE)
    with town.session("anna") as session:
        with Raw(session.path("anna")) as before:
            before.ask(b"merge 1 2\nmerge 65 3\n", 0)
        time.sleep(comes * PAUSE / 1000)
        assert told(session.path("anna"), halves * PAUSE / 2000) == 2
    assert town.lines() == ["merge 1 2", "merge 65 3"]


@pytest.mark.parametrize("count", [0, 1, 700, 20_000])
def test_lines_whose_answers_nobody_reads(town, count):
    """Each whole line is carried out, and the half one is not; the next one is answered what it asks, and no more."""
    asked = b"locate 1 1\n" * count + b"merge 1 2\n" + b"locate 2 2\n" * count + b"merge 65 3\nmerge 66 4"
    with town.session("anna") as session:
        path = session.path("anna")
        before = Raw(path)
        before.inward.close()
        before.ask(asked, 0)
        before.outward.close()
        wait_for_end(path)
        with Raw(path) as raw:
            assert raw.ask(b"entries\nmerge 66 4\n", 2) == [b"entries 2", b"ok 3 out 66 4 new 67"]
    assert town.lines() == ["merge 1 2", "merge 65 3", "merge 66 4"]


def test_what_is_left_of_answers_is_nobodys(town):
    """A client goes that has read some of its answers: the next one waits for their end, and reads none of them."""
    with town.session("anna") as session:
        path = session.path("anna")
        for turn in range(100 if FULL else 10):
            with Raw(path) as before:
                assert before.ask(b"locate -1 %d\n" % turn * 50) == [b"at 0 -1 %d outside" % turn]
            wait_for_end(path)
            with Raw(path) as raw:
                assert raw.ask(b"entries\n") == [b"entries 0"]
            wait_for_end(path)


def test_who_comes_at_once_at_slow_desks(town, monkeypatch, slow):
    """Clients come and ask at any time after one that has read its answer, and one that has not."""

    def come_and_go(name: str) -> None:
        path, draw = session.path(name), random.Random(name)
        for turn in range(CLIENTS):
            if turn % 2:
                with Raw(path) as raw:
                    raw.ask(b"locate -1 1\n", 0)
            time.sleep(draw.random() / 200)
            assert told(path, draw.random() / 200) == 0

    preload(town, monkeypatch, slow, PAUSE=1)
    with town.session(*DESKS) as session:
        with ThreadPoolExecutor(len(DESKS)) as at_once:
            list(at_once.map(come_and_go, DESKS))
        assert session.entries() == 0
