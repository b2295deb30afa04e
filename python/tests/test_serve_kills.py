"""The program and the server are killed under load: no answered edit is lost, none is made twice."""
from __future__ import annotations

import asyncio
import hashlib
import json
import os
import random
import subprocess
import sys
import threading
import time
from types import SimpleNamespace

import numpy as np
import pytest
import requests
from hypothesis import given, settings
from hypothesis import strategies as st

import gandovel
from gandovel.live.journals import Said
from gandovel.live.answers import Accepted
from gandovel.serve.entries import Asked, Entry
from gandovel.serve.register import Deadline, Fate, Register
from gandovel.live.tail import Tail
from gandovel.program.tool import find_tool
from served import LONG, SECONDS, Served, environment, moved, prepared, replayed, until
from session_register import grid_city

CITY, RINGS = grid_city(8, 8, 1)
KILLS = int(os.environ.get("GANDOVEL_KILLS", 200 if LONG else 20))
"""How often something is killed; every fourth time it is the server, which every other time ends by SIGTERM."""
CLERKS = 6
KEYED = {"Idempotency-Key": "one", "Content-Type": "text/plain"}


def lines_of_clerk(number: int) -> list:
    """Lines that only fit in this order, each once: corners put into an edge of a parcel of the clerk's own."""
    ring = moved(RINGS[number * 2 % 8 + (number * 2 // 8) * 16])
    (ax, ay), (bx, by) = ring[3], ring[0]
    steps = 64
    while (bx - ax) % steps or (by - ay) % steps:
        steps //= 2
    places = [(ax + (bx - ax) // steps * k, ay + (by - ay) // steps * k) for k in range(steps)]
    out = [f"insert {p[0]} {p[1]} {bx} {by} {q[0]} {q[1]}" for p, q in zip(places, places[1:])]
    back = [f"straighten {x} {y}" for x, y in places[:0:-1]]
    return out + back


class Clerk(threading.Thread):
    """Sends lines one by one, each again until it is answered, by its key."""

    def __init__(self, served, number, ended):
        super().__init__(daemon=True)
        self.served, self.number, self.ended = served, number, ended
        self.answers, self.wrong = [], []
        self.session = requests.Session()

    def run(self):
        lines, at = lines_of_clerk(self.number), 0
        while not self.ended.is_set():
            line = lines[at % len(lines)]
            answer = self.sent(line, f"clerk-{self.number}-{at}")
            if answer is None:
                return
            if answer.status_code != 200:
                self.wrong.append((line, answer.status_code, answer.text))
                return
            self.answers.append((answer.json()["number"], line))
            at += 1

    def sent(self, line, key):
        """The first answer that says what became of the line; after the end only what was sent is asked for."""
        end = time.monotonic() + SECONDS
        while time.monotonic() < end:
            try:
                answer = self.session.post(
                    self.served.address + "/edits",
                    data=line.encode(),
                    timeout=60,
                    headers={"Content-Type": "text/plain", "Idempotency-Key": key},
                )
            except requests.RequestException:
                time.sleep(0.05)
                continue
            if answer.status_code not in (503, 429):
                return answer
            time.sleep(0.05)
        self.wrong.append((line, "no answer"))
        return None


def test_kills(tmp_path):
    draw, ended = random.Random(11), threading.Event()
    with Served(prepared(tmp_path / "work", CITY, RINGS), tmp_path / "register.txt") as served:
        clerks = [Clerk(served, number, ended) for number in range(CLERKS)]
        for clerk in clerks:
            clerk.start()
        for at in range(KILLS):
            before = sum(len(clerk.answers) for clerk in clerks)
            time.sleep(draw.random() * 0.3)
            if at % 4 == 3:
                if at % 8 == 7:
                    assert served.end() == 0
                else:
                    served.kill()
                served.start()
            else:
                for process in draw.sample(served.programs, 1):
                    subprocess.run(["kill", "-9", str(process)], check=False)
            until(lambda: sum(len(clerk.answers) for clerk in clerks) > before or any(clerk.wrong for clerk in clerks))
            assert not any(clerk.wrong for clerk in clerks), [clerk.wrong for clerk in clerks]
        ended.set()
        for clerk in clerks:
            clerk.join(120)
            assert not clerk.is_alive() and not clerk.wrong, clerk.wrong
        lines = served.lines()
        told = sorted(it for clerk in clerks for it in clerk.answers)
        assert [number for number, _ in told] == list(range(1, len(lines) + 1)), "an edit was made twice, or lost"
        assert [line for _, line in told] == lines
        keys = [it.said.key for it in gandovel.read_journal(served.journal).records]
        assert len(set(keys)) == len(keys) and None not in keys
        replayed(CITY, RINGS, lines)
        records = served.ask("/entries?limit=10000").json()["records"]
        assert all(it["who"] == "local" for it in records)
        assert {it["id"] for it in served.ask("/parcels?limit=1000").json()["parcels"]} == set(range(1, 65))
        assert served.end() == 0


def test_a_key_outlives_a_restart(tmp_path):
    """Who, why and key stand in the journal alone, which another program may have gone on with."""
    with Served(prepared(tmp_path / "work", CITY, RINGS), tmp_path / "register.txt") as served:
        first = served.ask("/edits?why=sold, deed 17", "POST", data="merge 01 2", headers=KEYED).json()
        assert (first["edit"], first["who"], first["why"]) == ("merge 1 2", "local", "sold, deed 17")
        assert served.edit("merge 1 9", **{"Idempotency-Key": "three"}).status_code == 409
        assert sorted(it.name for it in tmp_path.iterdir() if it.name.startswith("register")) == [
            "register.txt",
            "register.txt.desks",
        ]
        assert served.end() == 0
        (record,) = gandovel.read_journal(served.journal).records
        assert (record.who, record.moment) == ("local #one, sold, deed 17", first["time"])
        layers = served.folder / "city.shp", served.folder / "parcels.shp"
        with gandovel.Session(*layers, journal=served.journal, timeout=600) as session:
            session.merge(3, 4)
            session.edit(gandovel.Merge(5, 6), who="Anna Müller, deed 18")
        served.start()
        again = served.ask("/edits", "POST", data="merge 1 2", headers=KEYED)
        assert again.json() == first and again.headers["gandovel-repeated"] == "true"
        records = served.ask("/entries?after=1").json()["records"]
        assert [(it["edit"], it["who"], it["why"]) for it in records] == [
            ("merge 3 4", None, ""),
            ("merge 5 6", "Anna Müller", "deed 18"),
        ]
        assert served.edit("merge 9 10", **{"Idempotency-Key": "one"}).status_code == 422
        journal = served.journal.read_bytes()
        with pytest.raises(AssertionError):
            Served(served.folder, served.journal)
        assert "another server" in served.journal.with_name("serve.log").read_text()
        assert served.edit("merge 9 10").status_code == 200 and served.ask("/health").json()["restarts"] == 0
        assert served.end() == 0
        assert not served.journal.with_name("register.txt.desks").exists()
        other = prepared(tmp_path / "other", *grid_city(8, 8, 2))
        with pytest.raises(AssertionError):
            Served(other, served.journal)
        assert "another layer" in served.journal.with_name("serve.log").read_text()
        assert served.journal.read_bytes().startswith(journal)


def test_a_disk_that_is_full(tmp_path, monkeypatch):
    """What the disk did not take is refused by its reason, readers go on, and with room the edit is made once."""
    limit, tool = tmp_path / "full", tmp_path / "limited"
    text = f"if [ -e {limit} ]; then trap '' XFSZ; ulimit -f 1; fi"
    tool.write_text(f'#!/bin/bash\n{text}\nexec "{find_tool()}" "$@"\n')
    tool.chmod(0o755)
    limit.touch()
    layer = prepared(tmp_path / "work", CITY, RINGS)
    monkeypatch.setenv("GANDOVEL_TOOL", str(tool))
    with Served(layer, tmp_path / "register.txt") as served:
        lines = [line for line in lines_of_clerk(0)]
        answers = []
        while not answers or answers[-1].status_code == 200:
            answers.append(served.edit(lines[len(answers)], **{"Idempotency-Key": f"k{len(answers)}"}))
        accepted = len(answers) - 1
        assert accepted > 1 and (answers[-1].status_code, answers[-1].json()["code"]) == (503, "journal")
        assert served.edit("merge 60 61").json()["code"] == "journal"
        assert served.ask("/parcels/60").status_code == 200
        assert served.ask("/entries").json()["entries"] == accepted
        limit.unlink()
        line, key = lines[accepted], {"Idempotency-Key": f"k{accepted}"}
        answer = until(lambda: [it for it in [served.edit(line, **key)] if it.status_code == 200 or time.sleep(1)])[0]
        assert answer.json()["number"] == accepted + 1
        assert served.lines() == lines[: accepted + 1] and served.end() == 0


def test_backup_and_restore(tmp_path):
    """A backup of a register that is open is a register: for the server, and for the program alone."""
    command = [sys.executable, "-m", "gandovel", "backup"]
    with Served(prepared(tmp_path / "work", CITY, RINGS), tmp_path / "register.txt") as served:
        made = served.edit("merge 1 2", **{"Idempotency-Key": "one"}).json()
        served.edit("split 65 " + " ".join(f"{x} {y}" for x, y in (moved(RINGS[0])[1], moved(RINGS[0])[2])))
        out = tmp_path / "backup"
        words = [str(served.folder), "--journal", str(served.journal), "--out", str(out)]
        ended = subprocess.run([*command, *words], env=environment(), stdout=subprocess.PIPE, text=True)
        assert (ended.returncode, ended.stdout) == (0, "2 edits\n")
        assert subprocess.run([*command, *words], env=environment(), stderr=subprocess.PIPE).returncode == 1
        before = served.ask("/parcels?limit=1000").json()
        assert served.end() == 0
    assert subprocess.run([*command, str(out), "--check"], env=environment()).returncode == 0
    assert subprocess.run(["sha256sum", "--check", "--quiet", "SHA256SUMS"], cwd=out).returncode == 0
    with gandovel.Session(
        out / "layer/city.shp", out / "layer/parcels.shp", journal=out / "register.journal", timeout=120
    ) as session:
        assert session.replayed == 2 and session.check().count == 64
    with Served(out / "layer", out / "register.journal") as served:
        assert served.ask("/parcels?limit=1000").json() == before
        assert served.edit("merge 1 2", **{"Idempotency-Key": "one"}).json() == made
        assert served.end() == 0
    with open(out / "layer/parcels.shp", "ab") as file:
        file.write(b"x")
    assert subprocess.run([*command, str(out), "--check"], env=environment(), stderr=subprocess.PIPE).returncode == 1


def test_an_answer_is_found_in_the_journal(tmp_path):
    """An edit without an answer is the first record behind those known when it was sent that has its words."""
    layer, records = "0" * 64, [("anna #a, why", "merge 1 2"), ("bert", "merge 3 4"), ("bert", "merge 1 2")]
    digest, text = layer, f"# gandovel journal 1 mm {layer}\n"
    for number, (who, line) in enumerate(records, 1):
        stamp = f"# {number} 2 2026-01-01T00:00:00Z {who} "
        digest = hashlib.sha256(f"{digest}{stamp}{line}\n".encode()).hexdigest()
        text += f"{stamp}{digest}\n{line}\n"
    (tmp_path / "journal").write_text(text)

    async def fates():
        register = Register(None, tmp_path / "journal")
        register._tail = Tail(tmp_path / "journal")
        asked = [("bert", "merge 3 4", 0), ("bert", "merge 3 4", 2), ("anna", "merge 1 2", 0), ("bert", "merge 1 2", 1)]
        sent = [Fate(Asked(line, Said(who)), after) for who, line, after in asked]
        sent.append(Fate(Asked("merge 1 2", Said("anna", "why", "a")), 0))
        register.submissions.fates = set(sent)
        register.accept(3)  # an answer to the third is the first that comes
        register.take_in(register._tail.records)
        return [await fate.number for fate in sent]

    assert asyncio.run(fates()) == [2, None, None, 3, 1]


@settings(deadline=None)
@given(st.text(st.characters(blacklist_categories=["Cs"])), st.none() | st.text('ab"\\é'), st.lists(st.integers(0)))
def test_an_entry_as_text_is_its_json(why, who, ids):
    entry = Entry(7, "merge 1 2", tuple(ids), (3,), who, why, "2026-01-01T00:00:00Z", "key")
    assert json.loads(entry.text) == entry.as_json()


def test_a_deadline_ends_what_is_late_and_nothing_else():
    async def watched():
        loop, deadline = asyncio.get_running_loop(), Deadline(0.05)
        early, late, soon = (loop.create_future() for _ in range(3))
        for future in (early, late):
            deadline.watch(future)
        early.set_result(1)
        await asyncio.sleep(0.03)
        deadline.watch(soon)
        with pytest.raises(TimeoutError):
            await late
        assert early.result() == 1 and not soon.done()
        with pytest.raises(TimeoutError):
            await soon

    asyncio.run(watched())


class Follower:
    """The lines that a follower got, and the answers to come."""

    def __init__(self):
        self.operator, self.lines, self.answers = self, [], []

    def put(self, line):
        self.lines.append(line.decode())
        self.answers.append(asyncio.get_running_loop().create_future())
        return self.answers[-1]


def opened(journal, told):
    """A register whose follower has parcels 1 to 6, and that took three merges; the session told the ids of these."""
    register, square = Register(SimpleNamespace(follow=lambda entry: None), journal), np.array([[0, 0], [1, 0], [1, 1]])
    register.state, register.follower.program = "serving", Follower()
    register.versions.begin(0, [(parcel, 0, 1, square) for parcel in range(1, 7)])
    register.follower.accepted = {
        at: Entry(at, f"merge {at} {at + 3}", (), (), "anna", "", "2026-01-01T00:00:00Z", None) for at in (1, 2, 3)
    }
    register.follower.told = {
        at: (Accepted(at, (at, at + 3), (at + 6,)), f"ok {at} out {at} {at + 3} new {at + 6}".encode()) for at in told
    }
    register.acknowledged = 3
    return register, register.follower.program


def test_the_follower_is_not_waited_for_edit_by_edit(tmp_path):
    """All edits whose ids the session told go to it at once; behind one that was not told nothing is sent before its
    answer."""

    async def followed():
        register, follower = opened(tmp_path, (1, 2))
        task, shown = asyncio.create_task(register.follower.follow()), asyncio.create_task(register.shown())
        await asyncio.sleep(0)
        sent = ["merge 1 4", "parcel 7", "merge 2 5", "parcel 8", "merge 3 6"]
        assert follower.lines == sent
        for at, line in enumerate([*sent, "parcel 9"]):
            kind, number = line.split()[:2]
            await asyncio.sleep(0.01)
            assert not task.done() and not shown.done()
            ok = f"ok {number} out {number} {int(number) + 3} new {int(number) + 6}"
            text = ok if kind == "merge" else f"parcel 3 {number} 2 0 0 1 0 1 1"
            follower.answers[at].set_result([text.encode()])
        await task
        assert follower.lines == [*sent, "parcel 9"] and await shown == 3 and not register.follower.told
        assert [(it.number, it.out, it.new) for it in register.entries] == [
            (k, (k, k + 3), (k + 6,)) for k in (1, 2, 3)
        ]
        assert register.versions.find(7, 0) is None and register.versions.find(7, 1).born == 1
        assert register.versions.find(1, 0).died == 1 and register.versions.find(1, 1) is None

    asyncio.run(followed())


def test_a_follower_that_tells_other_ids_is_not_believed(tmp_path):
    async def followed():
        register, follower = opened(tmp_path, (1,))
        task = asyncio.create_task(register.follower.follow())
        await asyncio.sleep(0)
        follower.answers[0].set_result([b"ok 1 out 1 4 new 8"])
        with pytest.raises(gandovel.BadAnswer):
            await task
        assert register.entries == []

    asyncio.run(followed())
