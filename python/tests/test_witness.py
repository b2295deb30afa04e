"""The end of a journal, anchored in a witness elsewhere: a lost end is refused by name, and nothing waits for it."""
from __future__ import annotations

import errno
import logging
import os
import signal
import stat
import subprocess
import sys
import threading
import time
from datetime import datetime, timezone
from pathlib import Path

import pytest
from hypothesis import HealthCheck, given, settings
from hypothesis import strategies as st

import gandovel as gv
from gandovel.errors import Refused
from gandovel.live.journals import read_journal
from gandovel.live.witness import End, Witness, end_of, line_of
from served import Served, environment, prepared
from session_register import grid_city
from session_town import SECONDS, Town

pytestmark = pytest.mark.usefixtures("in_time")
LATE = 2.0
"""Seconds within which a witness follows; more only where the machine is busy."""


def told(path: Path):
    """The number and digest of a witness; -1 where there is none."""
    if not path.is_file():
        return -1, ""
    end, _ = end_of(path.read_bytes())
    return end.number, end.digest


def last(journal: Path):
    """The number and digest of a journal's last record."""
    found = read_journal(journal)
    return len(found.records), found.digest


def until(wanted, path: Path) -> float:
    """Waits for a witness: how long that took."""
    begun = time.monotonic()
    while told(path) != wanted:
        assert time.monotonic() < begun + SECONDS, (told(path), wanted)
        time.sleep(0.02)
    return time.monotonic() - begun


def merge(session, at: int) -> None:
    """An edit of its own: the neighbours `2 at + 1` and `2 at + 2` of 64 parcels."""
    session.merge(2 * at + 1, 2 * at + 2)


@pytest.fixture
def place(town, tmp_path):
    """A town whose journal has four records, and its witness on what stands for another disk."""
    (tmp_path / "elsewhere").mkdir()
    path = tmp_path / "elsewhere" / "town.witness"
    with town.session(witness=path) as session:
        for at in range(4):
            merge(session, at)
    assert told(path) == last(town.journal) and told(path)[0] == 4
    return path


def refused(town: Town, path: Path, *words: str) -> None:
    """A start is refused P20 with these words, and files stay byte for byte."""
    files = [it for it in (town.journal, path) if it.is_file()]
    before = [(it.read_bytes(), it.stat().st_ino, it.stat().st_mtime_ns) for it in files]
    folders = sorted(os.listdir(town.journal.parent)), sorted(os.listdir(path.parent))
    with pytest.raises(Refused) as fault:
        town.session(witness=path)
    assert fault.value.code == "P20" and all(word in str(fault.value) for word in words), fault.value
    assert [(it.read_bytes(), it.stat().st_ino, it.stat().st_mtime_ns) for it in files] == before
    assert (sorted(os.listdir(town.journal.parent)), sorted(os.listdir(path.parent))) == folders


def begin(journal: Path, count: int) -> bytes:
    """The header of a journal and so many records."""
    return b"".join(journal.read_bytes().splitlines(keepends=True)[: 1 + 2 * count])


@pytest.mark.parametrize("count", [3, 0])
def test_a_journal_cut_at_a_record_is_refused(town, place, count):
    """By one record, and by all: the program alone would start with what is left."""
    town.journal.write_bytes(begin(town.journal, count))
    refused(town, place, f"has {count} entries", "knows of 4", "gandovel journal --repair")
    with town.session() as session:
        assert session.replayed == count  # what the witness is for
    with town.session(witness=place.with_name("new")) as session:
        assert session.replayed == count
    assert told(place.with_name("new"))[0] == count


def test_a_journal_that_is_gone_is_refused(town, place):
    """It is not begun anew in silence; nor where an empty file stands in its place."""
    town.journal.unlink()
    refused(town, place, "is not there", "knows of 4")
    assert not town.journal.exists()
    town.journal.write_bytes(b"")
    refused(town, place, "has 0 entries", "knows of 4")


def test_an_older_copy_that_went_on_is_refused(town, place):
    """It is as long as its witness, or longer, with other edits."""
    town.journal.write_bytes(begin(town.journal, 2))
    with town.session() as session:
        for at in (3, 2, 4):
            merge(session, at)
    refused(town, place, "entry 4", "is another", "knows of 4")


def test_a_changed_last_record_is_refused(town, place):
    """One byte of its time: the witness says which entry is missed."""
    data = town.journal.read_bytes()
    at = data.rindex(b"Z ") - 1
    town.journal.write_bytes(data[:at] + bytes([data[at] ^ 1]) + data[at + 1 :])
    refused(town, place, "has 3 entries", "knows of 4")


def test_a_journal_of_another_layer_is_refused(town, place, tmp_path):
    """Also one that a checkpoint begins: it takes a witness of its own."""
    (tmp_path / "other").mkdir()
    other = Town(tmp_path / "other", *grid_city(3, 3, 1))
    with other.session():
        pass
    refused(other, place, "another layer", "name another")


def test_a_last_record_that_lacks_its_line_feed_alone_counts(town, place):
    """Its digest proves it, and the program completes it."""
    town.journal.write_bytes(town.journal.read_bytes()[:-1])
    with town.session(witness=place) as session:
        assert session.replayed == 4


@settings(max_examples=150, deadline=None, suppress_health_check=[HealthCheck.function_scoped_fixture])
@given(data=st.data())
def test_any_cut_and_any_byte_before_the_witness_is_missed(town, place, data):
    """What stands is accepted just where all that the witness knows of is there."""
    whole = town.journal.read_bytes() if not hasattr(town, "whole") else town.whole
    town.whole = whole
    trial = town.journal.with_name("trial")
    if data.draw(st.booleans()):
        cut = data.draw(st.integers(0, len(whole)))
        trial.write_bytes(whole[:cut])
        is_well = cut >= len(whole) - 1
    else:
        at, other = data.draw(st.integers(0, len(whole) - 2)), data.draw(st.integers(1, 255))
        trial.write_bytes(whole[:at] + bytes([whole[at] ^ other]) + whole[at + 1 :])
        is_well = False
    before = trial.read_bytes(), place.read_bytes()
    try:
        Witness(place, trial)
        assert is_well
    except Refused as fault:
        assert fault.code == "P20" and not is_well
    assert (trial.read_bytes(), place.read_bytes()) == before


@settings(max_examples=100, deadline=None)
@given(number=st.integers(0, 2**20), at=st.integers(0, 400), other=st.integers(1, 255))
def test_a_changed_witness_is_none(number, at, other):
    """No byte of it may be another."""
    end = End(number, "5f" * 32, "0c" * 32)
    text = line_of(end, datetime(2026, 12, 1, tzinfo=timezone.utc))
    assert end_of(text) == (end, "2026-12-01T00:00:00Z")
    at %= len(text)
    assert end_of(text[:at] + bytes([text[at] ^ other]) + text[at + 1 :]) is None


@pytest.mark.parametrize("what", [b"", b"a deed\n", b"\xff" * 5000])
def test_what_is_no_witness_is_never_written_over(town, tmp_path, what):
    """A path that was mistaken for another."""
    path = tmp_path / "deeds.txt"
    path.write_bytes(what)
    refused(town, path, "is no witness")
    assert not town.journal.exists()


def test_a_witness_needs_a_journal_of_another_name(town, tmp_path):
    """Both are said by name."""
    refused(town, town.journal, "is the journal itself")
    with pytest.raises(Refused, match="P20 .* name the journal, too"):
        town.session(journal=None, witness=tmp_path / "w")
    os.mkfifo(tmp_path / "pipe")
    with pytest.raises(Refused, match="P20 .* no regular file"):
        town.session(witness=tmp_path / "pipe")


def test_a_witness_follows_a_longer_journal(town, place):
    """What a session without it wrote, each edit within two seconds, edits of desks too, and the close."""
    with town.session() as session:
        merge(session, 4)
    with town.session("anna", witness=place) as session:
        until(last(town.journal), place)
        with session.desk("anna") as anna:
            anna.merge(17, 18)
            assert until((6, last(town.journal)[1]), place) < LATE or os.getloadavg()[0] > 4
            assert stat.S_IMODE(place.stat().st_mode) == 0o600
            anna.merge(19, 20)
    assert told(place) == last(town.journal) == (7, read_journal(town.journal).digest)
    assert not [it for it in threading.enumerate() if it.name == "gandovel witness"]
    assert os.listdir(place.parent) == [place.name]


def test_eight_desks_of_others_are_followed(town, tmp_path):
    """No question is taken at the operator's desk then."""
    path = tmp_path / "w"
    with town.session(*"abcdefgh", witness=path) as session:
        with gv.Desk.at(session.path("h"), SECONDS) as desk:
            desk.merge(1, 2)
            until(last(town.journal), path)
            assert told(path)[0] == 1


@pytest.mark.parametrize("how", ["no folder", "a folder in its place", "a full disk"])
def test_a_witness_that_cannot_be_written_holds_nothing_up(town, tmp_path, monkeypatch, caplog, how):
    """It is said once, and tried again; edits go on."""
    path = tmp_path / "disk" / "w"
    really = os.fsync
    if how != "no folder":
        path.parent.mkdir()
    if how == "a folder in its place":
        path.mkdir()
    if how == "a full disk":

        def full(handle):
            raise OSError(errno.ENOSPC, os.strerror(errno.ENOSPC))

        monkeypatch.setattr(os, "fsync", full)
    with caplog.at_level(logging.INFO, "gandovel"), town.session(witness=path) as session:
        merge(session, 0)
        time.sleep(1.3)
        merge(session, 1)
        time.sleep(0.8)
        assert len(caplog.records) == 1 and "can't be written, and is tried again" in caplog.text
        monkeypatch.setattr(os, "fsync", really)
        if how == "no folder":
            path.parent.mkdir()
        if how == "a folder in its place":
            path.rmdir()
        until(last(town.journal), path)
        merge(session, 2)
    assert told(path) == last(town.journal) and told(path)[0] == 3
    assert len(caplog.records) == 2 and "written again" in caplog.records[1].getMessage()
    assert os.listdir(path.parent) == ["w"]


def test_a_witness_that_another_writes_is_left(town, place, caplog):
    """A second process with the same name for another journal spoils nothing."""
    with caplog.at_level(logging.INFO, "gandovel"), town.session(witness=place) as session:
        time.sleep(0.7)
        foreign = line_of(End(9, "0" * 64, "1" * 64), datetime.now(timezone.utc))
        place.write_bytes(foreign)
        merge(session, 4)
        time.sleep(1.3)
    assert place.read_bytes() == foreign and "written by another" in caplog.text


KILLED = """
import os, sys, time
import gandovel as gv
city, parcels, journal, witness = sys.argv[1:]
session = gv.Session(city, parcels, journal=journal, witness=witness, timeout=100)
if os.fork() == 0:
    session.close()
    sys.exit(0)
for at in range(32):
    session.merge(2 * at + 1, 2 * at + 2)
    print(at, flush=True)
    time.sleep(0.05)
time.sleep(100)
"""


def test_a_start_after_kill_9_accepts(town, tmp_path):
    """At any moment: a witness is never ahead of its journal."""
    path = tmp_path / "w"
    for wanted in (1, 12, 31):
        for it in (town.journal, path):
            it.unlink(missing_ok=True)
        words = [sys.executable, "-c", KILLED, *map(str, (town.city, town.parcels, town.journal, path))]
        places = {**os.environ, "PYTHONPATH": os.pathsep.join(sys.path)}
        with subprocess.Popen(words, stdout=subprocess.PIPE, env=places, start_new_session=True) as process:
            for _ in range(wanted):
                process.stdout.readline()
            os.killpg(process.pid, signal.SIGKILL)
        number = told(path)[0]
        with town.session(witness=path) as session:
            assert session.replayed >= max(number, wanted)
        assert told(path) == last(town.journal)


def test_a_forked_child_writes_no_witness(town, tmp_path):
    """Neither where it closes what it has of the session, nor where it ends."""
    path = tmp_path / "w"
    with town.session(witness=path) as session:
        until((0, town.layer()), path)
        child = os.fork()
        if child == 0:
            session._witness.number = -1  # what would be written
            session.close()
            session._witness.close()
            os._exit(0 if session._witness.number == -1 else 1)
        assert os.waitstatus_to_exitcode(os.waitpid(child, 0)[1]) == 0
        merge(session, 0)
        until(last(town.journal), path)


@pytest.fixture(scope="module")
def layer(tmp_path_factory):
    """A prepared layer of two halves, refined."""
    city = [(0, 0), (60_000, 0), (100_000, 0), (100_000, 100_000), (60_000, 100_000), (0, 100_000)]
    halves = [
        [(0, 0), (60_000, 0), (60_000, 100_000), (0, 100_000)],
        [(60_000, 0), (100_000, 0), (100_000, 100_000), (60_000, 100_000)],
    ]
    return prepared(tmp_path_factory.mktemp("layer") / "layer", city, halves)


def test_a_server_writes_its_witness_and_is_refused_by_it(layer, tmp_path):
    """Through HTTP; after kill -9; and where the end of its journal is gone."""
    (tmp_path / "journals").mkdir()
    journal, path = tmp_path / "journals" / "town.txt", tmp_path / "town.witness"
    with Served(layer, journal, "--witness", str(path)) as server:
        made = server.edit("merge 1 2")
        assert made.status_code == 200, made.text
        until((1, made.json()["digest"]), path)
        assert "gandovel_witness_entries 1.0" in server.ask("/metrics").text
        server.kill()
        server.start()
        assert server.end() == 0
    assert told(path) == last(journal)
    whole, known = journal.read_bytes(), path.read_bytes()
    journal.write_bytes(begin(journal, 0))
    words = [sys.executable, "-m", "gandovel", "serve", str(layer), "--journal", str(journal), "--port", "0"]
    ended = subprocess.run([*words, "--witness", str(path)], capture_output=True, text=True, env=environment())
    assert ended.returncode == 1 and ended.stderr.startswith("error: P20 "), ended.stderr
    assert journal.read_bytes() == begin(journal, 0) and path.read_bytes() == known
    journal.write_bytes(whole)
    backup = tmp_path / "backup"
    gv_backup = [
        sys.executable,
        "-m",
        "gandovel",
        "backup",
        str(layer),
        "--journal",
        str(journal),
        "--out",
        str(backup),
    ]
    assert subprocess.run(gv_backup, env=environment()).returncode == 0
    with gv.open(layer, backup / "register.journal", witness=path) as register:
        assert register.count() == 1


def test_a_checkpoint_takes_a_witness_of_its_own(layer, tmp_path):
    """The old one is refused, with what to do; the new one has the numbers of the new journal."""
    from gandovel.live.checkpoint_writing import make_checkpoint

    old, new = tmp_path / "old.witness", tmp_path / "new.witness"
    with gv.open(layer, tmp_path / "town.txt", witness=old) as register:
        register.edit(gv.Merge("A1", "A2"))
    made = make_checkpoint(tmp_path / "town.txt", layer, tmp_path / "next")
    with pytest.raises(Refused, match="P20 .*another layer.*begun anew takes a new witness"):
        gv.open(made.folder, witness=old)
    with gv.open(made.folder, witness=new) as register:
        assert register.count() == 1
    assert told(new) == last(made.journal) == (0, made.begins)
    with Served(made.folder, made.journal, "--witness", str(new)) as server:
        assert server.end() == 0
    assert told(new) == (0, made.begins)
