"""Ends of sessions: however clients and operators behave, and whoever vanishes, the program ends, and nothing is
lost."""
from __future__ import annotations

import contextlib
import functools
import os
import re
import shlex
import signal
import subprocess
import sys
import time
from pathlib import Path
from typing import Dict, Iterator, List

import pytest

import gandovel as gv
from gandovel.program.tool import find_tool
from session_town import SECONDS, Raw, Town

pytestmark = pytest.mark.usefixtures("in_time")
SOON = 20
"""Seconds in which a close ends on a busy machine. The program itself waits a second for a client."""
UNIT = Path(__file__).resolve().parents[2] / "packaging/parcel_tool.service"


@pytest.fixture
def program(town: Town, tmp_path: Path) -> Iterator["subprocess.Popen[bytes]"]:
    """A session with the journal and a desk `anna` in the test's folder, and a pipe to its operator's desk."""
    with started(town, tmp_path / "anna") as running:
        yield running


@contextlib.contextmanager
def started(town: Town, desk: Path) -> Iterator["subprocess.Popen[bytes]"]:
    """A session with the journal and this desk, which is killed at the end."""
    make_pipes(desk)
    running = subprocess.Popen([find_tool(), *words_of(town, desk)], stdin=subprocess.PIPE, stdout=subprocess.PIPE)
    try:
        assert running.stdout.readline() == b"ready 0\n"
        yield running
    finally:
        running.kill()
        running.wait()
        with contextlib.suppress(BrokenPipeError):
            running.stdin.close()
        running.stdout.close()


def make_pipes(desk: Path) -> None:
    """Makes the pipes of a desk, where they are not there."""
    for ending in ("in", "out"):
        with contextlib.suppress(FileExistsError):
            os.mkfifo(f"{desk}.{ending}", 0o600)


def words_of(town: Town, desk: Path) -> List[str]:
    """The words of a session's command."""
    words = ["session", town.city, town.parcels, "--unit", "mm", "--journal", town.journal, "--desk", desk]
    return [str(word) for word in words]


FLOOD = """
import os, sys, time
path, count = sys.argv[1], int(sys.argv[2])
outward, inward = open(path + ".in", "wb", buffering=0), open(path + ".out", "rb")
os.set_blocking(outward.fileno(), False)
text, last = memoryview(b"locate 1 1\\n" * count), time.monotonic()
while text and time.monotonic() < last + 1:
    sent = outward.write(text)
    if sent:
        text, last = text[sent:], time.monotonic()
print("full", flush=True)
time.sleep(600)
"""


def flood(desk: Path) -> "subprocess.Popen[bytes]":
    """A client in a process of its own that writes 100,000 lines, as many as go, and reads nothing."""
    client = subprocess.Popen([sys.executable, "-c", FLOOD, str(desk), "100000"], stdout=subprocess.PIPE)
    assert client.stdout.readline() == b"full\n"
    return client


@pytest.mark.parametrize("killed", ["before", "after", "never"])
def test_a_close_ends_though_a_client_never_reads(program, tmp_path, killed):
    """Number 3 of what was found: 100,000 lines, no answer read, a close, and the client killed."""
    client = flood(tmp_path / "anna")
    try:
        if killed == "before":
            client.kill()
        program.stdin.write(b"close\n")
        program.stdin.flush()
        if killed == "after":
            client.kill()
        assert program.stdout.readline() == b"closed 0\n"
        assert program.wait(SOON) == 0
    finally:
        client.kill()
        client.wait()
        client.stdout.close()


def test_a_close_wakes_each_desk(town):
    """Desks that wait for a client, for a line, for the other pipe, and for a client that reads."""
    with town.session("idle", "quiet", "half", "deaf") as session:
        with session.desk("quiet", SECONDS) as quiet, Raw(session.path("deaf")) as deaf:
            half = open(f"{session.path('half')}.in", "wb", buffering=0)
            os.set_blocking(deaf.outward.fileno(), False)
            while deaf.outward.write(b"locate 1 1\n" * 1000):
                time.sleep(0.01)
            assert quiet.merge(1, 2).number == 1
            begun = time.monotonic()
            session.timeout = SOON
            assert session.close() == 1
            assert time.monotonic() < begun + SOON
            half.close()


@pytest.mark.parametrize("then", ["unlinked", "made anew", "moved"])
@pytest.mark.parametrize("waits", ["for a client", "for the other pipe", "for a line", "for a client that reads"])
def test_a_close_ends_though_a_desks_pipes_are_gone(program, tmp_path, waits, then):
    """Whatever a desk waits for, the session has names of its own for its pipes, and leaves none behind."""
    anna, made = tmp_path / "anna", waits in ("for a line", "for a client that reads")
    with contextlib.ExitStack() as clients:
        if waits == "for the other pipe":
            clients.enter_context(open(f"{anna}.in", "wb", buffering=0))
        elif made:
            raw = clients.enter_context(Raw(str(anna)))
            assert raw.ask(b"merge 1 2\n") == [b"ok 1 out 1 2 new 65"]
            if waits == "for a client that reads":
                os.set_blocking(raw.outward.fileno(), False)
                while raw.outward.write(b"locate 1 1\n" * 1000):
                    time.sleep(0.01)
        for ending in (".in", ".out"):
            if then == "moved":
                os.rename(f"{anna}{ending}", tmp_path / f"elsewhere{ending}")
            else:
                os.unlink(f"{anna}{ending}")
            if then == "made anew":
                os.mkfifo(f"{anna}{ending}", 0o600)
        program.stdin.write(b"close\n")
        program.stdin.flush()
        assert program.stdout.readline() == (b"closed 1\n" if made else b"closed 0\n")
        assert program.wait(SOON) == 0
    assert not list(tmp_path.glob("*.held"))


def test_names_that_a_killed_session_left_are_taken_anew(program, town, tmp_path):
    """And a file of somebody else under such a name stays as it is: the pipe is opened by its own name then."""
    program.kill()
    program.wait()
    assert sorted(path.name for path in tmp_path.glob("*.held")) == ["anna.in.held", "anna.out.held"]
    (tmp_path / "anna.out.held").unlink()
    (tmp_path / "anna.out.held").write_text("a note")
    again = subprocess.run(
        [find_tool(), *words_of(town, tmp_path / "anna")], input=b"close\n", capture_output=True, timeout=SOON
    )
    assert (again.stdout, again.returncode) == (b"ready 0\nclosed 0\n", 0)
    assert [path.name for path in tmp_path.glob("*.held")] == ["anna.out.held"]
    assert (tmp_path / "anna.out.held").read_text() == "a note"


def test_a_client_that_reads_gets_all_answers_of_what_was_taken(program, tmp_path):
    """A close cuts no answer of a client that reads, also where the pipe is full at that moment."""
    with Raw(str(tmp_path / "anna")) as raw:
        os.set_blocking(raw.outward.fileno(), False)
        line, sent = b"merge 1 1\n", 0
        for _ in range(1000):
            sent += raw.outward.write(line * 100) or 0
        program.stdin.write(b"close\n")
        program.stdin.flush()
        answers = raw.inward.read().splitlines()
    assert program.stdout.readline() == b"closed 0\n" and program.wait(SOON) == 0
    assert answers[-1] == b"error: closed" and set(answers[:-1]) <= {b"refused E4"}
    assert 0 < len(answers) <= sent // len(line) + 2


def test_the_end_of_the_operators_input_is_a_close(program, town, tmp_path):
    """Number 8: with desks, and a client at one of them."""
    with Raw(str(tmp_path / "anna")) as raw:
        assert raw.ask(b"merge 1 2\n") == [b"ok 1 out 1 2 new 65"]
        program.stdin.close()
        assert raw.inward.readline() in (b"error: closed\n", b"")
        assert program.stdout.readline() == b"closed 1\n" and program.wait(SOON) == 0
    assert town.lines() == ["merge 1 2"]


PARENT = """
import sys, time
import gandovel as gv
city, parcels, journal = sys.argv[1:]
with gv.Session(city, parcels, journal=journal, desks=["anna"]) as session:
    print(session.pid, session.path("anna"), flush=True)
    time.sleep(600)
"""


@pytest.mark.parametrize("number", [signal.SIGTERM, signal.SIGKILL, signal.SIGINT])
def test_a_parent_that_ends_closes_its_session(town, number):
    """Whatever ends the process that began a session, the program lets the journal go."""
    words = [sys.executable, "-c", PARENT, str(town.city), str(town.parcels), str(town.journal)]
    places = {**os.environ, "PYTHONPATH": os.pathsep.join(sys.path)}
    # What runs in the background has SIGINT ignored, and so would its children.
    heeds = functools.partial(signal.signal, signal.SIGINT, signal.SIG_DFL)
    parent = subprocess.Popen(words, stdout=subprocess.PIPE, stderr=subprocess.DEVNULL, env=places, preexec_fn=heeds)
    pid, path = parent.stdout.readline().split()
    try:
        with gv.Desk.at(path.decode(), SECONDS) as desk:
            assert desk.merge(1, 2).number == 1
            parent.send_signal(number)
            parent.wait(SOON)
            with pytest.raises((gv.SessionClosed, gv.ProgramEnded)):
                while True:
                    desk.entries()
        has_ended(int(pid))
        with town.session() as session:
            assert session.replayed == 1
    finally:
        parent.kill()
        parent.wait()
        parent.stdout.close()


def has_ended(pid: int) -> None:
    """Waits until no process has this number, or only one that nobody has waited for."""
    until = time.monotonic() + SOON
    while Path(f"/proc/{pid}/stat").exists() and Path(f"/proc/{pid}/stat").read_text().split(")")[1].split()[0] != "Z":
        assert time.monotonic() < until, "the program runs on"
        time.sleep(0.01)


def test_terminate_closes(town):
    """No client of another process is torn off in the middle of its answer."""
    session = town.session("anna")
    with Raw(session.path("anna")) as raw:
        assert raw.ask(b"merge 1 2\n") == [b"ok 1 out 1 2 new 65"]
        session.terminate()
        assert raw.inward.read() == b"error: closed\n"
    assert town.lines() == ["merge 1 2"] and session.close() is None


@pytest.mark.parametrize("name", ["city", "parcels", "journal"])
@pytest.mark.parametrize("way", ["its path", "another path", "a symbolic link", "a hard link"])
def test_an_export_never_replaces_the_sessions_own_files(town, tmp_path, name, way):
    """Number 6: the layers that were read and the journal, also by another of their names."""
    town.journal = tmp_path / "register.shp"
    own = {"city": town.city, "parcels": town.parcels, "journal": town.journal}
    with town.session("anna") as session:
        with session.desk("anna", SECONDS) as desk:
            desk.merge(1, 2)
        base = named(own[name], way, tmp_path)
        before = {path: path.read_bytes() for path in own.values()}
        with pytest.raises(gv.SessionError, match=r"^S5 .*\.sh[px]$") as refused:
            session.export(base)
        assert refused.value.code == "S5"
        assert {path: path.read_bytes() for path in own.values()} == before
        assert session.export(tmp_path / "new") == 63
    assert not list(tmp_path.glob("*.new"))


def named(path: Path, way: str, folder: Path) -> Path:
    """The BASE of an export that reaches a file in this way."""
    if way == "its path":
        return path.with_suffix("")
    if way == "another path":
        return folder / ".." / folder.name / path.stem
    if way == "a symbolic link":
        (folder / "other.shx").symlink_to(path)
    else:
        os.link(path, folder / "other.shp")
    return folder / "other"


def test_an_export_never_replaces_a_pipe_or_an_index(town, tmp_path):
    (tmp_path / "mine").mkdir()
    with town.session("anna") as session:
        (tmp_path / "mine" / "pipe.shp").symlink_to(f"{session.path('anna')}.out")
        (tmp_path / "mine" / "index.shp").symlink_to(town.parcels.with_suffix(".shx"))
        for name in ("pipe", "index"):
            with pytest.raises(gv.SessionError, match="^S5 "):
                session.export(tmp_path / "mine" / name)
        with session.desk("anna", SECONDS) as desk:
            assert desk.entries() == 0


def test_an_export_is_refused_where_the_command_is(town, tmp_path):
    """A base that ends in `.shp`, a folder, and a table or a projection that stands beside; nothing is written."""
    mine = tmp_path / "mine"
    mine.mkdir()
    (mine / "folder").mkdir()
    (mine / "old.dbf").write_bytes(b"names")
    (mine / "older.prj").symlink_to("nowhere")
    before = {path.name for path in mine.iterdir()}
    refused = {"new.shp": "no base", "new.SHP": "no base", "folder": "no base", "old": "S6", "older": "S6"}
    with town.session("anna") as session:
        for name, code in refused.items():
            with pytest.raises(gv.SessionError, match=f"^{code} .*{name}") as fault:
                session.export(mine / name)
            assert fault.value.code == code and {path.name for path in mine.iterdir()} == before
        assert session.export(mine / "new") == 64
    assert (mine / "old.dbf").read_bytes() == b"names"


def test_the_unit_file(town, tmp_path):
    """The commands of the sample unit, as systemd would run them, with other paths."""
    unit = settings_of(UNIT, town, tmp_path)
    subprocess.run(shlex.split(unit["ExecStartPre"]), check=True)
    log = tmp_path / "log"
    with open(log, "wb") as out:
        running = subprocess.Popen(shlex.split(unit["ExecStart"]), stdin=subprocess.DEVNULL, stdout=out)
    try:
        with gv.Desk.at(tmp_path / "NAME", SECONDS) as desk:
            assert desk.merge(1, 2).number == 1
            stop = unit["ExecStop"].replace("$MAINPID", str(running.pid))
            stopping = subprocess.Popen(shlex.split(stop))
            assert running.wait(SOON) == 0 and stopping.wait(SOON) == 0
    finally:
        running.kill()
        running.wait()
    assert log.read_text() == "ready 0\nclosed 1\n" and town.lines() == ["merge 1 2"]


def settings_of(unit: Path, town: Town, folder: Path) -> Dict[str, str]:
    """The commands of a unit, with the paths of a town, and pipes in a folder."""
    places = {
        "/usr/bin/parcel_tool": find_tool(),
        "/srv/register/CITY.shp": str(town.city),
        "/srv/register/PARCELS.shp": str(town.parcels),
        "/var/lib/register/TOWN.txt": str(town.journal),
        "/run/parcel_tool": str(folder),
    }
    text = unit.read_text()
    for before, after in places.items():
        text = text.replace(before, after)
    return dict(re.findall("(?m)^(Exec[A-Za-z]+)=(.*)$", text))


def test_a_client_that_reads_first_or_writes_first_is_served(town, tmp_path):
    """A reader that waits since before the start, and one that comes once the lines are written and their pipe is
    closed: each gets its answers, and then the end of its pipe, and the session begins no client before it is there."""
    anna = tmp_path / "anna"
    make_pipes(anna)
    early = subprocess.Popen(["cat", f"{anna}.out"], stdout=subprocess.PIPE)
    try:
        time.sleep(0.2)
        with started(town, anna) as program:
            Path(f"{anna}.in").write_bytes(b"merge 1 2\n")
            assert early.stdout.read() == b"ok 1 out 1 2 new 65\n"
            Path(f"{anna}.in").write_bytes(b"entries\n" * 3)
            time.sleep(0.2)
            assert Path(f"{anna}.out").read_bytes() == b"entries 1\n" * 3
            program.stdin.close()
            assert program.stdout.readline() == b"closed 1\n" and program.wait(SOON) == 0
    finally:
        early.kill()
        early.wait()
        early.stdout.close()
