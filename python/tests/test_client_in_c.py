"""The client of a desk in C (`examples/client`): it compiles without a warning, and talks to a session."""

import os
import subprocess
from pathlib import Path

import pytest

ROOT = Path(__file__).resolve().parents[2]
TOWN = ROOT / "examples/town"


@pytest.fixture(scope="module", name="client")
def compiled(tmp_path_factory: pytest.TempPathFactory) -> Path:
    path = tmp_path_factory.mktemp("client") / "desk_client"
    source = ROOT / "examples/client/desk_client.c"
    subprocess.run(["cc", "-std=c11", "-O2", "-Wall", "-Wextra", "-Werror", "-o", path, source], check=True)
    assert len(source.read_text().splitlines()) < 200
    return path


@pytest.fixture(name="session")
def started(tmp_path: Path):
    for end in ("in", "out"):
        os.mkfifo(tmp_path / f"anna.{end}", 0o600)
    words = ["session", TOWN / "city.shp", TOWN / "parcels.shp", "--unit", "cm", "--journal", tmp_path / "j", "--desk"]
    with subprocess.Popen(
        [os.environ["GANDOVEL_TOOL"], *map(str, words), str(tmp_path / "anna")],
        stdin=subprocess.PIPE,
        stdout=subprocess.PIPE,
        text=True,
    ) as session:
        assert session.stdout is not None and session.stdout.readline() == "ready 0\n"
        yield session
        if session.poll() is None:
            session.communicate("close\n", timeout=20)


def ask(client: Path, tmp_path: Path, lines: str) -> subprocess.CompletedProcess:
    return subprocess.run(
        [client, tmp_path / "anna"], input=lines, capture_output=True, text=True, timeout=30, check=False
    )


def test_each_line_has_its_answer(client: Path, session: subprocess.Popen, tmp_path: Path) -> None:
    said = ask(client, tmp_path, "merge 4 5\nmerge 5 3\nlocate 10000 10000\n# a comment\nentries\n")
    assert said.stdout.splitlines() == [
        "ok 1 out 4 5 new 6",
        "refused E2 5 1",
        "at 1 10000 10000 inside 1",
        "skipped",
        "entries 1",
    ]
    assert (said.returncode, said.stderr) == (0, "")
    assert ask(client, tmp_path, "check\n").returncode == 1
    assert ask(client, tmp_path, "parcel 4\n").stdout == "parcel 1 4 none\n"


def test_a_line_without_its_end_is_not_sent(client: Path, session: subprocess.Popen, tmp_path: Path) -> None:
    said = ask(client, tmp_path, "entries\nmerge 1 2")
    assert (said.returncode, said.stdout) == (2, "entries 0\n")
    assert ask(client, tmp_path, "entries\n").stdout == "entries 0\n"


def test_a_session_that_ends_is_said(client: Path, session: subprocess.Popen, tmp_path: Path) -> None:
    out, _ = session.communicate("close\n", timeout=20)
    assert out == "closed 0\n"
    said = subprocess.run([client, tmp_path / "anna"], input="entries\n", capture_output=True, text=True, timeout=30)
    assert said.returncode == 2 and "no session serves" in said.stderr
