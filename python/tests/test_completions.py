"""The completions of the program in the real shells, each at a terminal."""
import os
import pty
import re
import select
import shutil
import subprocess
import time
from pathlib import Path

import pytest

PACKAGING = Path(__file__).resolve().parents[2] / "packaging"


@pytest.fixture
def folder(tmp_path):
    """A folder with layers, one with a blank in its name, and what is no layer."""
    for name in ("city.shp", "city.dbf", "my parcels.shp", "notes.txt"):
        (tmp_path / name).write_bytes(b"")
    (tmp_path / "old layers").mkdir()
    (tmp_path / "old layers" / "zones.shp").write_bytes(b"")
    return tmp_path


def typed(argv, setup, line, folder):
    """What a shell shows where a tab is typed behind a line, and the line is then run."""
    env = {"PATH": os.environ["PATH"], "TERM": "dumb", "HOME": str(folder), "LANG": "C.UTF-8"}
    pid, terminal = pty.fork()
    if pid == 0:
        os.chdir(folder)
        os.execvpe(argv[0], argv, env)
    try:
        said_of(terminal, setup + "; echo READ''Y\n", "READY")
        os.write(terminal, line.encode() + b"\t")
        time.sleep(1.5)
        return said_of(terminal, "\necho DON''E\n", "DONE")
    finally:
        os.close(terminal)
        os.waitpid(pid, 0)


def said_of(terminal, text, end):
    """What a terminal shows up to a word."""
    os.write(terminal, text.encode())
    said, until = b"", time.monotonic() + 30
    while end.encode() not in said and time.monotonic() < until:
        if select.select([terminal], [], [], 1)[0]:
            said += os.read(terminal, 65536)
    assert end.encode() in said, said
    return said.decode(errors="replace").replace("\r", "")


WORDS = 'parcel_tool() { printf "<%s>" "$@"; echo; }'
"""A program that prints the words it is given."""


def given(shown):
    """The words that the program was given. zsh takes the slash behind a folder away."""
    return [it.rstrip("/") for it in re.findall(r"<([^<>]*)>", re.search(r"^(?:<[^<>]*>)+$", shown, re.M)[0])]


BASH = (["bash", "--norc", "-i"], f"{WORDS}; source {PACKAGING}/parcel_tool.bash")
ZSH = (["zsh", "-f", "-i"], f"fpath=({PACKAGING} $fpath); autoload -U compinit; compinit -D; {WORDS}")


@pytest.mark.parametrize("argv, setup", [BASH, ZSH], ids=["bash", "zsh"])
@pytest.mark.parametrize(
    "line, words",
    [
        ("parcel_tool ove", ["overlay"]),
        ("parcel_tool check city.shp my", ["check", "city.shp", "my parcels.shp"]),
        ("parcel_tool check my\\ p", ["check", "my parcels.shp"]),
        ("parcel_tool check old", ["check", "old layers"]),
        ("parcel_tool check city.shp --wor", ["check", "city.shp", "--workers"]),
        ("parcel_tool check --clerk no", ["check", "--clerk", "notes.txt"]),
        ("parcel_tool session --zones ci", ["session", "--zones", "city.shp"]),
    ],
)
def test_completes(argv, setup, line, words, folder):
    if not shutil.which(argv[0]):
        pytest.skip(f"no {argv[0]}")
    assert given(typed(argv, setup, line, folder)) == words


@pytest.mark.parametrize(
    "line, words",
    [
        ("parcel_tool ove", {"overlay"}),
        ("parcel_tool check --unit ", {"mm", "cm", "m"}),
        ("parcel_tool check city.shp my", {"my parcels.shp"}),
        ("parcel_tool check --clerk no", {"notes.txt"}),
        ("parcel_tool export --o", {"--out"}),
    ],
)
def test_completes_in_fish(line, words, folder):
    if not shutil.which("fish"):
        pytest.skip("no fish")
    asked = f"source {PACKAGING}/parcel_tool.fish; complete -C {line!r}"
    said = subprocess.run(
        ["fish", "--no-config", "-c", asked], cwd=folder, check=True, stdout=subprocess.PIPE, text=True
    )
    assert {it.partition("\t")[0].replace("\\", "") for it in said.stdout.splitlines()} == words


@pytest.fixture
def command(folder):
    """A command `gandovel` on PATH that prints the words it is given, where no shell asks what may come next."""
    (folder / "bin").mkdir()
    asked = f'PYTHONPATH={PACKAGING.parent}/python/src exec /usr/bin/python3 -m gandovel "$@"'
    (folder / "bin/gandovel").write_text(f'#!/bin/sh\n[ -n "$_ARGCOMPLETE" ] && {asked}\nprintf "<%s>" "$@"; echo\n')
    (folder / "bin/gandovel").chmod(0o755)
    return folder / "bin"


REGISTER = 'eval "$(register-python-argcomplete gandovel)"'


@pytest.mark.parametrize(
    "argv, setup",
    [(BASH[0], REGISTER), (ZSH[0], f"{ZSH[1]}; autoload -U bashcompinit; bashcompinit; {REGISTER}")],
    ids=["bash", "zsh"],
)
@pytest.mark.parametrize(
    "line, words",
    [
        ("gandovel expl", ["explain"]),
        ("gandovel check no", ["check", "notes.txt"]),
        ("gandovel apply my\\ p", ["apply", "my parcels.shp"]),
        ("gandovel mend city.shp --to bor", ["mend", "city.shp", "--to", "border"]),
        ("gandovel journal --rep", ["journal", "--repair"]),
    ],
)
def test_completes_the_package_s_command(argv, setup, line, words, folder, command):
    """By argcomplete, which asks the command itself."""
    if not shutil.which(argv[0]):
        pytest.skip(f"no {argv[0]}")
    assert given(typed(argv, f"PATH={command}:$PATH; {setup}", line, folder)) == words


def test_completes_the_package_s_command_in_fish(folder, command):
    if not shutil.which("fish"):
        pytest.skip("no fish")
    register = f"set -x PATH {command} $PATH; register-python-argcomplete --shell fish gandovel | source"
    asked = f"{register}; complete -C 'gandovel mend --to '"
    said = subprocess.run(
        ["fish", "--no-config", "-c", asked], cwd=folder, check=True, stdout=subprocess.PIPE, text=True
    )
    assert {it.partition("\t")[0] for it in said.stdout.splitlines()} == {"border", "larger", "older", "none"}
