"""Installed by `pip` as the tutorial says it: nothing is fetched, and the program is on PATH, where there is one."""
from __future__ import annotations

import json
import os
import shutil
import subprocess
from pathlib import Path

import pytest

import gandovel as gv
from test_sources import two

PACKAGE = Path(__file__).resolve().parents[1]


@pytest.fixture
def said(tmp_path):
    """Runs a command in a folder with the sources, and a virtual environment on PATH: what it prints."""
    sources = shutil.ignore_patterns("tests", ".*", "__pycache__")
    shutil.copytree(PACKAGE, tmp_path / "python", ignore=sources)
    shutil.copy(PACKAGE.parent / ".gitignore", tmp_path)  # as in the repository, whose folders `out` are left out
    (tmp_path / ".git").mkdir()
    subprocess.run(["/usr/bin/python3", "-m", "venv", "--system-site-packages", tmp_path / "venv"], check=True)
    plain = {"PATH": f"{tmp_path}/venv/bin:/usr/bin:/bin", "HOME": str(tmp_path), "PIP_NO_INDEX": "1"}

    def said(*words, fails=False, **more):
        ended = subprocess.run(words, cwd=tmp_path, env={**plain, **more}, capture_output=True, text=True)
        assert bool(ended.returncode) == fails and "Warning" not in ended.stderr, ended.stderr
        return ended.stderr if fails else ended.stdout

    return said


INSTALL = ("pip", "install", "--no-build-isolation", "./python")


def test_pip_installs_package_and_program_offline(tmp_path, said):
    told = said(*INSTALL, GANDOVEL_TOOL=os.environ["GANDOVEL_TOOL"])
    assert f"Successfully installed gandovel-{gv.__version__}\n" in told
    assert said("gandovel", "--version") == f"gandovel {gv.__version__}\n"
    assert said("parcel_tool", "--version").startswith(f"parcel_tool {gv.__version__} (")
    two().to_file(tmp_path / "p.gpkg", driver="GPKG")
    told = json.loads(said("gandovel", "check", "p.gpkg", "--json"))
    assert told["verdict"] == "tiles" and told["program"] == said("parcel_tool", "--version").strip()


def test_pip_without_the_program_says_so_and_hides_no_command(tmp_path, said):
    told = said(*INSTALL)
    assert f"Successfully installed gandovel-{gv.__version__}+without.parcel.tool\n" in told
    assert sorted(path.name for path in (tmp_path / "venv/bin").glob("*parcel*")) == []
    assert said("gandovel", "--version").startswith(f"gandovel {gv.__version__}")
    two().to_file(tmp_path / "p.gpkg", driver="GPKG")
    refusal = said("gandovel", "check", "p.gpkg", fails=True)
    assert "T1 the program parcel_tool is not there: set GANDOVEL_TOOL or put it on PATH" in refusal
    (tmp_path / "mine").mkdir()
    shutil.copy(os.environ["GANDOVEL_TOOL"], tmp_path / "mine/parcel_tool")
    path = f"{tmp_path}/venv/bin:/usr/bin:/bin:{tmp_path}/mine"
    assert json.loads(said("gandovel", "check", "p.gpkg", "--json", PATH=path))["verdict"] == "tiles"
