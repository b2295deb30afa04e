"""What the program says beside its answers: hints and progress, at a terminal and elsewhere."""

from __future__ import annotations

import os
import pty
import select
import socket
import subprocess
import sys
import time
from pathlib import Path
from typing import List, Tuple

import geopandas as gpd
import pyproj
import pytest
from shapely.geometry import box

from gandovel.program import tool

RUNS = Path(__file__).resolve().parents[2] / "runs"
sys.path.insert(0, str(RUNS))
import layers  # noqa: E402


@pytest.fixture
def folder(tmp_path: Path) -> Path:
    """A folder with a city of one parcel, with sides of 100 mm."""
    layers.make(str(tmp_path / "city.shp"), "square.shp")
    return tmp_path


def begun_at_a_terminal(folder: Path, words: List[str]) -> Tuple[subprocess.Popen, int]:
    """The program, whose standard error is a terminal, and the terminal's other end."""
    ours, theirs = pty.openpty()
    run = subprocess.Popen([tool.find_tool(), *words], cwd=folder, stdout=subprocess.PIPE, stderr=theirs)
    os.close(theirs)
    return run, ours


def shown(terminal: int) -> str:
    """All that a terminal shows until nobody has it open any more."""
    said = b""
    while select.select([terminal], [], [], 30)[0]:
        try:
            part = os.read(terminal, 65536)
        except OSError:
            break
        if not part:
            break
        said += part
    os.close(terminal)
    return said.decode().replace("\r", "")


def test_hint_at_a_terminal_alone(folder):
    words = ["area", "none.shp", "--unit", "m"]
    run, terminal = begun_at_a_terminal(folder, words)
    first, second = shown(terminal).splitlines()
    assert run.wait() == 1
    assert first == "error: S1 none.shp"
    assert second.startswith("hint: ") and "(there is no such file)" in second
    piped = subprocess.run([tool.find_tool(), *words], cwd=folder, capture_output=True, text=True)
    assert (piped.stderr, piped.returncode) == ("error: S1 none.shp\n", 1)


def test_hints_leave_answers_as_they_are(folder):
    (folder / "city.prj").write_text('PROJCS["a",UNIT["metre",1]]')
    run, terminal = begun_at_a_terminal(folder, ["check", "city.shp", "city.shp", "--unit", "mm"])
    said = shown(terminal).splitlines()
    assert (run.stdout.read(), run.wait()) == (b"tiling 1 20000\n", 0)
    assert said == [
        "hint: the city has 0.0100000 m2, x from 0.000 to 0.100 m, y from 0.000 to 0.100 m",
        "hint: city.prj says m, and --unit mm was given",
    ]


def test_progress_of_a_run_that_waits(folder):
    os.mkfifo(folder / "points")
    words = ["locate", "city.shp", "city.shp", "--unit", "mm", "--points", "points"]
    run, terminal = begun_at_a_terminal(folder, words)
    with open(folder / "points", "wb") as points:
        time.sleep(3)
        points.write(b"50 50\n")
    said = shown(terminal).splitlines()
    assert (run.stdout.read(), run.wait()) == (b"50 50 inside 1\n", 0)
    assert said == ["progress: 2 s"]


def test_no_progress_of_a_short_run_or_elsewhere(folder):
    run, terminal = begun_at_a_terminal(folder, ["area", "city.shp", "--unit", "mm"])
    assert (shown(terminal), run.wait()) == ("", 0)
    os.mkfifo(folder / "points")
    words = [tool.find_tool(), "locate", "city.shp", "city.shp", "--unit", "mm", "--points", "points", "--hints"]
    piped = subprocess.Popen(words, cwd=folder, stdout=subprocess.PIPE, stderr=subprocess.PIPE)
    with open(folder / "points", "wb") as points:
        time.sleep(3)
        points.write(b"50 50\n")
    assert piped.communicate() == (b"50 50 inside 1\n", b"")


def test_a_layer_of_gdal_in_its_own_unit(tmp_path):
    """GDAL's own projection files: metres, US survey feet and degrees."""
    for code, said in (("EPSG:2193", "1 20000000000\n"), ("EPSG:2263", ""), ("EPSG:4167", "")):
        main = tmp_path / f"{code[5:]}.shp"
        gpd.GeoDataFrame(geometry=[box(0, 0, 100, 100)], crs=code).to_file(main)
        ran = subprocess.run([tool.find_tool(), "area", str(main), "--hints"], capture_output=True, text=True)
        assert ran.stdout == said.replace("20000000000", str(2 * 100_000**2))
        assert ran.returncode == (0 if said else 2)
        if not said:
            assert ("none of mm, cm and m" if code == "EPSG:2263" else "says degrees") in ran.stderr


SYSTEMS = [2193, 27700, 3857, 2056, 5514, 32760, 2263, 2927, 3081, 4326, 4167, 7405, 6362, 5555]
EDITIONS = ["WKT1_ESRI", "WKT1_GDAL", "WKT2_2019"]


def unit_of_proj(system: pyproj.CRS) -> str:
    """What PROJ says of the unit of a system's plane, as the program's hint has it."""
    plane = system.sub_crs_list[0] if system.is_compound else system
    if plane.is_geographic:
        return "degrees"
    metres = plane.axis_info[0].unit_conversion_factor
    return "m" if metres == 1.0 else "none of mm, cm and m"


@pytest.mark.parametrize("edition", EDITIONS)
def test_a_unit_is_what_proj_says(folder, edition):
    """Planes, globes and systems with heights, in metres and in feet, in each edition of well-known text."""
    for code in SYSTEMS:
        system = pyproj.CRS.from_epsg(code)
        (folder / "city.prj").write_text(system.to_wkt(edition))
        ran = subprocess.run(
            [tool.find_tool(), "area", "city.shp", "--hints"], cwd=folder, capture_output=True, text=True
        )
        said, wanted = ran.stderr.splitlines()[-1], unit_of_proj(system)
        assert said.startswith("hint: ")
        if wanted == "m":
            assert said == "hint: --unit m is taken from city.prj"
        else:
            assert wanted in said


def test_a_coordinate_is_written_exactly(tmp_path):
    """The hint has each digit of the double, as Python's own decimals have them."""
    from decimal import Decimal

    for x in (12.3456789, -0.00150000001, 123456.0004999, 0.0031):
        content = layers.polygon([(x, 0.0), (0.0, 500.0), (700.0, 500.0), (x, 0.0)])
        (tmp_path / "city.shp").write_bytes(layers.main_file([content]))
        ran = subprocess.run(
            [tool.find_tool(), "area", "city.shp", "--unit", "m", "--hints"],
            cwd=tmp_path,
            capture_output=True,
            text=True,
        )
        assert "F9 C2 main record 1" in ran.stderr
        assert f"city.shp has {Decimal(x):f} there" in ran.stderr


def hint_with_input(folder: Path, given) -> List[str]:
    """What a search for the points of standard input says, where that is this file or folder."""
    words = [tool.find_tool(), "locate", "city.shp", "city.shp", "--unit", "mm", "--points", "-", "--hints"]
    ran = subprocess.run(words, cwd=folder, stdin=given, capture_output=True, text=True)
    assert ran.returncode == 1
    return ran.stderr.splitlines()


def test_standard_input_that_is_not_read(folder):
    """A folder, and more than 64 MiB: the hint names no file that would be missing."""
    said = [
        "error: S1 -",
        "hint: a file that cannot be opened or read, or is longer than 64 MiB (it is standard input); give at most "
        "64 MiB there, or the path of a file",
    ]
    given = os.open(folder, os.O_RDONLY)
    assert hint_with_input(folder, given) == said
    os.close(given)
    long = folder / "long"
    with open(long, "wb") as made:
        made.truncate((64 << 20) + 1)
    with open(long, "rb") as given:
        assert hint_with_input(folder, given) == said


def test_a_socket_as_a_layer(folder):
    with socket.socket(socket.AF_UNIX) as made:
        made.bind(str(folder / "parcels.shp"))
        words = [tool.find_tool(), "check", "city.shp", "parcels.shp", "--unit", "mm", "--hints"]
        ran = subprocess.run(words, cwd=folder, capture_output=True, text=True)
    assert ran.returncode == 1
    assert "(it is a pipe, a socket or a device)" in ran.stderr


def test_a_pipe_is_not_opened_again_for_a_hint(folder):
    """Points of a pipe that are refused: the pipe has no writer any more, and the hint does not wait for one."""
    os.mkfifo(folder / "points")
    words = [tool.find_tool(), "locate", "city.shp", "city.shp", "--unit", "mm", "--points", "points", "--hints"]
    run = subprocess.Popen(words, cwd=folder, stdout=subprocess.PIPE, stderr=subprocess.PIPE, text=True)
    with open(folder / "points", "wb") as points:
        points.write(b"5,5\n")
    _, said = run.communicate(timeout=60)
    assert run.returncode == 1 and "(usual cause: two spaces" in said


@pytest.mark.skipif(os.geteuid() != 0, reason="only root gives a file to another user")
def test_a_file_of_another_user_in_a_sticky_folder(folder):
    """What stands there may not be replaced, though the disk has room and a new file may be made."""
    os.chmod(folder, 0o1777)
    (folder / "new.shp").write_bytes(b"old")
    words = [tool.find_tool(), "export", "city.shp", "city.shp", "--unit", "mm", "--out", "new", "--hints"]
    ran = subprocess.run(words, cwd=folder, user=65534, group=65534, capture_output=True, text=True)
    assert ran.returncode == 1
    assert ran.stderr.splitlines()[1] == (
        "hint: writing failed (new.shp is another user's, and in its folder nobody replaces a file of another); "
        "write under another BASE"
    )
    assert sorted(it.name for it in folder.iterdir()) == ["city.shp", "new.shp"]


def test_no_right_to_write(folder):
    """A folder in which nothing may be made: who is root may, and is told nothing."""
    (folder / "closed").mkdir(mode=0o500)
    ran = subprocess.run(
        [tool.find_tool(), "export", "city.shp", "city.shp", "--unit", "mm", "--out", "closed/new", "--hints"],
        cwd=folder,
        capture_output=True,
        text=True,
    )
    if os.geteuid() == 0:
        assert (ran.returncode, sorted(it.name for it in (folder / "closed").iterdir())) == (0, ["new.shp", "new.shx"])
    else:
        assert ran.returncode == 1 and "there is no right to write there" in ran.stderr
