"""The demonstration of the example town: the recording is what a terminal shows, and the page works from its file."""
from __future__ import annotations

import json
import os
import subprocess
import sys
from pathlib import Path
from typing import List, Tuple

import pytest
from selenium.webdriver.common.by import By
from selenium.webdriver.remote.webdriver import WebDriver

from test_map import chromium  # noqa: F401

ROOT = Path(__file__).resolve().parents[2]
TOOL = Path(os.environ.get("GANDOVEL_TOOL", ROOT / "crates/parcel_tool/out/parcel_tool"))


@pytest.fixture(scope="module")
def made(tmp_path_factory: pytest.TempPathFactory) -> Path:
    """The demonstration, made now."""
    folder = tmp_path_factory.mktemp("demo")
    subprocess.run([sys.executable, str(ROOT / "scripts/demo"), str(TOOL), str(folder)], check=True)
    return folder


def sessions_of(text: str) -> Tuple[float, List[Tuple[str, str]]]:
    """How long a recording lasts, and its commands with what each prints: it is played as a terminal would."""
    head, *events = [json.loads(line) for line in text.splitlines()]
    assert head["version"] == 2 and head["width"] > 0 and head["height"] > 0
    times = [at for at, _, _ in events]
    assert times == sorted(times) and all(kind == "o" for _, kind, _ in events)
    screen = "".join(shown for _, _, shown in events).replace("\r\n", "\n")
    assert "\r" not in screen and all(len(line) <= head["width"] for line in screen.split("\n"))
    blocks = ("\n" + screen).split("\n$ ")[1:]
    parted = [block.partition("\n")[::2] for block in blocks]
    return times[-1], [(line, printed) for line, printed in parted if line and not line.startswith("#")]


def test_recording_is_replayed(tmp_path: Path) -> None:
    """Each command of the kept recording is run in a copy of the town, and prints what is shown; two minutes."""
    seconds, commands = sessions_of((ROOT / "examples/demo/town.cast").read_text())
    assert 100 <= seconds <= 130 and len(commands) == 8
    (tmp_path / "bin").mkdir()
    (tmp_path / "bin/parcel_tool").symlink_to(TOOL)
    town = tmp_path / "town"
    subprocess.run(["cp", "-r", str(ROOT / "examples/town"), str(town)], check=True)
    environment = {"PATH": f"{tmp_path}/bin:{os.environ['PATH']}", "LC_ALL": "C.UTF-8"}
    for line, shown in commands:
        ran = subprocess.run(
            ["bash", "-c", line],
            cwd=town,
            env=environment,
            stdout=subprocess.PIPE,
            stderr=subprocess.STDOUT,
            timeout=60,
        )
        assert ran.stdout.decode().rstrip("\n") == shown.rstrip("\n"), line


def test_recording_and_page_that_are_kept_are_of_today(made: Path) -> None:
    """What stands in examples/demo is what the script makes, but for the version that the page names."""
    assert (made / "town.cast").read_text() == (ROOT / "examples/demo/town.cast").read_text()
    kept, new = ((it / "town.html").read_text().split('"version":"')[1] for it in (ROOT / "examples/demo", made))
    assert kept.partition('"')[2] == new.partition('"')[2]


def test_page_needs_no_server(chromium: WebDriver, made: Path) -> None:  # noqa: F811
    """Opened as a file it shows the town, each deed with its verdict and areas, and the gap."""
    chromium.get(f"file://{made}/town.html")
    version = subprocess.check_output([str(TOOL), "--version"], text=True).partition(", texts ")[0]
    assert chromium.find_element(By.ID, "version").text == f"{version})"
    buttons = chromium.find_elements(By.CSS_SELECTOR, "#deeds button")
    assert len(buttons) == 5

    def shown(at: int) -> Tuple[List[str], str, int]:
        buttons[at].click()
        assert buttons[at].get_attribute("aria-current") == "true"
        numbers = [it.text for it in chromium.find_elements(By.CSS_SELECTOR, "#map text")]
        rows = chromium.find_elements(By.CSS_SELECTOR, "#areas tr")
        return numbers, chromium.find_element(By.ID, "verdict").text, len(rows)

    assert shown(0)[0] == ["1", "2", "3", "4", "5"] and "tiling 5 19200000000" in shown(0)[1]
    assert shown(1)[0] == ["1", "2", "4", "5", "6", "7"] and "tiling 6 19200000000" in shown(1)[1]
    assert shown(2)[0] == ["1", "2", "6", "7", "8"] and shown(2)[2] > 5
    assert "tiling 5 19200000000" in shown(3)[1]
    assert "error: parcels: H2 90000 30000 90000 80000 net 1" in shown(4)[1]
    assert len(chromium.find_elements(By.CSS_SELECTOR, "#map .edge")) == 4
