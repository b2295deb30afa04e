"""The one table of all codes: what it says is what the program, the page and the package say."""
from __future__ import annotations

import os
import subprocess
import sys
import tomllib
from pathlib import Path
from typing import Any, Dict, List

from gandovel.codes import OWN, lines_of

ROOT = Path(__file__).resolve().parents[2]
TOOL = Path(os.environ.get("GANDOVEL_TOOL", ROOT / "crates/parcel_tool/out/parcel_tool"))
ROWS: List[Dict[str, Any]] = tomllib.loads((ROOT / "python/src/gandovel/codes.toml").read_text())["code"]
OF_PROGRAM = [row for row in ROWS if row["by"] in ("parcel_tool", "session", "edits")]
ONLY_IN_TEXTS = ("no base",)
"""What the program prints in words of its own and has no code for."""


def test_page_program_and_sources_agree() -> None:
    """The gate's script finds nothing that differs; and every code that the package refuses by has a row."""
    ran = subprocess.run([sys.executable, str(ROOT / "scripts/codes_page"), "--check"], capture_output=True, text=True)
    assert (ran.returncode, ran.stderr) == (0, "")


def test_program_prints_the_table() -> None:
    """`parcel_tool explain CODE` prints the row's words, of each code that is the program's, and lists no other one."""
    for row in OF_PROGRAM:
        if row["code"] not in ONLY_IN_TEXTS:
            ran = subprocess.run([str(TOOL), "explain", *row["code"].split()], capture_output=True, text=True)
            assert ran.returncode == 0, row["code"]
            cause = [f"usual cause: {row['cause']}"] if "cause" in row else []
            wanted = [f"{row['code']}: {row['meaning']}", *cause, f"what to do: {row['remedy']}"]
            assert ran.stdout.splitlines()[: len(wanted)] == wanted
    listed = subprocess.check_output([str(TOOL), "explain"], text=True)
    assert all(f"{row['code']}: " in listed for row in OF_PROGRAM if row["code"] not in ONLY_IN_TEXTS)


def test_package_has_its_own() -> None:
    """Codes of the package begin with P, T and W, have a meaning and what to do, and print as the program's do."""
    assert {code[0] for code in OWN} == {"P", "T", "W"}
    assert all(words.meaning and words.remedy for words in OWN.values())
    assert lines_of("T11", OWN["T11"])[0].startswith("T11: the verdict is open")


def test_no_code_stands_twice() -> None:
    codes = [row["code"] for row in ROWS]
    assert len(codes) == len(set(codes))


def test_package_wants_its_own_major_version() -> None:
    """The program that the package takes is of the package's own major version."""
    from gandovel import __version__
    from gandovel.program.tool import WANTED

    assert WANTED == int(__version__.split(".")[0])
