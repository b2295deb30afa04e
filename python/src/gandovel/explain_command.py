"""The command `gandovel explain`: codes in words, the program's and the package's own."""
from __future__ import annotations

import argparse
import re
import sys
from typing import Any, List

from .codes import OWN, lines_of


def add_explain(commands: Any) -> None:
    """Adds it to the commands of a command line."""
    command = commands.add_parser("explain", help="what a code means, what usually causes it, what to do")
    command.add_argument("code", metavar="CODE", nargs="*", help="as it was printed, P6 or F9 C2; without it, all")


def run_explain(options: argparse.Namespace) -> int:
    """Prints codes in words; the status is 2 where there is no such code."""
    code = " ".join(options.code).rstrip(":")
    told = _own(code) if code in OWN else [*_of_program(code), *_own(code)]
    if not told:
        print(f"error: there is no code {code}; `gandovel explain` lists all", file=sys.stderr)
        return 2
    print("\n".join(told))
    return 0


def _own(code: str) -> List[str]:
    """The package's words on a code; without one a line for each, as the program lists its own."""
    if code:
        return lines_of(code, OWN[code]) if code in OWN else []
    return [f"{name}: {words.meaning}" for name, words in OWN.items()]


def _of_program(code: str) -> List[str]:
    """The program's words on a code, or on all; none where it has none."""
    from .program.tool import run_explained

    wanted = re.sub(r"^(?:city|parcels|zones|points|clerk \d+): ", "", code)
    return run_explained([wanted] if wanted else [])
