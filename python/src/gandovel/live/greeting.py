"""Finding a desk of a session at its pipes, with what an earlier client left there behind it."""
from __future__ import annotations

import re
import secrets
from typing import Callable, Optional

from ..errors import ProgramEnded
from .answers import test_error
from .pipes import Wire, open_pipes, pause

LINE_END = b"#\n"
"""Ends what an earlier client left of a line, so that it is no edit."""


def greeted(path: str, until: Optional[float], test_running: Callable[[], None]) -> Wire:
    """A wire to a desk that answers. `test_running` raises where no session is there any more."""
    while True:
        test_running()
        wire = Wire(*open_pipes(path, until, test_running))
        try:
            _greet(wire, until)
            return wire
        except ProgramEnded:  # what an earlier client left is at an end: the desk opens its pipes anew
            wire.close()
            pause(until)
        except BaseException:
            wire.close()
            raise


def _greet(wire: Wire, until: Optional[float]) -> None:
    """Asks for a parcel that nobody asks for, and reads up to the answer: what comes before is an earlier client's."""
    nobody = 2**62 + secrets.randbits(61)
    wire.put(LINE_END)
    wire.put(b"parcel %d\n" % nobody)
    while True:
        line = wire.line(until).decode("utf-8", "backslashreplace")
        if re.fullmatch(f"parcel [0-9]+ {nobody} none", line):
            wire.test_heard()
            return
        if line in ("error: closed", "error: K4", "error: no memory"):
            test_error(line)
