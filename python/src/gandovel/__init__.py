"""From a GIS to the proved verdict and back.

The functions are `prepare`, `check`, `area`, `locate`, `overlay`, `apply`, `report` and `back`. A `Session` runs the
proved program as a register that stays, with a `Desk` for each clerk. What is exact comes from the proved program
`parcel_tool`; what is measured in floating point is said to be so.

What is named here is imported when it is first asked for: GeoPandas takes a second, and `gandovel many` has no use for
it until a city is refused.
"""
import sys
from importlib import import_module
from typing import TYPE_CHECKING, Any, Dict, List

if TYPE_CHECKING:
    from .errors import (
        BadAnswer,
        CardsMissing,
        DeskTaken,
        JournalBroken,
        JournalInUse,
        JournalRefused,
        NoCard,
        NoMemory,
        NoSuchLine,
        NoVersion,
        NoWindow,
        NoZones,
        OperatorsOnly,
        PartlyMade,
        ProgramEnded,
        Refused,
        RefusedEdit,
        SessionClosed,
        SessionError,
        TimedOut,
    )
    from .faults.mend import Mended, mend
    from .live.answers import Accepted, Outline, Overlaps, Place, Tiling
    from .live.journals import Journal, JournalRecord, read_journal
    from .live.open_register import OpenRegister, open
    from .live.session import Desk, Session
    from .live.transaction import Transaction
    from .out.exports import back
    from .out.report import Report, report
    from .out.verdict import Verdict
    from .program.applied import apply
    from .program.commands import area, check, locate, overlay
    from .program.edits import Id, Insert, Merge, Move, Split, Straighten
    from .reading.prepare import prepare
    from .reading.prepared import Prepared, load

__all__ = [
    "Accepted",
    "BadAnswer",
    "CardsMissing",
    "Desk",
    "DeskTaken",
    "Id",
    "Insert",
    "Journal",
    "JournalBroken",
    "JournalInUse",
    "JournalRecord",
    "JournalRefused",
    "Mended",
    "Merge",
    "Move",
    "NoCard",
    "NoMemory",
    "NoSuchLine",
    "NoVersion",
    "NoWindow",
    "NoZones",
    "OpenRegister",
    "OperatorsOnly",
    "Outline",
    "Overlaps",
    "PartlyMade",
    "Place",
    "Prepared",
    "ProgramEnded",
    "Refused",
    "RefusedEdit",
    "Report",
    "Session",
    "SessionClosed",
    "SessionError",
    "Split",
    "Straighten",
    "Tiling",
    "TimedOut",
    "Transaction",
    "Verdict",
    "apply",
    "area",
    "back",
    "check",
    "load",
    "locate",
    "mend",
    "open",
    "overlay",
    "prepare",
    "read_journal",
    "report",
]
__version__ = "2.0.0"

_NAMES = {
    "faults.mend": "Mended mend",
    "errors": "BadAnswer CardsMissing DeskTaken JournalBroken JournalInUse JournalRefused NoCard NoMemory NoSuchLine "
    "NoVersion NoWindow NoZones OperatorsOnly PartlyMade ProgramEnded Refused RefusedEdit SessionClosed "
    "SessionError TimedOut",
    "live.answers": "Accepted Outline Overlaps Place Tiling",
    "live.journals": "Journal JournalRecord read_journal",
    "live.open_register": "OpenRegister open",
    "live.session": "Desk Session",
    "live.transaction": "Transaction",
    "out.exports": "back",
    "out.report": "Report report",
    "out.verdict": "Verdict",
    "program.applied": "apply",
    "program.commands": "area check locate overlay",
    "program.edits": "Id Insert Merge Move Split Straighten",
    "reading.prepare": "prepare",
    "reading.prepared": "Prepared load",
}
_MODULES: Dict[str, str] = {name: module for module, names in _NAMES.items() for name in names.split()}
"""The module that has each name."""


def __getattr__(name: str) -> Any:
    if name not in _MODULES:
        raise AttributeError(f"module {__name__!r} has no attribute {name!r}")
    value = getattr(import_module(f".{_MODULES[name]}", __name__), name)
    if "pandas" in sys.modules:
        import_module(".accessor", __name__)
    globals()[name] = value
    return value


def __dir__() -> List[str]:
    return sorted({*globals(), *__all__})


if "pandas" in sys.modules:
    import_module(".accessor", __name__)
