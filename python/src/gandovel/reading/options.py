"""The options of `prepare`, beside a register that is prepared already: there they would change nothing, so they are
refused."""
from __future__ import annotations

import inspect
from functools import lru_cache
from typing import Any, Dict, List

from ..errors import Refused
from .prepared import Prepared


@lru_cache(maxsize=None)
def defaults() -> Dict[str, Any]:
    """The options by their names in Python, and what they are where they are not told: as `prepare` has them."""
    from .prepare import prepare

    told = inspect.signature(prepare).parameters
    return {name: one.default for name, one in told.items() if name not in ("parcels", "progress")}


def test_no_option(prepared: Prepared, told: Dict[str, Any], what: str) -> None:
    """Refuses (P18) options that are told of a register that is prepared already; `what` names it.

    Options that are not told are missing, None or their default. One that says what holds anyway (the column of the
    parcels' numbers) is no contradiction.
    """
    wrong = [name for name in defaults() if _is_told(name, told.get(name)) and not _holds(prepared, name, told[name])]
    if wrong:
        raise Refused("P18", _advice(wrong, told, what))


def _is_told(name: str, value: Any) -> bool:
    return (
        value is not None and value is not False and not (isinstance(value, (str, float)) and value == defaults()[name])
    )


def _holds(prepared: Prepared, name: str, value: Any) -> bool:
    return (name, value) in (("number", prepared.number), ("zone", prepared.zone))


def _advice(wrong: List[str], told: Dict[str, Any], what: str) -> str:
    """What is wrong with these options, and the command that does what they say."""
    names = [f"--{name.replace('_', '-')}" for name in wrong]
    words = [name if told[key] is True else f"{name} {_word(told[key])}" for key, name in zip(wrong, names)]
    some = f"{', '.join(names)} {'is an option' if len(names) == 1 else 'are options'}"
    return (
        f"{what} is prepared already, and {some} of what prepares it: leave them out, or prepare the layers anew: "
        f"gandovel prepare PARCELS {' '.join(words)} --out FOLDER"
    ).replace("leave them out", "leave it out" if len(names) == 1 else "leave them out")


def _word(value: Any) -> str:
    return str(value) if isinstance(value, (str, int, float)) or hasattr(value, "__fspath__") else "LAYER"
