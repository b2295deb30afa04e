"""What the command line of `gandovel` says of itself, as JSON: for its man page.

Debian's Python runs it: the package's modules that it reads need tqdm and NumPy.
"""
import argparse
import json
import sys
from pathlib import Path
from typing import Any, Dict, List

sys.dont_write_bytecode = True
sys.path.insert(0, str(Path(__file__).resolve().parent.parent / "python/src"))
from gandovel.cli import parser  # noqa: E402
from gandovel.codes import OWN  # noqa: E402


def names_of(action: argparse.Action) -> List[str]:
    """The names of an action's values, as its help shows them."""
    if action.nargs == 0:
        return []
    metavar = action.metavar or action.dest.upper()
    return list(metavar) if isinstance(metavar, tuple) else [metavar]


def told(action: argparse.Action) -> Dict[str, Any]:
    """An option, or a word that has its place."""
    return {
        "words": list(action.option_strings),
        "values": names_of(action),
        "choices": [str(choice) for choice in action.choices or ()],
        "says": action.help or "",
    }


def main() -> None:
    top = parser()
    (group,) = (action for action in top._actions if isinstance(action, argparse._SubParsersAction))
    about = {action.dest: action.help for action in group._choices_actions}
    commands = []
    for name, one in group.choices.items():
        shown = [told(action) for action in one._actions if action.help != argparse.SUPPRESS]
        usage = " ".join(one.format_usage().removeprefix("usage: ").split())
        commands.append({"name": name, "about": about[name], "usage": usage, "actions": shown})
    options = [told(action) for action in top._actions if action.option_strings]
    says = {"about": top.description, "status": top.epilog, "commands": commands, "options": options, "codes": OWN}
    print(json.dumps(says))


main()
