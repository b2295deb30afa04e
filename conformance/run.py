#!/usr/bin/env python3
"""Tries a program on the cases of this folder, and prints where its answers differ.

    python3 -m conformance.run [--within PARTS] -- COMMAND..     at the top

COMMAND is run once for each case. It reads the case as one line of JSON on standard input, with whole paths and without
the answer, and prints one JSON object with what it can answer, under the names that `README.md` has. Areas may be off
by 1 (of twice an area in mm²), or by PARTS of the right number. The status is 1 where an answer differs.
"""

from __future__ import annotations

import argparse
import json
import subprocess
import sys
from fractions import Fraction
from pathlib import Path
from typing import Any, Dict, Iterator, List, Sequence, Tuple

HERE = Path(__file__).resolve().parent
SECONDS = 300
"""The most that a program has for a case; the slowest known one needs three."""
LAYERS = ("city", "parcels", "zones")
Answer = Dict[str, Any]


def cases() -> List[Answer]:
    """All cases, a line each."""
    return [json.loads(line) for line in (HERE / "cases.jsonl").read_text().splitlines()]


def asked(case: Answer) -> str:
    """What a program is given of a case."""
    given = {key: it for key, it in case.items() if key != "answer"}
    return json.dumps(given | {it: str(HERE / case[it]) for it in LAYERS if it in case})


def answer_of(command: Sequence[str], case: Answer) -> Answer:
    """What the program says; a text under `failed` where it gives no answer."""
    try:
        ran = subprocess.run(command, input=asked(case), capture_output=True, text=True, timeout=SECONDS, check=False)
        said: Answer = json.loads(ran.stdout)
    except (OSError, ValueError, subprocess.TimeoutExpired) as fault:
        return {"failed": " ".join(str(fault).split())[:200]}
    return said


def near(right: object, said: object, within: Fraction) -> bool:
    """Whether an area is near enough."""
    try:
        wanted, given = Fraction(str(right)), Fraction(str(said))
    except ValueError:
        return False
    return abs(wanted - given) <= max(Fraction(1), within * abs(wanted))


def as_map(value: Any) -> Dict[Tuple[str, ...], Any]:
    """Areas by what they belong to: of an object by its keys, of a list of rows by all but the last of each."""
    if isinstance(value, dict):
        return {(str(key),): it for key, it in value.items()}
    if isinstance(value, list):
        return {tuple(str(it) for it in row[:-1]): row[-1] for row in value}
    return {(): value}


def same_areas(right: Any, said: Any, within: Fraction) -> bool:
    """Whether areas are of the same things, and near enough."""
    wanted, given = as_map(right), as_map(said)
    return wanted.keys() == given.keys() and all(near(it, given[key], within) for key, it in wanted.items())


def faults_agree(right: List[List[str]], said: List[List[str]]) -> bool:
    """Whether each planted fault is named with its parcels, and no other one."""
    left = list(right)
    for kind, *numbers in said:
        found = next((it for it in left if it[0] == kind and set(it[1:]) <= set(numbers)), None)
        if found is None:
            return False
        left.remove(found)
    return not left


def judged(right: Answer, said: Answer, within: Fraction) -> Iterator[Tuple[str, str]]:
    """For each question of a case `right`, `wrong` or `not answered`."""
    for name, wanted in right.items():
        if name not in said:
            yield name, "not answered"
        elif name == "faults":
            yield name, "right" if faults_agree(wanted, said[name]) else "wrong"
        elif name.endswith("area2"):
            yield name, "right" if same_areas(wanted, said[name], within) else "wrong"
        else:
            yield name, "right" if said[name] == wanted else "wrong"


def main() -> int:
    """Tries all cases; the status."""
    parser = argparse.ArgumentParser(prog="conformance", description=(__doc__ or "").splitlines()[0])
    parser.add_argument("--within", type=Fraction, default=Fraction(0), help="how much an area may be off, as a part")
    parser.add_argument("--only", help="one case by its name")
    parser.add_argument("command", nargs="+", help="the program, with its words")
    options = parser.parse_args()
    counts: Dict[str, Dict[str, int]] = {}
    for case in cases():
        if options.only in (None, case["case"]):
            said = answer_of(options.command, case)
            for name, verdict in judged(case["answer"], said, options.within):
                row = counts.setdefault(name, {"right": 0, "wrong": 0, "not answered": 0})
                row[verdict] += 1
                if verdict == "wrong" or "failed" in said:
                    wanted, given = case["answer"][name], said.get(name, said.get("failed"))
                    print(f"{case['case']} ({case['tries']}): {name}: {str(given)[:150]}, right is {str(wanted)[:150]}")
    for name, row in counts.items():
        print(f"{name}: " + ", ".join(f"{count} {verdict}" for verdict, count in row.items()))
    return 1 if any(row["wrong"] for row in counts.values()) else 0


if __name__ == "__main__":
    sys.exit(main())
