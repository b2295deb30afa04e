#!/usr/bin/env python3
"""Says how many processor minutes each crate takes in a gate, its proofs, its tests' proofs and its mutants.

    benches/gate_times.py [SECONDS] > table     watches until no gate runs any more, looking every SECONDS (2)

It watches the provers that any of these starts on this machine, and reads the time that each has used from /proc. What
a prover takes beside others is more than it takes alone. One that lives for less than SECONDS is not seen whole. It
stands outside of the gate.
"""
import os
import re
import sys
import time
from collections import defaultdict
from pathlib import Path
from typing import Dict, Iterator, List, Tuple

TICKS = os.sysconf("SC_CLK_TCK")
GATES = re.compile(r"\brt ci\b|\bscripts/prove\b|\bscripts/wrong_bodies\b")


def processes() -> Iterator[Tuple[int, str, Path]]:
    """Each process with its command line and the folder that it works in."""
    for entry in Path("/proc").iterdir():
        if not entry.name.isdigit():
            continue
        try:
            words = (entry / "cmdline").read_bytes().decode(errors="replace").replace("\0", " ")
            yield int(entry.name), words, Path(os.readlink(entry / "cwd"))
        except OSError:
            continue


def fields_of(pid: int) -> List[str]:
    """What the system tells of a process, from its state on."""
    return (Path("/proc") / str(pid) / "stat").read_text().rsplit(")", 1)[1].split()


def seconds_of(fields: List[str]) -> float:
    """How many seconds of a processor a process has used. Its children are watched for themselves."""
    return sum(map(int, fields[11:13])) / TICKS


def is_below(pid: int, gates: List[int]) -> bool:
    """Whether one of these processes has started this one, or what started it."""
    while pid > 1:
        if pid in gates:
            return True
        pid = int(fields_of(pid)[1])
    return False


def kind_of(words: str, folder: Path) -> str:
    """What a prover does: proofs of a crate, proofs of its tests, or a mutant with its seed."""
    if "rt-edit" in str(folder) or "rt-seed" in str(folder):
        return "mutants"
    return "tests" if " --test" in words else "proofs"


def watch(pause: float) -> Dict[Tuple[str, str], float]:
    """Seconds by crate and kind, until none of `rt ci`, `scripts/prove` and `scripts/wrong_bodies` runs."""
    # by the time at which a process began, too, since numbers of processes come again
    seen: Dict[Tuple[int, str], Tuple[str, str, float]] = {}
    while True:
        there = list(processes())
        gates = [pid for pid, words, _ in there if GATES.search(words)]
        for pid, words, folder in there:
            found = re.search(r"rattle (?:build|check|test)\b.*--crate-name (\w+)", words)
            if not found:
                continue
            try:
                if is_below(pid, gates):
                    fields = fields_of(pid)
                    seen[pid, fields[19]] = (found.group(1), kind_of(words, folder), seconds_of(fields))
            except OSError:
                continue
        if not gates:
            break
        time.sleep(pause)
    total: Dict[Tuple[str, str], float] = defaultdict(float)
    for crate, kind, seconds in seen.values():
        total[crate, kind] += seconds
    return total


def main() -> None:
    total = watch(float(sys.argv[1]) if sys.argv[1:] else 2.0)
    kinds = ("proofs", "tests", "mutants")
    print("| Crate | " + " | ".join(kinds) + " | together |\n|---|" + "---|" * 4)
    crates = sorted({crate for crate, _ in total}, key=lambda it: -sum(total[it, kind] for kind in kinds))
    for crate in crates:
        minutes = [total[crate, kind] / 60 for kind in kinds]
        print(f"| {crate} | " + " | ".join(f"{it:.1f}" for it in minutes) + f" | {sum(minutes):.1f} |")
    print(f"| all | | | | {sum(total.values()) / 60:.0f} |")


if __name__ == "__main__":
    main()
