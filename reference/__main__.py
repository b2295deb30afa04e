"""Compares the built program with the definitions on drawn cases.

    python3 -m reference                        some hundred cases of each kind
    python3 -m reference --answers 100000       until so many answers were compared
    python3 -m reference --only session 17      one case again, by its kind and seed

The program is `GANDOVEL_TOOL`, else `crates/parcel_tool/out/parcel_tool`. Status 1 where an answer differs.
"""

from __future__ import annotations

import argparse
import os
import sys
import tempfile
from concurrent.futures import ProcessPoolExecutor, as_completed
from pathlib import Path
from typing import List, Tuple

from reference.compare import KINDS, Judge, judge_one

# Cases that one process judges before it reports.
CASES_AT_ONCE = 20


def judge_some(tool: str, folder: str, kind: str, first: int) -> Tuple[str, int, List[str]]:
    """Judges a run of cases of one kind; how many answers were compared, and what differed."""
    judge, faults = Judge(tool, Path(folder) / f"{kind}-{first}"), []
    for seed in range(first, first + CASES_AT_ONCE):
        fault = judge_one(judge, kind, seed)
        if fault is not None:
            faults.append(fault)
            judge.folder = judge.folder.with_name(f"{kind}-after-{seed}")
            judge.folder.mkdir()
    return kind, judge.answers, faults


def words() -> argparse.Namespace:
    """The command line."""
    parser = argparse.ArgumentParser(prog="reference", description=(__doc__ or "").splitlines()[0])
    parser.add_argument("--answers", type=int, default=3000, help="how many answers to compare at least")
    parser.add_argument("--from-seed", type=int, default=0, help="the first seed")
    parser.add_argument("--jobs", type=int, default=os.cpu_count(), help="how many processes")
    parser.add_argument("--only", nargs=2, metavar=("KIND", "SEED"), help="one case, by its kind and seed")
    return parser.parse_args()


def main() -> int:
    """Judges cases of each kind in turn until enough answers were compared."""
    asked, root = words(), Path(__file__).resolve().parent.parent
    tool = os.environ.get("GANDOVEL_TOOL", str(root / "crates/parcel_tool/out/parcel_tool"))
    folder = tempfile.mkdtemp(prefix="reference-")
    if not os.access(tool, os.X_OK):
        print(f"reference: {tool} is not there: build it, or name another by GANDOVEL_TOOL", file=sys.stderr)
        return 2
    if asked.only:
        fault = judge_one(Judge(tool, Path(folder)), asked.only[0], int(asked.only[1]))
        print(fault or "the same")
        return int(fault is not None)
    counts, seed = dict.fromkeys(KINDS, 0), asked.from_seed
    faults: List[str] = []
    with ProcessPoolExecutor(asked.jobs) as pool:
        while sum(counts.values()) < asked.answers and not faults:
            jobs = [
                pool.submit(judge_some, tool, folder, kind, seed + n * CASES_AT_ONCE)
                for kind in KINDS
                for n in range(max(1, asked.jobs or 1))
            ]
            seed += CASES_AT_ONCE * max(1, asked.jobs or 1)
            for job in as_completed(jobs):
                kind, answers, differing = job.result()
                counts[kind] += answers
                faults += differing
    for fault in faults:
        print(f"DIFFERS: {fault}")
    told = ", ".join(f"{kind} {count}" for kind, count in counts.items())
    print(f"{told}: {sum(counts.values())} answers compared, {len(faults)} cases differ")
    return int(bool(faults))


if __name__ == "__main__":
    sys.exit(main())
