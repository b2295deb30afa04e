"""Runs one program on one layer, in a process of its own, and prints what it says and takes, as JSON.

    python3 -m compare.measure NUMBER LAYER DISTANCE BUILT

NUMBER is the program's place in `PEERS`; DISTANCE is in the layer's unit; BUILT is the folder of the built programs and
of the database.
"""

from __future__ import annotations

import json
import resource
import sys
from pathlib import Path

from compare.database import Database
from compare.peers import PEERS, plain, topology


def main() -> None:
    """Runs and prints."""
    peer, layer, distance, built = PEERS[int(sys.argv[1])], Path(sys.argv[2]), float(sys.argv[3]), Path(sys.argv[4])
    cost = built / "database/cost"
    cost.unlink(missing_ok=True)
    if peer.run in (plain, topology):
        Database(built).take(layer)
    who = resource.RUSAGE_SELF if peer.is_here else resource.RUSAGE_CHILDREN
    before = resource.getrusage(resource.RUSAGE_CHILDREN)
    said = peer.run(layer, distance, built)
    after = resource.getrusage(who)
    seconds, kib = after.ru_utime + after.ru_stime, after.ru_maxrss
    if not peer.is_here:
        seconds -= before.ru_utime + before.ru_stime
    if cost.is_file():
        of_server, peak = cost.read_text().split()
        seconds, kib = seconds + float(of_server), int(peak)
    rows = [[it.kind, it.numbers, it.place and it.place.wkb_hex, it.area] for it in said]
    print(json.dumps({"said": rows, "seconds": seconds, "mib": kib / 1024}))


if __name__ == "__main__":
    main()
