"""A small metropolis of nine districts, clerks that edit it over HTTP, and what an independent model makes of it."""
from __future__ import annotations

import os
import random
import re
import signal
import subprocess
import sys
import threading
import time
from collections import Counter, deque
from pathlib import Path
from typing import Any, Callable, Dict, List, Optional, Tuple

import geopandas as gpd
import numpy as np
import requests
from shapely.geometry import Polygon

import gandovel
from gandovel.cli import main
from gandovel.metropolis.cut import save_metropolis
from gandovel.program.layer_files import write_rings
from gandovel.program.tool import find_tool
from served import SECONDS, Served, moved, until
from session_register import Register, Ring, from_least, grid_city

CITY, RINGS = grid_city(9, 9, 3)
MOST = 10
"""Parcels a district at most: 81 are cut into nine districts, which are filled to nine tenths."""
DISTRICTS = 9
A_DISTRICT = 1_000_000_000


def in_metres(ring: Ring) -> Polygon:
    """A ring in mm as a shape in metres."""
    return Polygon([(x / 1000, y / 1000) for x, y in ring])


def metropolis(folder: Path) -> Path:
    """Writes the metropolis, with two zones."""
    rings = [moved(ring) for ring in RINGS]
    table = {"parcel_no": [f"A{at}" for at in range(1, len(rings) + 1)], "owner": "town"}
    parcels = gpd.GeoDataFrame(table, geometry=[in_metres(ring) for ring in rings], crs=25832)
    zones = gpd.GeoDataFrame({"zone": ["west", "east"]}, geometry=[in_metres(it) for it in zone_rings()], crs=25832)
    outline = gpd.GeoDataFrame(geometry=[in_metres(moved(CITY))], crs=25832)
    told = save_metropolis(gandovel.prepare(parcels, zones, city=outline), folder, MOST)
    assert told == f"{DISTRICTS} districts"
    return folder


def zone_rings() -> List[Ring]:
    """Two zones: the city cut by a line from a corner of its south side to one of its north side."""
    low = max(y for _, y in CITY)
    south = sorted(at for at, (_, y) in enumerate(CITY) if y == 0)
    north = sorted(at for at, (_, y) in enumerate(CITY) if y == low)
    first, second = south[len(south) // 2], north[len(north) // 2]
    return [moved(CITY[first : second + 1]), moved(CITY[second:] + CITY[: first + 1])]


class Clerk(threading.Thread):
    """Draws edits at random of what the server says that there is; each has a reason of its own, and a key."""

    def __init__(self, served: Served, seed: int, count: int) -> None:
        super().__init__(daemon=True)
        self.served, self.draw, self.count, self.name_ = served, random.Random(seed), count, f"clerk{seed}"
        self.made: Dict[str, Dict[str, Any]] = {}
        self.refused: Counter = Counter()
        self.wrong: List[str] = []
        self.session = requests.Session()

    def run(self) -> None:
        number = 0
        while len(self.made) < self.count and number < 20 * self.count:
            number += 1
            try:
                line = self.drawn()
                if line is not None:
                    self.sent(line, f"{self.name_}-{number}")
            except Exception as fault:
                self.wrong.append(repr(fault))
                return

    def sent(self, line: str, key: str) -> None:
        """Sends an edit until it is answered."""
        answer = self.asked("POST", f"/edits?why={key}", line, key)
        if answer.status_code == 200:
            self.made[key] = answer.json()
        elif answer.status_code in (409, 404, 410, 412):
            self.refused[answer.json()["code"]] += 1
        else:
            self.wrong.append(f"{line}: {answer.status_code} {answer.text[:300]}")

    def asked(self, method: str, path: str, body: Optional[str] = None, key: str = "") -> requests.Response:
        """A request, sent again where the server is gone or can't answer."""
        headers = {"Content-Type": "text/plain", **({"Idempotency-Key": key} if key else {})}
        end = time.monotonic() + SECONDS
        while True:
            try:
                data = None if body is None else body.encode()
                answer = self.session.request(
                    method, self.served.address + path, data=data, headers=headers, timeout=SECONDS
                )
                if answer.status_code not in (429, 503) or time.monotonic() > end:
                    return answer
            except requests.RequestException:
                if time.monotonic() > end:
                    raise
            time.sleep(0.1)

    def drawn(self) -> Optional[str]:
        """An edit's line."""
        parcels = self.asked("GET", "/parcels?limit=1000").json()["parcels"]
        edges = {(*a, *b): it["id"] for it in parcels for a, b in sides_of(it["ring_mm"])}
        one = self.draw.choice(parcels)
        ring = one["ring_mm"]
        kind = self.draw.choice(("split", "merge", "insert", "insert", "straighten", "move"))
        if kind == "split":
            first, last = self.draw.sample(ring, 2)
            return f"split {one['id']} {first[0]} {first[1]} {last[0]} {last[1]}"
        a, b = self.draw.choice(sides_of(ring))
        other = edges.get((*b, *a))
        if kind == "insert":
            if (a[0] + b[0]) % 2 or (a[1] + b[1]) % 2:
                return None
            return f"insert {a[0]} {a[1]} {b[0]} {b[1]} {(a[0] + b[0]) // 2} {(a[1] + b[1]) // 2}"
        if kind == "straighten":
            x, y = self.draw.choice(flat_of(ring) or ring)
            return f"straighten {x} {y}"
        if other is None or (kind == "merge" and self.draw.random() < 0.5):
            return None
        if kind == "merge":
            return f"merge {one['id']} {other}"
        if one["id"] // A_DISTRICT != other // A_DISTRICT:
            return None
        middle = (a[0] + b[0]) // 2 + self.draw.randrange(-99, 99), (a[1] + b[1]) // 2 + self.draw.randrange(-99, 99)
        return f"move {one['id']} {other} {a[0]} {a[1]} {middle[0]} {middle[1]} {b[0]} {b[1]}"


class Child:
    """A process that was forked, with what the tests use of `subprocess.Popen`."""

    def __init__(self, pid: int, stdout: Any) -> None:
        self.pid, self.stdout, self.returncode = pid, stdout, None

    def poll(self) -> Optional[int]:
        """Its status, where it has ended."""
        if self.returncode is None:
            pid, status = os.waitpid(self.pid, os.WNOHANG)
            self.returncode = os.waitstatus_to_exitcode(status) if pid else None
        return self.returncode

    def wait(self, seconds: float = SECONDS) -> Optional[int]:
        """Its status, once it has ended."""
        until(lambda: self.poll() is not None, seconds)
        return self.returncode

    def send_signal(self, number: int) -> None:
        """Sends it a signal."""
        if self.poll() is None:
            os.kill(self.pid, number)

    def kill(self) -> None:
        """`kill -9`."""
        self.send_signal(signal.SIGKILL)


class Forked(Served):
    """A server that is forked from the tests, which have all modules: a start takes a fifth of the time."""

    before: Callable[[], object] = staticmethod(lambda: None)
    """What is done in its process first."""

    def start(self) -> None:
        """Starts it, and waits until it says where it listens."""
        inward, outward = os.pipe()
        self.session.close()
        pid = os.fork()
        if not pid:
            try:
                os.dup2(outward, 1)
                errors = os.open(self.journal.with_name("serve.log"), os.O_WRONLY | os.O_APPEND | os.O_CREAT, 0o600)
                os.dup2(errors, 2)
                sys.stdout, sys.stderr = os.fdopen(1, "w"), os.fdopen(2, "w")
                self.before()
                words = ["serve", str(self.folder), "--journal", str(self.journal), "--port", "0", *self.options]
                os._exit(main(words))
            finally:
                os._exit(99)
        os.close(outward)
        self.process = Child(pid, os.fdopen(inward))
        line = self.process.stdout.readline()
        found = re.search(r"at (https?://\S+)/$", line)
        assert found, f"{line!r}: {self.journal.with_name('serve.log').read_text()[-2000:]}"
        self.address = found[1]


def sides_of(ring: List[Any]) -> List[Tuple[Any, Any]]:
    """The sides of a ring."""
    return list(zip(ring, ring[1:] + ring[:1]))


def flat_of(ring: List[Any]) -> List[Any]:
    """The corners of a ring at which it does not bend."""
    found = []
    for at, (x, y) in enumerate(ring):
        (ax, ay), (bx, by) = ring[at - 1], ring[(at + 1) % len(ring)]
        if (x - ax) * (by - y) == (y - ay) * (bx - x):
            found.append((x, y))
    return found


def entries_of(served: Served) -> List[Dict[str, Any]]:
    """All entries, page by page."""
    found: List[Dict[str, Any]] = []
    after = "0"
    while True:
        body = served.ask(f"/entries?after={after}&limit=7").json()
        if not body["records"]:
            return found
        found += body["records"]
        after = body["next"]


class Whole:
    """One fabric of the whole city, in the independent model, with the ids of all districts."""

    def __init__(self, first: List[Dict[str, Any]]) -> None:
        """Takes the parcels of the first version, as the server told them."""
        self.rings = [[(x, y) for x, y in it["ring_mm"]] for it in first]
        self.model = Register(moved(CITY), self.rings)
        self.ids = {it["id"]: at for at, it in enumerate(first, 1)}

    def replay(self, entries: List[Dict[str, Any]]) -> None:
        """Makes all edits of the districts' journals; the halves of an edit of several districts are one."""
        queues: Dict[int, Any] = {}
        for entry in entries:
            queues.setdefault(entry["district"], deque()).append(entry)
        sizes = Counter(entry["why"] for entry in entries if entry["why"])
        while any(queues.values()):
            assert self._step(queues, sizes), [queue[0] for queue in queues.values() if queue]

    def _step(self, queues: Dict[int, Any], sizes: Counter) -> bool:
        """Makes one edit that has all that it names, and of which all halves come next in their districts."""
        for queue in queues.values():
            if not queue:
                continue
            entry = queue[0]
            words = entry["edit"].split()
            named = [int(word) for word in words[1 : 1 + {"split": 1, "merge": 2, "move": 2}.get(words[0], 0)]]
            heads = [it for it in queues.values() if it and it[0]["why"] == entry["why"]] if entry["why"] else [queue]
            if any(it not in self.ids for it in named) or len(heads) < sizes.get(entry["why"], 1):
                continue
            words[1 : 1 + len(named)] = [str(self.ids[it]) for it in named]
            _, _, new = self.model.apply(" ".join(words))
            if named:
                self.ids.update(zip(entry["new"], new))
            for it in heads:
                it.popleft()
            return True
        return False

    def test(self, parcels: List[Dict[str, Any]]) -> None:
        """Tests that the districts have the parcels of the whole, with their ids, rings and areas."""
        told = {self.ids[it["id"]]: [(x, y) for x, y in it["ring_mm"]] for it in parcels}
        assert len(told) == len(parcels)
        assert {at: from_least(ring) for at, ring in told.items()} == {
            at: from_least(ring) for at, ring in self.model.rings.items()
        }


def tiled_and_overlaid(folder: Path, parcels: List[Dict[str, Any]]) -> set:
    """The parcels of all districts as one layer, which the program says tiles the city; the pairs with zones."""
    folder.mkdir(exist_ok=True)
    arrays = [np.array(it["ring_mm"], dtype=np.int64) for it in parcels]
    write_rings(folder / "city.shp", [np.array(moved(CITY), dtype=np.int64)])
    write_rings(folder / "parcels.shp", arrays)
    write_rings(folder / "zones.shp", [np.array(ring, dtype=np.int64) for ring in zone_rings()])
    files = [str(folder / f"{name}.shp") for name in ("city", "parcels", "zones")]
    told = subprocess.run([find_tool(), "check", *files[:2], "--unit", "mm"], capture_output=True, text=True)
    assert told.stdout.startswith(f"tiling {len(parcels)} "), told
    told = subprocess.run([find_tool(), "overlay", *files, "--unit", "mm"], capture_output=True, text=True)
    pairs = [line.split()[1:] for line in told.stdout.splitlines() if line.startswith("pair ")]
    return {(parcels[int(parcel) - 1]["id"], int(zone)) for parcel, zone in pairs}


def parcels_of(served: Served) -> List[Dict[str, Any]]:
    """All parcels of now."""
    body = served.ask("/parcels?limit=1000").json()
    assert body["matched"] == len(body["parcels"])
    return body["parcels"]


def test_against_whole(served: Served, first: List[Dict[str, Any]], folder: Path, clerks: List[Clerk]) -> None:
    """Tests what the districts have beside one fabric of the whole: parcels, areas, overlay; and that each answered
    edit is there once."""
    entries, parcels = entries_of(served), parcels_of(served)
    whole = Whole(first)
    whole.replay(entries)
    whole.test(parcels)
    pairs = tiled_and_overlaid(folder, parcels)
    assert {tuple(pair) for pair in served.ask("/overlay").json()["pairs"]} == pairs
    known = {(it["district"], it["number"]): it for it in entries}
    assert len(known) == len(entries)
    for clerk in clerks:
        assert not clerk.wrong, clerk.wrong
        for key, told in clerk.made.items():
            for half in [told, *told.get("also", [])]:
                entry = known[half["district"], half["number"]]
                assert (entry["why"], entry["edit"]) == (key, half["edit"])


test_against_whole.__test__ = False
