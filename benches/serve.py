#!/usr/bin/env python3
"""serve.py - `gandovel serve` under load, over loopback with keep-alive.

  serve.py [--size S|M|L] [--layer FOLDER] [--seconds N] [--connections N] [--mixed N] [--readers N] [--clerks N]

GANDOVEL_TOOL is the built parcel_tool. It makes a city by gencity.py, prepares it (or takes FOLDER, which `gandovel
prepare` wrote), and prints one line for each:

edits    edits a second of the clerks, each with a connection and a key, and of as many clerks at the pipes of a session
alone    `locate` a second by wrk on --connections (16), and its 99th percentile, while nobody edits
locate   the same while eight clerks edit
pages    milliseconds of a processor that a page of 1,000 features takes of the server, whose parts were made before
mixed    readers (pages of features, parcels, locate) and clerks at once for --mixed seconds (600 for a figure, 0: not):
         answers by status, and memory. Status 1 where one is neither 200 nor a reason that docs/serve.md tells

Debian's wrk, python3-requests and python3-geopandas; processors are shared with the clients, so pin both for a figure:
`taskset -c 0,1` before this script pins all of it.
"""
from __future__ import annotations

import argparse
import collections
import os
import random
import re
import socket
import subprocess
import sys
import tempfile
import threading
import time
from pathlib import Path
from typing import Any, Counter, Dict, List, Tuple

import geopandas as gpd
import requests
from shapely.affinity import scale

ROOT = Path(__file__).resolve().parents[1]
sys.path.insert(0, str(ROOT / "python/src"))
import gandovel  # noqa: E402

CORNER = ("--x0", "60000000", "--y0", "550000000")
"""Where the city begins, in cm: where its projection is true."""
WRK = {
    "count": r"(\d+) requests in",
    "rate": r"Requests/sec:\s+(\S+)",
    "slowest": r"99%\s+(\S+)",
    "wrong": r"Non-2xx.*",
}
LUA = """
math.randomseed(7)
request = function()
  return wrk.format("GET", "/locate?x=" .. math.random(%d, %d) .. "&y=" .. math.random(%d, %d))
end
"""


def prepared(size: str, folder: Path) -> Path:
    """A city of gencity.py as `gandovel prepare` has it."""
    raw = folder / "raw"
    subprocess.run(
        [sys.executable, str(ROOT / "benches/gencity.py"), "--size", size, *CORNER, str(raw)],
        check=True,
        stdout=subprocess.DEVNULL,
    )
    layers = {}
    for name in ("parcels", "zones", "city"):
        frame = gpd.read_file(raw / f"{name}.shp")
        shapes = [scale(shape, 0.01, 0.01, origin=(0, 0)) for shape in frame.geometry]
        layers[name] = gpd.GeoDataFrame(
            {"parcel_no": [str(at) for at in range(1, len(shapes) + 1)]}, geometry=shapes, crs=25832
        )
    out = folder / "layer"
    gandovel.prepare(layers["parcels"], layers["zones"], city=layers["city"], touch=0).save(out)
    return out


def seconds_of(process: int) -> float:
    """Processors' seconds of a process so far, without its children's."""
    words = Path(f"/proc/{process}/stat").read_text().rpartition(")")[2].split()
    return (int(words[11]) + int(words[12])) / os.sysconf("SC_CLK_TCK")


class Cost:
    """What a part of a run takes of the processors: `told(count)` for each of so many answers."""

    def __init__(self, served: Served) -> None:
        self._served, self._before = served, served.seconds()

    def told(self, count: float) -> str:
        """Microseconds an answer."""
        spent = [after - before for before, after in zip(self._before, self._served.seconds())]
        server, runs = (1e6 * it / max(count, 1) for it in spent)
        return f"{server:.0f} us of a processor each in the server, {runs:.0f} in the program"


class Served:
    """A running server."""

    def __init__(self, layer: Path, journal: Path) -> None:
        command = [
            sys.executable,
            "-m",
            "gandovel",
            "serve",
            str(layer),
            "--journal",
            str(journal),
            "--port",
            "0",
            "--rate",
            "0",
        ]
        self.process = subprocess.Popen(
            command, stdout=subprocess.PIPE, text=True, env={**os.environ, "PYTHONPATH": str(ROOT / "python/src")}
        )
        assert self.process.stdout is not None
        found = re.search(r"at (http://\S+)/$", self.process.stdout.readline())
        if not found:
            sys.exit("the server did not begin")
        self.address = found[1]

    def memory(self) -> Dict[str, int]:
        """MiB of the server and of the program's two runs."""
        listed = subprocess.run(
            ["ps", "-o", "rss=,comm=", "--pid", str(self.process.pid), "--ppid", str(self.process.pid)],
            stdout=subprocess.PIPE,
            text=True,
        ).stdout.split("\n")
        found: Dict[str, int] = collections.defaultdict(int)
        for line in filter(None, listed):
            size, name = line.split()[:2]
            found[name] += int(size) // 1024
        return dict(found)

    def seconds(self) -> Tuple[float, float]:
        """Processors' seconds of the server, and of the program's two runs, so far."""
        words = ["ps", "-o", "pid=", "--ppid", str(self.process.pid)]
        runs = subprocess.run(words, stdout=subprocess.PIPE, text=True).stdout.split()
        return seconds_of(self.process.pid), sum(seconds_of(int(run)) for run in runs)

    def end(self) -> None:
        self.process.terminate()
        self.process.wait()


def rings_of(served: Served) -> List[Tuple[int, List[List[int]]]]:
    """Some parcels and their rings, far from each other."""
    page = requests.get(served.address + "/parcels?limit=1000", timeout=600).json()["parcels"]
    return [(it["id"], it["ring_mm"]) for it in page[::12]]


def lines_of(ring: List[List[int]]) -> Tuple[str, str]:
    """A corner that is put into an edge, and taken out."""
    for (ax, ay), (bx, by) in zip(ring, ring[1:] + ring[:1]):
        if (bx - ax) % 2 == 0 and (by - ay) % 2 == 0:
            x, y = (ax + bx) // 2, (ay + by) // 2
            return f"insert {ax} {ay} {bx} {by} {x} {y}", f"straighten {x} {y}"
    sys.exit("no edge has a middle")


class Wire:
    """A connection of a clerk, that sends what is ready and reads the status and the body: it takes little of a
    processor."""

    def __init__(self, served: Served) -> None:
        self._host, port = re.fullmatch(r"http://(.*):(\d+)", served.address).groups()  # type: ignore[union-attr]
        self._host = f"{self._host}:{port}"
        self._socket = socket.create_connection((self._host.split(":")[0], int(port)), 60)
        self._socket.setsockopt(socket.IPPROTO_TCP, socket.TCP_NODELAY, 1)

    def edit(self, line: str, key: str) -> int:
        """The status of an edit's answer."""
        head = f"POST /edits HTTP/1.1\r\nHost: {self._host}\r\nContent-Type: text/plain\r\nIdempotency-Key: {key}\r\n"
        self._socket.sendall(f"{head}Content-Length: {len(line)}\r\n\r\n{line}".encode())
        heard = b""
        while b"\r\n\r\n" not in heard:
            heard += self._read()
        head_, _, body = heard.partition(b"\r\n\r\n")
        size = re.search(rb"content-length: (\d+)", head_, re.I)
        while size and len(body) < int(size[1]):
            body += self._read()
        return int(heard[9:12])

    def _read(self) -> bytes:
        part = self._socket.recv(1 << 16)
        if not part:
            raise ConnectionError("the server closed the connection")
        return part


def clerk(served: Served, ring: List[List[int]], until: float, told: Counter[Any], number: int) -> None:
    """Edits one by one, each with a key."""
    wire, pair, at = Wire(served), lines_of(ring), 0
    while time.monotonic() < until:
        status = wire.edit(pair[at % 2], f"bench-{number}-{at}")
        told["edit", status] += 1
        at += status == 200


def reader(served: Served, parcels: List[int], until: float, told: Counter[Any], number: int) -> None:
    """Asks for pages, parcels and places."""
    session, draw = requests.Session(), random.Random(number)
    while time.monotonic() < until:
        path = draw.choice(
            [
                "/collections/parcels/items?limit=10",
                f"/parcels/{draw.choice(parcels)}",
                "/locate?x=1&y=1",
                "/entries?limit=5",
            ]
        )
        try:
            told["read", session.get(served.address + path, timeout=60).status_code] += 1
        except requests.RequestException:
            told["read", "no answer"] += 1


def all_at_once(threads: List[threading.Thread]) -> None:
    """Starts them all, and waits for their ends."""
    for thread in threads:
        thread.start()
    for thread in threads:
        thread.join()


def edits(served: Served, rings: Any, count: int, seconds: float) -> str:
    """Edits a second, and what they cost."""
    told: Counter[Any] = collections.Counter()
    cost = Cost(served)
    until = time.monotonic() + seconds
    threads = [threading.Thread(target=clerk, args=(served, rings[k][1], until, told, k)) for k in range(count)]
    all_at_once(threads)
    return f"{told['edit', 200] / seconds:.0f} a second by {count} clerks ({cost.told(told['edit', 200])})"


def piped(layer: Path, journal: Path, rings: Any, seconds: float) -> float:
    """Edits a second of eight clerks at the pipes of a session."""
    names = [f"desk{k}" for k in range(8)]
    made = [0] * 8
    with gandovel.Session(
        layer / "city.shp", layer / "parcels.shp", journal=journal, desks=names, timeout=600
    ) as session:
        until = time.monotonic() + seconds

        def work(k: int) -> None:
            pair = lines_of(rings[k][1])
            with session.desk(names[k]) as desk:
                while time.monotonic() < until:
                    desk.ask(pair[made[k] % 2])
                    made[k] += 1

        threads = [threading.Thread(target=work, args=(k,)) for k in range(8)]
        all_at_once(threads)
    return sum(made) / seconds


def located(served: Served, rings: Any, seconds: int, folder: Path, clerks: int, connections: int) -> str:
    """What wrk says of `locate` while so many clerks edit, and what it costs with their edits."""
    corners = [corner for _, ring in rings for corner in ring]
    xs, ys = [x for x, _ in corners], [y for _, y in corners]
    script = folder / "locate.lua"
    script.write_text(LUA % (min(xs), max(xs), min(ys), max(ys)))
    told: Counter[Any] = collections.Counter()
    until, cost = time.monotonic() + seconds + 1, Cost(served)
    threads = [
        threading.Thread(target=clerk, args=(served, rings[k + 20][1], until, told, 100 + k)) for k in range(clerks)
    ]
    for thread in threads:
        thread.start()
    words = ["wrk", "-t1", f"-c{connections}", f"-d{seconds}s", "--latency", "-s", str(script), served.address]
    ended = subprocess.run(words, stdout=subprocess.PIPE, text=True)
    found = {name: re.search(text, ended.stdout) for name, text in WRK.items()}
    spent = cost.told(int(found["count"][1]) if found["count"] else 0)
    for thread in threads:
        thread.join()
    rate, slowest = (found[name][1] if found[name] else "?" for name in ("rate", "slowest"))  # type: ignore[index]
    beside = f", beside {told['edit', 200] / (seconds + 1):.0f} edits a second" if clerks else ""
    wrong = f"; {found['wrong'][0]}" if found["wrong"] else ""
    return f"{rate} a second, p99 {slowest}{beside} ({spent}{', edits in it' if clerks else ''}){wrong}"


def pages(served: Served, count: int) -> str:
    """What a page of 1,000 features costs, made anew and of parts that are there."""
    session, address = requests.Session(), served.address + "/collections/parcels/items?limit=1000"
    session.headers["Accept-Encoding"] = "identity"
    told = []
    for name, paths in (
        ("at first", [f"{address}&offset={1000 * at}" for at in range(count)]),
        ("after that", [f"{address}&offset={1000 * at}" for at in range(count)]),
    ):
        before = served.seconds()[0]
        sizes = [len(session.get(path, timeout=600).json()["features"]) for path in paths]
        spent = 1000 * (served.seconds()[0] - before) / sum(size == 1000 for size in sizes)
        told.append(f"{spent:.1f} ms {name}")
    return ", ".join(told)


def mixed(served: Served, rings: Any, seconds: float, clerks: int, readers: int) -> Counter[Any]:
    """How many answers of each kind and status clerks and readers had that asked at once."""
    told: Counter[Any] = collections.Counter()
    until, parcels = time.monotonic() + seconds, [it[0] for it in rings]
    threads = [
        threading.Thread(target=clerk, args=(served, rings[k + 40][1], until, told, 200 + k)) for k in range(clerks)
    ]
    threads += [threading.Thread(target=reader, args=(served, parcels, until, told, k)) for k in range(readers)]
    all_at_once(threads)
    return told


def main() -> None:
    options = argparse.ArgumentParser(description=__doc__, formatter_class=argparse.RawDescriptionHelpFormatter)
    options.add_argument("--size", default="M", choices="SML")
    options.add_argument("--layer", type=Path)
    options.add_argument("--seconds", type=int, default=20)
    options.add_argument("--connections", type=int, default=16)
    options.add_argument("--mixed", type=int, default=20)
    options.add_argument("--readers", type=int, default=100)
    options.add_argument("--clerks", type=int, default=20)
    given = options.parse_args()
    with tempfile.TemporaryDirectory() as name:
        folder = Path(name)
        layer = given.layer or prepared(given.size, folder)
        served = Served(layer, folder / "register.txt")
        rings = rings_of(served)
        print(f"start    {served.memory()} MiB", flush=True)
        print(
            f"edits    {edits(served, rings, 8, given.seconds)}, "
            f"{piped(layer, folder / 'pipes.txt', rings, given.seconds):.0f} at the pipes",
            flush=True,
        )
        print(f"alone    {located(served, rings, given.seconds, folder, 0, given.connections)}", flush=True)
        print(f"locate   {located(served, rings, given.seconds, folder, 8, given.connections)}", flush=True)
        print(f"pages    {pages(served, 10)}", flush=True)
        if not given.mixed:
            served.end()
            return
        told = mixed(served, rings, given.mixed, given.clerks, given.readers)
        print(f"mixed    {dict(told)}, {served.memory()} MiB", flush=True)
        served.end()
    if set(status for _, status in told) - {200, 429, 503}:
        sys.exit("an answer has no reason")


if __name__ == "__main__":
    main()
