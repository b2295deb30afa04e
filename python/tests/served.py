"""A server of a register, started as a user starts it, and its clients: what the tests of `gandovel serve` share."""
from __future__ import annotations

import hashlib
import json
import os
import re
import signal
import subprocess
import sys
import time
from pathlib import Path
from typing import Any, Dict, List, Optional, Sequence

import geopandas as gpd
import requests
from pyproj import Transformer
from shapely.geometry import Polygon, box

import gandovel
from session_register import Corner, Register, Ring

SECONDS = 600
"""How long a start, or an answer, may take before the test fails."""
LONG = bool(os.environ.get("GANDOVEL_LONG"))
EAST, NORTH = 600_000_000, 5_500_000_000
"""Where a city of the tests begins, in mm."""


def moved(ring: Ring) -> Ring:
    """A ring of `session_register` where a GIS would have it."""
    return [(x + EAST, y + NORTH) for x, y in ring]


def prepared(folder: Path, city: Ring, rings: Sequence[Ring]) -> Path:
    """A layer of parcels, in metres, as `gandovel prepare` writes it; two zones, west and east."""
    shapes = [Polygon([(x / 1000, y / 1000) for x, y in moved(ring)]) for ring in rings]
    parcels = gpd.GeoDataFrame(
        {"parcel_no": [f"A{at}" for at in range(1, len(rings) + 1)], "owner": "town"}, geometry=shapes, crs=25832
    )
    x0, y0, x1, y1 = parcels.total_bounds
    south, north = (sorted((x, y) for x, y in moved(city) if y == end) for end in (int(y0 * 1000), int(y1 * 1000)))
    border = [(x / 1000, y / 1000) for x, y in (south[len(south) // 2], north[len(north) // 2])]
    halves = [Polygon([(x0, y0), *border, (x0, y1)]), Polygon([border[0], (x1, y0), (x1, y1), border[1]])]
    zones = gpd.GeoDataFrame({"zone": ["west", "east"]}, geometry=halves, crs=25832)
    outline = gpd.GeoDataFrame(geometry=[Polygon([(x / 1000, y / 1000) for x, y in moved(city)])], crs=25832)
    gandovel.prepare(parcels, zones, city=outline).save(folder)
    return folder


class Served:
    """`gandovel serve` in a process of its own. It may be killed and started again."""

    def __init__(self, folder: Path, journal: Path, *options: str) -> None:
        self.folder, self.journal, self.options = folder, journal, options
        self.address, self.token = "", ""
        self.session = requests.Session()
        self.process: Optional[subprocess.Popen[str]] = None
        self.start()

    def start(self) -> None:
        """Starts it, and waits until it says where it listens."""
        command = [
            sys.executable,
            "-m",
            "gandovel",
            "serve",
            str(self.folder),
            "--journal",
            str(self.journal),
            "--port",
            "0",
            *self.options,
        ]
        with open(self.journal.with_name("serve.log"), "a") as errors:
            self.process = subprocess.Popen(
                command, stdout=subprocess.PIPE, stderr=errors, text=True, env=environment()
            )
        assert self.process.stdout is not None
        line = self.process.stdout.readline()
        found = re.search(r"at (https?://\S+)/$", line)
        assert found, f"{line!r}: {self.journal.with_name('serve.log').read_text()[-2000:]}"
        self.address = found[1]

    @property
    def programs(self) -> List[int]:
        """The processes of the program: the session's and the follower's."""
        found = subprocess.run(["ps", "-o", "pid=", "--ppid", str(self.process.pid)], stdout=subprocess.PIPE, text=True)
        return [int(word) for word in found.stdout.split()]

    def kill(self) -> None:
        """`kill -9`."""
        self.process.kill()
        self.process.wait()

    def end(self) -> int:
        """SIGTERM; the status."""
        self.process.send_signal(signal.SIGTERM)
        return self.process.wait(SECONDS)

    def ask(self, path: str, method: str = "GET", **more: Any) -> requests.Response:
        """A request, with the token."""
        headers = {**({"Authorization": f"Bearer {self.token}"} if self.token else {}), **more.pop("headers", {})}
        return self.session.request(method, self.address + path, headers=headers, timeout=SECONDS, **more)

    def edit(self, line: str, **headers: str) -> requests.Response:
        """Sends a clerk's line."""
        return self.ask("/edits", "POST", data=line.encode(), headers={"Content-Type": "text/plain", **headers})

    def lines(self) -> List[str]:
        """The journal's edits."""
        return [line for line in self.journal.read_text().splitlines() if line and not line.startswith("#")]

    def __enter__(self) -> "Served":
        return self

    def __exit__(self, *given: Any) -> None:
        if self.process.poll() is None:
            self.kill()


def environment() -> Dict[str, str]:
    """What the server's process is given."""
    source = Path(gandovel.__file__).resolve().parents[1]
    return {**os.environ, "PYTHONPATH": str(source)}


def tokens(path: Path, **roles: str) -> Dict[str, str]:
    """Writes a file of tokens for these names and roles: each name's token."""
    made = {name: hashlib.sha256(f"{name} {path}".encode()).hexdigest() for name in roles}
    lines = [f"{name} {role} {hashlib.sha256(made[name].encode()).hexdigest()}\n" for name, role in roles.items()]
    path.write_text("# tokens\n" + "".join(lines))
    path.chmod(0o600)
    return made


def replayed(city: Ring, rings: Sequence[Ring], lines: Sequence[str]) -> Register:
    """What the independent model says of a journal. An edit that the model refuses fails."""
    register = Register(moved(city), [moved(ring) for ring in rings])
    for line in lines:
        register.apply(line)
    return register


def until(test: Any, seconds: float = SECONDS) -> Any:
    """Waits until something holds: its value."""
    end = time.monotonic() + seconds
    while time.monotonic() < end:
        value = test()
        if value:
            return value
        time.sleep(0.02)
    raise AssertionError("it did not come in time")


def put_in_and_out(ring: Ring) -> List[str]:
    """A corner in the middle of a ring's first edge that has one in whole mm, put in and taken out."""
    for (ax, ay), (bx, by) in zip(ring, ring[1:] + ring[:1]):
        if (bx - ax) % 2 == 0 and (by - ay) % 2 == 0:
            middle: Corner = ((ax + bx) // 2, (ay + by) // 2)
            return [f"insert {ax} {ay} {bx} {by} {middle[0]} {middle[1]}", f"straighten {middle[0]} {middle[1]}"]
    raise AssertionError("no edge has a middle")


def pretty(response: requests.Response) -> str:
    """An answer, to be read where a test fails."""
    return f"{response.status_code} {json.dumps(response.json())[:400]}"


def grid_layer(folder: Path, epsg: int, place: Sequence[float], columns: int, rows: int, **more: Any) -> Path:
    """A layer of squares of 10 m near a place (longitude, latitude), in a projection, with numbers such as `12-3/4`."""
    x0, y0 = (round(z) for z in Transformer.from_crs("OGC:CRS84", epsg, always_xy=True).transform(*place))
    cells = [(column, row) for row in range(rows) for column in range(columns)]
    shapes = [box(x0 + 10 * a, y0 + 10 * b, x0 + 10 * a + 10, y0 + 10 * b + 10) for a, b in cells]
    table = {
        "parcel_no": [f"{12 + b}-{3 + a}/4" for a, b in cells],
        "built": "1999-12-31",
        "owner": "town",
        "floors": 3,
    }
    parcels = gpd.GeoDataFrame({**table, **more}, geometry=shapes, crs=epsg)
    parcels.to_file(folder / "source.shp", encoding="utf-8")
    gandovel.prepare(gpd.read_file(folder / "source.shp"), number="parcel_no").save(folder / "work")
    return folder / "work"


def ogr(*words: str, **settings: str) -> str:
    """What a program of GDAL prints. One that fails, or tells of an error, fails."""
    ended = subprocess.run(
        words, stdout=subprocess.PIPE, stderr=subprocess.STDOUT, text=True, timeout=300, env={**os.environ, **settings}
    )
    assert ended.returncode == 0 and "ERROR" not in ended.stdout, ended.stdout[-3000:]
    return ended.stdout
