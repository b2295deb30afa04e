"""How long a start takes of a journal of many edits, and of a checkpoint that goes on from it.

    python3 benches/checkpoint.py [EDITS]

It needs what python/README.md lists, and the program (GANDOVEL_TOOL). One run each, in seconds on the clock.
"""
from __future__ import annotations

import hashlib
import subprocess
import sys
import tempfile
import time
from pathlib import Path
from typing import Any, Callable

sys.path.insert(0, str(Path(__file__).resolve().parents[1] / "python/src"))

import geopandas  # noqa: E402
from shapely.geometry import box  # noqa: E402

import gandovel  # noqa: E402
from gandovel.live.checkpoint_writing import make_checkpoint  # noqa: E402
from gandovel.program.tool import find_tool  # noqa: E402

EDITS = 131_144


def timed(what: str, call: Callable[[], Any]) -> Any:
    """Calls it, and says how long it took."""
    begin = time.perf_counter()
    result = call()
    print(f"{what:<60} {time.perf_counter() - begin:8.3f}", flush=True)
    return result


def journal(layer: Path, path: Path, count: int) -> None:
    """A journal of so many edits, as a session writes it: a corner is put in and taken out, again and again."""
    gandovel.open(layer, path).close()
    text = path.read_bytes()
    digest, parts = text.split()[-1], [text]
    for number in range(1, count + 1):
        edit = b"insert 0 0 10000 0 5000 0\n" if number % 2 else b"straighten 5000 0\n"
        stamp = b"# %d 1 2026-01-01T00:00:00Z anna, deed %d " % (number, number)
        digest = hashlib.sha256(digest + stamp + edit).hexdigest().encode()
        parts.append(stamp + digest + b"\n" + edit)
    path.write_bytes(b"".join(parts))


def start(folder: Path, path: Path) -> None:
    """A session of the program alone, begun and closed."""
    words = [folder / "city.shp", folder / "parcels.shp", "--unit", "mm", "--journal", path]
    subprocess.run([find_tool(), "session", *words], stdin=subprocess.DEVNULL, stdout=subprocess.DEVNULL, check=True)


def main(count: int) -> None:
    """Measures all."""
    with tempfile.TemporaryDirectory() as name:
        folder = Path(name)
        layer, path, out = folder / "layer", folder / "journal", folder / "checkpoint"
        shapes = [box(at, 0, at + 10, 10) for at in range(0, 200, 10)]
        frame = geopandas.GeoDataFrame({"parcel_no": range(20)}, geometry=shapes, crs=25832)
        gandovel.prepare(frame).save(layer)
        journal(layer, path, count)
        print(f"{count} edits, {path.stat().st_size} bytes")
        timed("the program, with the journal", lambda: start(layer, path))
        timed("gandovel.open, with the journal", lambda: gandovel.open(layer, path)).close()
        timed("gandovel journal --checkpoint", lambda: make_checkpoint(path, layer, out))
        timed("the program, with the checkpoint", lambda: start(out, out / "journal.txt"))
        register = timed("gandovel.open, with the checkpoint", lambda: gandovel.open(out))
        timed("its first edit by own numbers", lambda: register.edit(gandovel.Merge(3, 4)))
        timed("its entries, all", lambda: register.entries)
        register.close()


if __name__ == "__main__":
    main(int(sys.argv[1]) if len(sys.argv) > 1 else EDITS)
