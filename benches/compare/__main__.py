"""Compares Gandovel with other programs on registers whose faults are known, and writes docs/compare.md.

    python3 -m compare [--seeds N] [--only WAY] [--go-on FILE]     in benches/

N registers are of each way of keeping one (3). The registers are those of `python/tests/planted.py`: each has up to six
gaps and overlaps that are wider than twice the distance by which its way of keeping moves corners. A fault counts as
found where a program reports one of its kind that names its two parcels, at its place, and as false where it reports
one that is none. FILE gets a line for each register and program, and a run that was stopped goes on after its lines.
The part of the page above its first table is written by hand, and stays.
"""

from __future__ import annotations

import argparse
import json
import subprocess
import sys
import tempfile
from pathlib import Path
from typing import Any, Dict, Iterator, List, Optional, Tuple

import geopandas as gpd
from shapely import wkb

ROOT = Path(__file__).resolve().parents[2]
sys.path[:0] = [str(ROOT / "python/tests"), str(ROOT / "python/src")]
import planted  # noqa: E402

from compare.building import build  # noqa: E402
from compare.database import Database  # noqa: E402
from compare.peers import PEERS  # noqa: E402
from compare.tables import Row, Score, page_part  # noqa: E402

PAGE = ROOT / "docs/compare.md"
BEGIN = "<!-- made by benches/compare -->"
FIRST_SEED = 90_001
"""The rules that learn grids were made beside registers of seeds below 2,000, so none of those is measured here."""
SECONDS = 3_600
"""The most that a program has for a register."""


def layers_of(case: planted.Case, folder: Path) -> Tuple[Path, Path]:
    """The register as it is kept, and as a GeoPackage in its projection, curves as chords, which each program reads."""
    path = folder / "layer.gpkg"
    if isinstance(case.source, gpd.GeoDataFrame):
        case.source.to_file(path, layer="parcels", driver="GPKG")
        return path, path
    words = ["ogr2ogr", "-f", "GPKG", "-nlt", "CONVERT_TO_LINEAR", "-nln", "parcels", path, case.source]
    subprocess.run([str(it) for it in words], check=True)
    return Path(case.source), path


def unit_of(frame: gpd.GeoDataFrame) -> float:
    """How many metres the unit of a layer has."""
    return float(frame.crs.axis_info[0].unit_conversion_factor)


def answer(number: int, layer: Path, distance: float, built: Path) -> Dict[str, Any]:
    """What a program says of a layer, with its seconds and MiB; or why it gave up, which is a result, too."""
    words = [
        sys.executable,
        "-W",
        "ignore",
        "-m",
        "compare.measure",
        str(number),
        str(layer),
        repr(distance),
        str(built),
    ]
    try:
        ran = subprocess.run(words, cwd=ROOT / "benches", capture_output=True, text=True, timeout=SECONDS, check=False)
    except subprocess.TimeoutExpired:
        return {"failed": f"no answer in {SECONDS} s"}
    if ran.returncode:
        return {"failed": " ".join(ran.stderr.split())[-200:]}
    said: Dict[str, Any] = json.loads(ran.stdout)
    return said


def score(case: planted.Case, kept: gpd.GeoDataFrame, said: Dict[str, Any]) -> Score:
    """What a program said of a register, beside what is planted in it."""
    if "failed" in said:
        return Score(missed=len(case.planted), failed=said["failed"])
    rows = [(kind, numbers, shape and wkb.loads(shape, hex=True)) for kind, numbers, shape, _ in said["said"]]
    found, off = case.matched(rows), 0.0
    for at, (_, _, _, area) in zip(found, said["said"]):
        if at is not None and area is not None:
            right = case.kept_area(at, kept)
            off = max(off, abs(area - right) / right)
    count = sum(it is not None for it in found)
    return Score(count, len(case.planted) - count, len(found) - count, said["seconds"], said["mib"], off)


def rows_of(ways: List[str], seeds: int, built: Path, done: Dict[Tuple[str, int, str], Row]) -> Iterator[Row]:
    """A row for each register and program, those that are done as they are."""
    for way in ways:
        for seed in range(FIRST_SEED, FIRST_SEED + seeds):
            if all((way, seed, peer.name) in done for peer in PEERS):
                yield from (done[way, seed, peer.name] for peer in PEERS)
                continue
            with tempfile.TemporaryDirectory(prefix="compare-") as folder:
                case = planted.case(way, seed, Path(folder))
                source, layer = layers_of(case, Path(folder))
                kept = gpd.read_file(layer)
                distance = case.distance / 1000 / unit_of(kept)
                for at, peer in enumerate(PEERS):
                    row = done.get((way, seed, peer.name))
                    given = source if peer.reads_curves else layer
                    yield row or Row(way, seed, peer.name, score(case, kept, answer(at, given, distance, built)))


def kept_rows(path: Optional[Path]) -> Dict[Tuple[str, int, str], Row]:
    """The rows of a run that was stopped."""
    lines = path.read_text().splitlines() if path and path.is_file() else []
    rows = [Row(way, seed, name, Score(*it)) for way, seed, name, it in map(json.loads, lines)]
    return {(row.way, row.seed, row.name): row for row in rows}


def main() -> int:
    """Runs all, and writes the page."""
    parser = argparse.ArgumentParser(prog="compare", description=(__doc__ or "").splitlines()[0])
    parser.add_argument("--seeds", type=int, default=3, help="registers of each way")
    parser.add_argument("--only", help="one way, whose counts are printed and not written")
    parser.add_argument("--go-on", type=Path, metavar="FILE", help="where rows are kept, and taken from")
    asked = parser.parse_args()
    ways = [asked.only] if asked.only else list(planted.CASES)
    done, rows = kept_rows(asked.go_on), []
    with tempfile.TemporaryDirectory(prefix="compare-") as folder:
        built = Path(folder)
        build(built)
        database = Database(built)
        database.start()
        try:
            for row in rows_of(ways, asked.seeds, built, done):
                rows.append(row)
                print(row.way, row.seed, row.name, *row.score, flush=True)
                if asked.go_on and (row.way, row.seed, row.name) not in done:
                    with open(asked.go_on, "a", encoding="utf-8") as file:
                        file.write(json.dumps([row.way, row.seed, row.name, list(row.score)]) + "\n")
        finally:
            database.stop()
    if not asked.only:
        by_hand = PAGE.read_text().partition(BEGIN)[0]
        PAGE.write_text(f"{by_hand}{BEGIN}\n\n{page_part(rows, ways, asked.seeds)}\n")
    return 0


if __name__ == "__main__":
    sys.exit(main())
