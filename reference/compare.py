"""Asks the built program, and compares what it prints with what the definitions give."""

from __future__ import annotations

import os
import random
import subprocess
from fractions import Fraction
from pathlib import Path
from typing import Callable, Dict, List, NamedTuple, Optional, Sequence, Tuple

from reference import draw as drawn
from reference.doubles import LIMIT, MILLIMETRES
from reference.edits import Edit, Fabric, clerk_file, words_of
from reference.files import Fault, Numbered, read_layer, write_layer
from reference.layer import Layer, Refused, load, locate, read_city, tiles_at, total_area2
from reference.overlays import Pair, pairs, report
from reference.plane import Corner, Ring, area2

SIDES = (6, 10, 16, 30)


class Differs(Exception):
    """The program and the definitions say different things."""


class Said(NamedTuple):
    """What a run of the program printed, its lines of standard error that begin with `error:`, and its status."""

    lines: List[str]
    error: Optional[str]
    status: int


class Judge:
    """One drawn case after another, in a folder of its own, each from its own seed."""

    def __init__(self, tool: str, folder: Path) -> None:
        self.tool, self.folder, self.answers = tool, folder, 0
        folder.mkdir(parents=True, exist_ok=True)

    def run(self, *words: object, given: bytes = b"") -> Said:
        """Runs the program in the folder."""
        ran = subprocess.run(
            [self.tool, *map(str, words)], cwd=self.folder, input=given, capture_output=True, check=False, timeout=120
        )
        errors = [it for it in ran.stderr.decode().splitlines() if it.startswith("error:")]
        return Said(ran.stdout.decode().splitlines(), errors[0] if errors else None, ran.returncode)

    def same(self, wanted: object, found: object) -> None:
        """Counts an answer, and stops where it is another than it should be."""
        self.answers += 1
        if wanted != found:
            raise Differs(f"the definitions give {wanted!r}, the program says {found!r}")

    def write(self, name: str, files: Tuple[bytes, bytes]) -> None:
        """Writes a layer; without its index where that is empty."""
        (self.folder / f"{name}.shp").write_bytes(files[0])
        index = self.folder / f"{name}.shx"
        index.unlink(missing_ok=True)
        if files[1]:
            index.write_bytes(files[1])


def load_or_fault(city: Ring, rings: Sequence[Numbered], role: str) -> Tuple[Optional[Layer], Optional[str]]:
    """The layer, or the program's line of error."""
    try:
        return load(city, rings), None
    except Refused as refused:
        return None, f"error: {role}: {refused}"


def judge_files(judge: Judge, draw: random.Random) -> None:
    """A file, mostly damaged: `area` prints each ring's twice-area, or the first fault."""
    side = draw.choice(SIDES)
    rows = drawn.tiling(draw, drawn.city(draw, side), side, draw.randint(1, 5))
    unit = draw.choice(list(MILLIMETRES))
    scale = draw.choice((1, 1 / MILLIMETRES[unit], 1 / MILLIMETRES[unit], 0.001))
    main, index = write_layer(drawn.as_filed(draw, list(rows.values())), scale)
    for _ in range(draw.choice((0, 1, 1, 2))):
        if draw.random() < 0.8:
            main = drawn.damaged(draw, main) or b"\0"
        else:
            index = drawn.damaged(draw, index) or b"\0"
    judge.write("layer", (main, index if draw.random() < 0.7 else b""))
    has_index = (judge.folder / "layer.shx").exists()
    said = judge.run("area", "layer.shp", "--unit", unit)
    try:
        rings = read_layer(main, index if has_index else None, unit)
    except Fault as fault:
        judge.same((f"error: file: {fault}", 1, []), (said.error, said.status, said.lines))
        return
    judge.same((None, 0, [f"{n} {area2(ring)}" for n, ring in rings]), (said.error, said.status, said.lines))


def judge_layer(judge: Judge, draw: random.Random) -> None:
    """A layer, at times with a fault: `check`, `locate` and `export`, or the first fault."""
    side, unit = draw.choice(SIDES), draw.choice(list(MILLIMETRES))
    outline = drawn.city(draw, side)
    filed = drawn.as_filed(draw, list(drawn.tiling(draw, outline, side, draw.randint(1, 9)).values()))
    for _ in range(draw.choice((0, 0, 1, 2))):
        filed = drawn.with_fault(draw, filed, side) if filed else filed
    place = drawn.place(draw, side, LIMIT // MILLIMETRES[unit])
    outline = place.ring(outline)
    files = write_layer([ring and place.ring(ring) for ring in filed])
    judge.write("city", write_layer([outline]))
    judge.write("parcels", files)
    said = judge.run("check", "city.shp", "parcels.shp", "--unit", unit)
    try:
        rings = read_layer(*files, unit)
    except Fault as broken:
        judge.same(f"error: parcels: {broken}", said.error)
        return
    city = read_city(read_layer(write_layer([outline])[0], None, unit))
    layer, fault = load_or_fault(city, rings, "parcels")
    if layer is None:
        judge.same((fault, 1, []), (said.error, said.status, said.lines))
        return
    judge.same([f"tiling {len(layer.rows)} {total_area2(layer.rows)}"], said.lines)
    asked = [place.at(drawn.point(draw, side)) for _ in range(12)]
    judge_points(judge, draw, layer, [(x * MILLIMETRES[unit], y * MILLIMETRES[unit]) for x, y in asked], unit)
    judge_export(judge, layer, unit)


def judge_points(judge: Judge, draw: random.Random, layer: Layer, asked: List[Corner], unit: str) -> None:
    """Points: each lies where the definitions say, and in exactly as many parcels as the sentence says."""
    points = [p for p in asked if abs(p[0]) <= LIMIT and abs(p[1]) <= LIMIT]
    points += [drawn.point_on(draw, *drawn.some_edge(draw, layer.rows)) for _ in range(6)]
    lines = "".join(f"{x} {y}\n" for x, y in points).encode()
    said = judge.run("locate", "city.shp", "parcels.shp", "--unit", unit, "--points", "-", given=lines)
    for p, line in zip(points, said.lines):
        judge.same(f"{p[0]} {p[1]} {locate(layer.rows, p)}", line)
        if not tiles_at(layer.rows, layer.city, p):
            raise Differs(f"the layer does not tile its city at {p}")
    judge.same(len(points), len(said.lines))


def judge_export(judge: Judge, layer: Layer, unit: str) -> None:
    """The exported files, byte for byte."""
    said = judge.run("export", "city.shp", "parcels.shp", "--unit", unit, "--out", "out")
    judge.same([f"exported {len(layer.rows)}"], said.lines)
    files = write_layer([ring for _, ring in sorted(layer.rows.items())])
    judge.same(files, ((judge.folder / "out.shp").read_bytes(), (judge.folder / "out.shx").read_bytes()))


def judge_overlay(judge: Judge, draw: random.Random) -> None:
    """Parcels and zones of one city: which interiors meet, and their areas, at most 1 off and exact in sum."""
    side, unit = draw.choice(SIDES), draw.choice(list(MILLIMETRES))
    outline = drawn.city(draw, side)
    place, layers = drawn.place(draw, side, LIMIT // MILLIMETRES[unit]), []
    judge.write("city", write_layer([place.ring(outline)]))
    city = read_city(read_layer(write_layer([place.ring(outline)])[0], None, unit))
    for name in ("parcels", "zones"):
        rows = drawn.tiling(draw, outline, side, draw.randint(1, 7)).values()
        filed = [ring and place.ring(ring) for ring in drawn.as_filed(draw, list(rows))]
        judge.write(name, write_layer(filed))
        layers.append(load(city, read_layer(write_layer(filed)[0], None, unit)).rows)
    said = judge.run("overlay", "city.shp", "parcels.shp", "zones.shp", "--unit", unit, "--areas")
    met = pairs(layers[0], layers[1])
    told = [line for line in said.lines if not line.startswith("area ")]
    judge.same(report(0, met), told)
    judge_areas(judge, layers[0], met, said.lines)


def judge_areas(judge: Judge, rows: Dict[int, Ring], met: Dict[Pair, Fraction], lines: Sequence[str]) -> None:
    """Each `area` line is within 1 of the exact one, and a parcel's lines sum to its twice-area."""
    words = [line.split() for line in lines if line.startswith("area ")]
    areas = {(int(n), int(z)): int(a) for _, n, z, a in words}
    judge.same(list(met), list(areas))
    for key, exact in met.items():
        if abs(areas[key] - exact) > 1:
            raise Differs(f"area {key} is {areas[key]}, and exactly {exact}")
        judge.answers += 1
    for n, ring in rows.items():
        judge.same(area2(ring), sum(area for (m, _), area in areas.items() if m == n))


def ok_line(fabric: Fabric, edit: Edit) -> str:
    """How a session answers an edit."""
    try:
        entry = fabric.edit(edit)
    except Refused as refused:
        return f"refused {refused}"
    words = ["ok", entry.number, "out", *entry.out, "new", *(n for n, _ in entry.rows)]
    return " ".join(map(str, words))


def parcel_line(fabric: Fabric, n: int) -> str:
    """How a session answers for a parcel."""
    ring = fabric.rows.get(n)
    if ring is None:
        return f"parcel {fabric.entries} {n} none"
    corners = " ".join(f"{x} {y}" for x, y in ring)
    return f"parcel {fabric.entries} {n} {area2(ring)} {corners}"


def judge_session(judge: Judge, draw: random.Random) -> None:
    """A session: edits, each with its answer, then parcels, points, and that they tile the city still."""
    side = draw.choice(SIDES)
    outline = drawn.city(draw, side)
    filed = drawn.as_filed(draw, list(drawn.tiling(draw, outline, side, draw.randint(1, 5)).values()))
    judge.write("city", write_layer([outline]))
    judge.write("parcels", write_layer(filed))
    city = read_city(read_layer(write_layer([outline])[0], None, "mm"))
    fabric = Fabric(load(city, read_layer(write_layer(filed)[0], None, "mm")))
    asked, wanted = [], ["ready 0"]
    for _ in range(draw.randint(5, 60)):
        edit = drawn.edit(draw, fabric, side)
        asked.append(words_of(edit))
        wanted.append(ok_line(fabric, edit))
        if draw.random() < 0.3:
            n, p = draw.randint(1, fabric.next), drawn.point(draw, side)
            asked += [f"parcel {n}", f"locate {p[0]} {p[1]}"]
            wanted += [parcel_line(fabric, n), f"at {fabric.entries} {p[0]} {p[1]} {locate(fabric.rows, p)}"]
    asked += ["check", "close"]
    wanted += [f"tiling {len(fabric.rows)} {total_area2(fabric.rows)}", ".", f"closed {fabric.entries}"]
    said = judge.run("session", "city.shp", "parcels.shp", "--unit", "mm", given="\n".join([*asked, ""]).encode())
    for want, line in zip(wanted, said.lines):
        judge.same(want, line)
    judge.same(len(wanted), len(said.lines))


def judge_clerk(judge: Judge, draw: random.Random) -> None:
    """A clerk's file, at times with a bad line: its answers, and the parcels after it."""
    side = draw.choice(SIDES)
    outline = drawn.city(draw, side)
    filed = drawn.as_filed(draw, list(drawn.tiling(draw, outline, side, draw.randint(1, 5)).values()))
    city = read_city(read_layer(write_layer([outline])[0], None, "mm"))
    layer = load(city, read_layer(write_layer(filed)[0], None, "mm"))
    ahead, lines = Fabric(layer), []
    for _ in range(draw.randint(1, 20)):
        edit = drawn.edit(draw, ahead, side)
        ok_line(ahead, edit)
        lines.append(drawn.clerk_line(draw, words_of(edit)))
    data = b"".join(line + draw.choice((b"\n", b"\n", b"\r\n")) for line in lines)
    (judge.folder / "clerk.txt").write_bytes(data)
    judge.write("city", write_layer([outline]))
    judge.write("parcels", write_layer(filed))
    said = judge.run("check", "city.shp", "parcels.shp", "--unit", "mm", "--clerk", "clerk.txt")
    read = clerk_file(data)
    if isinstance(read, int):
        judge.same((f"error: clerk 1: L1 {read}", []), (said.error, said.lines))
        return
    fabric, wanted = Fabric(layer), []
    for number, edit in read:
        answer = ok_line(fabric, edit).split(" out ")[0]
        wanted.append(f"clerk 1 line {number} {answer}")
    judge.same([*wanted, f"tiling {len(fabric.rows)} {total_area2(fabric.rows)}"], said.lines)


KINDS: Dict[str, Callable[[Judge, random.Random], None]] = {
    "files": judge_files,
    "layer": judge_layer,
    "overlay": judge_overlay,
    "session": judge_session,
    "clerk": judge_clerk,
}


def judge_one(judge: Judge, kind: str, seed: int) -> Optional[str]:
    """Draws one case from its seed and judges it; what differs, in words, or None."""
    try:
        KINDS[kind](judge, random.Random(f"{kind} {seed}"))
    except (Differs, subprocess.TimeoutExpired) as fault:
        return f"{kind} {seed}: {fault}; its files are in {judge.folder}{os.sep}"
    return None
