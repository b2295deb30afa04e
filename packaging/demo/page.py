"""A page of the example town that needs no server and no network: its map after each deed, what the program says of it,
and the layer with a gap. All in it comes from the files of `examples/town` and from runs of the program."""
import json
import re
import struct
import subprocess
import tempfile
from pathlib import Path
from typing import Any, Dict, List, Tuple

HERE = Path(__file__).resolve().parent
Ring = List[Tuple[int, int]]


def rings_of(path: Path, millimetres: int) -> List[Ring]:
    """The rings of a layer whose coordinates are whole multiples of so many millimetres, in the order of its records;
    each without the last corner, which is the first again."""
    data, at, found = path.read_bytes(), 100, []
    while at < len(data):
        (words,) = struct.unpack_from(">i", data, at + 4)
        parts, count = struct.unpack_from("<2i", data, at + 44)
        numbers = struct.unpack_from(f"<{2 * count}d", data, at + 52 + 4 * parts)
        found.append(
            [(round(x * millimetres), round(y * millimetres)) for x, y in zip(numbers[:-2:2], numbers[1:-2:2])]
        )
        at += 8 + 2 * words
    return found


def deeds_of(text: str) -> List[Tuple[str, List[str]]]:
    """The deeds of a clerk's file: a comment, and the edits below it."""
    found: List[Tuple[str, List[str]]] = []
    for line in text.splitlines():
        if line.startswith("#"):
            found.append((line.lstrip("# "), []))
        elif line.strip() and found:
            found[-1][1].append(line)
    return found


class Town:
    """The town's folder, and the program."""

    def __init__(self, tool: Path, folder: Path, room: Path) -> None:
        self.tool, self.folder, self.room = tool, folder, room

    def run(self, *words: str) -> Dict[str, str]:
        """The command as a reader types it, and all that it prints."""
        ran = subprocess.run(
            [str(self.tool), *words],
            cwd=self.folder,
            stdin=subprocess.DEVNULL,
            stdout=subprocess.PIPE,
            stderr=subprocess.STDOUT,
            text=True,
            timeout=60,
        )
        shown = " ".join(["parcel_tool", *words]).replace(f"{self.room}/", "")
        return {"command": shown, "printed": ran.stdout}

    def state(self, name: str, edits: List[str], all_edits: List[str]) -> Dict[str, Any]:
        """The map, the verdict and the areas in zones after edits; `edits` are those of the last deed alone."""
        clerk, base = self.room / "deeds.txt", self.room / "town"
        clerk.write_text("".join(f"{line}\n" for line in ["grid cm", *all_edits]))
        also = ["--unit", "cm", "--clerk", str(clerk)]
        check = self.run("check", "city.shp", "parcels.shp", *also)
        areas = self.run("overlay", "city.shp", "parcels.shp", "zones.shp", "--areas", *also)
        self.run("export", "city.shp", "parcels.shp", "--out", str(base), *also)
        ids = sorted({int(it) for it in re.findall(r"^(?:split|within) (\d+)", areas["printed"], re.M)})
        rings = rings_of(base.with_suffix(".shp"), 1)
        in_zones = re.findall(r"^area (\d+) (\d+) (\d+)$", areas["printed"], re.M)
        if len(ids) != len(rings) or not in_zones:
            raise ValueError(f"the program said something else than a demonstration needs: {areas['printed'][:200]}")
        return {
            "name": name,
            "edits": edits,
            "parcels": [{"id": number, "ring": ring} for number, ring in zip(ids, rings)],
            "areas": [{"parcel": int(a), "zone": int(b), "twice": int(c)} for a, b, c in in_zones],
            "runs": [check],
            "edges": [],
        }


def states_of(tool: Path, folder: Path) -> List[Dict[str, Any]]:
    """The town as it was read, after each deed, and the layer with a gap."""
    with tempfile.TemporaryDirectory() as name:
        town, done = Town(tool, folder, Path(name)), [it for it in [""] if it]
        states = [town.state("The town as its files have it", [], [])]
        for comment, edits in deeds_of((folder / "edits.txt").read_text()):
            done += edits
            states.append(town.state(comment, edits, done))
        torn = town.run("check", "city.shp", "parcels_with_a_gap.shp", "--unit", "cm", "--all")
    edges = re.findall(r"^edge (\d+) (\d+) (\d+) (\d+) net (-?\d+)$", torn["printed"], re.M)
    rings = rings_of(folder / "parcels_with_a_gap.shp", 10)
    states.append(
        {
            "name": "Another layer: parcel 5 begins a centimetre too far east",
            "edits": [],
            "parcels": [{"id": number, "ring": ring} for number, ring in enumerate(rings, 1)],
            "areas": [],
            "runs": [torn],
            "edges": [[int(it) for it in edge] for edge in edges],
        }
    )
    return states


def page(tool: Path, folder: Path) -> str:
    """The page's text. The same program and files give the same text."""
    version = subprocess.check_output([str(tool), "--version"], text=True, stdin=subprocess.DEVNULL).strip()
    data = {
        # Without the sum of the program's texts, which every change of them changes.
        "version": re.sub(r", texts [0-9a-f]+", "", version),
        "city": rings_of(folder / "city.shp", 10)[0],
        "zones": rings_of(folder / "zones.shp", 10),
        "states": states_of(tool, folder),
    }
    text = json.dumps(data, separators=(",", ":")).replace("<", "\\u003c")
    return (HERE / "page.html").read_text().replace("@DATA@", text)
