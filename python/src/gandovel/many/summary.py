"""What a run says in the end: the verdict of each city, what the districts of a city make up, and the faults of all."""
from __future__ import annotations

import csv
import io
import json
import re
from collections import Counter, defaultdict
from dataclasses import astuple, dataclass, field, replace
from typing import TYPE_CHECKING, AbstractSet, Any, Dict, FrozenSet, List, Mapping, Optional, Sequence, Tuple

from ..errors import Refused
from ..program.tool import refusal
from .manifest import Row, by_depth
from .results import Result

if TYPE_CHECKING:
    from .layers import Crossing

COLUMNS = (
    "name",
    "verdict",
    "code",
    "layer",
    "text",
    "parcels",
    "area2_mm2",
    "pairs",
    "split",
    "edits_refused",
    "seconds",
    "memory_kb",
)
SHOWN = 8


@dataclass(frozen=True)
class Verdict:
    """What is known of a city. `verdict` is `tiles`, `refused`, or `none` where there is no result.

    Of a city of districts it is what they make up (`Whole`), and may be `open` or `misfiled`, too. `code`, `layer` and
    `text` say why it is refused (docs/cli.md), or why there is no result (docs/many.md). `parcels` is how many tile,
    `area2` twice the city's area in mm2 (of a check), `pairs` and `split` are an overlay's; each is None where it is
    not told. `seconds` and `memory_kb` are the program's.
    """

    name: str
    verdict: str
    code: str = ""
    layer: str = ""
    text: str = ""
    parcels: Optional[int] = None
    area2: Optional[int] = None
    pairs: Optional[int] = None
    split: Optional[int] = None
    edits_refused: Optional[int] = None
    seconds: Optional[float] = None
    memory_kb: Optional[int] = None

    @property
    def tiles(self) -> bool:
        """Whether the program says that the parcels tile the city, and so the zones where there are some."""
        return self.verdict == "tiles"


def verdict_of(result: Result) -> Verdict:
    """The verdict that a result has."""
    costs: Dict[str, Any] = {"seconds": result.seconds, "memory_kb": result.memory_kb}
    output = result.output
    edits = re.findall(r"^clerk \d+ line \d+ (\w+)", output, re.MULTILINE) if "clerk " in output else []
    if edits:
        costs["edits_refused"] = edits.count("refused")
    if result.status != 0:
        said = [line for line in result.errors.splitlines() if line.startswith("error: ")][-1][len("error: ") :]
        refused = refusal(said)
        return Verdict(result.name, "refused", refused.code, refused.role, refused.text, **costs)
    if result.command[1] == "overlay" and _lines(output, "entries"):
        split, within = _lines(output, "split"), _lines(output, "within")
        if result.records not in (None, split + within):
            return _unfit(result, split + within)
        return Verdict(result.name, "tiles", parcels=split + within, pairs=_lines(output, "pair"), split=split, **costs)
    tiling = re.search(r"^tiling (\d+) (\d+)$", output, re.MULTILINE)
    if result.command[1] == "check" and tiling:
        if result.records not in (None, int(tiling[1])):
            return _unfit(result, int(tiling[1]))
        return Verdict(result.name, "tiles", parcels=int(tiling[1]), area2=int(tiling[2]), **costs)
    return not_judged(result.name, ("T2", "the program ended with status 0 and told no verdict"))


def _unfit(result: Result, parcels: int) -> Verdict:
    text = f"the program told a verdict of {parcels} parcels, and the layer has {result.records}"
    return not_judged(result.name, ("T2", text))


def _lines(text: str, word: str) -> int:
    """How many lines of a text begin with a word and a space."""
    return text.count(f"\n{word} ") + text.startswith(f"{word} ")


def not_judged(name: str, why: Tuple[str, str]) -> Verdict:
    """The verdict of a city that has no result: none, with the code and the text of why."""
    return Verdict(name, "none", why[0], text=why[1])


@dataclass(frozen=True)
class Layers:
    """What is known of layers of districts: how many records each has, by its row's name, and districts that are
    astray.

    Those were judged in another ring than the record that the layer's verdict is of, as where a file changed in
    between.
    """

    records: Mapping[str, int] = field(default_factory=dict)
    astray: AbstractSet[str] = frozenset()
    shared: Mapping[str, Sequence[str]] = field(default_factory=dict)
    """Parcels' numbers that stand in two districts, by the city's name."""
    crossing: "Mapping[str, Sequence[Crossing]]" = field(default_factory=dict)
    """Parcels that reach from one district into another, by the city's name."""
    area2: Mapping[str, int] = field(default_factory=dict)
    """Twice the area, in mm2, of cities whose verdict tells none, as that of an overlay."""
    pairs: Mapping[str, Tuple[int, int]] = field(default_factory=dict)
    """How many pairs of a parcel and a zone a city's districts have together, and how many parcels are split."""
    not_overlaid: Mapping[str, str] = field(default_factory=dict)
    """Why pairs of a city are not known, by its name."""
    misfiled: Mapping[str, Sequence[str]] = field(default_factory=dict)
    """Districts whose files have parcels of one another, by the name of the city, which all parcels tile."""


@dataclass(frozen=True)
class Whole:
    """What follows for a city from its layer of districts, whose verdict is `layer`, and from the districts.

    `kind` is `tiles`: all parcels of its districts together tile it. That is a law (docs/guarantees.md) where the
    districts tile the city, and each district's parcels tile its ring. It is `refused` where the layer of districts or
    the parcels of a district do not, `misfiled` where all parcels tile it and some lie in another district's file, and
    `open` where a district was not judged. `said` tells why. `parcels` is how many the districts have together, `area2`
    twice the city's area in mm2; each is None where it is not told.
    """

    name: str
    districts: int
    kind: str
    said: str
    parcels: Optional[int] = None
    area2: Optional[int] = None
    layer: Optional[Verdict] = None
    pairs: Optional[int] = None
    split: Optional[int] = None

    @property
    def tiles(self) -> bool:
        """Whether all parcels together tile the city."""
        return self.kind == "tiles"

    @property
    def verdict(self) -> Verdict:
        """The same as a verdict of the city, with what its layer of districts took."""
        code = {"tiles": "", "open": "open", "misfiled": "misfiled"}.get(self.kind, "H2")
        costs: Dict[str, Any] = {}
        if self.layer is not None:
            costs = {"seconds": self.layer.seconds, "memory_kb": self.layer.memory_kb}
        text = "" if self.tiles else self.said.partition(": ")[2]
        return Verdict(self.name, self.kind, code, "", text, self.parcels, self.area2, self.pairs, self.split, **costs)


def whole_of(
    layer: Verdict,
    districts: Mapping[int, Verdict],
    astray: AbstractSet[str] = frozenset(),
    records: Optional[int] = None,
) -> Whole:
    """What follows for a city from the verdicts of its layer of districts, and of the districts by their record there.

    `records` is how many districts that layer has, where it does not tile and so tells none.
    """
    count = len(districts)
    unknown = _unknown(layer, districts, astray, records)
    if unknown:
        return Whole(layer.name, count, "open", f"open: {unknown}", layer=layer)
    listed = [it for _, it in sorted(districts.items())]
    bad = [it for it in listed if not it.tiles]
    why = [] if layer.tiles else [f"the layer of districts does not ({layer.code})"]
    if layer.tiles and bad and all(it.verdict == "misfiled" for it in bad):
        names = shortened([it.name for it in bad])
        said = f"all parcels tile, and the filing is wrong in {names}"
        return Whole(layer.name, count, "misfiled", said, layer=layer)
    if bad:
        names = shortened([f"{it.name} ({it.code})" for it in bad])
        why.append(f"{count - len(bad)} of {count} districts tile; not {names}")
    if why:
        return Whole(layer.name, count, "refused", f"does not tile: {'; '.join(why)}", layer=layer)
    counts = [it.parcels for it in listed if it.parcels is not None]
    parcels = sum(counts) if len(counts) == len(listed) else None
    told = "all parcels" if parcels is None else _count(parcels, "parcel", "parcels")
    said = f"tiles: {told} of {_count(count, 'district', 'districts')}"
    return Whole(layer.name, count, "tiles", said, parcels, layer.area2, layer)


def _with_filing(whole: Whole, layers: Layers) -> Whole:
    """The same, where all parcels tile the city and lie in one another's files: so, with those that do."""
    names = layers.misfiled.get(whole.name)
    if whole.kind != "refused" or not names:
        return whole
    astray = [f"{it.number} of {it.district} lies in {it.other}" for it in layers.crossing.get(whole.name, ())]
    told = f": parcel {shortened(astray)}" if astray else ""
    said = f"all parcels tile, and the filing is wrong: the edges of {shortened(names)} cancel one another{told}"
    return replace(whole, kind="misfiled", said=said)


def _with_numbers(whole: Whole, layers: Layers) -> Whole:
    """The same with parcels that cross districts, which a city that does not tile may have, and its pairs with zones.

    Open where numbers are shared, or pairs are not known.
    """
    shared, crossing = layers.shared.get(whole.name, ()), layers.crossing.get(whole.name, ())
    same = f"parcels have the same number: {shortened(shared)}" if shared else ""
    if whole.kind == "refused":
        names = [f"parcel {it.number} crosses districts {it.district} and {it.other}" for it in crossing]
        return replace(whole, said="; ".join(filter(None, [whole.said, shortened(names), same])))
    if whole.kind == "misfiled" and shared:
        return replace(whole, said=f"{whole.said}; {same}")
    if whole.kind == "tiles" and shared:
        return replace(whole, kind="open", said=f"open: {same}")
    if whole.kind == "tiles" and whole.name in layers.not_overlaid:
        return replace(whole, kind="open", said=f"open: {layers.not_overlaid[whole.name]}")
    if whole.name in layers.pairs:
        pairs, split = layers.pairs[whole.name]
        told = f"{whole.said}; {_count(pairs, 'pair', 'pairs')} with zones, {_count(split, 'parcel', 'parcels')} split"
        return replace(whole, said=told, pairs=pairs, split=split)
    return whole


def _unknown(
    layer: Verdict, districts: Mapping[int, Verdict], astray: AbstractSet[str], records: Optional[int]
) -> Optional[str]:
    """Why nothing follows for a city; None where something does."""
    there = layer.parcels if layer.tiles else records
    missing = [number for number in range(1, (there or 0) + 1) if number not in districts]
    without = [it for _, it in sorted(districts.items()) if it.verdict in ("none", "open")]
    elsewhere = [it.name for _, it in sorted(districts.items()) if it.name in astray]
    if layer.verdict == "none":
        return f"the layer of districts has no verdict ({layer.code})"
    if missing:
        numbers = shortened([str(number) for number in missing])
        return f"the manifest has no row for {'district' if len(missing) == 1 else 'districts'} {numbers} of {there}"
    if without:
        return f"not judged: {shortened([f'{it.name} ({it.code})' for it in without])}"
    if layer.tiles and len(districts) != there:
        return f"the layer has {_count(there or 0, 'district', 'districts')}, and the manifest {len(districts)}"
    areas = [it.area2 for it in districts.values() if it.tiles and it.area2 is not None]
    if layer.tiles and layer.area2 is not None and len(areas) == there and sum(areas) != layer.area2:
        return f"the districts have twice {sum(areas)} mm2, and the city {layer.area2}"
    if elsewhere:
        return f"the layer of districts changed between its check and the ring of {shortened(elsewhere)}"
    return None


def shortened(names: Sequence[str]) -> str:
    """The first names, with commas between."""
    return ", ".join(names[:SHOWN]) + (", .." if len(names) > SHOWN else "")


def wholes_of(rows: Sequence[Row], verdicts: Mapping[str, Verdict], layers: Layers = Layers()) -> List[Whole]:
    """The cities that have districts, in the manifest's order. A district of districts counts as what these make up."""
    found: Dict[str, Whole] = {}
    for level in reversed(by_depth(rows)):
        districts: Dict[str, Dict[int, Verdict]] = defaultdict(dict)
        for row in level:
            if row.part_of is not None and row.district is not None:
                whole = found.get(row.name)
                districts[row.part_of][row.district] = verdicts[row.name] if whole is None else whole.verdict
        for name, numbered in districts.items():
            verdict = verdicts[name]
            if verdict.area2 is None:
                verdict = replace(verdict, area2=layers.area2.get(name))
            whole = whole_of(verdict, numbered, layers.astray, layers.records.get(name))
            found[name] = _with_numbers(_with_filing(whole, layers), layers)
    return [found[row.name] for row in rows if row.name in found]


@dataclass
class Summary:
    """The end of a run: verdicts in the manifest's order, and what they make up.

    Of a city of districts `verdicts` has what these make up. `kept` are the cities that `resume` did not do again, and
    `differing` those that say something else now, where they were verified; `seconds` are the run's by the clock;
    `gaps`, `overlaps`, `rings` and `crossings` count what `faults.gpkg` has, and `untold` are the refused cities whose
    faults it lacks, since that task had no result. `unwritten` is why a file of these could not be written.
    """

    verdicts: List[Verdict]
    wholes: List[Whole] = field(default_factory=list)
    kept: int = 0
    seconds: float = 0.0
    gaps: int = 0
    overlaps: int = 0
    rings: int = 0
    crossings: int = 0
    untold: List[str] = field(default_factory=list)
    faults_file: Optional[str] = None
    kept_names: FrozenSet[str] = frozenset()
    differing: List[str] = field(default_factory=list)
    unwritten: Optional[Refused] = None

    def __post_init__(self) -> None:
        whole = {it.name: it.verdict for it in self.wholes}
        self.verdicts = [whole.get(it.name, it) for it in self.verdicts]

    @property
    def status(self) -> int:
        """The command's: 0 where all tile, 1 where one does not, 3 where one is open or has no verdict."""
        kinds = {it.verdict for it in self.verdicts}
        bad = kinds & {"refused", "misfiled"} or self.differing or self.unwritten
        return 3 if kinds & {"none", "open"} else 1 if bad else 0

    @property
    def without(self) -> List[Verdict]:
        """The cities that have no verdict."""
        return [it for it in self.verdicts if it.verdict == "none"]

    def lines(self) -> List[str]:
        """What is printed: how many cities tile, each city of districts, and where the faults are."""
        texts = [f"{_count(len(self.verdicts), 'city', 'cities')}: {sum(it.tiles for it in self.verdicts)} tile"]
        kinds = ("refused", "refused"), ("misfiled", "misfiled"), ("open", "open"), ("none", "without a verdict")
        for verdict, words in kinds:
            codes = Counter(it.code for it in self.verdicts if it.verdict == verdict)
            if codes:
                listed = ", ".join(f"{code} {n}" for code, n in sorted(codes.items()))
                plain = verdict in ("open", "misfiled")
                texts.append(f"{sum(codes.values())} {words}" + ("" if plain else f" ({listed})"))
        lines = [", ".join(texts) + (f"; {self.kept} kept" if self.kept else "")]
        lines += [f"{whole.name}: {whole.said}" for whole in self.wholes]
        if self.faults_file is not None:
            counts = [(self.gaps, "gap", "gaps"), (self.overlaps, "overlap", "overlaps")]
            counts += [(self.crossings, "parcel across districts", "parcels across districts")]
            counts += [(self.rings, "refused ring", "refused rings")]
            told = ", ".join(_count(*it) for it in counts if it[0])
            lines.append(f"{told}: {self.faults_file}")
        if self.untold:
            lines.append(f"no faults are told of {shortened(self.untold)}: their check has no result")
        if self.differing:
            lines.append(f"kept results said something else than the program does now: {shortened(self.differing)}")
        return lines

    def costs(self) -> str:
        """The program's seconds, the run's, and the most memory of a city, as text."""
        spent = sum(it.seconds or 0.0 for it in self.verdicts if it.name not in self.kept_names)
        most = max((it.memory_kb or 0 for it in self.verdicts), default=0)
        memory = f"{most / 1024:.0f} MiB the most for a city"
        return f"{self.seconds:.1f} s by the clock, {spent:.1f} s of the program; {memory}"

    def table(self) -> str:
        """`summary.csv`: one line a city."""
        text = io.StringIO()
        writer = csv.writer(text, lineterminator="\n")
        writer.writerow(COLUMNS)
        writer.writerows(map(astuple, self.verdicts))
        return text.getvalue()

    def facts(self) -> str:
        """`summary.json`: the counts, and what follows for each city that has districts."""
        counts = Counter(it.verdict for it in self.verdicts)
        told: Dict[str, Any] = {"cities": len(self.verdicts)}
        told.update((kind, counts[kind]) for kind in ("tiles", "refused", "misfiled", "open", "none"))
        told.update(kept=self.kept, differing=self.differing, seconds=round(self.seconds, 3))
        told.update((name, getattr(self, name)) for name in ("gaps", "overlaps", "rings", "crossings", "untold"))
        told["wholes"] = [
            {
                "name": it.name,
                "districts": it.districts,
                "verdict": it.kind,
                "tiles": it.tiles,
                "layer": it.layer and it.layer.verdict,
                "said": it.said,
                "parcels": it.parcels,
                "area2_mm2": it.area2,
                "pairs": it.pairs,
                "split": it.split,
            }
            for it in self.wholes
        ]
        return json.dumps(told, indent=1)


def _count(number: int, one: str, many: str) -> str:
    return f"{number} {one if number == 1 else many}"
