"""What the package answers: one JSON object, or the features that it refuses. The one place that knows its keys."""
from __future__ import annotations

import json
import re
from dataclasses import dataclass
from pathlib import Path
from typing import Any, Dict, List, Optional, Sequence

from .program import Ended, NotFound, Watcher, no_program, run
from .words import counted, tr

PACKAGE_SIDE = Path(__file__).with_name("package_side") / "answer.py"
"""What the package's own Python runs where the package has no command for it."""
KINDS = ("gap", "overlap", "beyond", "open_gap", "sliver")
LAYERS = {"gap": "gaps", "overlap": "overlaps", "beyond": "beyond", "open_gap": "open_gaps", "sliver": "slivers"}
"""The layer of a report, and the name of its count, for each kind of fault."""
Answer = Dict[str, Any]
_ERROR = re.compile(
    r"error: (?:(?P<role>parcels|zones|city|points|edits): )?(?P<code>[A-Z]\d+|no memory)\b ?"
    r"(?:(?:parcel|zone) (?P<number>.*?): )?(?P<text>.*)"
)
_OPTIONS = re.compile(r"(?:,? or)? (?:go on without them by --skip-invalid|say its unit by --unit.*)")
"""What a text of the package says of a command line, which a user of QGIS has not."""
_PLACE = re.compile(r"at \((-?[0-9.]+), (-?[0-9.]+)\)")


@dataclass(frozen=True)
class Refusal:
    """A feature, or a layer, that is refused: code, role, own number, and the place in the layer's units."""

    code: str
    text: str
    role: str = ""
    number: Optional[str] = None
    x: Optional[float] = None
    y: Optional[float] = None

    def __str__(self) -> str:
        if self.code == NOT_TILING:
            return self._not_tiling()
        owner = {"zones": "zone", "points": "point in row"}.get(self.role, "parcel")
        parts = [f"{self.role}: " if self.role else "", f"{self.code} "]
        parts.append(f"{owner} {self.number}: " if self.number is not None else "")
        where = f" at ({self.x:.3f}, {self.y:.3f})" if self.x is not None and self.y is not None else ""
        parts.append(self.text if not where or _PLACE.search(self.text) else self.text + where)
        return "".join(parts).rstrip()

    def _not_tiling(self) -> str:
        """A layer that does not tile, in words: the program's own are an edge and how often it is covered."""
        layer = tr("The zones") if self.role == "zones" else tr("The parcels")
        place = _PLACE.search(self.text)
        if place is None:
            return tr("{layer} do not tile the city.", layer=layer)
        return tr("{layer} do not tile the city: there is a fault at ({x}, {y}).", layer=layer, x=place[1], y=place[2])


ON_PATH = "put it on PATH"
"""What the package proposes to users of a shell where there is no program."""
UNDECIDED = "undecided"
"""The verdict on a layer whose corners lie beside borders at distances that have no clear edge."""
NOT_TILING = "H2"
"""The code of a layer that has to tile, and does not."""


class Refused(Exception):
    """The package refuses a layer or a command; `refusals` has each reason, one or more."""

    def __init__(self, refusals: Sequence[Refusal]) -> None:
        super().__init__("\n".join(map(str, refusals)))
        self.refusals = list(refusals)


def report(source: str, out: str, options: Answer, folder: str, watcher: Watcher) -> Answer:
    """The answer to `gandovel report`: of the layer `source`, with options by their names, its layers in `out`.

    Raises `Refused`, `NotFound`, `Cancelled`.
    """
    words = ["-m", "gandovel", "report", source, "--out", out, "--json"]
    for name, value in options.items():
        words += [f"--{name.replace('_', '-')}", *([] if value is True else [str(value)])]
    return _answer_of(run(words, folder, watcher))


def package_side(request: Answer, folder: str, watcher: Watcher) -> Answer:
    """The answer of `package_side/answer.py` to a request. Raises as `report` does."""
    path = Path(folder) / "request.json"
    path.write_text(json.dumps(request), encoding="utf-8")
    return _answer_of(run([str(PACKAGE_SIDE), str(path)], folder, watcher))


def _answer_of(ended: Ended) -> Answer:
    answer = _object_of(ended.printed)
    errors = [line for line in ended.errors if line.startswith("error: ")]
    if answer is not None and "refused" not in answer and ended.status in (0, 1, 3) and not errors:
        return answer
    refusals = [_refusal_of(row) for row in (answer or {}).get("refused", [])] or [_of_line(line) for line in errors]
    if any(refusal.code == "T1" for refusal in refusals):
        reasons = [refusal.text for refusal in refusals if ON_PATH not in refusal.text]
        raise NotFound(" ".join([no_program(), *(f"({reason})" for reason in reasons)]))
    if refusals:
        raise Refused(refusals)
    last = (ended.errors or [""])[-1]
    raise Refused([Refusal("T2", f"the package gandovel ended with status {ended.status} and no answer: {last}")])


def _object_of(printed: str) -> Optional[Answer]:
    try:
        answer = json.loads(printed)
    except ValueError:
        return None
    return answer if isinstance(answer, dict) else None


def _refusal_of(row: Dict[str, Any]) -> Refusal:
    number = row.get("number")
    text = _OPTIONS.sub("", " ".join(str(row.get("text") or "").split()))
    return Refusal(
        str(row.get("code", "")),
        text,
        str(row.get("role") or ""),
        None if number is None else str(number),
        row.get("x"),
        row.get("y"),
    )


def _of_line(line: str) -> Refusal:
    found = _ERROR.fullmatch(line)
    if found is None:
        return Refusal("T2", line[len("error: ") :])
    place = _PLACE.search(found["text"])
    x, y = (float(place[1]), float(place[2])) if place else (None, None)
    return Refusal(found["code"], found["text"], found["role"] or "", found["number"], x, y)


def counts_of(answer: Answer) -> Dict[str, int]:
    """How many faults of each kind there are."""
    counts = answer.get("counts", {})
    return {kind: int(counts.get(name, 0)) for kind, name in LAYERS.items()}


def notes_of(answer: Answer) -> List[str]:
    """What the package says beside the verdict: where the city is from, what touches, what was skipped or is lost."""
    city, touched, skipped = answer.get("city") or {}, answer.get("touched") or {}, answer.get("skipped") or []
    notes = []
    if city.get("from") == "parcels":
        notes.append(tr("The city's outline is made of the parcels; give a layer of it to find gaps along it."))
    if int(city.get("islands", 1)) > 1:
        notes.append(tr("The city has {count} parts that do not touch one another.", count=city["islands"]))
    if touched.get("corners"):
        closed = f"{float(touched.get('closed_m2') or 0):.4f} m²"
        largest = f"{float(touched.get('largest_mm') or 0):.2f} mm"
        text = "{count} corners were made to touch, at most {largest} off; this closed {closed}."
        notes.append(tr(text, count=touched["corners"], largest=largest, closed=closed))
    proposed = ((answer.get("basis") or {}).get("precision") or {}).get("proposed") or []
    if answer.get("verdict") == UNDECIDED and proposed:
        distances = ", ".join(f"{float(one['touch_mm']):g}" for one in proposed)
        text = "Say in Check parcels how near to a border a corner touches it (advanced). These fit (mm): {distances}."
        notes.append(tr(text, distances=distances))
    if skipped:
        numbers = ", ".join(str(row.get("number")) for row in skipped[:20]) + (", .." if len(skipped) > 20 else "")
        notes.append(tr("{count} features were skipped: {numbers}", count=len(skipped), numbers=numbers))
    return [*notes, *map(str, answer.get("lost") or [])]


def counts_by_layer(answer: Answer) -> Dict[str, Dict[str, int]]:
    """How many faults of each kind each layer (parcels, zones) has; of an answer that lists none, all are the
    parcels'."""
    found: Dict[str, Dict[str, int]] = {"parcels": dict.fromkeys(KINDS, 0)}
    if "faults" not in answer:
        return {"parcels": counts_of(answer)}
    for fault in answer["faults"]:
        kinds = found.setdefault(str(fault.get("layer", "parcels")), dict.fromkeys(KINDS, 0))
        kinds[str(fault["kind"])] = kinds.get(str(fault["kind"]), 0) + 1
    return found


def counts_text(counts: Dict[str, int]) -> str:
    """The count of each kind of fault, in words."""
    beyond = counted(counts["beyond"], tr("1 part beyond the city"), tr("{count} parts beyond the city"))
    return ", ".join(
        (
            counted(counts["gap"], tr("1 gap"), tr("{count} gaps"), tr("no gaps")),
            counted(counts["overlap"], tr("1 overlap"), tr("{count} overlaps"), tr("no overlaps")),
            *([beyond] if counts["beyond"] else []),
            counted(counts["open_gap"], tr("1 open gap"), tr("{count} open gaps"), tr("no open gaps")),
            counted(counts["sliver"], tr("1 sliver"), tr("{count} slivers"), tr("no slivers")),
        )
    )


def verdict_of(answer: Answer) -> str:
    """The verdict in words, with the count of each kind of fault; of parcels and zones each its own."""
    layers = counts_by_layer(answer)
    counts = layers["parcels"]
    if answer.get("verdict") == UNDECIDED:
        text = tr("Which faults there are can't be told from the layer's noise: {counts}.", counts=counts_text(counts))
    elif not any(counts.values()) and answer.get("verdict") != "open":
        text = tr("The parcels tile the city: {counts}.", counts=counts_text(counts))
    elif any(counts[kind] for kind in ("gap", "overlap", "beyond", "sliver")):
        text = tr("The parcels do not tile the city: {counts}.", counts=counts_text(counts))
    else:
        text = tr("The verdict is open: {counts}.", counts=counts_text(counts))
    zones = layers.get("zones")
    if zones is not None and any(zones.values()):
        text += " " + tr("The zones do not tile the city: {counts}.", counts=counts_text(zones))
    return text


def largest_of(answer: Answer) -> List[str]:
    """A sentence on the largest fault of an answer: where it is, and at which parcels; none where it has none."""
    fault = next(iter(answer.get("faults", [])), None)
    if fault is None:
        return []
    numbers = ", ".join(map(str, fault.get("numbers", [])))
    text = "The largest is at ({x}, {y}), at the parcels {numbers}."
    return [tr(text, x=f"{float(fault['x']):.3f}", y=f"{float(fault['y']):.3f}", numbers=numbers)]
