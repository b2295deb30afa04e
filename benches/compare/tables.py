"""The tables of docs/compare.md."""

from __future__ import annotations

from typing import List, NamedTuple

from compare.peers import PEERS


class Score(NamedTuple):
    """What a program said of a register: the counts, its processor's seconds, its memory, by which part of a fault's
    area it was off at most, and why it gave up."""

    found: int = 0
    missed: int = 0
    false: int = 0
    seconds: float = 0.0
    mib: float = 0.0
    off: float = 0.0
    failed: str = ""


class Row(NamedTuple):
    """A program's score of one register."""

    way: str
    seed: int
    name: str
    score: Score


def counts(rows: List[Row]) -> str:
    """Found, missed and false of several rows; that it gave up where it did in each, and how often else."""
    gave_up = sum(bool(row.score.failed) for row in rows)
    if gave_up == len(rows):
        return "gave up"
    text = " / ".join(str(sum(row.score[at] for row in rows)) for at in range(3))
    return text + (f" (gave up {gave_up} of {len(rows)})" if gave_up else "")


def programs(rows: List[Row]) -> List[str]:
    """A row for each program: what it is given, what it takes, how exact it is, and all its counts."""
    lines = [
        "| Program | It is given | Found / missed / false | Areas off by at most "
        "| Processor's seconds a register | MiB |",
        "|---|---|---|---|---|---|",
    ]
    for peer in PEERS:
        own = [row for row in rows if row.name == peer.name]
        ended = [row.score for row in own if not row.score.failed]
        seconds = sum(it.seconds for it in ended) / max(1, len(ended))
        off, mib = max((it.off for it in ended), default=0.0), max((it.mib for it in ended), default=0.0)
        shown = f"{100 * off:.1f} %" if ended else "-"
        lines.append(f"| {peer.name} | {peer.asks} | {counts(own)} | {shown} | {seconds:.1f} | {mib:.0f} |")
    return lines


def by_way(rows: List[Row], ways: List[str]) -> List[str]:
    """A row for each way of keeping a register."""
    names = [peer.name for peer in PEERS]
    lines = ["| Kept | " + " | ".join(names) + " |", "|---|" + "---|" * len(names)]
    for way in ways:
        cells = [counts([row for row in rows if (row.way, row.name) == (way, name)]) for name in names]
        lines.append(f"| {way} | " + " | ".join(cells) + " |")
    return lines


def page_part(rows: List[Row], ways: List[str], seeds: int) -> str:
    """The part of the page that is made."""
    each = "one drawn register" if seeds == 1 else f"{seeds} drawn registers"
    head = (
        f"Of {len(ways)} ways to keep a register {each} each, of 50 to 500 parcels. Areas are compared with the ring of"
        " the fault's four corners as the layer keeps them. Seconds are those of processors, memory is that of the"
        " largest"
        " process; the time in which PostGIS takes a layer in is not counted."
    )
    middle = "Faults found / missed / false, by the way in which the registers are kept:"
    return "\n".join([head, "", *programs(rows), "", middle, "", *by_way(rows, ways)])
