"""The verdict on a register, as a type."""
from __future__ import annotations

from enum import Enum


class Verdict(str, Enum):
    """What is said of a register; it is the text that is printed, too: `report.verdict == "tiles"`.

    It is true just where the parcels tile: `if report.verdict:`.
    """

    TILES = "tiles"
    DOES_NOT_TILE = "does not tile"
    OPEN = "open"
    UNDECIDED = "undecided"

    def __bool__(self) -> bool:
        return self.tiles

    def __str__(self) -> str:
        return self.value

    def __format__(self, spec: str) -> str:
        return format(self.value, spec)

    @property
    def tiles(self) -> bool:
        """Whether the parcels tile their city, and nothing is left open."""
        return self is Verdict.TILES

    @property
    def status(self) -> int:
        """The status of `gandovel check` and `gandovel report`."""
        return {"tiles": 0, "does not tile": 1, "open": 3, "undecided": 3}[self.value]

    @property
    def words(self) -> str:
        """It as a sentence."""
        return _WORDS[self.value]


_WORDS = {
    "tiles": "the parcels tile the city: no gap, no overlap",
    "does not tile": "the parcels do not tile the city: there are gaps or overlaps",
    "undecided": "which faults there are can't be told from the layer's noise",
    "open": "the parcels tile the city that they make, which has gaps that are open to the outside",
}
