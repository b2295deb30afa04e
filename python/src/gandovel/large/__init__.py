"""Layers of any size: cut into districts along parcels' own borders, judged one by one, and put together by the law.

What is beyond a layer's limits (65,536 rings, 1,000,000 corners), or beyond `Cutting.most`, is cut. A caller sees the
same answers as of a small layer: `check_island`, `overlay_of_island` and `locate_in_island` stand in for the program's
`check`, `overlay` and `locate`. docs/many.md says how, and docs/guarantees.md which part of it is proved.
"""
from __future__ import annotations

from contextlib import contextmanager
from contextvars import ContextVar
from dataclasses import dataclass
from typing import TYPE_CHECKING, Iterator, Optional, Sequence

if TYPE_CHECKING:  # the command line begins without it
    from ..arrays import Array

MOST_RINGS, MOST_IN_ALL = 65_536, 1_000_000
"""The most rings of a layer, and the most corners, that one run of the program takes."""

A_DISTRICT = 50_000
"""The most rings that a district is given where nothing else is said."""


@dataclass(frozen=True)
class Cutting:
    """How a layer is cut and judged: rings a district at most, by what engine, how many runs at once.

    Where `most` is None, what one run of the program takes is not cut. `engine` is `processes` (of this machine),
    `parallel`, `slurm` or `dask`; `scheduler` the address of Dask's. `jobs` None: as many as there are processors.
    """

    most: Optional[int] = None
    engine: str = "processes"
    jobs: Optional[int] = None
    scheduler: Optional[str] = None


_cutting: ContextVar[Cutting] = ContextVar("cutting", default=Cutting())


@contextmanager
def cut_by(how: Cutting) -> Iterator[None]:
    """Layers are cut so, while this holds."""
    token = _cutting.set(how)
    try:
        yield
    finally:
        _cutting.reset(token)


def how_cut() -> Cutting:
    """How layers are cut now."""
    return _cutting.get()


def is_large(rings: "Sequence[Array]") -> bool:
    """Whether a layer of these rings is cut."""
    most = how_cut().most or MOST_RINGS
    return len(rings) > min(most, MOST_RINGS) or sum(map(len, rings)) > MOST_IN_ALL
