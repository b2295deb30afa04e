"""Long lists in shares, by processes forked from this one that are given where a share begins and ends."""
from __future__ import annotations

from typing import Any, Callable, List

from . import MOST_RINGS, how_cut
from .runs import forked, jobs_of

A_SHARE = 8_192
"""So many of a list are a share: enough that telling of it takes no time, few enough that processes end together."""


def in_shares(work: Callable[[int, int], Any], count: int, rows: int) -> List[Any]:
    """What a call answers for (begin, end) of the shares of 0 .. count - 1, in order.

    `rows` are those of the layer that it is about: beyond what one run of the program takes, shares are worked on side
    by side; else there is one share, and this process does it.
    """
    if rows <= MOST_RINGS:
        return [work(0, count)]
    begins = range(0, max(count, 1), A_SHARE)
    return forked(lambda at: work(begins[at], min(begins[at] + A_SHARE, count)), len(begins), jobs_of(how_cut()))
