"""How finely a register is kept, corner by corner: the grid of each corner and of each parcel, learnt where they lie.

A register has corners of several surveys: most in centimetres, some in millimetres. So a corner has the coarsest grid
that it fits, and a parcel the coarsest that most of its corners fit. Grids are decimal (1 m, 1 dm, .. of the layer's
unit), halves and quarters of these (50, 25, 5 mm, ..), or binary (the unit, halved again and again). A tenth of all
numbers ends in 0: a grid is believed only if far more corners fit it than would by chance.
"""
from __future__ import annotations

from dataclasses import dataclass
from fractions import Fraction
from typing import List, Optional, Sequence

import numpy as np

from ..arrays import Array
from .loops import Loops

FITS = 1 / 100
"""A corner fits a grid where it is off it by no more than this part of its step, in x and y."""
COARSEST, COARSEST_OF_FEW = 100.0, 10.0
"""The coarsest grid, in mm, that is found: a decimetre; a centimetre where a layer has few corners."""
DRAWN = 1000.0
"""Where most corners lie on a grid between this and `COARSEST`, in mm, they were drawn by numbers and not rounded."""
FEW = 64
DECADES = 8
HALVINGS = 10
SURE, LEAST_MORE = 6.0, 3.0
"""A grid is believed where so many standard deviations, and corners, more fit it than by chance."""
NONE = -1


@dataclass
class Grids:
    """The grids of a layer's corners.

    `steps` (mm) are those believed, the coarsest first; `of_points` has for each point the index of its step, or -1.
    `main` is the coarsest step that most of the corners fit, None where most fit none.
    """

    steps: List[float]
    of_points: Array
    main: Optional[float]

    def fits(self, index: Array, at: int) -> Array:
        """Which of these (indices of steps, or -1) fit step `at`: it, or a multiple of it."""
        table = np.array([_is_multiple(step, self.steps[at]) for step in self.steps] + [False])
        return np.asarray(table[index])

    def counts(self) -> "list[tuple[float, int]]":
        """How many points have each step as their coarsest."""
        return [(step, int((self.of_points == at).sum())) for at, step in enumerate(self.steps)]


def grids_of(points: Array, scale: float, noise: float) -> Grids:
    """The grids of points (n, 2) in mm, no two the same, in a layer of `scale` mm a unit.

    In a layer of few corners, and in one drawn on whole units, most of which says nothing of how corners were rounded,
    all corners together have one grid: that of the finest.
    """
    steps = candidates(scale, noise)
    fitted = _fitted(points, steps, noise)
    most = COARSEST_OF_FEW if len(points) < FEW else COARSEST
    coarse = sum(step > most * 1.05 for step in steps)
    if len(points) < FEW or 2 * int((fitted < sum(step > COARSEST * 1.05 for step in steps)).sum()) > len(points):
        return _all_on_one(points, [step for step in steps if step <= most * 1.05], noise)
    counts = np.bincount(fitted, minlength=len(steps) + 1)
    real = [at for at in range(coarse, len(steps)) if _is_believed(at, steps, counts, noise)]
    return _believed(points, [steps[at] for at in real], noise)


def candidates(scale: float, noise: float) -> List[float]:
    """The steps, in mm, that a grid may have, the coarsest first: those that floating point can show."""
    top = scale * 10.0 ** np.floor(np.log10(DRAWN * 1.05 / scale))
    decimal = [top * 10.0**-at / part for at in range(DECADES) for part in (1, 2, 4)]
    binary = [scale / 2.0**at for at in range(1, HALVINGS + 1)]
    kept = [step for step in {*decimal, *binary} if noise <= step / 20 and step <= DRAWN * 1.05]
    kept.sort(reverse=True)
    return [step for at, step in enumerate(kept) if not at or kept[at - 1] - step > 1e-9 * step]


def _fitted(points: Array, steps: Sequence[float], noise: float) -> Array:
    """For each point the index of the coarsest step that it fits; their number where it fits none."""
    found = np.full(len(points), len(steps), dtype=np.int64)
    left = np.arange(len(points))
    for at, step in enumerate(steps):
        here = points[left]
        fits = np.abs(here - np.rint(here / step) * step).max(axis=1) <= max(noise, step * FITS)
        found[left[fits]] = at
        left = left[~fits]
        if not len(left):
            break
    return found


def _all_on_one(points: Array, steps: Sequence[float], noise: float) -> Grids:
    """The coarsest step that all points fit, as the grid of each."""
    for step in steps:
        if len(points) and np.abs(points - np.rint(points / step) * step).max() <= max(noise, min(step * FITS, 0.01)):
            return Grids([step], np.zeros(len(points), dtype=np.int64), step)
    return Grids([], np.full(len(points), NONE, dtype=np.int64), None)


def _is_believed(at: int, steps: Sequence[float], counts: Array, noise: float) -> bool:
    """Whether far more corners have this step as their coarsest than corners of finer steps, or of none, have by
    chance."""
    step = steps[at]
    width = max(noise, step * FITS)
    chance = float(counts.sum()) * (2 * width / step) ** 2 if counts[-1] else 0.0
    for finer in range(at + 1, len(steps)):
        if counts[finer]:
            fitting = sum(int(counts[it]) for it in range(finer + 1) if _is_multiple(steps[it], steps[finer]))
            beside = 2 * int(width / steps[finer]) + 1
            chance = max(chance, fitting * min(1.0, beside / _ratio(step, steps[finer]).numerator) ** 2)
    return bool(counts[at] > chance + SURE * chance**0.5 + (LEAST_MORE if chance > 0 else 0))


def _believed(points: Array, steps: List[float], noise: float) -> Grids:
    """Points by the coarsest of the steps that are believed which they fit."""
    fitted = _fitted(points, steps, noise)
    grids = Grids(steps, np.where(fitted == len(steps), NONE, fitted), None)
    for at, step in enumerate(steps):
        if 2 * int(grids.fits(grids.of_points, at).sum()) > len(points):
            grids.main = step
            break
    return grids


def _ratio(step: float, finer: float) -> Fraction:
    return Fraction(step / finer).limit_denominator(10_000)


def _is_multiple(step: float, of: float) -> bool:
    return abs(step / of - round(step / of)) < 1e-6 and round(step / of) > 0


def steps_of_rows(loops: Loops, grids: Grids, corners: Array) -> "tuple[Array, Array]":
    """For each loop the step (mm) of the parcel that it is of, 0 for none; and that of each corner of the loops.

    `corners` has for each corner its point's position in `grids`. A parcel has the coarsest step that more than half of
    its corners fit. One that has none takes the layer's. A corner's is the coarser of its own and its parcel's.
    """
    sizes = np.diff(loops.starts)
    keys, row = np.unique(np.column_stack([loops.layer, loops.row]), axis=0, return_inverse=True)
    row_of_corner = np.repeat(row.reshape(-1), sizes)
    total = np.bincount(row_of_corner, minlength=len(keys))
    own = grids.of_points[corners]
    of_rows = np.full(len(keys), grids.main or 0.0)
    decided = np.zeros(len(keys), dtype=bool)
    for at, step in enumerate(grids.steps):
        fits = np.bincount(row_of_corner[grids.fits(own, at)], minlength=len(keys))
        here = ~decided & (2 * fits > total)
        of_rows[here], decided = step, decided | here
    of_own = np.array([*grids.steps, 0.0])[own]
    return of_rows[row.reshape(-1)], np.maximum(of_rows[row_of_corner], of_own)
