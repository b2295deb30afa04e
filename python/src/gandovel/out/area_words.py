"""Areas and counts as reports print them."""
from __future__ import annotations

from fractions import Fraction
from typing import Any, Iterable, List, Optional

from ..program.zone_areas import SQUARE_METRE
from ..reading.units import Unit

SHOWN = 8
"""So many areas are printed, the largest."""


def counted(number: int, noun: str) -> str:
    return f"{number or 'no'} {noun}{'' if number == 1 else 's'}"


def areas_text(doubled: Iterable[Any], unit: Unit) -> str:
    """The largest of doubled areas (mm2), as they are printed."""
    areas = sorted((Fraction(area2) / 2 for area2 in doubled), reverse=True)
    return ", ".join(area_text(area, unit) for area in areas[:SHOWN]) + (", .." if len(areas) > SHOWN else "")


def largest_first(doubled: Iterable[Any]) -> List[int]:
    """The order of doubled areas (mm2) in which the largest is first: exact."""
    areas = [Fraction(area2) for area2 in doubled]
    return sorted(range(len(areas)), key=lambda at: -areas[at])


def area_text(area: Fraction, unit: Optional[Unit] = None) -> str:
    """An area of square millimetres, in m2 with two decimals, a small one in mm2; and in a unit that is no metre."""
    if area >= SQUARE_METRE // 100:
        text = f"{float(area) / SQUARE_METRE:.2f} m2"
    else:
        text = f"{int(area)} mm2" if area == int(area) else f"{float(area):.3g} mm2"
    if unit is None or unit.is_metre or unit.millimetres in (1.0, 10.0, 100.0):
        return text
    return f"{float(area) / unit.millimetres**2:.2f} {unit.symbol}2 = {text}"
