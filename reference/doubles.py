"""Doubles of a file and the grid, after IEEE 754 and the rule of the documents.

A double's value v, times the millimetres of its unit, is read as the whole millimetre that it lies within 1/1024 of.
"""

from __future__ import annotations

import struct
from fractions import Fraction
from typing import Union

LIMIT = 100_000_000_000
MILLIMETRES = {"mm": 1, "cm": 10, "m": 1000}


def value_of(bits: int) -> Union[Fraction, str]:
    """What a double of these 64 bits is worth, exactly; `C1` where it is an infinity or no number.

    Definition: geo_exact `scaled_value`.
    """
    sign, exponent, fraction = bits >> 63, (bits >> 52) & 2047, bits & ((1 << 52) - 1)
    if exponent == 2047:
        return "C1"
    whole = fraction if exponent == 0 else fraction | (1 << 52)
    return Fraction((-1) ** sign * whole) * Fraction(2) ** (max(exponent, 1) - 1075)


def coordinate(bits: int, unit: str) -> Union[int, str]:
    """The whole millimetre, or the refusal: `C1` no number, `C2` off the grid, `C3` beyond the limit.

    Definition: geo_exact `IsOnGrid`, `IsCoordFault`.
    """
    value = value_of(bits)
    if isinstance(value, str):
        return value
    scaled = value * MILLIMETRES[unit]
    nearest = round(scaled)
    if abs(scaled - nearest) * 1024 > 1:
        return "C2"
    return nearest if abs(nearest) <= LIMIT else "C3"


def bits_of(value: float) -> int:
    """The 64 bits of a double."""
    return int(struct.unpack("<Q", struct.pack("<d", value))[0])
