"""Whole numbers in a column of pandas: exact, however large."""
from __future__ import annotations

from fractions import Fraction
from typing import Any, Optional, Sequence, Union

import pandas as pd

Exact = Union[int, Fraction]


def whole_numbers(values: Sequence[Optional[Exact]], index: Any = None) -> pd.Series:
    """Exact values as a column: `Int64`, or `object` where one is no whole number or has more than 63 bits.

    None is missing (`pandas.NA`, in a column of objects None).
    """
    plain = [None if value is None else value if isinstance(value, Fraction) else int(value) for value in values]
    fits = all(value is None or (isinstance(value, int) and abs(value) < 2**63) for value in plain)
    return pd.Series(plain, index=index, dtype="Int64" if fits else object)


def texts_of(values: Sequence[Any]) -> "list[Optional[str]]":
    """Such a column as a file has it: text, since a file's whole numbers end at 63 bits; None for what is missing."""
    return [None if value is None or value is pd.NA else str(value) for value in values]
