"""The keys of rows as their owner has them: the column's own name and type, and the frame's index."""
from __future__ import annotations

from typing import Any, Sequence

import geopandas as gpd
import numpy as np
import pandas as pd

from .loops import ROW


def key_of(source: Any, frame: gpd.GeoDataFrame, column: str) -> pd.Series:
    """The column of a layer's own numbers, with the index of the source where that is a frame.

    `frame` is the source as it was read. For `ROW` they are the rows' positions, from 1.
    """
    index = source.index if isinstance(source, (gpd.GeoDataFrame, gpd.GeoSeries)) else frame.index
    given = source if isinstance(source, gpd.GeoDataFrame) else frame
    names = [str(name) for name in given.columns]
    if column not in names:
        return pd.Series(range(1, len(frame) + 1), index=index, name=ROW, dtype="int64")
    at = names.index(column)
    return pd.Series(given.iloc[:, at].array.copy(), index=index, name=given.columns[at])


def keys_at(key: pd.Series, rows: Sequence[int]) -> pd.Series:
    """The keys of rows (from 0), with their index labels; a row of -1 has none, and its label is its position.

    Where one is missing the type is what pandas makes of it (floats of whole numbers, which merge with these), but
    `Int64` where floats would not have all digits.
    """
    if all(row >= 0 for row in rows):
        return key.iloc[list(rows)]
    large = isinstance(key.dtype, np.dtype) and key.dtype.kind in "iu" and (key.abs() > 2**53).any()
    with_gaps = key.astype("Int64") if large else key
    return pd.Series(with_gaps.array, name=key.name).reindex(list(rows)).reset_index(drop=True)
