"""A register as every function takes it: what `prepare` made, a folder that it wrote, or layers with its options."""
from __future__ import annotations

import os
from typing import Optional, TypedDict, Union, Unpack

from .options import test_no_option
from .prepare import prepare
from .prepared import Prepared, load
from .sources import Source

Register = Union[Prepared, Source]
"""A `Prepared`, a folder that `prepare` wrote, or parcels that it takes: a path, a GeoDataFrame, a GeoSeries."""


class Options(TypedDict, total=False):
    """The options of `prepare` that every function takes where it is given parcels; `prepare` says what each means."""

    number: str
    zone: Optional[str]
    city: Optional[Source]
    frame: bool
    max_move: float
    touch: Optional[float]
    grid: Optional[float]
    unit: Union[str, float, None]
    skip_invalid: bool
    narrow: float
    layer: Optional[str]
    zones_layer: Optional[str]
    city_layer: Optional[str]
    neighbours: Optional[Source]
    neighbours_layer: Optional[str]


def register_of(parcels: Register, zones: Optional[Source] = None, **options: Unpack[Options]) -> Prepared:
    """The register, prepared now where it is not yet.

    Raises
    ------
    Refused
        P18: options, or zones, for a register that was prepared before: they would change nothing. Else as `prepare`
        and `load` do.
    """
    is_folder = isinstance(parcels, (str, os.PathLike)) and os.path.isfile(os.path.join(parcels, "prepared.json"))
    if not isinstance(parcels, Prepared) and not is_folder:
        return prepare(parcels, zones, **options)
    prepared = parcels if isinstance(parcels, Prepared) else load(str(parcels))
    test_no_option(prepared, {"zones": zones, **options}, "the register")
    return prepared
