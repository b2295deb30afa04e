"""Answers in their owner's terms: own key columns, own types, the frame's index, whole numbers."""
from __future__ import annotations

from fractions import Fraction
from typing import Any, List, Optional, Sequence

import geopandas as gpd

from ..exact.whole_numbers import whole_numbers
from ..reading.keys import keys_at
from ..reading.prepared import Prepared
from .gpkg import Table


def parcels_as_given(prepared: Prepared) -> gpd.GeoDataFrame:
    """A copy of the parcels with the index, and the key column, that they were given with."""
    frame, key = prepared.parcels.copy(), prepared.parcel_key
    if prepared.number in frame.columns:
        at = list(frame.columns).index(prepared.number)
        frame = frame.drop(columns=prepared.number)
        frame.insert(at, key.name, key.array)
    return frame.set_axis(key.index, axis=0)


def with_own_keys(
    prepared: Prepared, frame: gpd.GeoDataFrame, rows: Sequence[int], zones: Optional[Sequence[int]] = None
) -> gpd.GeoDataFrame:
    """A frame whose columns `number` and `zone` are texts, with the own columns in their place.

    `rows` are the parcels' rows (from 0), whose index labels the result has, and `zones` those of zones.
    """
    number = keys_at(prepared.parcel_key, rows)
    others = [str(name) for name in frame.columns if name not in ("number", "zone")]
    names = {"number": free_name(number.name, others)}
    values: "dict[str, Any]" = {"number": number.array}
    if zones is not None:
        zone = keys_at(prepared.zone_key, zones)
        wanted = zone.name if str(zone.name) not in (str(names["number"]), "ROW") else "zone"
        names["zone"] = free_name(wanted, [*others, str(names["number"])])
        values["zone"] = zone.array
    for name, array in values.items():
        frame[name] = array
    if "area2_mm2" in frame.columns:
        frame["area2_mm2"] = whole_numbers(numbers_in(frame["area2_mm2"])).array
    return frame.rename(columns=names).set_axis(number.index, axis=0)


def own_frame(prepared: Prepared, table: Table) -> gpd.GeoDataFrame:
    """A table of a report as a frame, by the parcels' own numbers (and its zones' own names) and index labels."""
    frame = table.frame()
    rows = {number: row for row, number in enumerate(prepared.numbers)}
    zones = None
    if "zone" in frame.columns and "share" in frame.columns:
        positions = {name: row for row, name in reversed(list(enumerate(prepared.zone_names)))}
        zones = [positions.get(name, -1) for name in frame["zone"]]
    return with_own_keys(prepared, frame, [rows[number] for number in frame["number"]], zones)


def numbers_in(texts: Sequence[Optional[str]]) -> List[Any]:
    """Exact numbers written as texts; None where there is none."""
    found = [None if text is None else Fraction(text) for text in texts]
    return [int(it) if it is not None and it.denominator == 1 else it for it in found]


def free_name(name: Any, taken: Sequence[str]) -> Any:
    """The name, or where a column has it already with an underscore after it."""
    while str(name) in taken:
        name = f"{name}_"
    return name
