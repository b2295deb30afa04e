"""`frame.gandovel` of a GeoDataFrame of parcels: `frame.gandovel.report(zones)`.

It is there once `gandovel` is imported after pandas or GeoPandas, or once anything of it was used.
"""
from __future__ import annotations

from pathlib import Path
from typing import Any, Optional, Sequence, Union, Unpack

import geopandas as gpd
import pandas as pd

from .faults.mend import Mended, mend
from .live import open_register
from .live.open_register import OpenRegister
from .out.report import Report, report
from .program import applied, commands
from .program.edits import Edit
from .reading.prepared import Prepared
from .reading.register import Options, register_of
from .reading.sources import Source


@pd.api.extensions.register_dataframe_accessor("gandovel")
class Accessor:
    """The package's functions on the parcels of a frame; they take the options of `gandovel.prepare`."""

    def __init__(self, frame: gpd.GeoDataFrame) -> None:
        """Takes a GeoDataFrame. AttributeError for a frame without geometry."""
        if not isinstance(frame, gpd.GeoDataFrame):
            raise AttributeError("gandovel: a GeoDataFrame is wanted: geopandas.GeoDataFrame(frame, geometry=..)")
        self._frame = frame

    def prepare(self, zones: Optional[Source] = None, **options: Unpack[Options]) -> Prepared:
        """The parcels in whole millimetres, as `gandovel.prepare`."""
        return register_of(self._frame, zones, **options)

    def check(self, zones: Optional[Source] = None, **options: Unpack[Options]) -> gpd.GeoDataFrame:
        """The faults, the largest area first, as `gandovel.check`."""
        return commands.check(self._frame, zones, **options)

    def report(self, zones: Optional[Source] = None, min_area: float = 1.0, **options: Unpack[Options]) -> Report:
        """Gaps, overlaps and split parcels, as `gandovel.report`. `min_area` (m2): parts of less are slivers."""
        return report(self._frame, zones, min_area, **options)

    def area(self, **options: Unpack[Options]) -> gpd.GeoDataFrame:
        """The parcels with their areas, as `gandovel.area`."""
        return commands.area(self._frame, **options)

    def overlay(self, zones: Source, **options: Unpack[Options]) -> gpd.GeoDataFrame:
        """The pairs of a parcel and a zone that overlap, as `gandovel.overlay`."""
        return commands.overlay(self._frame, zones, **options)

    def locate(self, points: Any, **options: Unpack[Options]) -> gpd.GeoDataFrame:
        """In which parcels points lie, as `gandovel.locate`."""
        return commands.locate(self._frame, points, **options)

    def mend(self, width: float = 1.0, **options: Unpack[Options]) -> Mended:
        """The parcels without slivers up to `width` (mm), as `gandovel.mend`."""
        return mend(self._frame, width, **options)

    def apply(
        self, edits: Union[Edit, str, Sequence[Any]], island: Optional[int] = None, **options: Any
    ) -> gpd.GeoDataFrame:
        """The parcels after edits, as `gandovel.apply`."""
        return applied.apply(self._frame, edits, island, **options)

    def open(
        self,
        journal: Optional[Union[str, Path]] = None,
        *,
        island: Optional[int] = None,
        desks: Sequence[str] = (),
        timeout: Optional[float] = None,
        **options: Unpack[Options],
    ) -> OpenRegister:
        """The parcels as a register that stays open, as `gandovel.open`."""
        return open_register.open(self._frame, journal, island=island, desks=desks, timeout=timeout, **options)

    def map(
        self,
        path: Union[str, Path],
        zones: Optional[Source] = None,
        min_area: float = 1.0,
        **options: Unpack[Options],
    ) -> Report:
        """Writes the report's page to look at (`Report.map`), and returns the report."""
        answer = self.report(zones, min_area, **options)
        answer.map(path)
        return answer
