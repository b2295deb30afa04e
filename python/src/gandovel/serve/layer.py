"""The layer of a register: what `gandovel prepare` wrote, its attributes, and which of its parcels a row comes from."""
from __future__ import annotations

import json
import math
import re
from datetime import date, datetime
from pathlib import Path
from typing import Any, Dict, List, Optional, Tuple

import numpy as np
import pandas as pd

from ..arrays import Array
from ..errors import Refused
from ..live.checkpoint import Checkpoint, checkpoint_of, is_checkpoint
from ..reading.prepared import OUT, OUT_ROW, Prepared, load
from .crs import Projection, projection_of
from .entries import Entry, Versions


Facts = Dict[str, Any]
"""The number of a parcel, and the layer's attributes."""
_DATE = re.compile(r" *[-+]?[0-9]*[-/](0?[1-9]|1[0-2])[-/](0?[1-9]|[12][0-9]|3[01])(?![0-9])|.*:")
"""What GDAL may take for a date, or a time."""
TAKEN = {
    "id",
    "number",
    "came_from",
    "entry",
    "area2_mm2",
    "area_m2",
    "name",
    "zones",
    "zone_count",
    "ring_mm",
    "entries",
}
"""Names that an answer has of its own: an attribute of the layer that is named so gets `layer_` before its name."""


class Layer:
    """An island of a prepared register, which is a city of its own."""

    def __init__(self, folder: Path, island: int = 1, crs: Optional[str] = None) -> None:
        """Reads the folder; `island` counts from 1; `crs`, as `EPSG:25832`, is for a layer that has none.

        Refused P1 where the folder is none of `gandovel prepare`, W2 without such an island, W3 without a projection.
        """
        self.prepared: Prepared = load(folder)
        if not 1 <= island <= len(self.prepared.islands):
            text = f"the register has {len(self.prepared.islands)} islands: name one of them by --island"
            raise Refused("W2", text)
        self.island = self.prepared.islands[island - 1]
        place = self.prepared.folders(folder)[island - 1]
        self._files = [place / name for name in ("city.shp", "parcels.shp")]
        self.checkpoint: Optional[Checkpoint] = None
        """The checkpoint that the register goes on from: entries before it are known, and are not made again."""
        self.zones = place / "zones.shp" if self.island.zones is not None else None
        low, high = self.island.city.min(axis=0), self.island.city.max(axis=0)
        self.projection = Projection(_crs_of(folder, self.prepared, crs), self.prepared.scale, low, high)
        self.count = len(self.island.parcels.rings)
        self._origins: Dict[int, Tuple[int, ...]] = {}
        self._from_row: Dict[int, List[int]] = {}
        for parcel, row in enumerate(self.island.parcels.source, 1):
            self._from_row.setdefault(row, []).append(parcel)
        number, zone = self.prepared.number, self.prepared.zone
        self.attributes = attributes_of(self.prepared.parcels, number)
        self.zone_attributes = [] if self.prepared.zones is None else attributes_of(self.prepared.zones, zone)
        self._none: Facts = dict.fromkeys(self.attributes[0]) if self.attributes else {}
        self._nothing: Facts = {"number": None, **self._none}
        self._facts: Dict[int, Facts] = {}
        self._is_date: Dict[int, bool] = {}
        self._has_dates = any(_DATE.match(number) for number in self.prepared.numbers)
        self.kinds, self.zone_kinds = kinds_of(self.attributes), kinds_of(self.zone_attributes)

    @classmethod
    def of(cls, folder: Path, island: int = 1, crs: Optional[str] = None) -> "Layer":
        """The layer of a folder of `prepare`, or as it was before all edits of a checkpoint. Refused also P19."""
        if not is_checkpoint(folder):
            return cls(folder, island, crs)
        checkpoint = checkpoint_of(folder)
        layer = cls(checkpoint.origin, checkpoint.island, crs)
        layer.checkpoint, layer._files = checkpoint, list(map(Path, checkpoint.layers))
        return layer

    @property
    def words(self) -> List[str]:
        """The layer as the program's command line has it."""
        zones = [] if self.zones is None else ["--zones", str(self.zones)]
        return [*map(str, self._files), "--unit", "mm", *zones]

    def follow(self, entry: Entry) -> None:
        """Takes in where the parcels of an entry come from, and what is known of them.

        Of a moved border each new parcel is one old one. The halves of a split have nothing of the whole: its number is
        of none of them, and a value would be there twice. A merged parcel has what its parts agree on.
        """
        word = entry.edit.split(" ", 1)[0]
        if word not in ("split", "merge", "move"):
            return
        for parcel in entry.new:
            olds = entry.from_of(parcel)
            self._origins[parcel] = tuple(sorted({row for old in olds for row in self.origins(old)}))
            self._facts[parcel] = self._nothing if word == "split" else self._agreed([self.facts(it) for it in olds])
            for row in self._origins[parcel]:
                self._from_row.setdefault(row, []).append(parcel)

    @staticmethod
    def _agreed(several: List[Facts]) -> Facts:
        """What all have alike, and null for the rest."""
        first = several[0]
        return {name: value if all(it[name] == value for it in several) else None for name, value in first.items()}

    def origins(self, parcel: int) -> Tuple[int, ...]:
        """The rows of the layer, from 0, that a parcel comes from by the journal; -1 is the area outside."""
        known = self._origins.get(parcel)
        if known is not None:
            return known
        return (self.island.parcels.source[parcel - 1],) if 0 < parcel <= self.count else ()

    def facts(self, parcel: int) -> Facts:
        """What is known of a parcel: its number, and the layer's attributes."""
        known = self._facts.get(parcel)
        if known is not None:
            return known
        row = self.origins(parcel)[0]
        return {"number": self.prepared.number_of(row), **(self.attributes[row] if row >= 0 else self._none)}

    def properties(self, parcel: int) -> Dict[str, Any]:
        """Number, `came_from`, and the layer's attributes, null where they are not known."""
        facts = self.facts(parcel)
        came_from = ",".join(self.prepared.number_of(row) for row in self.origins(parcel))
        return {"number": facts["number"], "came_from": came_from, **facts}

    @property
    def most_are_dates(self) -> bool:
        """Whether fewer than a tenth of the numbers are sure not to be taken for dates."""
        numbers = self.prepared.numbers
        return self._has_dates and sum(not _DATE.match(number) for number in numbers) * 10 < len(numbers)

    def date_like(self, parcels: Array) -> Optional[Array]:
        """Of each parcel whether its number may be taken for a date, or it has none; None where no number may be.

        GDAL, which most programs read GeoJSON by, guesses a type page by page, whatever the schema says.
        """
        if not self._has_dates:
            return None
        for parcel in parcels.tolist():
            if parcel not in self._is_date:
                number = self.facts(parcel)["number"]
                self._is_date[parcel] = number is None or bool(_DATE.match(number))
        return np.array([self._is_date[parcel] for parcel in parcels.tolist()], dtype=bool)

    def zone_properties(self, record: int) -> Dict[str, Any]:
        """The name of a zone's record, from 1, and its attributes."""
        assert self.island.zones is not None
        row = self.island.zones.source[record - 1]
        return {"name": self.prepared.zone_of(row), **(self.zone_attributes[row] if row >= 0 else {})}

    def zone_names(self, records: List[int]) -> List[str]:
        """The names of zones by their records, from 1, each once."""
        assert self.island.zones is not None
        source = self.island.zones.source
        return list(dict.fromkeys(self.prepared.zone_of(source[record - 1]) for record in records))

    def zone_rows(self) -> Versions:
        """The zones as rows of one version, 0."""
        found, zones = Versions(), self.island.zones
        if zones is not None:
            found.begin(0, [(at, 0, twice_area(ring), ring) for at, ring in enumerate(zones.rings, 1)])
        return found

    def parcels_named(self, number: str) -> List[int]:
        """The ids that have this number, or come from a parcel that has it, in any version."""
        rows = [OUT_ROW] if number == OUT else [at for at, own in enumerate(self.prepared.numbers) if own == number]
        return [parcel for row in rows for parcel in self._from_row.get(row, [])]

    def zones_named(self, name: str) -> List[int]:
        """The records of the zones with this name."""
        source = self.island.zones.source if self.island.zones is not None else []
        return [record for record, row in enumerate(source, 1) if self.prepared.zone_of(row) == name]


def twice_area(ring: Array) -> int:
    """Twice the area of a ring (k, 2) int64, exact."""
    corners = [(int(x), int(y)) for x, y in ring.tolist()]
    return sum(a[0] * b[1] - b[0] * a[1] for a, b in zip(corners, corners[1:] + corners[:1]))


def _crs_of(folder: Path, prepared: Prepared, given: Optional[str]) -> Any:
    """The projection as the source had it, which `prepared.json` keeps; a file of the folder may have less of it."""
    told = json.loads((folder / "prepared.json").read_text(encoding="utf-8")).get("crs")
    if told is None and prepared.crs is not None:
        told = prepared.crs.to_wkt()
    return projection_of(told, given)


def attributes_of(frame: Any, number: str) -> List[Dict[str, Any]]:
    """The columns of a layer, row by row, as JSON has them; but for the geometry and the number."""
    names = [name for name in frame.columns if name not in (frame.geometry.name, number)]
    shown: List[str] = []
    for name in names:
        own = f"layer_{name}" if str(name).lower() in TAKEN else str(name)
        while own in shown:
            own += "_"
        shown.append(own)
    columns = [_column(frame[name]) for name in names]
    return [dict(zip(shown, row)) for row in zip(*columns)] or [{} for _ in range(len(frame))]


def kinds_of(rows: List[Dict[str, Any]]) -> Dict[str, Dict[str, Any]]:
    """What JSON schema says of each attribute of rows, by what they have: text is text, whatever it looks like."""
    kinds: Dict[str, set[type]] = {name: set() for name in (rows[0] if rows else ())}
    for row in rows:
        for name, value in row.items():
            kinds[name].add(type(value))
    return {
        name: dict(_KINDS.get(frozenset(found - {type(None)}), {"type": "string"})) for name, found in kinds.items()
    }


class Day(str):
    """A day, as JSON has it: a text such as `2001-02-03`."""


_KINDS: Dict[frozenset[type], Dict[str, Any]] = {
    frozenset({Day}): {"type": "string", "format": "date"},
    frozenset({bool}): {"type": "boolean"},
    frozenset({int}): {"type": "integer"},
    frozenset({float}): {"type": "number"},
    frozenset({int, float}): {"type": "number"},
}


def _column(values: Any) -> List[Any]:
    """A column as JSON has it: moments that are all the begin of a day are days."""
    if pd.api.types.is_datetime64_any_dtype(values) and (values.dropna() == values.dropna().dt.normalize()).all():
        return [None if value is pd.NaT else Day(value.date().isoformat()) for value in values]
    return [_plain(value) for value in values.tolist()]


def _plain(value: Any) -> Any:
    """A value as JSON has it; null for one that is missing, text for one that JSON has no kind of."""
    value = value.item() if isinstance(value, np.generic) else value
    if isinstance(value, date) and not isinstance(value, datetime):
        return Day(value.isoformat())
    if value is None or isinstance(value, (bool, int, str)):
        return value
    if isinstance(value, float):
        return value if math.isfinite(value) else None
    return None if value is pd.NaT or value is pd.NA else str(value)
