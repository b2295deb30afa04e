"""What `prepare` makes: layers in whole millimetres, whose rows know their parcels; kept in a folder."""
from __future__ import annotations

from dataclasses import dataclass, field
from functools import cached_property
from pathlib import Path
from typing import Any, Callable, Dict, List, Optional, Sequence, Union

import geopandas as gpd
import numpy as np
import pandas as pd
from shapely.geometry import Polygon

from ..arrays import Array
from ..errors import Refused
from ..exact.city import OpenGap
from ..faults.neighbours import Neighbour
from ..out.gpkg import Table
from ..shapes import point_wkb
from .keys import key_of
from .loops import ROLES
from .rows import CHANGES, GATHERED, MOVED, OUT, OUT_ROW, PUT_IN, TOUCHED, Changes, Island, Rows, Skipped
from .units import Unit

__all__ = [
    "CHANGES",
    "GATHERED",
    "MOVED",
    "OUT",
    "OUT_ROW",
    "PUT_IN",
    "TOUCHED",
    "Changes",
    "Island",
    "Prepared",
    "Rows",
    "Skipped",
    "load",
    "test_own",
]


@dataclass(repr=False)
class Prepared:
    """A register on the grid, in the unit of `parcels`; areas and places of its rows are exact.

    `layer` and `zones` are the layers as they were given; `numbers` and `zone_names` their own numbers, row by row.
    `changes` are the corners that were changed, of which `told` has counts and distances; once loaded those alone that
    were made to touch. `open_gaps` are notches and channels of the city that the parcels make, `skipped` the rows that
    were left out, `lost` what the package makes no use of, in sentences. `neighbours` are the cities beside it.
    """

    layer: Union[gpd.GeoDataFrame, Table]
    numbers: List[str]
    number: str
    unit: Unit
    islands: List[Island]
    zones: Optional[gpd.GeoDataFrame] = None
    zone_names: List[str] = field(default_factory=list)
    zone: str = ""
    changes: Changes = field(default_factory=Changes)
    told: Dict[str, Any] = field(default_factory=dict)
    open_gaps: List[OpenGap] = field(default_factory=list)
    skipped: List[Skipped] = field(default_factory=list)
    lost: List[str] = field(default_factory=list)
    neighbours: List[Neighbour] = field(default_factory=list)
    given_keys: Dict[str, pd.Series] = field(default_factory=dict, repr=False)

    def __repr__(self) -> str:
        return f"<Prepared: {self.summary()}>"

    def _repr_html_(self) -> str:
        from ..out.notebook import html_of

        return html_of(self, self.summary())

    @property
    def parcel_key(self) -> pd.Series:
        """The parcels' own numbers with their own type, name and index, as they were given."""
        return self._key("parcels", self.layer, self.number)

    @property
    def zone_key(self) -> pd.Series:
        """The zones' own names with their own type, name and index, as they were given."""
        return self._key("zones", self.zones, self.zone)

    def _key(self, role: str, layer: Any, column: str) -> pd.Series:
        if role not in self.given_keys:
            columns = layer.columns if isinstance(layer, Table) else layer
            self.given_keys[role] = key_of(None, columns, column)
        return self.given_keys[role]

    @property
    def scale(self) -> float:
        """Millimetres per unit of the layer."""
        return self.unit.millimetres

    @property
    def crs(self) -> Any:
        """The layer's projection."""
        return self.layer.crs

    @cached_property
    def parcels_table(self) -> Table:
        """The parcels as they were given, as they are written: once loaded no shape is made for it."""
        return Table.of(self.layer)

    @cached_property
    def parcels(self) -> gpd.GeoDataFrame:
        """The parcels as they were given: once loaded, shapes are made when they are asked for."""
        return self.layer.frame() if isinstance(self.layer, Table) else self.layer

    def number_of(self, row: int) -> str:
        """The number of a row of the parcels; `OUT` for the area outside."""
        return OUT if row < 0 else self.numbers[row]

    def zone_of(self, row: int) -> str:
        """The name of a row of the zones; `OUT` for the area outside."""
        return OUT if row < 0 else self.zone_names[row]

    def polygon(self, ring: Any, holes: Sequence[Any] = ()) -> Polygon:
        """A ring in mm, with holes, as a polygon in the layer's projection."""
        return Polygon(self.in_units(ring), [self.in_units(hole) for hole in holes])

    def in_units(self, corners: Any) -> Array:
        """Corners in mm (k, 2), whole or fractions, in the layer's unit."""
        return np.asarray(corners, dtype=float) / self.scale

    def frame(self, role: str = "parcels") -> gpd.GeoDataFrame:
        """The rows of all islands in the layer's projection: island, record, number, FID, part, geometry."""
        table: Dict[str, List[Any]] = {name: [] for name in ("island", "record", "number", "FID", "part", "geometry")}
        for at, island in enumerate(self.islands, 1):
            rows = getattr(island, role) or Rows()
            for record, (ring, source, part) in enumerate(zip(rows.rings, rows.source, rows.part), 1):
                number = self.number_of(source) if role == "parcels" else self.zone_of(source)
                for name, value in zip(table, (at, record, number, source, part, self.polygon(ring))):
                    table[name].append(value)
        return gpd.GeoDataFrame(table, geometry="geometry", crs=self.crs)

    def summary(self) -> str:
        """One line: islands, how many parcels gave how many rings, what was changed and how far, zones, losses."""
        rings = sum(row != OUT_ROW for island in self.islands for row in island.parcels.source)
        count = len(self.numbers) - sum(one.role == "parcels" for one in self.skipped)
        more = f" ({rings - count} more for holes and parts)" if rings != count else ""
        texts = [f"{len(self.islands)} islands"] if len(self.islands) > 1 else []
        texts += self.skipped_told()
        texts += [f"{count} parcels -> {rings} rings{more}", *self._changes_told()]
        if self.zones is not None:
            zone_rings = sum(len(island.zones.rings) for island in self.islands if island.zones is not None)
            texts.append(f"zones: {len(self.zone_names)} -> {zone_rings} rings")
        return "; ".join(texts)

    def skipped_told(self) -> List[str]:
        """A text that says how many rows were left out, and which; none where none were."""
        if not self.skipped:
            return []
        names = [f"{one.role[:-1]} {one.number}" for one in self.skipped]
        return [f"without {_counted(len(names))} ({', '.join(names[:8])}{', ..' * (len(names) > 8)})"]

    def _changes_told(self) -> List[str]:
        told = self.told
        texts = [f"{_corners(told['put_in'])} put in" + _at_most(told["put_in"], told["largest_off"], " off")]
        if told["touched"]:
            closed = f"which closed {told['closed_m2']:.2f} m2 (measured)"
            texts.append(
                f"{_corners(told['touched'])} made to touch a border"
                + _at_most(told["touched"], told["largest_touch"], " off")
                + f", {closed}"
            )
        texts.append(f"{_corners(told['moved'])} moved" + _at_most(told["moved"], told["largest_move"]))
        if told["gathered"]:
            texts.append(
                f"{_corners(told['gathered'])} made one with others"
                + _at_most(told["gathered"], told["largest_gathered"], " off")
            )
        return texts

    def folders(self, work: Path) -> List[Path]:
        """The folders of the islands: the work folder itself where there is one island."""
        return [work] if len(self.islands) == 1 else [work / f"island_{i}" for i in range(1, len(self.islands) + 1)]

    def save(self, work: Union[str, Path], more: Optional[Callable[[Path], object]] = None) -> None:
        """Writes the folder whole or not at all. One that was there is replaced where `prepare` made it, else P14.

        `more` writes what else is to stand in it.
        """
        from .folders import save

        save(self, Path(work), more)

    def changes_frame(self) -> gpd.GeoDataFrame:
        """Each corner that was changed, where it was: change, layer, number, distance_mm, closed_m2, x_mm and y_mm.

        `distance_mm` is how far it moved, or how far it was off the side that it was put into (`distance_how`:
        measured); `closed_m2` (measured) what was closed where it was made to touch; `x_mm` and `y_mm` are where it is
        now. Once loaded, those alone that were made to touch.
        """
        return self.changes_table().frame()

    def changes_table(self) -> Table:
        """`changes_frame`, as it is written."""
        it, names = self.changes, (self.numbers, self.zone_names)
        layers, rows = it.layer.tolist(), it.row.tolist()
        owners = [names[layer][row] if layer < len(names) and row >= 0 else None for layer, row in zip(layers, rows)]
        columns = {
            "change": [CHANGES[kind] for kind in it.change.tolist()],
            "layer": [ROLES[layer] for layer in layers],
            "number": owners,
            "distance_mm": it.distance,
            "distance_how": "measured",
            "closed_m2": it.area / 1e6,
            "x_mm": it.to[:, 0],
            "y_mm": it.to[:, 1],
        }
        ends = (it.places.min(axis=0), it.places.max(axis=0)) if len(it.places) else (np.full(2, np.nan),) * 2
        return Table(pd.DataFrame(columns), point_wkb(it.places), self.crs, tuple(np.concatenate(ends).tolist()))

    def touched_frame(self) -> gpd.GeoDataFrame:
        """Of `changes_frame` the corners that were made to touch."""
        kept = self.changes.change == TOUCHED
        arrays = (getattr(self.changes, name)[kept] for name in Changes.__dataclass_fields__)
        some = Prepared(self.layer, self.numbers, self.number, self.unit, [], self.zones, self.zone_names)
        some.changes = Changes(*arrays)
        return some.changes_frame().drop(columns="change")


def test_own(work: Path) -> None:
    """Refuses (P14) a folder to write that is there, and that `prepare` did not make."""
    if work.exists() and (not work.is_dir() or (any(work.iterdir()) and not (work / "prepared.json").is_file())):
        raise Refused("P14", f"{work} is there and no folder that prepare made")


def load(work: Union[str, Path]) -> Prepared:
    """What `Prepared.save` wrote.

    Parameters
    ----------
    work : path
        The folder.

    Returns
    -------
    Prepared
        Of its changes those alone that were made to touch.

    Raises
    ------
    Refused
        P1: the folder is no such one, or is torn.

    Examples
    --------
    >>> import geopandas, gandovel, tempfile
    >>> from shapely.geometry import box
    >>> plots = geopandas.GeoDataFrame({"parcel_no": [7]}, geometry=[box(0, 0, 10, 10)], crs=25832)
    >>> with tempfile.TemporaryDirectory() as folder:
    ...     gandovel.prepare(plots).save(folder)
    ...     gandovel.load(folder).numbers
    ['7']
    """
    from .folders import load as load_folder

    return load_folder(Path(work))


def _counted(count: int) -> str:
    return f"{count} invalid row{'' if count == 1 else 's'}"


def _corners(count: int) -> str:
    return f"{count or 'no'} corner{'' if count == 1 else 's'}"


def _at_most(count: int, distance: float, what: str = "") -> str:
    """How far corners are from where they were, as it is printed: with two decimals, or as a power of ten."""
    text = f"{distance:.2f}" if distance >= 0.01 else f"{distance:.0e}" if distance else "0"
    return f", at most {text} mm{what} (measured)" if count else ""
