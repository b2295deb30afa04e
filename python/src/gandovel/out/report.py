"""The report on a prepared register: its gaps and overlaps, and the parcels that zones split, as a GeoPackage."""
from __future__ import annotations

import csv
import io
import tempfile
from collections import defaultdict
from dataclasses import dataclass
from functools import cached_property
from pathlib import Path
from typing import Any, Dict, List, Optional, Tuple, Union, Unpack

import geopandas as gpd
import numpy as np
import pandas as pd
from shapely.geometry import Point

from ..errors import Refused
from ..exact.whole_numbers import whole_numbers
from ..program.tool import Overlaid
from ..program.verdicts import (
    LayerFaults,
    checked,
    layer_faults,
    may_be_overlaid_at_once,
    numbers_at,
    overlay_island,
    tiling_overlaid,
    write_island,
)
from ..program.zone_areas import Member, summed
from ..progress import Progress
from ..reading.prepared import OUT_ROW, TOUCHED, Island, Prepared
from ..reading.register import Options, Register, register_of
from ..reading.sources import Source
from ..whole_file import whole_file
from . import descriptions
from .area_words import areas_text, counted, largest_first
from .basis import Basis
from .fault_frames import AREAS, FAULT_COLUMNS, as_texts, fault_frame, open_gaps_of, tell_faults, with_neighbour
from .gpkg import Table, test_name, write_layers
from .notebook import html_of
from .own_frames import own_frame
from .split_parcels import parcels_of, parts_of, split_of, zones_of_report
from .styles import STYLES
from .verdict import Verdict

CITIES = {
    "parcels": "the city is what the parcels cover",
    "layer": "the city is the layer that was given",
    "frame": "the city is a frame around all",
}
"""Where the city's outline is from, as the verdict says it."""


@dataclass(repr=False)
class Report:
    """What the program says of a register; printed it is its summary, and in a notebook with a small map.

    Frames in the register's projection, the largest area first. `gaps`, `overlaps` (layer, area2_mm2, area2_most_mm2,
    area_m2,
    area_how, area, unit, depth, numbers, numbers_how, touched) and `outside`, what parcels cover beyond the city:
    exact.
    `slivers` are such that are nowhere wider than what touches (measured), `open_gaps` notches and channels of the city
    that the parcels make. `split` (number, zones, zone_count, sliver, sliver_how):
    exact, but for sliver. `parts` (number, zone, area2_mm2, area_m2, area_how, share, sliver): which there are is
    exact, and areas are proved where parcels and zones tile (each area2_mm2 within 1, and those of a parcel sum to its
    own), else measured. `pairs`: (number, zone, whether the parcel is split, area2_mm2 or None) of each parcel and zone
    that overlap, exact, with proved areas. `parcels`
    (number, records, status), `zones`, `touched` (corners that were made to touch a border), `skipped` (rows that were
    left out). `split_table`, `parts_table` and `parcels_table` are what the frames are made of once they are asked for.
    """

    gaps: gpd.GeoDataFrame
    overlaps: gpd.GeoDataFrame
    split_table: Table
    parts_table: Table
    parcels_table: Table
    zones: Optional[gpd.GeoDataFrame]
    min_area: float
    beyond: List[str]
    slivers: gpd.GeoDataFrame
    open_gaps: gpd.GeoDataFrame
    touched: gpd.GeoDataFrame
    skipped: gpd.GeoDataFrame
    prepared: Prepared
    outside: gpd.GeoDataFrame
    pairs: List[Tuple[str, str, bool, Optional[str]]]

    @property
    def verdict(self) -> Verdict:
        """`tiles`, `does not tile`, `open`: it tiles the city that it makes, which has open gaps; or `undecided`: what
        are faults can't be told from the layer's noise (`basis.advice`)."""
        if self.prepared.told.get("precision", {}).get("how") == "undecided" and len(self.faults()):
            return Verdict.UNDECIDED
        if any(map(len, (self.gaps, self.overlaps, self.outside, self.slivers))):
            return Verdict.DOES_NOT_TILE
        return Verdict.OPEN if len(self.open_gaps) else Verdict.TILES

    @cached_property
    def basis(self) -> Basis:
        """What the verdict stands on."""
        return Basis.of(self.prepared)

    @cached_property
    def split(self) -> gpd.GeoDataFrame:
        """The parcels in two zones or more, by their own numbers and index labels."""
        return own_frame(self.prepared, self.split_table)

    @cached_property
    def parts(self) -> gpd.GeoDataFrame:
        """The parts of these parcels in zones, by the parcels' own numbers and index labels."""
        return own_frame(self.prepared, self.parts_table)

    @cached_property
    def parcels(self) -> gpd.GeoDataFrame:
        """The parcels with what is said of each, by their own numbers and index labels."""
        return own_frame(self.prepared, self.parcels_table)

    def __repr__(self) -> str:
        return f"<Report: {self.verdict}; {self.summary()}>"

    def _repr_html_(self) -> str:
        return html_of(self.prepared, f"{self.verdict}: {self.summary()}", self.faults())

    def map(self, path: Union[str, Path]) -> None:
        """Writes the page of it to look at: one HTML file (docs/map.md). Refused P14 where it can't be written."""
        from .map import write_map

        with tempfile.TemporaryDirectory() as folder:
            report_file = Path(folder) / "report.gpkg"
            self.save(report_file)
            write_map(report_file, path)

    @property
    def changes(self) -> Optional[gpd.GeoDataFrame]:
        """The corners that were changed, where the register was prepared just now."""
        return self.prepared.changes_frame() if self._has_changes else None

    @property
    def _has_changes(self) -> bool:
        return bool((self.prepared.changes.change != TOUCHED).any())

    def faults(self) -> gpd.GeoDataFrame:
        """All faults in one frame, of which `kind` says what they are (`gap`, `overlap`, `beyond`, `open_gap`,
        `sliver`); the largest first."""
        kinds = (
            ("gap", self.gaps),
            ("overlap", self.overlaps),
            ("beyond", self.outside),
            ("open_gap", self.open_gaps),
            ("sliver", self.slivers),
        )
        frames = [frame.assign(kind=kind)[["kind", *FAULT_COLUMNS]] for kind, frame in kinds if len(frame)]
        if not frames:
            return gpd.GeoDataFrame(columns=["kind", *FAULT_COLUMNS], geometry="geometry", crs=self.gaps.crs)
        both = pd.concat(frames, ignore_index=True)
        both = both.iloc[largest_first(both["area2_mm2"])].reset_index(drop=True)
        for name in AREAS:
            both[name] = whole_numbers(both[name].tolist())
        return gpd.GeoDataFrame(both, geometry="geometry", crs=self.gaps.crs)

    def summary(self) -> str:
        """One line: islands, what was left out, gaps and overlaps with their areas, split parcels, whence the city
        is."""
        count, unit = len(self.prepared.islands), self.prepared.unit
        texts = [f"{count} islands"] if count > 1 else []
        texts += [*self.prepared.skipped_told(), _told(self, "parcels")]
        beside = self.overlaps.loc[self.overlaps["layer"] == "neighbours", "area2_mm2"]
        if len(beside):
            texts.append(f"{counted(len(beside), 'overlap')} with neighbouring cities ({areas_text(beside, unit)})")
        if len(self.open_gaps):
            areas = areas_text(self.open_gaps["area2_mm2"], unit)
            texts.append(f"{counted(len(self.open_gaps), 'gap')} open to the outside ({areas})")
        if self.zones is not None:
            if any((frame["layer"] == "zones").any() for frame in (self.gaps, self.overlaps, self.outside)):
                texts.append(f"zones: {_told(self, 'zones')}")
            split = self.split_table.columns
            slivers = split.loc[split["sliver"] == 1, "sliver_how"]
            how = "" if (slivers == "proved").all() else " (measured)"
            few = f", {len(slivers)} of them by less than {self.min_area:g} m2{how}" if len(slivers) else ""
            texts.append(f"{counted(len(split), 'parcel')} split{few}")
        if len(self.slivers):
            wide = f"no wider than {self.prepared.told['touch']:.2f} mm (measured)"
            texts.append(f"{counted(len(self.slivers), 'sliver')} {wide}, which `gandovel mend` closes")
        if self.beyond and self.zones is not None:
            texts.append(f"the zones of {counted(len(self.beyond), 'parcel')} beyond the city are not known")
        return "; ".join([*texts, CITIES[self.prepared.told["city"]]])

    def save(self, path: Union[str, Path]) -> None:
        """Writes the GeoPackage and `split.csv` beside it, each under another name first. Refused P14 for other
        names."""
        path = Path(path)
        test_name(path)
        layers: List[Tuple[str, Union[gpd.GeoDataFrame, Table]]] = [
            ("parcels", self.parcels_table),
            ("gaps", as_texts(self.gaps)),
            ("overlaps", as_texts(self.overlaps)),
            ("beyond", as_texts(self.outside)),
            ("split", self.split_table),
            ("split_parts", self.parts_table),
        ]
        if self.zones is not None:
            layers.insert(1, ("zones", self.zones))
        layers += [("open_gaps", as_texts(self.open_gaps)), ("slivers", as_texts(self.slivers))]
        layers += [("touched", self.touched), ("skipped", self.skipped)]
        if self._has_changes:
            layers.append(("changes", self.prepared.changes_table()))
        notes = {**descriptions.REPORT, **descriptions.CHANGES}
        notes["parcels"] = f"{notes['parcels']} {descriptions.unit_text(self.prepared.unit)} {self.basis.text()}"
        notes["touched"] = f"{notes['touched']}\n{self.basis.histogram()}".rstrip()
        write_layers(path, layers, STYLES, notes)
        if self.zones is not None:
            with whole_file(path.with_name("split.csv")) as aside:
                aside.write_text(self.table(), encoding="utf-8")

    def table(self) -> str:
        """`split.csv`: one line for each part of a split parcel."""
        text = io.StringIO()
        writer = csv.writer(text, lineterminator="\n")
        writer.writerow(["parcel_no", "zone", "area_m2", "share", "sliver", "areas", "area2_mm2"])
        parts = self.parts_table.columns
        columns = (parts[name] for name in ("number", "zone", "area_m2", "share", "sliver", "area_how", "area2_mm2"))
        for number, zone, area, share, *others in zip(*columns):
            writer.writerow([number, zone, f"{area:.6f}", f"{share:.6f}", *others])
        return text.getvalue()


def _told(report: Report, layer: str) -> str:
    texts = []
    for noun, frame in (("gap", report.gaps), ("overlap", report.overlaps), ("part", report.outside)):
        doubled = frame.loc[frame["layer"] == layer, "area2_mm2"]
        areas = f" ({areas_text(doubled, report.prepared.unit)})" if len(doubled) else ""
        if noun != "part":
            texts.append(counted(len(doubled), noun) + areas)
        elif len(doubled):
            texts.append(counted(len(doubled), noun) + f" beyond the city{areas}")
    return ", ".join(texts)


def report(
    parcels: Register,
    zones: Optional[Source] = None,
    min_area: float = 1.0,
    progress: Optional[Progress] = None,
    **options: Unpack[Options],
) -> Report:
    """Asks the program of every island of a register.

    Parameters
    ----------
    parcels : Prepared, path, GeoDataFrame or GeoSeries
        The register; with `zones` and the options of `prepare` where it is not prepared yet.
    min_area : float
        Square metres: parts of split parcels with less are slivers.

    Returns
    -------
    Report
        A layer that does not tile is no refusal, but what is said.

    Raises
    ------
    Refused
        As the program refuses, by number; P8 where `min_area` is none, P1 .. P14 as `prepare` does.

    Examples
    --------
    >>> import geopandas, gandovel
    >>> from shapely.geometry import box
    >>> plots = geopandas.GeoDataFrame({"parcel_no": [7]}, geometry=[box(0, 0, 10, 10)], crs=25832)
    >>> gandovel.report(plots)
    <Report: tiles; no gaps, no overlaps; the city is what the parcels cover>
    """
    if not min_area >= 0:
        raise Refused("P8", f"a least area of {min_area} m2 is none: give square metres, 0 or more")
    prepared = register_of(parcels, zones, **options)
    progress = progress or Progress()
    faults: Dict[str, List[Dict[str, Any]]] = {"gaps": [], "overlaps": [], "beyond": [], "slivers": []}
    pairs: Dict[Tuple[int, str], List[Member]] = defaultdict(list)
    at_fault: Dict[int, str] = {}
    beyond: Dict[str, None] = {}
    touched = {(x, y) for x, y in prepared.changes.to[prepared.changes.change == TOUCHED].tolist()}
    for at, island in enumerate(prepared.islands, 1):
        found, overlaid = _asked(prepared, island, progress)
        for role, one in found.items():
            tell_faults(prepared, at, role, getattr(island, role), one, faults, at_fault, touched)
        for beside in prepared.neighbours:
            overlapping = with_neighbour(beside, island.parcels)
            tell_faults(prepared, at, "parcels", island.parcels, overlapping, faults, at_fault, touched, [beside.name])
        standing_out = sorted(found["parcels"].beyond)
        beyond.update(dict.fromkeys(numbers_at(prepared, island.parcels, standing_out, "parcels")))
        for (parcel, zone), area2 in zip(overlaid.pairs.tolist(), overlaid.area2):
            if island.parcels.source[parcel] != OUT_ROW:
                key = island.parcels.source[parcel], prepared.zone_of(island.rows_of_zones().source[zone])
                pairs[key].append(Member(at - 1, parcel, zone, area2))
    progress.step("measuring the parts of split parcels")
    return _put_together(prepared, faults, pairs, at_fault, min_area, list(beyond))


def _asked(prepared: Prepared, island: Island, progress: Progress) -> Tuple[Dict[str, LayerFaults], Overlaid]:
    """What the program says of an island: the faults of its layers, by their roles, and the pairs of its overlay.

    The overlay is asked for first, since it checks both layers: for all faults only where it is refused.
    """
    none = Overlaid(np.zeros((0, 2), dtype=np.int64), [])
    with tempfile.TemporaryDirectory() as name:
        folder = Path(name)
        write_island(folder, island)
        if may_be_overlaid_at_once(island):
            progress.step("asking which parcels lie in which zones")
            try:
                return {"parcels": LayerFaults(), "zones": LayerFaults()}, tiling_overlaid(folder, island)
            except Refused:
                pass  # the checks say of what, and why
        progress.step("checking the parcels")
        roles = ("parcels", "zones") if island.zones is not None else ("parcels",)
        found = {
            role: layer_faults(checked(prepared, folder, island, role), island.city, getattr(island, role))
            for role in roles
        }
        if island.zones is None:
            return found, none
        progress.step("asking which parcels lie in which zones")
        return found, overlay_island(folder, island, found["parcels"], found["zones"])


def _skipped(prepared: Prepared) -> gpd.GeoDataFrame:
    table = {name: [getattr(one, name) for one in prepared.skipped] for name in ("role", "number", "reason")}
    places = [Point(one.x, one.y) if one.x is not None else None for one in prepared.skipped]
    frame = pd.DataFrame(table).rename(columns={"role": "layer"})
    return gpd.GeoDataFrame(frame, geometry=places, crs=prepared.crs)


def _put_together(
    prepared: Prepared,
    faults: Dict[str, List[Dict[str, Any]]],
    pairs: Dict[Tuple[int, str], List[Member]],
    at_fault: Dict[int, str],
    min_area: float,
    beyond: List[str],
) -> Report:
    zones_of: Dict[int, List[str]] = defaultdict(list)
    order = {name: at for at, name in enumerate(dict.fromkeys(prepared.zone_names))}
    for row, zone in sorted(pairs, key=lambda pair: (pair[0], order.get(pair[1], len(order)))):
        zones_of[row].append(zone)
    split_rows = sorted(row for row, zones in zones_of.items() if len(zones) > 1)
    parts = parts_of(prepared, {key: rows for key, rows in pairs.items() if len(zones_of[key[0]]) > 1}, min_area)
    split = split_of(prepared, split_rows, zones_of, parts.columns)
    frames = {}
    for kind, rows in faults.items():
        ordered = [rows[at] for at in largest_first(row["area2_mm2"] for row in rows)]
        columns = ["what", *FAULT_COLUMNS] if kind == "slivers" else FAULT_COLUMNS
        frames[kind] = fault_frame(ordered, columns, prepared)
    at_fault.update((row, "split") for row in split_rows if row not in at_fault)
    at_fault.update((one.row, "skipped") for one in prepared.skipped if one.role == "parcels")
    return Report(
        frames["gaps"],
        frames["overlaps"],
        split,
        parts,
        parcels_of(prepared, at_fault),
        zones_of_report(prepared),
        min_area,
        beyond,
        frames["slivers"],
        open_gaps_of(prepared),
        prepared.touched_frame(),
        _skipped(prepared),
        prepared,
        frames["beyond"],
        [
            (prepared.numbers[row], zone, len(zones_of[row]) > 1, _text_of(summed(pairs[row, zone])))
            for row in sorted(zones_of)
            for zone in zones_of[row]
        ],
    )


def _text_of(area2: Optional[int]) -> Optional[str]:
    return None if area2 is None else str(area2)
