"""What of a layer is exact and what is measured in floating point: its description in the GeoPackage."""
from __future__ import annotations

from ..reading.units import Unit

REPORT = {
    "parcels": "Exact, by the program and its edges: status.",
    "zones": "The zones on the grid of whole millimetres. Measured by GEOS, then rounded: the ends of borders that "
    "were cut to the city.",
    "gaps": "Exact, by the program's edges: area2_mm2, depth, numbers. area_m2 is area2_mm2, halved and rounded. "
    "Twice the area lies between area2_mm2 and area2_most_mm2, which are the same where it is whole.",
    "overlaps": "Exact, by the edges of the parcels there: area2_mm2, area2_most_mm2, depth, and numbers, the parcels "
    "that cover the overlap; area_m2 is area2_mm2, halved and rounded.",
    "beyond": "What parcels cover beyond the city. Exact, by the edges of the parcels there: area2_mm2, "
    "area2_most_mm2, depth, numbers; area_m2 is area2_mm2, halved and rounded.",
    "open_gaps": "Notches and channels of the city that the parcels make, open to the outside and narrow (--narrow). "
    "Exact, by the edges of the outline: area2_mm2, area2_most_mm2. Measured by GEOS: numbers, the parcels beside "
    "them.",
    "slivers": "Gaps and overlaps that are nowhere wider than the distance at which a corner touches a border. Exact, "
    "by the edges of the parcels there: area2_mm2, area2_most_mm2, depth, numbers. Measured by GEOS: that they are so "
    "narrow.",
    "touched": "Corners that were put into a border that they are off by no more than the rounding of the layer; the "
    "border goes through them now. Measured: distance_mm, closed_m2, the area that this closed.",
    "skipped": "Rows that were left out since their geometry is invalid (--skip-invalid).",
    "split": "Exact, by the program: number, zones, zone_count. Measured by GEOS where sliver_how says so, else "
    "proved: sliver.",
    "split_parts": "Exact, by the program: number, zone. Proved where area_how says so: each area2_mm2 is at most 1 "
    "away from twice the exact area in mm2, and those of a parcel sum to its own. Measured by GEOS elsewhere: area_m2, "
    "share, sliver; and everywhere the shapes.",
}
CHANGES = {
    "changes": "Corners that prepare moved to the grid or put into a border that they touch, where they were. "
    "Measured: distance_mm, how far one was moved, or how far off the border it was.",
}
BACK = {
    "parcels": "Exact, by the program: came_from. Measured by GEOS where edited is 1: the parcel whose attributes a "
    "row has, which is the one that it overlaps most.",
}


def unit_text(unit: Unit) -> str:
    """The layer's unit, and what its areas are: for the report's description."""
    where = "told" if unit.how == "told" else "of the projection"
    return (
        f"Unit ({where}): {unit.name}, {unit.millimetres / 1000:.9g} m; areas of the projection here are "
        f"{unit.area_factor:.6f} times those on the ground (measured)."
    )
