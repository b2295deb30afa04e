"""A city, and a layer of parcels that tiles it: the first fault, or the rows.

The parcels tile the city where each point off all edges lies in exactly one of them if it is in the city, and in none
otherwise. For rings that are noded and simple that is so exactly where all directed edges cancel against the city's.
"""

from __future__ import annotations

from typing import Dict, List, Sequence, Tuple

from reference.files import MOST_CORNERS, MOST_OF_A_RING, Numbered
from reference.plane import Corner, Ring, area2, from_least, is_on_ring, net, noded, ring_fault, winding


class Refused(Exception):
    """A layer is refused; the text is that of the program behind the layer's role."""


class Layer:
    """Parcels under their ids, with all corners of their neighbours, and the city with all of theirs."""

    def __init__(self, city: Ring, rows: Dict[int, Ring], refined: Ring) -> None:
        self.city, self.rows, self.refined = city, rows, refined


def read_city(rings: Sequence[Numbered]) -> Ring:
    """The city's ring, from its least corner; refused where the file has not exactly one, or it is not simple.

    Definition: fabric_core `IsCityFault`.
    """
    if len(rings) != 1:
        raise Refused(f"S3 {len(rings)}")
    ring = from_least(rings[0][1])
    fault = ring_fault(ring)
    if fault is not None:
        raise Refused(fault)
    return ring


def node_all(city: Ring, rings: Sequence[Numbered]) -> Tuple[List[Numbered], Ring]:
    """All rings, and the city's, with every corner of all of them that lies inside one of their edges.

    Definition: edge_chains `AreFullyNoded`.
    """
    corners = {p for _, ring in rings for p in ring} | set(city)
    return [(n, from_least(noded(ring, corners))) for n, ring in rings], from_least(noded(city, corners))


def load(city: Ring, rings: Sequence[Numbered]) -> Layer:
    """The layer of these rings in this city, or its first fault: H3, then H1 by record, then H2.

    Definition: fabric_core `IsLoadFault`.
    """
    all_noded, refined = node_all(city, rings)
    total = 0
    for record, ring in all_noded:
        total += len(ring)
        if len(ring) > MOST_OF_A_RING or total > MOST_CORNERS:
            raise Refused(f"H3 {record}")
    for record, ring in all_noded:
        fault = ring_fault(ring)
        if fault is not None:
            raise Refused(f"H1 {record} {fault}")
    left = net((ring for _, ring in all_noded), [refined])
    if left:
        (a, b), count = min(left.items())
        raise Refused(f"H2 {a[0]} {a[1]} {b[0]} {b[1]} net {count}")
    return Layer(city, dict(all_noded), refined)


def locate(rows: Dict[int, Ring], p: Corner) -> str:
    """Where a point lies: on edges of these parcels, else inside this one, else outside.

    Definition: fabric_core `IsLocatedAt`.
    """
    on = [str(n) for n, ring in sorted(rows.items()) if is_on_ring(p, ring)]
    if on:
        return "edge " + " ".join(on)
    inside = [n for n, ring in sorted(rows.items()) if winding(p, ring) >= 1]
    return f"inside {inside[0]}" if inside else "outside"


def tiles_at(rows: Dict[int, Ring], city: Ring, p: Corner) -> bool:
    """The sentence itself, at one whole point off all edges: in one parcel where it is in the city, else in none.

    Definition: fabric_core `IsTiling`.
    """
    counts = sorted(winding(p, ring) for ring in rows.values())
    wanted = [0] * len(counts)
    if winding(p, city) >= 1:
        wanted = wanted[1:] + [1]
    return is_on_any(rows, city, p) or counts == wanted


def is_on_any(rows: Dict[int, Ring], city: Ring, p: Corner) -> bool:
    """Whether a point lies on an edge of a parcel or of the city."""
    return is_on_ring(p, city) or any(is_on_ring(p, ring) for ring in rows.values())


def total_area2(rows: Dict[int, Ring]) -> int:
    """Twice the area of all parcels together."""
    return sum(area2(ring) for ring in rows.values())
