#!/usr/bin/env python3
"""make.py - writes the layers of the example village beside itself (stdlib only): GeoJSON in metres, EPSG:25832.

README.md beside it draws the village. Lengths are in metres from the village's south-western corner.
"""
import json
from pathlib import Path

ORIGIN = (600000.0, 5500000.0)
ROAD_HOLE = [(25, 20), (75, 20), (75, 60), (25, 60)]
BORDER = [(45, 20), (50.1685, 40), (55.337, 60)]
"""The slanting border in the block; its middle corner is half a millimetre off the grid."""


def box(west, south, east, north):
    """A rectangle's corners, counterclockwise."""
    return [(west, south), (east, south), (east, north), (west, north)]


def parcels(west_of_106):
    """Number, owner and polygons, each its outer ring and its holes; parcel 106 begins at this x."""
    return [
        ("1", "municipality", [[box(20, 15, 80, 65), ROAD_HOLE]]),
        ("101", "Adler", [[[(25, 20), (45, 20), BORDER[1], BORDER[2], (25, 60)]]]),
        ("102", "Brandt", [[[BORDER[0], (75, 20), (75, 40), BORDER[1]]]]),
        ("108", "Conrad", [[[BORDER[1], (75, 40), (75, 60), BORDER[2]]]]),
        ("103", "Dorn", [[box(0, 20, 20, 80)]]),
        ("104", "Ebert", [[box(80, 0, 100, 60)]]),
        ("105", "Frank", [[box(20, 0, 80, 15)]]),
        ("106", "Graf", [[box(west_of_106, 65, 80, 80)]]),
        ("107", "Haas", [[box(0, 0, 20, 20)], [box(80, 60, 100, 80)]]),
    ]


ZONES = [("housing", [[[(0, 0), (60, 0), (50, 80), (0, 80)]]]), ("trade", [[[(60, 0), (100, 0), (100, 80), (50, 80)]]])]
CITY = [("village", [[box(0, 0, 100, 80)]])]


def closed(ring):
    """A ring as GeoJSON has it: placed in the projection, its first corner repeated at the end."""
    return [[round(x + ORIGIN[0], 4), round(y + ORIGIN[1], 4)] for x, y in [*ring, ring[0]]]


def feature(properties, polygons):
    """A feature of one polygon, or of several."""
    rings = [[closed(ring) for ring in polygon] for polygon in polygons]
    kind, coordinates = ("Polygon", rings[0]) if len(rings) == 1 else ("MultiPolygon", rings)
    return {"type": "Feature", "properties": properties, "geometry": {"type": kind, "coordinates": coordinates}}


def write(name, features):
    """Writes a layer beside this file, a feature a line."""
    lines = ",\n".join(json.dumps(each) for each in features)
    crs = '"crs": {"type": "name", "properties": {"name": "urn:ogc:def:crs:EPSG::25832"}}'
    text = f'{{"type": "FeatureCollection", "name": "{name}", {crs}, "features": [\n{lines}\n]}}\n'
    (Path(__file__).resolve().parent / f"{name}.geojson").write_text(text)


def main():
    """Writes the parcels as drawn first, with a gap, and as mended; the zones; and the outline."""
    for name, west in (("parcels_as_drawn", 20.05), ("parcels", 20)):
        write(name, [feature({"parcel_no": n, "owner": o}, polygons) for n, o, polygons in parcels(west)])
    write("zones", [feature({"zone": name}, polygons) for name, polygons in ZONES])
    write("city", [feature({"name": name}, polygons) for name, polygons in CITY])


main()
