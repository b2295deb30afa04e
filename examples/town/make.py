#!/usr/bin/env python3
"""make.py - writes the layers of the example town beside itself (stdlib only): whole centimetres, clockwise rings, each
with its index.

README.md beside it draws the town.
"""
import os, struct

CITY = [[(0, 0), (12000, 0), (12000, 8000), (0, 8000)]]
PARCELS = [
    [(0, 0), (5000, 0), (5000, 4000), (0, 4000)],
    [(5000, 0), (12000, 0), (12000, 3000), (5000, 3000)],
    [(0, 4000), (5000, 4000), (5000, 8000), (0, 8000)],
    [(5000, 3000), (9000, 3000), (9000, 8000), (5000, 8000)],
    [(9000, 3000), (12000, 3000), (12000, 8000), (9000, 8000)],
]
ZONES = [
    [(0, 0), (8000, 0), (6000, 8000), (0, 8000)],
    [(8000, 0), (12000, 0), (12000, 8000), (6000, 8000)],
]
# parcel 5 begins a centimetre too far to the east
GAP = PARCELS[:4] + [[(9001, 3000), (12000, 3000), (12000, 8000), (9001, 8000)]]


def box(points):
    xs, ys = [x for x, _ in points], [y for _, y in points]
    return struct.pack("<4d", min(xs), min(ys), max(xs), max(ys))


def header(words, points):
    return struct.pack(">i20xi", 9994, words) + struct.pack("<2i", 1000, 5) + box(points) + bytes(32)


def write(name, rings):
    records, index, at = b"", b"", 50
    for number, ring in enumerate(rings, 1):
        points = [ring[0]] + ring[:0:-1] + [ring[0]]
        content = struct.pack("<i", 5) + box(ring) + struct.pack("<3i", 1, len(points), 0)
        content += b"".join(struct.pack("<2d", x, y) for x, y in points)
        words = len(content) // 2
        records += struct.pack(">2i", number, words) + content
        index += struct.pack(">2i", at, words)
        at += 4 + words
    points = [point for ring in rings for point in ring]
    folder = os.path.dirname(os.path.abspath(__file__))
    for ending, body in (("shp", records), ("shx", index)):
        with open(os.path.join(folder, f"{name}.{ending}"), "wb") as out:
            out.write(header(50 + len(body) // 2, points) + body)


for name, rings in (("city", CITY), ("parcels", PARCELS), ("zones", ZONES), ("parcels_with_a_gap", GAP)):
    write(name, rings)
