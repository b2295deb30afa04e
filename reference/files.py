"""Shapefiles of polygons with one ring each, after the ESRI Shapefile Technical Description of July 1998.

`read_layer` is the table of checks of the documents, line by line: the first that fails is the answer.
"""

from __future__ import annotations

import struct
from typing import List, Optional, Sequence, Tuple, Union

from reference.doubles import coordinate
from reference.plane import Corner, Ring, area2

MOST_RECORDS, MOST_CORNERS, MOST_OF_A_RING, MOST_BYTES = 65_536, 1_000_000, 4_096, 67_108_864

Numbered = Tuple[int, Ring]


class Fault(Exception):
    """A file is refused: the kind with what it names, the file, the record's position and the byte."""

    def __init__(self, kind: str, record: int, place: int, file: str = "main") -> None:
        super().__init__(f"{kind} {file} record {record} at {place}")


def number(data: bytes, at: int, order: str) -> int:
    """The signed whole number of 32 bits at a byte, `>` most significant byte first, `<` least."""
    return int(struct.unpack_from(order + "i", data, at)[0])


def header_end(data: bytes, file: str) -> int:
    """The byte at which the declared length of a file ends.

    Definition: shp_files `header_checks`.
    """
    if len(data) < 100:
        raise Fault("F1", 0, len(data), file)
    if number(data, 0, ">") != 9994:
        raise Fault("F2", 0, 0, file)
    words = number(data, 24, ">")
    if words < 50:
        raise Fault("F1", 0, 24, file)
    if 2 * words > len(data):
        raise Fault("F1", 0, len(data), file)
    if number(data, 28, "<") != 1000:
        raise Fault("F3", 0, 28, file)
    if number(data, 32, "<") != 5:
        raise Fault("F4", 0, 32, file)
    return 2 * words


def kept_once(points: Sequence[Corner]) -> Ring:
    """The points with neighbours that are equal, also round the ring, kept once; the first is kept first.

    Definition: shp_files `kept_once`.
    """
    result: Ring = []
    for point in points:
        if not result or result[-1] != point:
            result.append(point)
    while len(result) > 1 and result[-1] == result[0]:
        result.pop()
    return result


def counterclockwise(ring: Ring) -> Ring:
    """The ring turned round where it runs clockwise, its first corner kept first.

    Definition: shp_files `counterclockwise`.
    """
    return ring[:1] + ring[:0:-1] if area2(ring) < 0 else ring


def read_polygon(data: bytes, r: int, o: int, content: int, before: int, unit: str) -> Tuple[Ring, int]:
    """The ring of the polygon record at a byte, and how many points it counts towards the layer's limit.

    Definition: shp_files `polygon_checks`.
    """
    if content < 22:
        raise Fault("F5", r, o + 4)
    if number(data, o + 44, "<") != 1:
        raise Fault("F6", r, o + 44)
    if 8 + 2 * content < 52:
        raise Fault("F5", r, o + 4)
    count = number(data, o + 48, "<")
    if count < 4:
        raise Fault("F8", r, o + 48)
    if count > MOST_OF_A_RING + 1 or before + count - 1 > MOST_CORNERS:
        raise Fault("F11", r, o + 48)
    if 2 * content != 48 + 16 * count:
        raise Fault("F5", r, o + 4)
    if number(data, o + 52, "<") != 0:
        raise Fault("F6", r, o + 52)
    numbers: List[int] = []
    for k in range(2 * count):
        place = o + 56 + 8 * k
        read: Union[int, str] = coordinate(int(struct.unpack_from("<Q", data, place)[0]), unit)
        if isinstance(read, str):
            raise Fault(f"F9 {read}", r, place)
        numbers.append(read)
    points = list(zip(numbers[::2], numbers[1::2]))
    if points[0] != points[-1]:
        raise Fault("F7", r, o + 56 + 16 * (count - 1))
    ring = kept_once(points[:-1])
    if len(ring) < 3:
        raise Fault("F8", r, o + 48)
    return counterclockwise(ring), count - 1


def read_layer(data: bytes, index: Optional[bytes], unit: str) -> List[Numbered]:
    """The rings of a main file, by record position from 1, or a `Fault`; then the index, where there is one.

    Definition: shp_files `IsLayerFile`, `IsFirstFault`.
    """
    end = header_end(data, "main")
    rings: List[Numbered] = []
    places: List[Tuple[int, int]] = []
    r, o, points = 1, 100, 0
    while o != end:
        if r > MOST_RECORDS:
            raise Fault("F11", r, o)
        if end - o < 8:
            raise Fault("F1", r, o)
        content = number(data, o + 4, ">")
        if content < 2:
            raise Fault("F5", r, o + 4)
        if o + 8 + 2 * content > end:
            raise Fault("F1", r, o + 4)
        kind = number(data, o + 8, "<")
        if kind not in (0, 5):
            raise Fault("F4", r, o + 8)
        if kind == 0 and content != 2:
            raise Fault("F5", r, o + 4)
        if kind == 5:
            ring, more = read_polygon(data, r, o, content, points, unit)
            rings.append((r, ring))
            points += more
        places.append((o // 2, content))
        r, o = r + 1, o + 8 + 2 * content
    if index is not None:
        compare_index(index, places)
    return rings


def compare_index(index: bytes, places: Sequence[Tuple[int, int]]) -> None:
    """Refuses an index that does not list exactly the places and lengths of the main file's records.

    Definition: shp_files `IsIndexFile`.
    """
    end = header_end(index, "index")
    r, at = 1, 100
    while True:
        if (at == end) != (r > len(places)) or 0 < end - at < 8 or (r > len(places) and at != end):
            raise Fault("F10", r, at, "index")
        if at == end:
            return
        offset, content = places[r - 1]
        if number(index, at, ">") != offset:
            raise Fault("F10", r, at, "index")
        if number(index, at + 4, ">") != content:
            raise Fault("F10", r, at + 4, "index")
        r, at = r + 1, at + 8


def header(length: int, points: Sequence[Corner]) -> bytes:
    """The header of a file of so many bytes, with the box of these points, all 0 where there are none."""
    low_x, low_y, high_x, high_y = box(points)
    return struct.pack(">7i", 9994, 0, 0, 0, 0, 0, length // 2) + struct.pack(
        "<2i8d", 1000, 5, low_x, low_y, high_x, high_y, 0, 0, 0, 0
    )


def box(points: Sequence[Corner]) -> Tuple[int, int, int, int]:
    """The least x and y, and the greatest."""
    if not points:
        return 0, 0, 0, 0
    xs, ys = [p[0] for p in points], [p[1] for p in points]
    return min(xs), min(ys), max(xs), max(ys)


def write_layer(rings: Sequence[Optional[Ring]], scale: float = 1) -> Tuple[bytes, bytes]:
    """Main file and index of these rings, clockwise as the standard has them; None is a null shape.

    Each coordinate is written as the double nearest to it times `scale`, as a GIS writes it.

    Definition: shp_files `written_main`, `written_index`.
    """
    records, index, words = b"", b"", 50
    for position, ring in enumerate(rings, 1):
        content = struct.pack("<i", 0) if ring is None else polygon(ring, scale)
        records += struct.pack(">2i", position, len(content) // 2) + content
        index += struct.pack(">2i", words, len(content) // 2)
        words += 4 + len(content) // 2
    points = [p for ring in rings if ring is not None for p in ring]
    return header(100 + len(records), points) + records, header(100 + len(index), points) + index


def polygon(ring: Ring, scale: float) -> bytes:
    """The content of a polygon record with one ring."""
    points = ring[:1] + (ring[:0:-1] if area2(ring) > 0 else ring[1:]) + ring[:1]
    written = [value * scale for point in points for value in point]
    return (
        struct.pack("<i4d", 5, *(value * scale for value in box(ring)))
        + struct.pack("<3i", 1, len(points), 0)
        + struct.pack(f"<{len(written)}d", *written)
    )
