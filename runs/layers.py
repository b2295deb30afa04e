"""Files for the runs, made by a recipe of words.

The first word is a file of examples/ or says what is made:
    polygon X,Y X,Y .. / ..  a main file of polygons with these points, the first not repeated; `null` is a null shape,
                             and A..B,Y the points with this y and each x from A to B
    squares N                a main file of N squares with sides of 100
    grid COLUMNS ROWS STEP   a main file of squares with sides of 100 side by side, row by row from the south, with a
                             corner each STEP
    nulls N                  a main file of N null shapes
    index PLACE,LENGTH ..    an index file with these records, in words of 16 bits
    text LINE / LINE ..      these lines, each with a line feed
    journal OUTLINE / .. ; LINE / ..   the journal of a layer with these lines, `0 X Y ..` of the city and `ID X Y ..`
                             of each parcel, and of these edits, all by clerk 1
    moves N X,Y X,Y LINE ..  N lines of edits, each of which moves the border of the last two parcels, at first 1 and 2,
                             to where it is, from the one point straight to the other; and behind them these lines, with
                             ` / ` between them
    folder                   no file, but a folder
    pipe [MODE]              no file, but a named pipe, of mode 600 or this one
    link NAME                no file, but a link to this name
Then follow changes, from left to right:
    cut N                    only the first N bytes
    put PLACE HEX            these bytes from this place on
    long N                   zeros behind it, up to N bytes in all
"""

import hashlib
import os
import struct

EXAMPLES = os.path.join(os.path.dirname(__file__), "..", "examples")


def header(content, shape_type=5):
    words = (100 + len(content)) // 2
    return struct.pack(">7i", 9994, 0, 0, 0, 0, 0, words) + struct.pack("<2i8d", 1000, shape_type, *[0.0] * 8)


def record(number, content):
    return struct.pack(">2i", number, len(content) // 2) + content


def polygon(points):
    content = struct.pack("<i4d3i", 5, 0, 0, 0, 0, 1, len(points), 0)
    return content + b"".join(struct.pack("<2d", x, y) for x, y in points)


def main_file(contents):
    records = b"".join(record(number, content) for number, content in enumerate(contents, 1))
    return header(records) + records


def pairs(words):
    return [point for word in words for point in points_of(word)]


def points_of(word):
    """The point of a word X,Y; of A..B,Y one for each whole x from A to B."""
    x, y = word.split(",")
    first, dots, last = x.partition("..")
    xs = range(int(first), int(last) + 1) if dots else [x]
    return [(float(it), float(y)) for it in xs]


def shape(words):
    if words == ["null"]:
        return struct.pack("<i", 0)
    points = pairs(words)
    return polygon(points + points[:1])


def points_round(x, y, step):
    """The points round a square, clockwise as a file has them, one each step."""
    along = range(0, 100, step)
    west, north = [(x, y + z) for z in along], [(x + z, y + 100) for z in along]
    east, south = [(x + 100, y + 100 - z) for z in along], [(x + 100 - z, y) for z in along]
    return [(float(a), float(b)) for a, b in west + north + east + south + west[:1]]


def text(words):
    """Lines, each with a line feed."""
    return b"".join(line.strip().encode() + b"\n" for line in " ".join(words).split("/"))


def moves(count, start, end, last):
    """Edits that each move a border to where it is; the last lines are others."""
    path = " ".join([start, end]).replace(",", " ")
    lines = [f"move {2 * at + 1} {2 * at + 2} {path}\n" for at in range(count)]
    return "".join(lines).encode() + text(last)


def begun(kind, words):
    """The file before its changes."""
    if kind == "polygon":
        return main_file([shape(part.split()) for part in " ".join(words).split("/")])
    if kind == "squares":
        square = polygon([(0, 0), (0, 100), (100, 100), (100, 0), (0, 0)])
        return main_file([square] * int(words[0]))
    if kind == "grid":
        columns, rows, step = (int(word) for word in words)
        return main_file([polygon(points_round(100 * i, 100 * j, step)) for j in range(rows) for i in range(columns)])
    if kind == "moves":
        return moves(int(words[0]), words[1], words[2], words[3:])
    if kind == "nulls":
        return main_file([struct.pack("<i", 0)] * int(words[0]))
    if kind == "index":
        entries = b"".join(struct.pack(">2i", *(int(part) for part in word.split(","))) for word in words)
        return header(entries) + entries
    if kind == "text":
        return text(words)
    if kind == "journal":
        return journal(words)
    with open(os.path.join(EXAMPLES, kind), "rb") as file:
        return file.read()


def journal(words):
    """A journal: its header names the layer of the first lines, and each edit of the others has a record."""
    split = words.index(";")
    outlines, edits = text(words[:split]), text(words[split + 1 :]).splitlines(keepends=True)
    digest = hashlib.sha256(outlines).hexdigest()
    written = f"# gandovel journal 1 mm {digest}\n".encode()
    for number, edit in enumerate(edits, 1):
        stamp = f"# {number} 1 2026-01-01T00:00:00Z ".encode()
        digest = hashlib.sha256(digest.encode() + stamp + edit).hexdigest()
        written += stamp + digest.encode() + b"\n" + edit
    return written


CHANGES = ("cut", "put", "long")


def make(path, recipe):
    """Makes the file at the path, as the recipe says."""
    words = recipe.split()
    if words == ["folder"]:
        os.mkdir(path)
        return
    if words[0] == "pipe":
        os.mkfifo(path)
        os.chmod(path, int(words[1], 8) if words[1:] else 0o600)
        return
    if words[0] == "link":
        os.symlink(words[1], path)
        return
    first = next((at for at, word in enumerate(words) if word in CHANGES), len(words))
    data, size, rest = begun(words[0], words[1:first]), None, words[first:]
    while rest:
        change, number, *rest = rest
        if change == "cut":
            data = data[: int(number)]
        elif change == "long":
            size = int(number)
        else:
            at, new, *rest = int(number), bytes.fromhex(rest[0]), *rest[1:]
            data = data[:at] + new + data[at + len(new) :]
    with open(path, "wb") as file:
        file.write(data)
        if size is not None:
            file.truncate(size)
