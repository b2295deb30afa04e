"""The area common to two rings: the definition in `crates/common_areas/specs`, written out in fractions, gives what
clipping gives. No program is run."""
from __future__ import annotations

import math
import random
from fractions import Fraction

LIMIT = 10**11


def edges(ring):
    return list(zip(ring, ring[1:] + ring[:1]))


def area2(ring):
    return sum(a[0] * b[1] - b[0] * a[1] for a, b in edges(ring))


def between(first, second):
    """`between` of `specs/Between.antt`."""

    def place(edge, y):
        (a, b), way = edge, 1 if edge[1][1] > edge[0][1] else -1
        return way * (a[0] * (b[1] - y) + b[0] * (y - a[1]))

    def gap(y):
        return place(first, y) * rises[1] - place(second, y) * rises[0]

    levels = [sorted((a[1], b[1])) for a, b in (first, second)]
    rises = [high - low for low, high in levels]
    low, high = max(levels[0][0], levels[1][0]), min(levels[0][1], levels[1][1])
    if low >= high:
        return Fraction(0)
    u, v = gap(low), gap(high)
    sides = abs(u) + abs(v)
    area = Fraction((high - low) * sides, 2 * rises[0] * rises[1])
    if u * v < 0:
        area = Fraction((high - low) * (u * u + v * v), 2 * rises[0] * rises[1] * sides)
    up = [b[1] > a[1] for a, b in (first, second)]
    return -area if up[0] == up[1] else area


def common_area2(one, other):
    """`common_area2` of `specs/Common.antt`."""
    return sum((between(e, f) for e in edges(one) for f in edges(other)), Fraction(0))


def clipped(points, a, b):
    """What of a convex polygon is left of the way from a to b, or on it."""

    def turn(p):
        return (b[0] - a[0]) * (p[1] - a[1]) - (b[1] - a[1]) * (p[0] - a[0])

    kept = []
    for p, q in edges(points):
        s, t = turn(p), turn(q)
        if s >= 0:
            kept.append(p)
        if s * t < 0:
            share = Fraction(s) / (s - t)
            kept.append((p[0] + share * (q[0] - p[0]), p[1] + share * (q[1] - p[1])))
    return kept


def fan(ring):
    """Triangles from the first corner, counterclockwise, with the sign of each."""
    for p, q in zip(ring[1:], ring[2:]):
        turn = area2([ring[0], p, q])
        if turn:
            yield (1, [ring[0], p, q]) if turn > 0 else (-1, [ring[0], q, p])


def clipped_area2(one, other):
    """The reference: triangle by triangle, clipped by the edges of each other, in fractions."""
    total = Fraction(0)
    for sign, triangle in fan(one):
        for other_sign, window in fan(other):
            points = triangle
            for a, b in edges(window):
                points = clipped(points, a, b)
            total += sign * other_sign * area2(points)
    return total


def square(x, y, side):
    return [(x, y), (x + side, y), (x + side, y + side), (x, y + side)]


def comb(teeth, width, height, x, y):
    """A comb that stands on its back; its teeth are as wide as the gaps."""
    top = []
    for i in reversed(range(teeth)):
        left, right = x + 2 * i * width, x + (2 * i + 1) * width
        top += [(right, y + height), (left, y + height)]
        top += [(left, y + width), (left - width, y + width)] if i else []
    return [(x, y), (x + (2 * teeth - 1) * width, y)] + top


def drawn(corners, size):
    """A ring round the origin, counterclockwise."""
    turns = sorted(random.random() * 2 * math.pi for _ in range(corners))
    reach = [(a, size * random.uniform(0.2, 1)) for a in turns]
    return [(round(math.cos(a) * r), round(math.sin(a) * r)) for a, r in reach]


def test_rows_by_hand():
    triangle = [(0, 0), (10, 0), (0, 10)]
    slanted = [(-20, -20), (20, -20), (20, 9), (-20, -6)]  # its upper border is y = 3 x / 8 + 3 / 2
    left = [(-LIMIT, -LIMIT), (LIMIT, LIMIT - 1), (-LIMIT, LIMIT)]
    rows = [
        (square(0, 0, 100), square(50, 50, 100), 5000),  # they share a quarter
        (triangle, slanted, Fraction(522, 11)),  # (0, 0) (10, 0) (68/11, 42/11) (0, 3/2)
        (square(0, 0, 100), square(100, 0, 100), 0),  # a shared edge, up in one and down in the other
        (square(0, 0, 100), [(0, 0), (50, 0), (50, 100), (0, 100)], 10_000),  # up in both, and down in both
        (square(0, 0, 10), square(10, 10, 10), 0),
        (square(10, 10, 5), square(0, 0, 100), 50),
        (square(-LIMIT, -LIMIT, 2 * LIMIT), left, area2(left)),
    ]
    for one, other, area in rows:
        assert common_area2(one, other) == common_area2(other, one) == clipped_area2(one, other) == area


def test_slopes_that_differ_in_the_last_unit():
    one = [(-LIMIT, -LIMIT), (LIMIT, LIMIT - 1), (-LIMIT, LIMIT)]
    other = [(-LIMIT, -LIMIT), (LIMIT, LIMIT), (-LIMIT, LIMIT)]
    area = common_area2(one, other)
    assert area == clipped_area2(one, other) and area.denominator > 1
    combs = comb(5, 10, 100, 0, 0), comb(4, 7, 90, 5, 3)
    assert common_area2(*combs) == clipped_area2(*combs) > 0


def test_drawn_pairs():
    random.seed(69)
    for _ in range(10_000):
        size = random.choice([5, 12, 1000, LIMIT])
        one, other = drawn(random.randint(3, 8), size), drawn(random.randint(3, 8), size)
        assert common_area2(one, other) == clipped_area2(one, other), (one, other)
