#!/usr/bin/env python3
"""rings.py - microseconds of Ring::check and Shape::clip on rings of 16, 256 and 4,096 corners.

  rings.py [--sizes 16,256,4096] [--plain-limit N] [--ours PROGRAM]

PROGRAM is programs/bench_rings, proved and built by build.sh unless it is given.

The clipping is timed beside the plain one, which looks from the first corner on at each step, in the same process. At
more corners than N the plain one is left out where it is known to take long (the spiral and the crescent, minutes at
4,096 corners): give --plain-limit 4096 to see it. All rings are counterclockwise, simple, and within 10^10.
"""
import argparse, math, random, subprocess, sys

sys.dont_write_bytecode = True
import inputs

R = 5 * 10**9


def polar(radius, angle):
    return round(radius * math.cos(angle)), round(radius * math.sin(angle))


def convex(n):
    """Corners on a circle."""
    return [polar(R, 2 * math.pi * k / n) for k in range(n)]


def star(n):
    """Corners on two circles in turn."""
    return [polar(R if k % 2 == 0 else 2 * R // 5, 2 * math.pi * k / n) for k in range(n)]


def ragged(n):
    """Corners at rising angles and random distances."""
    chance = random.Random(1)
    return [polar(R * chance.uniform(0.05, 1), 2 * math.pi * k / n) for k in range(n)]


def comb(n):
    """Teeth on a bar."""
    teeth = (n - 2) // 2
    row = [((4 * (k // 2) + k % 2) * 10**6, 10**9 * (k % 2)) for k in range(2 * teeth)]
    return [(0, -(10**6)), (4 * teeth * 10**6, -(10**6))] + row[::-1]


def slanted(n):
    """A comb whose teeth lean: the box of each long edge meets that of each other."""
    return [(x + y, y) for x, y in comb(n)]


def spiral(n):
    """A band that winds inwards, out along one side and back along the other."""
    half = n // 2
    round_ = 4 if n < 100 else 16 if n < 1000 else 32
    pitch = 0.9 * R / (half / round_)
    outer = [polar(R - pitch * k / round_, 2 * math.pi * k / round_) for k in range(half)]
    inner = [polar(R - pitch * (k / round_ + 0.5), 2 * math.pi * k / round_) for k in range(half)]
    return outer + inner[::-1]


def crescent(n):
    """The worst for the plain clipping that is known: a long arc, and just inside it a second one with a corner in the
    triangles of each two neighbours of the first. So no corner of the arc is an ear but at its end, and that ear is
    found last."""
    arc = 2 * n // 3
    back = n - arc
    step = math.pi / arc
    inside = R * math.cos(step / 2) - R * step * step / 16
    outer = [polar(R, step * k) for k in range(arc)]
    inner = [polar(inside, step * (2 * k + 0.5)) for k in range(back)][::-1]
    return outer[1:] + inner + outer[:1]


KINDS = (convex, star, ragged, comb, slanted, spiral, crescent)


def main():
    parser = argparse.ArgumentParser(description=__doc__, formatter_class=argparse.RawDescriptionHelpFormatter)
    parser.add_argument("--sizes", default="16,256,4096")
    parser.add_argument("--plain-limit", type=int, default=256)
    parser.add_argument("--ours")
    given = parser.parse_args()
    lines = []
    for size in map(int, given.sizes.split(",")):
        for kind in KINDS:
            corners = kind(size)
            plain = kind not in (spiral, crescent) or size <= given.plain_limit
            rounds = 1000 if size < 100 else 50 if size < 1000 else 1 if size <= given.plain_limit else 5
            words = [("" if plain else "-") + kind.__name__, str(rounds)] + ["%d %d" % c for c in corners]
            lines.append(" ".join(words))
    program = inputs.ours("bench_rings", given.ours)
    run = subprocess.run([program], input="\n".join(lines) + "\n", text=True, stdout=subprocess.PIPE)
    if run.returncode != 0:
        sys.exit(run.stdout)
    print("%-10s %8s %12s %12s %12s %10s" % ("ring", "corners", "check us", "clip us", "plain us", "triangles"))
    for line in run.stdout.splitlines():
        name, count, check, clip, plain, triangles, good = line.split()
        if good != "true":
            sys.exit("not as wanted: " + line)
        print(
            "%-10s %8s %12.1f %12.1f %12s %10s"
            % (
                name.lstrip("-"),
                count,
                int(check) / 1000,
                int(clip) / 1000,
                "-" if plain == "0" else "%.1f" % (int(plain) / 1000),
                triangles,
            )
        )


if __name__ == "__main__":
    main()
