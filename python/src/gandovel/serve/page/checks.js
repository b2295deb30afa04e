"use strict";
/**
 * What can be said of an edit before it is sent, in words; coordinates are whole millimetres, and all is exact.
 *
 * A ring is a list of corners [x, y], counterclockwise. Each check answers "" or the reason why the program would refuse.
 * The program has the last word: it knows edits that this page has not heard of.
 */
const Checks = {
  same: (a, b) => a[0] === b[0] && a[1] === b[1],

  /** Above 0 where a, b, c turn left, 0 where they are on a line. */
  turn(a, b, c) {
    const [ax, ay, bx, by, cx, cy] = [...a, ...b, ...c].map(BigInt);
    const twice = (bx - ax) * (cy - ay) - (by - ay) * (cx - ax);
    return twice > 0n ? 1 : twice < 0n ? -1 : 0;
  },

  /** Whether p lies on the segment from a to b, its ends included. */
  isOn: (p, a, b) => Checks.turn(a, b, p) === 0 && Math.min(a[0], b[0]) <= p[0] && p[0] <= Math.max(a[0], b[0])
    && Math.min(a[1], b[1]) <= p[1] && p[1] <= Math.max(a[1], b[1]),

  /** Whether two segments have a common point. */
  meet(a, b, c, d) {
    const one = Checks.turn(a, b, c), two = Checks.turn(a, b, d), three = Checks.turn(c, d, a), four = Checks.turn(c, d, b);
    if (one * two < 0 && three * four < 0) return true;
    return Checks.isOn(c, a, b) || Checks.isOn(d, a, b) || Checks.isOn(a, c, d) || Checks.isOn(b, c, d);
  },

  edges: (ring) => ring.map((corner, at) => [corner, ring[(at + 1) % ring.length]]),
  corner: (ring, place) => ring.findIndex((it) => Checks.same(it, place)),

  /** Twice the area, as a BigInt; below 0 for a ring that runs clockwise. */
  area2: (ring) => Checks.edges(ring).reduce((sum, [a, b]) => sum + BigInt(a[0]) * BigInt(b[1]) - BigInt(b[0]) * BigInt(a[1]), 0n),

  /** Why a ring is not simple; "" where it is. */
  ring(ring) {
    if (ring.length < 3 || Checks.area2(ring) <= 0n) return "A part would have no area, or the path leaves the parcel.";
    const edges = Checks.edges(ring), n = edges.length;
    for (let i = 0; i < n; i++) for (let j = i + 1; j < n; j++) {
      const [a, b] = edges[i], [c, d] = edges[j];
      const next = j === i + 1, last = i === 0 && j === n - 1;
      const wrong = next ? Checks.isOn(a, c, d) || Checks.isOn(d, a, b) : last ? Checks.isOn(c, a, b) || Checks.isOn(b, c, d)
        : Checks.meet(a, b, c, d);
      if (wrong) return "The path crosses itself, touches the border, or leaves the parcel.";
    }
    return "";
  },

  /** The corners of a ring from one corner on to another, both included. */
  run(ring, from, to) {
    const at = Checks.corner(ring, from), turned = [...ring.slice(at), ...ring.slice(0, at)];
    return turned.slice(0, (Checks.same(from, to) ? turned.length : Checks.corner(turned, to)) + 1);
  },

  split(ring, path) {
    if (path.length < 2) return "The path needs a corner to begin in, and another to end in.";
    const first = path[0], last = path[path.length - 1];
    if (Checks.corner(ring, first) < 0) return "The path does not begin in a corner of the parcel. Put a corner in first.";
    if (Checks.corner(ring, last) < 0) return "The path does not end in a corner of the parcel. Put a corner in first.";
    if (Checks.same(first, last)) return "The path ends where it begins.";
    const back = [...path].reverse();
    return Checks.ring([...path, ...Checks.run(ring, last, first).slice(1, -1)])
      || Checks.ring([...back, ...Checks.run(ring, first, last).slice(1, -1)]);
  },

  /** The run of corners that two rings share, in the first one's direction; or why there is none. */
  border(ring, other) {
    const theirs = new Set(Checks.edges(other).map(([a, b]) => [b, a].join()));
    const shared = Checks.edges(ring).map((edge) => theirs.has(edge.join()));
    const begins = shared.flatMap((it, at) => it && !shared[(at + shared.length - 1) % shared.length] ? [at] : []);
    if (!shared.includes(true)) return { reason: "The two parcels have no border in common." };
    if (begins.length !== 1) return { reason: "Their common border is not one unbroken run." };
    const count = shared.filter(Boolean).length;
    return { reason: "", run: Array.from({ length: count + 1 }, (_, k) => ring[(begins[0] + k) % ring.length]) };
  },

  merge(ring, other) {
    const { reason, run } = Checks.border(ring, other);
    if (reason) return reason;
    const from = run[0], to = run[run.length - 1];
    return Checks.ring([...Checks.run(ring, to, from), ...Checks.run(other, from, to).slice(1, -1)])
      && "The parcel would touch itself.";
  },

  move(ring, other, path) {
    const { reason, run } = Checks.border(ring, other);
    if (reason) return reason;
    const from = run[0], to = run[run.length - 1];
    if (path.length < 2 || !Checks.same(path[0], from) || !Checks.same(path[path.length - 1], to))
      return "The new border has to begin and end where the old one does.";
    return Checks.ring([...path, ...Checks.run(ring, to, from).slice(1, -1)])
      || Checks.ring([...[...path].reverse(), ...Checks.run(other, from, to).slice(1, -1)]);
  },

  /** The whole place on an edge that is nearest to a place, strictly between its ends; null where there is none. */
  between([a, b], place) {
    const gcd = (m, n) => n ? gcd(n, m % n) : m;
    const dx = b[0] - a[0], dy = b[1] - a[1], pieces = gcd(Math.abs(dx), Math.abs(dy));
    if (pieces < 2) return null;
    const along = ((place[0] - a[0]) * dx + (place[1] - a[1]) * dy) / (dx * dx + dy * dy);
    const piece = Math.max(1, Math.min(pieces - 1, Math.round(along * pieces)));
    return [a[0] + dx / pieces * piece, a[1] + dy / pieces * piece];
  },

  /** Why a corner can't be taken out of the rings that have it. */
  straighten(rings, corner) {
    const having = rings.filter((ring) => Checks.corner(ring, corner) >= 0);
    if (!having.length) return "No parcel has this corner.";
    for (const ring of having) {
      const at = Checks.corner(ring, corner), n = ring.length, before = ring[(at + n - 1) % n], behind = ring[(at + 1) % n];
      if (!Checks.isOn(corner, before, behind)) return "A border bends at this corner, or a third one ends there.";
    }
    return "";
  },
};
