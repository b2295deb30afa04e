"use strict";
/**
 * What a clerk types: x and y in metres, or a bearing and a distance from the corner before.
 *
 * Coordinates are taken as they are, to the millimetre. A bearing runs clockwise from the grid's north: 45.5042,
 * 45 30 15, 45\u00b030'15" or 50.5602g (gon); its end is measured in floating point, and rounded to the millimetre.
 */
const Typing = {
  PAIR: /^(-?\d{1,9})(?:\.(\d{1,3}))?[\s,;]+(-?\d{1,9})(?:\.(\d{1,3}))?$/,
  POLAR: /^@\s*(\d{1,3}(?:\.\d+)?)(?:(g)|\u00b0?(?:\s*(\d{1,2})['\u2032\s]\s*(\d{1,2}(?:\.\d+)?)["\u2033]?)?)\s*[\s,;]\s*(\d{1,7}(?:\.\d+)?)$/,
  HOW: "Type x and y in metres, as 600010.250 5500020.125, with three decimals at most; or @, a bearing and a distance, as @45.5 20 or @45 30 15 20.",

  read(text, from) {
    const words = text.trim(), pair = words.match(Typing.PAIR);
    if (pair) return { place: [Typing.whole(pair[1], pair[2]), Typing.whole(pair[3], pair[4])], measured: false };
    const polar = words.match(Typing.POLAR);
    if (!polar) return { reason: Typing.HOW };
    if (!from) return { reason: "A bearing begins in a corner: put the first corner in before it." };
    const [, first, gon, minutes, seconds, distance] = polar;
    const turn = gon ? Number(first) / 400 : (Number(first) + Number(minutes || 0) / 60 + Number(seconds || 0) / 3600) / 360;
    if (turn > 1 || Number(minutes || 0) > 59 || Number(seconds || 0) >= 60) return { reason: "A bearing has at most 360 degrees, or 400 gon." };
    const angle = turn * 2 * Math.PI, far = Number(distance) * 1000;
    return { place: [Math.round(from[0] + far * Math.sin(angle)), Math.round(from[1] + far * Math.cos(angle))], measured: true };
  },

  whole: (metres, rest) => Number(metres) * 1000 + (metres.startsWith("-") ? -1 : 1) * Number((rest || "").padEnd(3, "0")),

  /** A place in metres, as it is typed. */
  told: (place) => place.map(Typing.metres).join(" "),
  metres: (mm) => `${mm < 0 ? "-" : ""}${Math.trunc(Math.abs(mm) / 1000)}.${String(Math.abs(mm) % 1000).padStart(3, "0")}`,

  /** The bearing in degrees, clockwise from the grid's north, and the distance in metres from a corner to the next: measured. */
  bearing([ax, ay], [bx, by]) {
    const turn = (Math.atan2(bx - ax, by - ay) * 180 / Math.PI + 360) % 360;
    return [turn.toFixed(4), (Math.hypot(bx - ax, by - ay) / 1000).toFixed(3)];
  },
};
