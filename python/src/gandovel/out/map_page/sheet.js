"use strict";
/** A parcel on paper: its drawing with its neighbours, what is said of it, and the verdict with its date and basis. */
const Sheet = {
  /** `lines` are those of the parcel, `told` { title, summary, verdict, time, basis } is what the report says of all. */
  print(sheet, feature, neighbours, title, lines, told) {
    const stands = told.basis ? `The verdict stands on: ${told.basis}` : "The report does not say what its verdict stands on.";
    sheet.replaceChildren(
      Sheet.element("h1", title), Sheet.drawing(feature, neighbours), ...lines.map((it) => Sheet.element("p", it)),
      Sheet.element("h2", "The verdict"), Sheet.element("p", `Of the report ${told.title}, ${Sheet.date(told.time)}: ${told.verdict}.`),
      Sheet.element("p", told.summary), Sheet.element("p", stands),
      Sheet.element("p", `Printed ${Sheet.date(new Date().toISOString())}.`));
    sheet.hidden = false;
    window.print();
    sheet.hidden = true;
  },

  element(name, text) {
    const made = document.createElement(name);
    made.textContent = text;
    return made;
  },

  date: (text) => text ? `${text.slice(0, 10)} ${text.slice(11, 16)} UTC` : "without a date",

  /** The parcel and what is near it, as lines: they stay sharp on paper. */
  drawing(feature, neighbours) {
    const [x0, y0, x1, y1] = feature.box, edge = Math.max(x1 - x0, y1 - y0) / 4, name = "http://www.w3.org/2000/svg";
    const low = [x0 - edge, y0 - edge], high = [x1 + edge, y1 + edge], svg = document.createElementNS(name, "svg");
    svg.setAttribute("viewBox", `0 0 ${high[0] - low[0]} ${high[1] - low[1]}`);
    svg.setAttribute("role", "img");
    svg.setAttribute("aria-label", "the parcel and its neighbours");
    const path = (ring) => Array.from({ length: ring.length / 2 }, (_, at) =>
      `${(ring[2 * at] - low[0]).toFixed(3)} ${(high[1] - ring[2 * at + 1]).toFixed(3)}`).join(" L");
    for (const it of [...neighbours.filter((other) => other !== feature), feature]) {
      const shape = document.createElementNS(name, "path");
      shape.setAttribute("d", it.rings.map((ring) => `M${path(ring)} Z`).join(" "));
      shape.setAttribute("class", it === feature ? "this" : it.layer);
      svg.append(shape);
      if (it.layer !== "parcels") continue;
      const [x, y] = ParcelMap.placeOf(it), text = document.createElementNS(name, "text");
      for (const [key, value] of Object.entries({ x: x - low[0], y: high[1] - y, "font-size": edge / 6, "text-anchor": "middle" }))
        text.setAttribute(key, String(value));
      text.textContent = it.properties.number;
      svg.append(text);
    }
    return svg;
  },
};
