"use strict";
/** A parcel on paper: its drawing with its neighbours, its facts, its corners, and what proves the entry that made it. */
const Sheet = {
  async print(id) {
    const parcel = register.parcels.get(id);
    if (!parcel) { $("answer").textContent = "Choose a parcel first."; return; }
    const [lineage, zones] = await Promise.all([register.ask(`/parcels/${id}/lineage`), register.ask(`/parcels/${id}/zones`)]);
    const { entries, parcels, proof } = await lineage.json(), made = parcels.find((it) => it.id === id).made_by;
    const sheet = $("sheet");
    sheet.replaceChildren(element("h1", `Parcel ${named(parcel)}`), Sheet.drawing(parcel),
      facts(parcel, zones.ok ? (await zones.json()).zones : null), element("h2", "Corners, in metres"), Sheet.corners(parcel.ring_mm));
    sheet.append(element("p", "Coordinates and the area are exact. Bearings, in degrees from the grid's north, and distances are measured."));
    sheet.append(element("p", made ? `Made by ${told(made)}. Digest of the journal up to it: ${made.digest}` : `As it was read. Digest of the layer: ${proof.layer}`));
    sheet.append(element("p", `Register after ${entries} entries, printed ${new Date().toISOString().slice(0, 16)}Z.`));
    sheet.hidden = false;
    window.print();
    sheet.hidden = true;
  },

  corners(ring) {
    const table = document.createElement("table"), row = (cell, texts) => {
      const it = document.createElement("tr");
      it.append(...texts.map((text) => element(cell, text)));
      return it;
    };
    table.append(row("th", ["corner", "x", "y", "bearing to the next", "distance"]));
    Checks.edges(ring).forEach(([a, b], at) => table.append(row("td", [String(at + 1), ...a.map(Typing.metres), ...Typing.bearing(a, b)])));
    return table;
  },

  /** The parcel and what touches its box, as lines: it stays sharp on paper. */
  drawing({ id, ring_mm: ring }) {
    const sides = [0, 1].map((side) => ring.map((it) => it[side])), low = sides.map((it) => Math.min(...it)), high = sides.map((it) => Math.max(...it));
    const edge = Math.max(high[0] - low[0], high[1] - low[1]) / 4, box = [low[0] - edge, low[1] - edge, high[0] + edge, high[1] + edge];
    const name = "http://www.w3.org/2000/svg", svg = document.createElementNS(name, "svg");
    svg.setAttribute("viewBox", `0 0 ${box[2] - box[0]} ${box[3] - box[1]}`);
    svg.setAttribute("role", "img");
    svg.setAttribute("aria-label", "the parcel and its neighbours");
    const isNear = (it) => [0, 1].every((side) => it.some((at) => at[side] <= box[side + 2]) && it.some((at) => at[side] >= box[side]));
    for (const other of register.parcels.values()) {
      if (!isNear(other.ring_mm)) continue;
      const shape = document.createElementNS(name, "polygon");
      shape.setAttribute("points", other.ring_mm.map(([x, y]) => `${x - box[0]},${box[3] - y}`).join(" "));
      shape.setAttribute("class", other.id === id ? "this" : "other");
      svg.append(shape);
    }
    return svg;
  },
};
