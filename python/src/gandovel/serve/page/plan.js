"use strict";
/** The map (`ParcelMap`, as a report's): metres from the south-western corner of all parcels, so that millimetres stay. */
const drawing = {
  origin: [0, 0],

  start() {
    drawing.parcels = new ParcelMap($("map"), {
      layers: [{ name: "parcels", draw: "areas", look: "parcel" }, { name: "zones", draw: "borders", look: "zone" }],
      looks: { parcel: { fill: "fill", line: "line" }, zone: { line: "other", width: 3 } },
      onPick: (found, { x, y }) => drawing.picked(found.filter((it) => it.layer === "parcels"), x, y),
    });
    drawing.map = drawing.parcels.map;
    drawing.map.keyboard.enable();
    L.control.zoom().addTo(drawing.map);
    drawing.draft = L.layerGroup().addTo(drawing.map);
    drawing.texts = L.layerGroup().addTo(drawing.map);
    drawing.map.on("moveend", () => { drawing.numbers(); cells.look(); });
  },

  picked([feature], x, y) { drafts.click(drawing.place({ lat: y, lng: x }), feature ? feature.properties.id : null); },

  /** Draws the zones' borders, with their names where they are clicked for. */
  async zones() {
    const response = await register.ask(`/collections/zones/items?limit=1000&crs=${encodeURIComponent(register.settings.crs)}`);
    if (!response.ok) return;
    const metres = register.settings.unit_mm / 1000, side = register.settings.north_first ? 1 : 0;
    drawing.parcels.setLayer("zones", (await response.json()).features.map((it) => {
      const ring = it.geometry.coordinates[0].slice(0, -1);
      const flat = ring.flatMap((at) => [at[side] * metres - drawing.origin[0] / 1000, at[1 - side] * metres - drawing.origin[1] / 1000]);
      return ParcelMap.feature(String(it.id), [Float64Array.from(flat)], it.properties);
    }));
  },

  /** A map below the parcels, by WMS in the register's own projection: what `--base-map` names. */
  baseMap({ base_map: url, epsg }) {
    if (!url || !epsg) return;
    const pane = drawing.map.createPane("base");
    pane.style.zIndex = 100;
    const Base = L.GridLayer.extend({
      createTile(at, done) {
        const size = this.getTileSize(), image = document.createElement("img"), from = at.scaleBy(size), scale = 2 ** at.z;
        const x = (it) => drawing.origin[0] / 1000 + it / scale, y = (it) => drawing.origin[1] / 1000 - it / scale;
        const box = [x(from.x), y(from.y + size.y), x(from.x + size.x), y(from.y)].map((it) => it * 1000 / register.settings.unit_mm);
        const asked = new URLSearchParams({ service: "WMS", version: "1.1.1", request: "GetMap", styles: "", srs: epsg,
          bbox: box.join(), width: size.x, height: size.y, format: "image/png" });
        image.alt = "";
        image.onload = () => done(null, image);
        image.onerror = () => done(new Error("no base map"), image);
        image.src = `${url}${url.includes("?") ? "&" : "?"}${asked}`;
        return image;
      },
    });
    new Base({ pane: "base", tileSize: 256 }).addTo(drawing.map);
    $("map").classList.add("with-base");
  },

  /** Draws the numbers of the parcels that are seen, where there is room for them. */
  numbers() {
    drawing.texts.clearLayers();
    const [x0, y0, x1, y1] = drawing.seen();
    const wide = WIDE * 1000 / drawing.parcels.scale(), found = [];
    for (const parcel of register.parcels.values()) {
      if (parcel.number === null) continue;
      parcel.inside ??= drawing.inside(parcel.ring_mm);
      const [x, y, width] = parcel.inside;
      if (width >= wide && x >= x0 && x <= x1 && y >= y0 && y <= y1) found.push(parcel);
      if (found.length > MOST_NUMBERS) return;
    }
    for (const { number, inside: [x, y] } of found) {
      const icon = L.divIcon({ className: "number", html: element("span", number), iconSize: [0, 0] });
      drawing.texts.addLayer(L.marker(drawing.latlng([x, y]), { icon, interactive: false, keyboard: false }));
    }
  },

  /** A place inside a ring, at half of its height, and how wide the ring is there. */
  inside(ring) {
    const ys = ring.map(([, y]) => y), y = (Math.min(...ys) + Math.max(...ys)) / 2 + 0.25, meets = [];
    for (const [a, b] of Checks.edges(ring))
      if (a[1] > y !== b[1] > y) meets.push(a[0] + (y - a[1]) / (b[1] - a[1]) * (b[0] - a[0]));
    meets.sort((a, b) => a - b);
    let best = [ring[0][0], y, 0];
    for (let at = 0; at + 1 < meets.length; at += 2)
      if (meets[at + 1] - meets[at] > best[2]) best = [(meets[at] + meets[at + 1]) / 2, y, meets[at + 1] - meets[at]];
    return best;
  },

  style: (name) => getComputedStyle(document.documentElement).getPropertyValue(name).trim(),
  latlng: ([x, y]) => [(y - drawing.origin[1]) / 1000, (x - drawing.origin[0]) / 1000],
  place: ({ lat, lng }) => [Math.round(lng * 1000) + drawing.origin[0], Math.round(lat * 1000) + drawing.origin[1]],
  feature: ({ id, ring_mm: ring }) => ParcelMap.feature(String(id),
    [Float64Array.from(ring.flatMap(([x, y]) => [(x - drawing.origin[0]) / 1000, (y - drawing.origin[1]) / 1000]))], { id }),
  featureOf: (id) => drawing.parcels.layers.get("parcels").features.get(String(id)) || null,

  /** Begins with these parcels; `box` is what is seen first, in mm. */
  all(parcels, box) {
    drawing.parcels.setLayer("parcels", parcels.map(drawing.feature));
    drawing.showPlace(box, 0.95);
    drawing.numbers();
  },

  /** Moves to a box in mm. */
  showPlace([x0, y0, x1, y1], part) {
    const [left, low] = drawing.origin;
    drawing.parcels.showBox([(x0 - left) / 1000, (y0 - low) / 1000, (x1 - left) / 1000, (y1 - low) / 1000], part, 1);
  },

  /** The box that is seen, in mm. */
  seen() {
    const bounds = drawing.map.getBounds(), [x0, y1] = drawing.place(bounds.getNorthWest()), [x1, y0] = drawing.place(bounds.getSouthEast());
    return [x0, y0, x1, y1];
  },

  /** The corner of any parcel that is nearest to a place, within a few pixels; else null. */
  snapped(place) {
    let best = null, least = NEAR;
    for (const { ring_mm: ring } of register.parcels.values()) for (const corner of ring) {
      if (Math.abs(corner[0] - place[0]) + Math.abs(corner[1] - place[1]) > 4000 * NEAR / drawing.parcels.scale()) continue;
      const off = drawing.pixels(corner, place);
      if (off < least) [best, least] = [corner, off];
    }
    return best;
  },

  /** Takes parcels out, by their ids, and puts others in. */
  change(out, parcels) { drawing.parcels.replace("parcels", out, parcels.map(drawing.feature)); drawing.numbers(); },

  mark(id) { drawing.parcels.select(drawing.featureOf(id)); },
  show(id) { const found = drawing.featureOf(id); if (found) drawing.parcels.show(found); },

  /** How far two places are from each other, in pixels. */
  pixels: (a, b) => drawing.map.latLngToLayerPoint(drawing.latlng(a)).distanceTo(drawing.map.latLngToLayerPoint(drawing.latlng(b))),

  path(path) {
    drawing.draft.clearLayers();
    const look = { color: drawing.style("--other"), interactive: false };
    if (path.length > 1) drawing.draft.addLayer(L.polyline(path.map(drawing.latlng), { ...look, weight: 3 }));
    for (const place of path) drawing.draft.addLayer(L.circleMarker(drawing.latlng(place), { ...look, radius: 5 }));
  },
};


/** A register of more parcels than are loaded at once: the squares that are seen are, each once. */
const IN_A_CELL = 400, MOST_CELLS = 30;
const cells = {
  most: 20000, side: 0, loaded: new Set(),

  /** Whether parcels are loaded by squares. */
  begin({ parcels, box_mm: [x0, y0, x1, y1] }) {
    cells.loaded.clear();
    cells.side = parcels > cells.most ? Math.ceil(Math.sqrt((x1 - x0) * (y1 - y0) * IN_A_CELL / parcels)) : 0;
    return cells.side > 0;
  },

  /** What is seen first: a few squares in the middle. */
  first([x0, y0, x1, y1]) {
    const x = (x0 + x1) / 2, y = (y0 + y1) / 2;
    return [x - cells.side, y - cells.side, x + cells.side, y + cells.side];
  },

  /** Loads the squares that are seen and not there yet. */
  async look() {
    if (!cells.side || !register.settings) return;
    const [x0, y0, x1, y1] = drawing.seen(), box = register.settings.box_mm, wanted = [];
    const from = (low, least) => Math.floor((Math.max(low, least) - least) / cells.side);
    for (let a = from(x0, box[0]); box[0] + a * cells.side <= Math.min(x1, box[2]); a++)
      for (let b = from(y0, box[1]); box[1] + b * cells.side <= Math.min(y1, box[3]); b++) {
        if (wanted.length > MOST_CELLS) { $("far").hidden = false; return; }
        wanted.push([a, b]);
      }
    $("far").hidden = true;
    await Promise.all(wanted.filter((it) => !cells.loaded.has(it.join())).map(cells.load));
  },

  async load([a, b]) {
    const [x, y] = register.settings.box_mm, low = [x + a * cells.side, y + b * cells.side].map(Math.floor);
    cells.loaded.add(`${a},${b}`);
    let more = `/parcels?limit=1000&box=${[...low, low[0] + cells.side + 1, low[1] + cells.side + 1].join()}`;
    try {
      while (more) {
        const page = await (await register.ask(more)).json(), found = page.parcels.filter((it) => !register.parcels.has(it.id));
        for (const parcel of found) register.parcels.set(parcel.id, parcel);
        drawing.change([], found);
        more = page.next;
      }
    } catch (fault) {
      cells.loaded.delete(`${a},${b}`);
    }
  },
};
