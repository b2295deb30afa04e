"use strict";
/**
 * A map of polygons and points in layers, moved and zoomed by Leaflet (`L`) and drawn by `Raster`.
 *
 *   const drawing = new ParcelMap(element, { layers, looks, metres, onPick, onHover, onDrawn });
 *   drawing.setLayer("parcels", ParcelMap.features(geojson, "number", metres));     // all of a layer
 *   drawing.replace("parcels", ["101"], ParcelMap.features(others, "number", metres));  // some, by id
 *   drawing.select(feature);  drawing.show(feature);  drawing.showAll();
 *
 * `layers`: from the lowest to the topmost, { name, draw, look }. `draw` is "areas" (filled, with thin borders),
 * "borders" (of polygons, thick), "faults" (filled, never thinner than a line, each in a circle) or "points". `look` is
 * a name in `looks`, or gives one for a feature.
 * `looks`: by name { fill, line, hatch, width }: names of CSS colours (`--fill` ..) of the document's root, and pixels.
 * The document has `--page`, too, the colour below all, and `--mark`, that of what is selected.
 * `onPick(features, place)` and `onHover(features, place)`: what lies at a click, tap or pointer, the topmost first,
 * and where, { x, y } in metres and { left, top } in pixels. `onDrawn()`: after each drawing.
 *
 * A feature is { id, layer, rings, box, properties }: `rings` are arrays x0, y0, x1, y1 .. in metres, not closed; a
 * point is a ring of one corner. `ParcelMap.features` makes them of GeoJSON, `ParcelMap.feature` of rings.
 */
class ParcelMap {
  constructor(element, options) {
    this.options = options;
    this.layers = new Map();
    for (const it of options.layers)
      this.layers.set(it.name, { ...it, features: new Map(), shown: true, packed: null });
    this.selected = null;
    this.raster = new Raster();
    this.xy = new Float64Array(1 << 16);
    this.cuts = new Int32Array(1 << 12);
    this.starts = new Int32Array(1 << 12);
    this.colours = new Map();
    this.canvas = document.createElement("canvas");
    this.pen = this.canvas.getContext("2d", { alpha: false });
    this.map = L.map(element, {
      crs: L.CRS.Simple, center: [0, 0], zoom: 0, zoomSnap: 0, minZoom: -30, maxZoom: ParcelMap.CLOSEST,
      keyboard: false, scrollWheelZoom: false, zoomControl: false, attributionControl: false, zoomAnimation: false,
      fadeAnimation: false, markerZoomAnimation: false,
    });
    this.map.getPanes().overlayPane.append(this.canvas);
    this.map.on("move zoom viewreset resize", () => this.plan());
    this.map.on("click", (event) => this.tell(options.onPick, event.containerPoint));
    this.map.on("mousemove", (event) => this.tell(options.onHover, event.containerPoint));
    element.addEventListener("wheel", (event) => {
      event.preventDefault();
      const box = element.getBoundingClientRect(), turn = event.deltaMode === 1 ? 30 : 1;
      this.zoom(Math.exp(-event.deltaY * turn / 400), event.clientX - box.left, event.clientY - box.top);
    }, { passive: false });
    new ResizeObserver(() => this.map.invalidateSize({ animate: false, pan: false })).observe(element);
    matchMedia("(prefers-color-scheme: dark)").addEventListener("change", () => { this.colours.clear(); this.plan(); });
  }

  // ---- features

  /** A feature of rings in metres. */
  static feature(id, rings, properties) {
    const box = [Infinity, Infinity, -Infinity, -Infinity];
    for (const ring of rings) for (let i = 0; i < ring.length; i += 2) {
      if (ring[i] < box[0]) box[0] = ring[i];
      if (ring[i] > box[2]) box[2] = ring[i];
      if (ring[i + 1] < box[1]) box[1] = ring[i + 1];
      if (ring[i + 1] > box[3]) box[3] = ring[i + 1];
    }
    return { id, layer: null, rings, box, properties };
  }

  /**
   * The features of a GeoJSON FeatureCollection or a list of Features: polygons or points, several or one. `id` is the
   * property that names them, or nothing, where the Feature's own `id` does; `metres` is how long a unit of theirs is.
   */
  static features(geojson, id = null, metres = 1) {
    const flat = (corners) => Float64Array.from(corners.flatMap((it) => [it[0] * metres, it[1] * metres]));
    // The outer ring is turned counterclockwise and holes clockwise, so that their areas add up.
    const polygon = (all) => all.map((ring, at) => {
      const corners = ring.slice(0, -1), own = flat(corners);
      return ParcelMap.signedArea(own) > 0 === (at === 0) ? own : flat(corners.reverse());
    });
    const rings = ({ type, coordinates: it }) => ({
      Point: () => [flat([it])], MultiPoint: () => it.map((point) => flat([point])),
      Polygon: () => polygon(it), MultiPolygon: () => it.flatMap(polygon),
    })[type]();
    return (geojson.features || geojson).filter((it) => it.geometry).map((it) =>
      ParcelMap.feature(String(id === null ? it.id : it.properties[id]), rings(it.geometry), it.properties));
  }

  /** Replaces all of a layer. Of features with the same id the last one stays. */
  setLayer(name, features) {
    this.layers.get(name).features.clear();
    this.replace(name, [], features);
  }

  /** Takes the features with these ids out of a layer, and puts others in, in place of those with the same ids. */
  replace(name, ids, features) {
    const layer = this.layers.get(name);
    for (const id of ids) layer.features.delete(String(id));
    for (const feature of features) {
      feature.layer = name;
      layer.features.set(feature.id, feature);
    }
    layer.packed = null;
    if (this.selected && !this.holds(this.selected))
      this.selected = this.layers.get(this.selected.layer).features.get(this.selected.id) || null;
    this.plan();
  }

  holds(feature) { return this.layers.get(feature.layer).features.get(feature.id) === feature; }

  /** The features of a layer, in the order in which they came. */
  features(name) { return [...this.layers.get(name).features.values()]; }

  /** Shows a layer, or hides it. */
  setShown(name, shown) { this.layers.get(name).shown = shown; this.plan(); }

  /** Marks a feature, or none. */
  select(feature) { this.selected = feature; this.plan(); }

  /** A place inside a feature, in metres; on it, where it has no inside. */
  static placeOf(feature) {
    if (feature.place) return feature.place;
    const [x0, y0, x1, y1] = feature.box, ring = feature.rings[0] || [(x0 + x1) / 2, (y0 + y1) / 2];
    let widest = 0, place = [ring[0], ring[1]];
    for (const part of [0.5, 0.25, 0.75, 0.37, 0.63]) {
      const y = y0 + (y1 - y0) * part, meets = ParcelMap.meets(feature, y).sort((a, b) => a - b);
      for (let i = 0; i + 1 < meets.length; i += 2) if (meets[i + 1] - meets[i] > widest) {
        widest = meets[i + 1] - meets[i];
        place = [(meets[i] + meets[i + 1]) / 2, y];
      }
    }
    return feature.place = place;
  }

  static meets(feature, y) {
    const found = [];
    for (const ring of feature.rings) for (let i = 0, j = ring.length - 2; i < ring.length; j = i, i += 2)
      if ((ring[i + 1] > y) !== (ring[j + 1] > y))
        found.push((ring[j] - ring[i]) * (y - ring[i + 1]) / (ring[j + 1] - ring[i + 1]) + ring[i]);
    return found;
  }

  static contains(feature, x, y) {
    let inside = false;
    for (const meet of ParcelMap.meets(feature, y)) if (x < meet) inside = !inside;
    return inside;
  }

  /** How far a place is from a feature's corners and edges, in metres. */
  static distance(feature, x, y) {
    let least = Infinity;
    for (const ring of feature.rings) for (let i = 0, j = ring.length - 2; i < ring.length; j = i, i += 2) {
      const dx = ring[i] - ring[j], dy = ring[i + 1] - ring[j + 1], length = dx * dx + dy * dy;
      const along = length ? Math.max(0, Math.min(1, ((x - ring[j]) * dx + (y - ring[j + 1]) * dy) / length)) : 0;
      least = Math.min(least, Math.hypot(ring[j] + along * dx - x, ring[j + 1] + along * dy - y));
    }
    return least;
  }

  /** A feature's area in square metres, measured, where its holes go round the other way than its outer rings. */
  static area(feature) { return Math.abs(feature.rings.reduce((sum, ring) => sum + ParcelMap.signedArea(ring), 0)); }

  /** A ring's area, measured; negative if it is clockwise. */
  static signedArea(ring) {
    let twice = 0;
    for (let i = 0, j = ring.length - 2; i < ring.length; j = i, i += 2)
      twice += (ring[j] - ring[0]) * (ring[i + 1] - ring[1]) - (ring[i] - ring[0]) * (ring[j + 1] - ring[1]);
    return twice / 2;
  }

  /** The features of a layer at a place in metres; faults and points also where they are nearer than `near` metres. */
  featuresAt(name, x, y, near = 0) {
    const layer = this.layers.get(name), reach = layer.draw === "faults" || layer.draw === "points" ? near : 0;
    const { features } = this.packed(layer), box = [x - reach, y - reach, x + reach, y + reach];
    return Array.from(this.within(layer, box), (row) => features[row]).filter((it) =>
      ParcelMap.contains(it, x, y) || reach && ParcelMap.distance(it, x, y) <= reach);
  }

  tell(handler, { x: left, y: top }) {
    if (!handler) return;
    const { lng: x, lat: y } = this.map.containerPointToLatLng([left, top]);
    const near = ParcelMap.RADIUS / this.scale(), found = [];
    for (const layer of [...this.layers.values()].reverse())
      if (layer.shown) found.push(...this.featuresAt(layer.name, x, y, near));
    handler(found, { x, y, left, top });
  }

  /** As a click on the middle of the map. */
  pickMiddle() { this.tell(this.options.onPick, this.map.getSize().divideBy(2)); }

  // ---- the view

  /** Pixels of a metre. */
  scale() { return this.map.options.crs.scale(this.map.getZoom()); }

  view() {
    const { lng: left, lat: top } = this.map.containerPointToLatLng([0, 0]);
    return { scale: this.scale(), left, top, selected: this.selected };
  }

  /** Zooms by a factor, around a place in pixels or the middle. */
  zoom(factor, left, top) {
    const middle = this.map.getSize().divideBy(2), at = left === undefined ? middle : L.point(left, top);
    this.map.setZoomAround(at, this.map.getZoom() + Math.log2(factor), { animate: false });
  }

  /** Moves what is seen by pixels. */
  pan(right, down) { this.map.panBy([right, down], { animate: false }); }

  /** Moves to a feature, so that it takes half of the map, or as much as is half a metre. */
  show(feature) { this.showBox(feature.box, 0.5, 0.5); }

  /** Moves to where all features are seen. */
  showAll() {
    const all = [Infinity, Infinity, -Infinity, -Infinity];
    for (const layer of this.layers.values()) for (const { box } of layer.features.values())
      for (const side of [0, 1, 2, 3]) all[side] = Math[side < 2 ? "min" : "max"](all[side], box[side]);
    if (all[0] <= all[2]) this.showBox(all, 0.95, 1);
  }

  showBox([x0, y0, x1, y1], part, least) {
    this.map.invalidateSize({ animate: false, pan: false });
    const size = this.map.getSize(), wide = Math.max(x1 - x0, least), high = Math.max(y1 - y0, least);
    const scale = Math.min(Math.max(size.x, 1) / wide, Math.max(size.y, 1) / high) * part;
    const zoom = Math.min(Math.log2(scale), ParcelMap.CLOSEST);
    this.map.setView([(y0 + y1) / 2, (x0 + x1) / 2], zoom, { animate: false });
    this.plan();
  }

  // ---- drawing

  /** Draws before the next frame. */
  plan() {
    if (this.planned) return;
    this.planned = true;
    requestAnimationFrame(() => { this.planned = false; this.draw(); });
  }

  colour(name) {
    if (!name) return null;
    if (!this.colours.has(name)) {
      this.pen.fillStyle = getComputedStyle(document.documentElement).getPropertyValue("--" + name).trim();
      const value = parseInt(this.pen.fillStyle.slice(1), 16);
      this.colours.set(name, Raster.colour(value >> 16, value >> 8 & 255, value & 255));
    }
    return this.colours.get(name);
  }

  draw() {
    const size = this.map.getSize(), dots = window.devicePixelRatio || 1;
    const wide = Math.round(size.x * dots), high = Math.round(size.y * dots);
    if (!wide || !high) return;
    if (this.canvas.width !== wide || this.canvas.height !== high) {
      this.canvas.width = wide; this.canvas.height = high;
      this.canvas.style.width = size.x + "px"; this.canvas.style.height = size.y + "px";
    }
    const { lng: left, lat: top } = this.map.containerPointToLatLng([0, 0]), scale = this.scale() * dots;
    const seen = [left, top - high / scale, left + wide / scale, top];
    const modulo = (value) => ((value % Raster.HATCH) + Raster.HATCH) % Raster.HATCH;
    this.frame = { left, top, scale, dots, seen, shift: modulo(Math.round(left * scale) - Math.round(top * scale)) };
    this.raster.clear(wide, high, this.colour("page"));
    for (const layer of this.layers.values()) if (layer.shown) {
      const reach = layer.draw === "faults" ? 2 * ParcelMap.RADIUS * dots / scale : 0;
      const rows = this.within(layer, [seen[0] - reach, seen[1] - reach, seen[2] + reach, seen[3] + reach]);
      if (rows.length) this[layer.draw](this.packed(layer), rows);
    }
    if (this.selected) this.mark(this.selected);
    this.pen.putImageData(this.raster.image, 0, 0);
    L.DomUtil.setPosition(this.canvas, this.map.containerPointToLayerPoint([0, 0]));
    if (this.options.onDrawn) this.options.onDrawn();
  }

  /**
   * A layer's features side by side, which is four times as fast to go through as one by one: `boxes`, four numbers
   * each, `looks` by number, rings `starts[k]` to `starts[k + 1]` of feature k, and ring r from xy[cuts[r]] on.
   */
  packed(layer) {
    if (!layer.packed) {
      const names = Object.keys(this.options.looks), look = layer.look || layer.name;
      layer.packed = ParcelMap.pack([...layer.features.values()],
        (it) => names.indexOf(typeof look === "string" ? look : look(it)));
    }
    return layer.packed;
  }

  static pack(features, look) {
    const rings = features.flatMap((it) => it.rings), cuts = new Int32Array(rings.length + 1);
    rings.forEach((ring, r) => { cuts[r + 1] = cuts[r] + ring.length; });
    const xy = new Float64Array(cuts[rings.length]), starts = new Int32Array(features.length + 1);
    rings.forEach((ring, r) => xy.set(ring, cuts[r]));
    features.forEach((it, k) => { starts[k + 1] = starts[k] + it.rings.length; });
    return { features, xy, cuts, starts, boxes: Float64Array.from(features.flatMap((it) => it.box)),
             looks: Int32Array.from(features, look), rows: new Int32Array(features.length) };
  }

  /** The rows of a layer whose boxes meet a box; good until it is asked again. */
  within(layer, [x0, y0, x1, y1]) {
    const { boxes, rows } = this.packed(layer);
    let count = 0;
    for (let k = 0, i = 0; i < boxes.length; k++, i += 4)
      if (boxes[i] <= x1 && boxes[i + 2] >= x0 && boxes[i + 1] <= y1 && boxes[i + 3] >= y0) rows[count++] = k;
    return rows.subarray(0, count);
  }

  /** How a layer may look, by number: pixels as colours. */
  looks() {
    return Object.values(this.options.looks).map(({ fill, line, hatch, width = 1 }) => ({
      fill: this.colour(fill), line: this.colour(line), hatch: this.colour(hatch), width: width * this.frame.dots }));
  }

  /**
   * Puts rows of a layer into this map's `xy` and `cuts` in pixels, without corners that are nearer than half a pixel
   * to the one before, or a pixel and a half where a feature has a few pixels. The k-th row has rings starts[k] to
   * starts[k + 1].
   */
  project({ xy: metres, cuts: ends, starts, boxes }, rows) {
    const { left, top, scale } = this.frame;
    let corners = 0, rings = 0;
    for (const row of rows) {
      corners += ends[starts[row + 1]] - ends[starts[row]];
      rings += starts[row + 1] - starts[row];
    }
    if (corners > this.xy.length) this.xy = new Float64Array(2 * corners);
    if (rings + 2 > this.cuts.length) this.cuts = new Int32Array(2 * rings + 2);
    if (rows.length + 2 > this.starts.length) this.starts = new Int32Array(2 * rows.length + 2);
    const { xy, cuts } = this;
    let used = 0, ring = 0;
    for (let k = 0; k < rows.length; k++) {
      const row = rows[k], i = 4 * row;
      const near = (boxes[i + 2] - boxes[i] + boxes[i + 3] - boxes[i + 1]) * scale < 20 ? 2.25 : 0.25;
      for (let r = starts[row]; r < starts[row + 1]; r++) {
        let lastX = NaN, lastY = NaN;
        for (let at = ends[r]; at < ends[r + 1]; at += 2) {
          const x = (metres[at] - left) * scale, y = (top - metres[at + 1]) * scale;
          if ((x - lastX) * (x - lastX) + (y - lastY) * (y - lastY) < near) continue;
          xy[used++] = lastX = x; xy[used++] = lastY = y;
        }
        cuts[++ring] = used;
      }
      this.starts[k + 1] = ring;
    }
  }

  /** Half of the rows' boxes' wide and high, on average, in pixels of the screen. */
  sizeOf({ boxes }, rows) {
    let sides = 0;
    for (const row of rows) sides += boxes[4 * row + 2] - boxes[4 * row] + boxes[4 * row + 3] - boxes[4 * row + 1];
    return sides / 2 / rows.length * this.frame.scale / this.frame.dots;
  }

  areas(packed, rows) {
    this.project(packed, rows);
    const { dots, shift } = this.frame, looks = this.looks(), { raster, xy, cuts, starts } = this;
    for (let k = 0; k < rows.length; k++) {
      const look = looks[packed.looks[rows[k]]];
      raster.fill(xy, cuts, starts[k], starts[k + 1], look.fill, look.hatch, shift);
    }
    // Where parcels are small on the screen their borders are faint, so that a city is no black spot.
    const alpha = Math.max(0.2, Math.min(0.85, this.sizeOf(packed, rows) / 20));
    for (const thick of [false, true]) for (let k = 0; k < rows.length; k++) {
      const look = looks[packed.looks[rows[k]]];
      if (look.line === null || look.width > dots !== thick) continue;
      const width = thick ? Math.max(dots, Math.min(1, 4 * alpha) * look.width) : look.width;
      raster.outline(xy, cuts, starts[k], starts[k + 1], look.line, thick ? Math.min(1, 2 * alpha) : alpha, width);
    }
  }

  borders(packed, rows) {
    this.project(packed, rows);
    const looks = this.looks(), { dots } = this.frame, most = this.sizeOf(packed, rows) / 24 * dots;
    for (let k = 0; k < rows.length; k++) {
      const look = looks[packed.looks[rows[k]]], width = Math.max(dots, Math.min(look.width, most));
      this.raster.outline(this.xy, this.cuts, this.starts[k], this.starts[k + 1], look.line, 0.9, width);
    }
  }

  /** Circles first, and faults over them: a circle hides no fault. Of those near to one another one has a circle. */
  faults(packed, rows) {
    const { left, top, scale, dots } = this.frame, looks = this.looks(), circled = new Map(), { raster } = this;
    const cell = ParcelMap.APART * dots;
    for (const row of rows) {
      const feature = packed.features[row], [x, y] = ParcelMap.placeOf(feature);
      const key = `${Math.floor(x * scale / cell)} ${Math.floor(y * scale / cell)}`, known = circled.get(key);
      if (known) known.count++;
      else circled.set(key, { x: (x - left) * scale, y: (top - y) * scale, look: looks[packed.looks[row]], count: 1,
                              wide: this.isWide(feature) });
    }
    const circles = [...circled.values()], page = this.colour("page");
    const circle = ({ x, y, look, count }) => {
      const radius = (ParcelMap.RADIUS - 2 + Math.min(4, Math.log2(count))) * dots;
      raster.ring(x, y, radius, page, 0.9, 5 * dots);
      raster.ring(x, y, radius, look.line, 1, 2.5 * dots);
    };
    circles.filter((it) => !it.wide).forEach(circle);
    this.project(packed, rows);
    const { xy, cuts, starts } = this;
    for (let k = 0; k < rows.length; k++) {
      const look = looks[packed.looks[rows[k]]];
      raster.fill(xy, cuts, starts[k], starts[k + 1], look.fill);
      raster.outline(xy, cuts, starts[k], starts[k + 1], look.line, 1, look.width);
    }
    circles.filter((it) => it.wide).forEach(circle);
  }

  /** Whether a fault is so wide on the screen that a circle inside it hides nothing. */
  isWide(feature) { return ParcelMap.thickness(feature) * this.frame.scale > 2 * ParcelMap.RADIUS * this.frame.dots; }

  /** How wide a polygon is, in metres, taken as a strip. */
  static thickness(feature) {
    if (feature.thickness === undefined) {
      let length = 0;
      for (const ring of feature.rings) for (let i = 0, j = ring.length - 2; i < ring.length; j = i, i += 2)
        length += Math.hypot(ring[i] - ring[j], ring[i + 1] - ring[j + 1]);
      feature.thickness = length ? 2 * ParcelMap.area(feature) / length : 0;
    }
    return feature.thickness;
  }

  points({ xy, cuts, starts, looks: numbers }, rows) {
    const { left, top, scale, dots } = this.frame, looks = this.looks(), arm = (rows.length > 2000 ? 1 : 4) * dots;
    for (const row of rows) for (let i = cuts[starts[row]]; i < cuts[starts[row + 1]]; i += 2) {
      const x = (xy[i] - left) * scale, y = (top - xy[i + 1]) * scale, { line, width } = looks[numbers[row]];
      this.raster.line(x - arm, y - arm, x + arm, y + arm, line, 1, width);
      this.raster.line(x - arm, y + arm, x + arm, y - arm, line, 1, width);
    }
  }

  /** Marks what is selected: its border, and a circle where it is small. */
  mark(feature) {
    const { left, top, scale, dots } = this.frame, [x, y] = ParcelMap.placeOf(feature), [x0, y0, x1, y1] = feature.box;
    const thin = this.layers.get(feature.layer).draw === "faults" && !this.isWide(feature), { raster } = this;
    if (!thin) {
      this.project(ParcelMap.pack([feature], () => 0), [0]);
      raster.outline(this.xy, this.cuts, this.starts[0], this.starts[1], this.colour("mark"), 1, 3 * dots);
    }
    if (thin || Math.max(x1 - x0, y1 - y0) * scale < 2 * ParcelMap.RADIUS * dots)
      raster.ring((x - left) * scale, (top - y) * scale, (ParcelMap.RADIUS + 5) * dots, this.colour("mark"), 1,
        3 * dots);
  }
}
/** The closest zoom: 50 pixels of a millimetre. */
ParcelMap.CLOSEST = Math.log2(50_000);
/** Pixels from a fault to the circle around it, and how near a click has to be. */
ParcelMap.RADIUS = 10;
/** Pixels from one circle to the next. */
ParcelMap.APART = 26;
