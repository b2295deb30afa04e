"use strict";
(() => {
  const data = JSON.parse(document.getElementById("data").textContent);
  const byId = (id) => document.getElementById(id);
  const field = byId("map"), tip = byId("tip"), details = byId("details"), found = byId("found"), list = byId("list");
  const SHOWN = 100, FEW = 12;
  /** How wide and high a parcel is, in pixels, for its number to be drawn. */
  const WIDE = 30, HIGH = 16;
  const off = new Set();
  const FAULTS = { gaps: "gap", overlaps: "overlap", beyond: "part beyond the city", open_gaps: "open gap", slivers: "sliver" };
  const LAYERS = [
    { name: "parcels", draw: "areas", look: (it) => (it.properties.zones && !off.has("split") ? "split" : "parcel"), text: "parcel" },
    { name: "zones", draw: "borders", look: "zone", text: "zone's border" },
    { name: "touched", draw: "points", look: "touched", text: "corner made to touch" },
    { name: "skipped", draw: "faults", look: "skipped", text: "skipped record" },
    { name: "faults", draw: "faults", look: (it) => it.properties.kind },
  ];
  const LOOKS = {
    parcel: { fill: "ok", line: "edge" }, split: { fill: "ok", line: "split", hatch: "hatch", width: 1.6 },
    zone: { line: "zone", width: 2.5 }, touched: { line: "touched", width: 1.5 },
    skipped: { fill: "skipped", line: "skipped", width: 2 }, gaps: { fill: "gap", line: "gap", width: 2 },
    open_gaps: { fill: "open-gap", line: "open-gap", width: 2 },
    overlaps: { fill: "overlap", line: "overlap", width: 2 },
    beyond: { fill: "beyond", line: "beyond", width: 2 },
    slivers: { fill: "sliver", line: "sliver", width: 2 },
  };

  // ---- the report's features
  function numbersOf(text) {
    const letters = atob(text), bytes = new Uint8Array(letters.length);
    for (let i = 0; i < bytes.length; i++) bytes[i] = letters.charCodeAt(i);
    return new Int32Array(bytes.buffer);
  }
  function featuresOf(name) {
    const layer = data.layers[name];
    if (!layer) return [];
    const rings = numbersOf(layer.rings), corners = numbersOf(layer.corners), places = numbersOf(layer.places);
    const names = Object.keys(layer.columns);
    let ring = 0, at = 0;
    return Array.from(rings, (count, row) => {
      const own = [];
      for (const end = ring + count; ring < end; ring++) {
        const xy = new Float64Array(2 * corners[ring]);
        for (let i = 0; i < xy.length; i++) xy[i] = data.low[i % 2] + places[at++] / 1000;
        own.push(xy);
      }
      const properties = { kind: name };
      for (const column of names) properties[column] = layer.columns[column][row];
      return ParcelMap.feature(`${name} ${row}`, own, properties);
    });
  }
  const parcels = featuresOf("parcels"), split = parcels.filter((it) => it.properties.zones);
  const skipped = featuresOf("skipped");
  const faults = Object.keys(FAULTS).flatMap(featuresOf).sort((a, b) => a.properties.order - b.properties.order);
  const byNumber = new Map();
  for (const it of parcels) if (!byNumber.has(it.properties.number)) byNumber.set(it.properties.number, it);
  const faultsOf = new Map();
  for (const fault of faults) if (fault.properties.layer !== "zones") for (const number of fault.properties.numbers) {
    if (!faultsOf.has(number)) faultsOf.set(number, []);
    faultsOf.get(number).push(fault);
  }

  // ---- texts
  const plain = (value) => value.toLocaleString("en", { maximumFractionDigits: 2 });
  function areaText(metres) {
    const own = data.unit.metres === 1 ? "" : ` = ${plain(metres / data.unit.metres ** 2)} ${data.unit.name}²`;
    return metres >= 0.01 || metres === 0 ? `${plain(metres)} m²${own}` : `${plain(metres * 1e6)} mm²${own}`;
  }
  const few = (texts, most) =>
    texts.slice(0, most).join(", ") + (texts.length > most ? ` and ${texts.length - most} more` : "");
  function titleOf({ layer, properties: it }) {
    if (layer === "faults") {
      const kind = (it.layer === "zones" ? "zone " : "") + FAULTS[it.kind];
      return kind[0].toUpperCase() + kind.slice(1) + (it.area2_mm2 ? `, ${areaText(it.square_metres)}` : "");
    }
    return `${{ skipped: "Skipped parcel", zones: "Zone", touched: "Corner made to touch" }[layer] || "Parcel"} ` +
      (it.number || "").trim();
  }
  function linesOf(feature, most = FEW) {
    const it = feature.properties;
    if (feature.layer === "faults") {
      const who = it.layer === "zones" ? "zone" : "parcel", how = it.numbers_how === "measured" ? " (measured)" : "";
      const between = it.numbers.length ? `at ${who}${it.numbers.length > 1 ? "s" : ""} ${few(it.numbers, most)}${how}`
        : `at no ${who}`;
      return it.area2_mm2 ? [between, `twice its area: ${it.area2_mm2} mm² (exact)`] : [between];
    }
    if (feature.layer === "skipped") return [it.reason || "not checked"];
    if (feature.layer === "touched") return it.distance_mm ? [`by ${it.distance_mm} mm (measured)`] : [];
    if (feature.layer === "zones") return [`${areaText(it.square_metres)} (measured)`];
    const texts = [`${areaText(it.square_metres)} (measured)`];
    if (it.parts) texts.push("split: " + it.parts.map(([zone, area]) => `zone ${zone} ${areaText(area)}`).join(", ") +
                             ` (${it.parts_how})`);
    else if (it.zones) texts.push(`split between zones ${it.zones}`);
    const own = faultsOf.get(it.number) || [];
    if (own.length) texts.push(`at ${few(own.map((fault) => titleOf(fault).toLowerCase()), 3)}`);
    else if (it.status === "gap") texts.push("beside a gap");
    else if (it.status === "overlap") texts.push("at an overlap (measured)");
    return texts;
  }
  function zoneOf(parcel) {
    if (parcel.properties.zones || !data.layers.zones) return null;
    const zones = drawing.featuresAt("zones", ...ParcelMap.placeOf(parcel)).map((it) => it.properties.number);
    return zones.length ? `zone ${zones.join(", ")} (measured)` : "in no zone (measured)";
  }

  // ---- the map
  const drawing = new ParcelMap(field, {
    layers: LAYERS, looks: LOOKS, onPick: tellOf, onHover: hover, onDrawn: drawn,
  });
  let numbered = [];
  /** Draws the numbers of the parcels that are seen, where there is room for them. */
  function drawNumbers() {
    numbered = [];
    if (off.has("numbers") || off.has("parcel")) return;
    const { left, top, scale, dots, seen } = drawing.frame, { pen } = drawing, style = getComputedStyle(document.documentElement);
    const layer = drawing.layers.get("parcels"), { features } = drawing.packed(layer);
    Object.assign(pen, { font: `${12 * dots}px system-ui, sans-serif`, textAlign: "center", textBaseline: "middle", lineJoin: "round",
                         lineWidth: 3 * dots, strokeStyle: style.getPropertyValue("--ok"), fillStyle: style.getPropertyValue("--text") });
    for (const row of drawing.within(layer, seen)) {
      const [x0, y0, x1, y1] = features[row].box, wide = (x1 - x0) * scale, text = features[row].properties.number;
      if (wide < WIDE * dots || (y1 - y0) * scale < HIGH * dots || pen.measureText(text).width + 6 * dots > wide) continue;
      const [x, y] = ParcelMap.placeOf(features[row]), at = [(x - left) * scale, (top - y) * scale];
      pen.strokeText(text, ...at);
      pen.fillText(text, ...at);
      numbered.push(text);
    }
  }
  function drawn() {
    drawNumbers();
    drawScale();
    document.body.dataset.drawn = String(Number(document.body.dataset.drawn || 0) + 1);
  }
  drawing.setLayer("parcels", parcels);
  drawing.setLayer("zones", featuresOf("zones"));
  drawing.setLayer("touched", featuresOf("touched"));
  drawing.setLayer("skipped", skipped);
  drawing.setLayer("faults", faults);

  function element(name, text, attributes = {}) {
    const made = document.createElement(name);
    if (text) made.textContent = text;
    for (const [key, value] of Object.entries(attributes)) made.setAttribute(key, value);
    return made;
  }

  function roundScale(metres, most) {
    const whole = 10 ** Math.floor(Math.log10(most / metres));
    return [5, 2, 1].map((it) => it * whole).find((it) => it * metres <= most) || whole;
  }
  function drawScale() {
    const scale = drawing.scale(), most = 130 / scale, bars = [];
    const metres = roundScale(1, most);
    const name = metres >= 1000 ? `${plain(metres / 1000)} km` : metres >= 1 ? `${metres} m`
      : metres >= 0.01 ? `${Math.round(metres * 100)} cm` : `${plain(metres * 1000)} mm`;
    bars.push([name, metres * scale]);
    if (data.unit.metres !== 1) {
      const units = roundScale(data.unit.metres, most);
      bars.push([`${units.toLocaleString("en", { maximumSignificantDigits: 2 })} ${data.unit.name}`,
                 units * data.unit.metres * scale]);
    }
    byId("scale").replaceChildren(...bars.map(([text, wide]) => {
      const bar = element("span", text);
      bar.style.width = `${wide}px`;
      return bar;
    }));
  }

  // ---- the list
  const GROUPS = [
    ["faults", "Faults", faults], ["skipped", "Skipped parcels", skipped], ["split", "Split parcels", split],
    ["parcels", "All parcels", parcels],
  ].filter(([name, , features]) => features.length || name === "faults");
  const which = byId("which");
  for (const [name, text, features] of GROUPS)
    which.append(element("option", `${text} (${plain(features.length)})`, { value: name }));
  which.value = (GROUPS.find(([name, , features]) => features.length && name !== "parcels") || GROUPS[0])[0];
  let first = 0;
  const listed = () => GROUPS.find(([name]) => name === which.value)[2];
  function drawList() {
    const features = listed();
    list.replaceChildren(...features.slice(first, first + SHOWN).map((feature) => {
      const item = element("li"), button = element("button", "", { type: "button" });
      button.append(element("b", titleOf(feature)), element("small", linesOf(feature).join("; ")));
      button.addEventListener("click", () => pick(feature));
      if (drawing.selected === feature) button.setAttribute("aria-current", "true");
      item.append(button);
      return item;
    }));
    byId("pages").hidden = features.length <= SHOWN;
    byId("shown").textContent =
      `${plain(first + 1)} to ${plain(Math.min(first + SHOWN, features.length))} of ${plain(features.length)}`;
    byId("pages").querySelectorAll("button").forEach((it) => {
      it.disabled = it.dataset.step < 0 ? first === 0 : first + SHOWN >= features.length;
    });
    byId("more").textContent = features.length ? "" : split.length ? "No gap and no overlap."
      : "Nothing to show: no gap, no overlap, no split parcel.";
  }
  byId("pages").addEventListener("click", (event) => {
    const step = Number(event.target.dataset.step || 0);
    if (!step) return;
    first = Math.max(0, first + step * SHOWN);
    drawList();
    byId("which").scrollIntoView({ block: "nearest" });
  });
  which.addEventListener("change", () => { first = 0; drawList(); });
  const hashOf = (number) => `#parcel=${encodeURIComponent(number).replace(/%2F/g, "/")}`;
  function mark(feature) {
    drawing.select(feature);
    try {
      history.replaceState(null, "", feature && feature.layer === "parcels" ? hashOf(feature.properties.number) : "#");
    } catch { /* a page inside another one may not change its address */ }
    list.querySelectorAll("[aria-current]").forEach((it) => it.removeAttribute("aria-current"));
    const at = feature ? listed().indexOf(feature) - first : -1;
    if (at >= 0 && at < list.children.length) list.children[at].firstChild.setAttribute("aria-current", "true");
  }
  function pick(feature) {
    tip.hidden = details.hidden = true;
    mark(feature);
    drawing.show(feature);
  }
  /** Shows a feature's own line of the list. */
  function showInList(feature) {
    const group = GROUPS.find(([, , features]) => features.includes(feature));
    which.value = group[0];
    first = Math.floor(group[2].indexOf(feature) / SHOWN) * SHOWN;
    drawing.select(feature);
    drawList();
    const button = list.querySelector("[aria-current]");
    button.scrollIntoView({ block: "nearest" });
    button.focus();
  }

  // ---- what is here
  function tellOf(features) { tell(features, true); }
  function tell(features, marked) {
    tip.hidden = true;
    const shown = features.filter((it) => it.layer !== "zones");
    if (marked) mark(shown.find((it) => it.layer !== "touched") || null);
    const close = element("button", "×", { type: "button", "aria-label": "Close", class: "close" });
    close.addEventListener("click", () => { details.hidden = true; mark(null); });
    const zones = shown.length ? [] : features;
    const blocks = [...shown, ...zones].slice(0, FEW).map((feature) => {
      const block = element("div"), zone = feature.layer === "parcels" ? zoneOf(feature) : null;
      block.append(element("b", titleOf(feature)));
      for (const line of [...linesOf(feature), ...(zone ? [zone] : [])]) block.append(element("p", line));
      if (GROUPS.some(([, , all]) => all.includes(feature))) {
        const link = element("a", "Show in the list", { href: "#list" });
        link.addEventListener("click", (event) => { event.preventDefault(); showInList(feature); });
        block.append(link);
      }
      if (feature.layer === "parcels") block.append(...ofParcel(feature, zone));
      return block;
    });
    const more = shown.length > FEW ? [element("p", `and ${shown.length - FEW} more here: zoom in`)] : [];
    details.replaceChildren(close, ...blocks, ...more);
    details.hidden = !blocks.length;
  }
  /** What one does with a parcel: keep its address, print it. */
  function ofParcel(feature, zone) {
    const print = element("button", "Print", { type: "button", class: "print" }), own = faultsOf.get(feature.properties.number) || [];
    print.addEventListener("click", () => {
      const [x0, y0, x1, y1] = feature.box, edge = Math.max(x1 - x0, y1 - y0) / 4, box = [x0 - edge, y0 - edge, x1 + edge, y1 + edge];
      const layer = drawing.layers.get("parcels"), { features } = drawing.packed(layer);
      const near = Array.from(drawing.within(layer, box), (row) => features[row]);
      const lines = [...linesOf(feature), ...(zone ? [zone] : []), ...own.map((it) => [titleOf(it), ...linesOf(it)].join("; "))];
      Sheet.print(byId("sheet"), feature, [...near, ...own], titleOf(feature), lines,
        { ...data.told, title: document.title, summary: byId("summary").textContent });
    });
    return [" ", element("a", "Link to it", { href: hashOf(feature.properties.number) }), " ", print];
  }
  let touched = false, pointed = null;
  document.addEventListener("pointerdown", (event) => { touched = event.pointerType === "touch"; }, true);
  function hover(features, { left, top }) {
    const shown = features.filter((it) => it.layer !== "zones").slice(0, 3);
    tip.hidden = touched || !shown.length || details.contains(document.activeElement);
    if (tip.hidden) return;
    if (pointed !== shown[0] || tip.childElementCount === 0)
      tip.textContent = shown.map((it) => [titleOf(it), ...linesOf(it, 4)].join("\n")).join("\n\n");
    const wide = field.clientWidth, high = field.clientHeight;
    tip.style.left = Math.max(0, Math.min(left + 14, wide - tip.offsetWidth - 4)) + "px";
    tip.style.top = Math.max(0, Math.min(top + 14, high - tip.offsetHeight - 4)) + "px";
    pointed = shown[0];
  }
  field.addEventListener("pointerleave", () => { tip.hidden = true; });

  // ---- summary and legend
  const kinds = new Map([["gap", 0], ["overlap", 0]]);
  for (const { properties: it } of faults) {
    const kind = (it.layer === "zones" ? "zone " : "") + FAULTS[it.kind];
    kinds.set(kind, (kinds.get(kind) || 0) + 1);
  }
  byId("summary").textContent = `${parcels.length} parcels; ` +
    [...kinds, ["split parcel", split.length], ...(skipped.length ? [["skipped parcel", skipped.length]] : [])]
      .map(([kind, count]) => `${kind}s: ${count}`).join(", ");
  const legend = byId("legend");
  /** A line of the legend, which shows what it explains, or hides it. */
  function explain(name, text, turn, isOn = true) {
    const item = element("li"), label = element("label"), box = element("input", "", { type: "checkbox", "data-switch": name });
    const turned = () => { if (box.checked) off.delete(name); else off.add(name); turn(box.checked); };
    box.checked = isOn;
    box.addEventListener("change", turned);
    label.append(box, element("i", "", { class: `swatch ${name}` }), text);
    item.append(label);
    legend.append(item);
    if (!isOn) turned();
  }
  const again = () => drawing.replace("parcels", [], []);
  explain("parcel", "parcel", (isOn) => drawing.setShown("parcels", isOn));
  explain("numbers", "numbers, where there is room", again);
  if (split.length) explain("split", "split between zones", again);
  for (const [name, kind] of Object.entries(FAULTS))
    if (data.layers[name] && (name === "gaps" || name === "overlaps" || data.layers[name].columns.layer.length))
      explain(name, kind, () => drawing.setLayer("faults", faults.filter((it) => !off.has(it.properties.kind))));
  // The crosses of corners that touch are many, and hide a small screen.
  const isWide = !matchMedia("(max-width: 700px)").matches;
  for (const { name, look, text } of LAYERS.slice(1, 4))
    if (data.layers[name] && drawing.features(name).length)
      explain(look, text, (isOn) => drawing.setShown(name, isOn), look !== "touched" || isWide);
  const hasProved = parcels.some(({ properties: it }) => it.parts && it.parts_how === "proved");
  for (const text of ["exact: gaps and overlaps, their areas, and what is split",
                      ...(hasProved ? ["proved: areas of the parts of split parcels"] : []),
                      "measured: areas of parcels, and which of them overlap"])
    legend.append(element("li", text, { class: "how" }));

  // ---- search, buttons, keyboard
  byId("search").addEventListener("submit", (event) => {
    event.preventDefault();
    const wanted = byId("number").value.trim();
    const others = byNumber.has(wanted) || !wanted ? []
      : parcels.filter((it) => it.properties.number.startsWith(wanted));
    const feature = byNumber.get(wanted) || others[0];
    const besides = others.length > 1 ? `, the first of ${others.length}` : "";
    found.textContent = feature ? `parcel ${feature.properties.number}${besides}` : wanted ? "no such parcel" : "";
    if (feature) show(feature);
  });
  function show(feature) {
    pick(feature);
    tell([feature], false);
  }
  /** Shows the parcel that the address names: exactly that one, or it says that there is none. */
  function follow() {
    const asked = /^#parcel=(.*)$/s.exec(location.hash);
    if (!asked) return;
    let number = asked[1];
    try { number = decodeURIComponent(number); } catch { /* taken as it stands */ }
    const feature = byNumber.get(number);
    found.textContent = feature ? `parcel ${number}` : `the link names parcel ${number}, which is not in this report`;
    if (feature) show(feature);
  }
  window.addEventListener("hashchange", follow);
  document.querySelectorAll("#tools button").forEach((button) => button.addEventListener("click", () => {
    const by = Number(button.dataset.zoom);
    if (by) drawing.zoom(by); else drawing.showAll();
  }));
  const STEP = 80;
  const MOVES = { ArrowLeft: [-STEP, 0], ArrowRight: [STEP, 0], ArrowUp: [0, -STEP], ArrowDown: [0, STEP] };
  const KEYS = { "+": () => drawing.zoom(2), "=": () => drawing.zoom(2), "-": () => drawing.zoom(0.5),
                 "0": () => drawing.showAll(), "/": () => byId("number").focus() };
  document.addEventListener("keydown", (event) => {
    const typing = event.target.matches("input:not([type=checkbox]), select");
    if (event.key === "Escape") {
      mark(null); tip.hidden = details.hidden = true;
      byId("number").value = ""; found.textContent = "";
      field.focus();
      return;
    }
    if (typing || event.ctrlKey || event.metaKey || event.altKey) return;
    if (KEYS[event.key]) KEYS[event.key]();
    else if (MOVES[event.key]) drawing.pan(...MOVES[event.key]);
    else if (event.key === "Enter" && event.target === field) drawing.pickMiddle();
    else return;
    event.preventDefault();
  });

  drawList();
  drawing.showAll();
  follow();
  window.gandovelView = () => {
    const { scale, left, top, selected } = drawing.view();
    return { scale, left, top, numbered, picked: selected && (selected.properties.number || selected.properties.kind) };
  };
  window.gandovelMap = drawing;
})();
