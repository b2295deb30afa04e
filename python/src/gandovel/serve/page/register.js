"use strict";
/** The page for clerks: the parcels, live; one of them, its history and zones; and edits, checked before they are sent. */
const $ = (id) => document.getElementById(id);
const NEAR = 14;
/** How many numbers are drawn at most, and how many pixels a parcel is wide for that. */
const MOST_NUMBERS = 400, WIDE = 36;
const HINTS = {
  split: "Click the corner where the cut begins, then its corners, and the corner where it ends.",
  merge: "Click the neighbour that becomes one with this parcel.",
  move: "Click the neighbour, and then the corners of the new border between its two ends.",
  insert: "Click where the new corner comes, on a border of this parcel.",
  straighten: "Click the corner that goes, where the borders go straight on.",
};

const register = {
  entries: 0, count: 0, settings: null, parcels: new Map(), chosen: null, draft: null,

  async ask(path, options = {}) {
    const token = sessionStorage.getItem("token");
    const headers = { Accept: "application/json", ...options.headers };
    if (token) headers.Authorization = `Bearer ${token}`;
    const response = await fetch(path, { ...options, headers });
    if (response.status === 401) { $("login").hidden = false; throw new Error("The register asks for your token."); }
    return response;
  },

  /** Loads all parcels of one version, page by page, and then follows the changes. */
  async load() {
    const settings = register.settings = await (await register.ask("/settings")).json();
    const inCells = cells.begin(settings), box = settings.box_mm;
    let more = inCells ? null : "/parcels?limit=1000";
    register.parcels.clear();
    [register.entries, register.count, drawing.origin] = [settings.entries, settings.parcels, box.slice(0, 2)];
    while (more) {
      const page = await (await register.ask(more)).json();
      [register.entries, register.count] = [page.entries, page.matched];
      for (const parcel of page.parcels) register.parcels.set(parcel.id, parcel);
      more = page.next;
    }
    drawing.baseMap(settings);
    drawing.all([...register.parcels.values()], inCells ? cells.first(box) : box);
    if (settings.zones && settings.crs) drawing.zones();
    await cells.look();
    register.tell();
    kept.list();
    register.follow();
  },

  /** Follows the published entries for as long as the page is open. */
  async follow() {
    for (;;) {
      try {
        const response = await register.ask(`/changes?after=${register.entries}`, { headers: { Accept: "text/event-stream" } });
        const reader = response.body.pipeThrough(new TextDecoderStream()).getReader();
        let rest = "";
        for (let part = await reader.read(); !part.done; part = await reader.read()) {
          const events = (rest + part.value).split("\n\n");
          rest = events.pop();
          for (const event of events) {
            const data = event.split("\n").find((line) => line.startsWith("data: "));
            if (data) await register.take(JSON.parse(data.slice(6)));
          }
        }
      } catch (fault) {
        $("state").textContent = `${fault.message || "no connection"}; trying again`;
      }
      await new Promise((go) => setTimeout(go, 1000));
    }
  },

  /** Takes in an entry: its parcels go, and others come. */
  async take(entry) {
    const answers = await Promise.all(entry.new.map((id) => register.ask(`/parcels/${id}?entries=${entry.number}`)));
    const parcels = await Promise.all(answers.filter((it) => it.ok).map((it) => it.json()));
    for (const id of entry.out) register.parcels.delete(id);
    for (const parcel of parcels) register.parcels.set(parcel.id, parcel);
    if (register.draft && register.draft.at === entry.number - 1 && !drafts.isConcerned(register.draft, entry)) register.draft.at = entry.number;
    drawing.change(entry.out, parcels);
    register.count += entry.new.length - entry.out.length;
    register.entries = entry.number;
    register.tell(entry);
    if (register.chosen !== null && [...entry.out, ...entry.new].includes(register.chosen)) register.choose(register.chosen);
    if (register.draft) drafts.check();
    if ($("kept").childElementCount) kept.list();
  },

  tell(entry) {
    const last = entry ? `; last: ${entry.edit.split(" ")[0]} by ${entry.who || "another program"}` : "";
    $("state").textContent = `${register.count} parcels after ${register.entries} entries${last}`;
  },

  /** Shows what a parcel is, its zones and its history. */
  async choose(id) {
    register.chosen = id;
    drawing.mark(id);
    const parcel = register.parcels.get(id), box = $("parcel");
    const zonesOfIt = parcel ? register.ask(`/parcels/${id}/zones`) : null;
    const [lineage, zones] = await Promise.all([register.ask(`/parcels/${id}/lineage`), zonesOfIt]);
    if (register.chosen !== id) return;
    box.replaceChildren(element("h2", parcel ? `Parcel ${named(parcel)}` : `Parcel ${id} is gone`));
    if (parcel) box.append(facts(parcel, zones && zones.ok ? (await zones.json()).zones : null));
    $("print").disabled = !parcel;
    if (lineage.ok) box.append(element("h2", "History"), ...tree((await lineage.json()).parcels, id));
  },

  async find(number) {
    const wanted = number.trim();
    if (cells.side) await register.fetch(wanted);
    const found = [...register.parcels.values()].find((it) => it.number === wanted || String(it.id) === wanted)
      || [...register.parcels.values()].find((it) => it.came_from.split(",").includes(wanted));
    if (!found) { $("answer").textContent = `No parcel has the number ${wanted}.`; return; }
    $("answer").textContent = "";
    drawing.show(found.id);
    register.choose(found.id);
  },

  /** Loads the parcels with a number, or that come from it. */
  async fetch(number) {
    const found = (await (await register.ask(`/collections/parcels/items?limit=10&number=${encodeURIComponent(number)}`)).json()).features;
    const answers = await Promise.all(found.map((it) => register.ask(`/parcels/${it.id}`)));
    const parcels = await Promise.all(answers.filter((it) => it.ok).map((it) => it.json()));
    for (const parcel of parcels) register.parcels.set(parcel.id, parcel);
    drawing.change([], parcels);
  },
};

function element(name, text) { const it = document.createElement(name); it.textContent = text; return it; }

function facts(parcel, zones) {
  const told = document.createElement("dl");
  const hidden = new Set(["ring_mm", "inside", "entries", "number", "area2_mm2", "area_m2"]);
  const rows = [["area", `${(Number(BigInt(parcel.area2_mm2)) / 2e6).toFixed(3)} m²`], ["twice the area", `${parcel.area2_mm2} mm²`],
    ...Object.entries(parcel).filter(([name, value]) => !hidden.has(name) && value !== null)];
  if (zones) rows.push(["zones", zones.join(", ")]);
  for (const [name, value] of rows) told.append(element("dt", name), element("dd", String(value)));
  return told;
}

/** The number of a parcel; where it has none, of what it comes from. */
const named = ({ id, number, came_from: from }) => number ?? `without a number, from ${from} (id ${id})`;

const told = (it) => `entry ${it.number}, ${it.edit.split(" ")[0]}, ${it.who || "another program"}, ${it.time || ""}${it.why ? `: ${it.why}` : ""}`;

/** The lineage of a parcel: what it was made of, step by step back to the layer, and what became of it. */
function tree(parcels, id) {
  const known = new Map(parcels.map((it) => [it.id, it]));
  const steps = (it, entry, next) => {
    const found = document.createElement("ul");
    if (!it[entry]) return found;
    const step = element("li", told(it[entry])), parts = document.createElement("ul");
    for (const other of it[next].map((at) => known.get(at)).filter(Boolean)) {
      const part = element("li", `parcel ${named(other)}`);
      part.append(steps(other, entry, next));
      parts.append(part);
    }
    step.append(parts);
    found.append(step);
    return found;
  };
  const it = known.get(id), shown = [];
  if (!it.made_by && !it.taken_by) return [element("p", "It is as it was read.")];
  if (it.made_by) shown.push(element("p", "Made by:"), steps(it, "made_by", "replaces"));
  if (it.taken_by) shown.push(element("p", "Taken out by:"), steps(it, "taken_by", "replaced_by"));
  return shown;
}

$("tools").addEventListener("click", (event) => {
  const kind = event.target.dataset.tool;
  if (!kind) return;
  drafts.cancel();
  drafts.begin(kind);
  if (register.draft) event.target.setAttribute("aria-pressed", "true");
});
$("send").addEventListener("click", drafts.send);
$("cancel").addEventListener("click", drafts.cancel);
$("put").addEventListener("click", drafts.type);
$("take-corner").addEventListener("click", drafts.corner);
$("take-neighbour").addEventListener("click", drafts.neighbour);
$("keep").addEventListener("click", () => kept.keep().catch((fault) => { $("answer").textContent = fault.message; }));
$("print").addEventListener("click", () => Sheet.print(register.chosen));
$("place").addEventListener("keydown", (event) => { if (event.key === "Enter") { event.preventDefault(); drafts.type(); } });
$("undo").addEventListener("click", drafts.undo);
$("search").addEventListener("submit", (event) => { event.preventDefault(); register.find($("number").value); });
$("login").addEventListener("submit", (event) => {
  event.preventDefault();
  sessionStorage.setItem("token", $("token").value);
  $("token").value = "";
  $("login").hidden = true;
  register.load().catch((fault) => { $("state").textContent = fault.message; });
});
drawing.start();
register.load().catch((fault) => { $("state").textContent = fault.message; });
