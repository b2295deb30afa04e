"use strict";
/** An edit that is being drawn: `at` is the version that the clerk saw when it was begun. */
const drafts = {
  begin(kind) {
    if (register.chosen === null || !register.parcels.has(register.chosen)) {
      $("answer").textContent = "Choose a parcel first.";
      return;
    }
    register.draft = { kind, at: register.entries, parcel: register.chosen, other: null, path: [], edge: null, key: crypto.getRandomValues(new Uint32Array(4)).join("-") };
    $("draft").hidden = false;
    $("hint").textContent = HINTS[kind];
    $("answer").textContent = "";
    drafts.choices();
    drafts.check();
    $("hint").focus();
  },

  /** What a keyboard chooses from: the corners of the parcel, and its neighbours by number. */
  choices() {
    const { kind, parcel } = register.draft, ring = drafts.ring(parcel) || [];
    const fill = (name, texts) => $(name).replaceChildren(...texts.map(([value, text]) => { const it = element("option", text); it.value = value; return it; }));
    fill("corner", ring.map((it, at) => [at, `${at + 1}: ${Typing.told(it)}`]));
    const others = [...register.parcels.values()].filter((it) => it.id !== parcel && !Checks.border(ring, it.ring_mm).reason);
    fill("neighbour", others.map((it) => [it.id, named(it)]));
    $("neighbours").hidden = kind !== "merge" && kind !== "move";
    $("corners").hidden = kind === "merge" || kind === "insert";
  },

  /** The neighbour that was chosen in the list. */
  neighbour() { if (register.draft && $("neighbour").value) { register.draft.other = Number($("neighbour").value); drafts.check(); } },

  /** The corner that was chosen in the list. */
  corner() {
    const ring = register.draft && drafts.ring(register.draft.parcel);
    if (ring && ring[$("corner").value]) drafts.put(ring[$("corner").value]);
  },

  cancel() {
    register.draft = null;
    $("draft").hidden = true;
    $("why").value = "";
    drawing.path([]);
    for (const button of $("tools").children) button.setAttribute("aria-pressed", "false");
  },

  /** Takes the last click back: a corner, else the neighbour. */
  undo() {
    const draft = register.draft;
    if (draft.path.length) draft.path.pop(); else draft.other = null;
    draft.edge = null;
    drafts.check();
  },

  /** A click: on a parcel, or beside all. Without a draft it chooses the parcel. */
  click(place, id = null) {
    const draft = register.draft;
    if (!draft) { if (id !== null) register.choose(id); return; }
    const ring = drafts.ring(draft.parcel);
    if (!ring) return;
    if ((draft.kind === "merge" || draft.kind === "move") && draft.other === null) {
      if (id !== null && id !== draft.parcel) draft.other = id;
    } else if (draft.kind === "insert") {
      draft.edge = drafts.edge(ring, place);
      draft.path = draft.edge && draft.edge.new ? [draft.edge.new] : [];
    } else if (draft.kind !== "merge") {
      const near = drawing.snapped(place);
      if (draft.kind === "straighten") draft.path = near ? [near] : [];
      else draft.path.push(near || place);
    }
    drafts.check();
  },

  /** Takes a place that was typed, or chosen: to the millimetre. */
  put(place) {
    const draft = register.draft, ring = drafts.ring(draft.parcel);
    $("answer").textContent = "";
    if (draft.kind === "split" || draft.kind === "move" && draft.other !== null) draft.path.push(place);
    else if (draft.kind === "straighten") draft.path = [place];
    else if (draft.kind === "insert") {
      const edge = ring && drafts.edge(ring, place), isOn = edge && Checks.isOn(place, edge.first, edge.last) && !Checks.same(place, edge.first) && !Checks.same(place, edge.last);
      draft.edge = edge && { ...edge, new: isOn ? place : null };
      draft.path = isOn ? [place] : [];
    }
    drafts.check();
  },

  /** Takes what was typed: x and y, or a bearing and a distance from the last corner. */
  type() {
    const { place, reason, measured } = Typing.read($("place").value, register.draft.path.at(-1));
    if (!place) { $("answer").textContent = reason; return; }
    $("place").value = "";
    drafts.put(place);
    if (measured) $("answer").textContent = `The corner is ${Typing.told(place)}, rounded to the millimetre.`;
  },

  /** Whether an entry has one of a draft's parcels, or changes a corner in their box. */
  isConcerned(draft, entry) {
    const mine = [draft.parcel, draft.other].filter((id) => id !== null), [kind, ...words] = entry.edit.split(" ");
    if (entry.out.some((id) => mine.includes(id))) return true;
    if (kind !== "insert" && kind !== "straighten") return false;
    const place = words.slice(-2).map(Number);
    const isIn = (ring) => [0, 1].every((side) => ring.some((it) => it[side] <= place[side]) && ring.some((it) => it[side] >= place[side]));
    return mine.map(drafts.ring).some((ring) => ring && isIn(ring));
  },

  /** Takes in what came since the draft was begun, where none of it concerns the draft: whether that is so. */
  async isFresh(draft) {
    const response = await register.ask(`/entries?after=${draft.at}&limit=1000`);
    const { entries, records } = await response.json();
    if (records.length < entries - draft.at || records.some((it) => drafts.isConcerned(draft, it))) return false;
    draft.at = entries;
    return true;
  },

  ring: (id) => register.parcels.get(id)?.ring_mm,

  /** The edge of a ring that is nearest to a place, and the whole place on it. */
  edge(ring, place) {
    const found = Checks.edges(ring).map((edge) => {
      const [a, b] = edge, dx = b[0] - a[0], dy = b[1] - a[1];
      const along = Math.max(0, Math.min(1, ((place[0] - a[0]) * dx + (place[1] - a[1]) * dy) / (dx * dx + dy * dy)));
      return { edge, off: Math.hypot(a[0] + along * dx - place[0], a[1] + along * dy - place[1]) };
    }).sort((a, b) => a.off - b.off)[0].edge;
    return { first: found[0], last: found[1], new: Checks.between(found, place) };
  },

  /** The path with the ends that a moved border keeps. */
  path(draft) {
    if (draft.kind !== "move" || draft.other === null) return draft.path;
    const ring = drafts.ring(draft.parcel), other = drafts.ring(draft.other);
    const run = ring && other ? Checks.border(ring, other).run : null;
    return run ? [run[0], ...draft.path, run[run.length - 1]] : draft.path;
  },

  reason(draft) {
    const ring = drafts.ring(draft.parcel), other = draft.other === null ? null : drafts.ring(draft.other);
    if (!ring) return "The parcel is gone: another clerk took it out.";
    if (draft.other !== null && !other) return "The neighbour is gone: another clerk took it out.";
    if (draft.kind === "split") return Checks.split(ring, draft.path);
    if (draft.kind === "merge") return other ? Checks.merge(ring, other) : "Click the neighbour.";
    if (draft.kind === "move") return other ? Checks.move(ring, other, drafts.path(draft)) : "Click the neighbour.";
    if (draft.kind === "insert") {
      if (!draft.edge) return "Click a border.";
      return draft.edge.new ? "" : "This border has no whole millimetre between its ends: move the border instead.";
    }
    const rings = [...register.parcels.values()].map((it) => it.ring_mm);
    return draft.path.length ? Checks.straighten(rings, draft.path[0]) : "Click a corner.";
  },

  check() {
    const reason = drafts.reason(register.draft);
    $("reason").textContent = reason || "It can be sent.";
    $("send").disabled = $("keep").disabled = Boolean(reason);
    drawing.path(drafts.path(register.draft));
  },

  body(draft) {
    const { kind, parcel, other, edge } = draft, path = drafts.path(draft), why = $("why").value;
    if (kind === "split") return { kind, parcel, path, why };
    if (kind === "merge") return { kind, one: parcel, other, why };
    if (kind === "move") return { kind, one: parcel, other, path, why };
    return kind === "insert" ? { kind, ...edge, why } : { kind, corner: path[0], why };
  },

  /** Sends the draft for the version that was seen at its begin. A lost answer is asked for again by the same key. */
  async send() {
    const draft = register.draft;
    $("send").disabled = true;
    for (let attempt = 0; ; attempt++) {
      try {
        const headers = { "Content-Type": "application/json", "If-Match": String(draft.at), "Idempotency-Key": draft.key };
        const response = await register.ask("/edits", { method: "POST", headers, body: JSON.stringify(drafts.body(draft)) });
        if (response.status === 503 && attempt < 5) throw new Error("the register is not open");
        if (response.status === 412 && attempt < 5 && await drafts.isFresh(draft)) continue;
        drafts.told(draft, response.status, await response.json());
        return;
      } catch (fault) {
        $("answer").textContent = `${fault.message}; asking again`;
        if (attempt >= 5) { $("send").disabled = false; return; }
        await new Promise((go) => setTimeout(go, 1000));
      }
    }
  },

  told(draft, status, body) {
    if (status === 200) {
      $("answer").textContent = `Done: entry ${body.number}. New: ${body.new.join(", ")}.`;
      if (register.draft === draft) drafts.cancel();
      return;
    }
    if (status === 412) {
      const last = body.last ? ` (${body.last.edit.split(" ")[0]} by ${body.last.who || "another program"})` : "";
      $("answer").textContent = `The register has gone on to entry ${body.entries}${last}. Look at the map, and send again if it still fits.`;
      draft.at = body.entries;
      draft.key += "+";
      if (register.draft === draft) drafts.check();
      return;
    }
    $("answer").textContent = `Refused (${body.code}): ${body.description}`;
    if (register.draft === draft) drafts.check();
  },
};

