"use strict";
/** Drafts that clerks keep: each is seen as it would be, and another clerk approves it. */
const kept = {
  async list() {
    const response = await register.ask("/drafts");
    if (!response.ok) return;
    const found = (await response.json()).drafts;
    $("kept").replaceChildren(...(found.length ? [element("h2", "Drafts")] : []), ...found.map(kept.row));
  },

  named: ({ edit, parcels, who }) => `${edit.split(" ")[0]} of ${parcels.map((id) => (register.parcels.get(id) || {}).number ?? id).join(", ")} by ${who}`,

  row(draft) {
    const stale = draft.stale_by ? `; stale by entry ${draft.stale_by.number}` : "";
    const row = element("p", `${kept.named(draft)}${draft.why ? `: ${draft.why}` : ""}${stale} `);
    for (const [text, work] of [["See", kept.see], ["Approve", kept.approve], ["Drop", kept.drop]]) {
      const button = element("button", text);
      button.type = "button";
      button.setAttribute("aria-label", `${text} the draft: ${kept.named(draft)}`);
      button.addEventListener("click", () => work(draft).catch((fault) => { $("answer").textContent = fault.message; }));
      row.append(button, " ");
    }
    return row;
  },

  /** Keeps what is drawn, in place of sending it. */
  async keep() {
    const headers = { "Content-Type": "application/json" };
    const response = await register.ask("/drafts", { method: "POST", headers, body: JSON.stringify(drafts.body(register.draft)) });
    const body = await response.json();
    if (response.ok) { drafts.cancel(); await kept.list(); }
    $("answer").textContent = response.ok ? `Kept as a draft. ${kept.told(body)}` : `Refused (${body.code}): ${body.description}`;
  },

  told: ({ new: found, refused }) => refused ? `It could not be made now: ${refused}`
    : `It would bring ${found.map((it) => `${it.area_m2.toFixed(3)} m²${it.zones.length ? ` in ${it.zones.join(", ")}` : ""}`).join("; ")}.`,

  async see(draft) {
    const body = await (await register.ask(`/drafts/${draft.id}`)).json();
    drawing.path([]);
    for (const { ring_mm: ring } of body.new || [])
      drawing.draft.addLayer(L.polygon(ring.map(drawing.latlng), { color: drawing.style("--other"), weight: 3, interactive: false }));
    if (draft.parcels.length) drawing.show(draft.parcels[0]);
    $("answer").textContent = body.new ? kept.told(body) : body.description;
  },

  async approve(draft) {
    const response = await register.ask(`/drafts/${draft.id}/approval`, { method: "POST" }), body = await response.json();
    $("answer").textContent = response.ok ? `Done: entry ${body.number}. New: ${body.new.join(", ")}.` : `Refused (${body.code}): ${body.description}`;
    drawing.path([]);
    await kept.list();
  },

  async drop(draft) {
    const response = await register.ask(`/drafts/${draft.id}`, { method: "DELETE" });
    $("answer").textContent = response.ok ? "The draft is dropped." : (await response.json()).description;
    drawing.path([]);
    await kept.list();
  },
};
