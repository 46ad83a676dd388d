// All seats by all hosts, one field of each entry; or one host across all seats.

import { byId, el, headRow, keyed, options, say, set } from "./dom.js";
import { number, t } from "./language.js";
import { signed } from "./words.js";

const words = {
  delay: (e) => number(e.delay), offset: (e) => signed(e.offset), error: (e) => signed(e.error), pid: (e) => number(e.pid),
};

export function makeMatrix() {
  const head = el("thead");
  const body = el("tbody");
  const caption = el("caption");
  const none = el("p", { class: "quiet", hidden: true }, t("matrix.none"));
  byId("matrix").replaceChildren(el("table", {}, caption, head, body), none);
  let ids = "";

  function row(first) {
    const name = el("th", { scope: "row" });
    const node = el("tr", { "data-seat": first.seat.number }, name);
    const cells = new Map();
    function update({ seat, hosts, field }) {
      say(name, seat.student ? `${seat.name} · ${seat.student}` : seat.name);
      for (const [id, cell] of cells) if (!hosts.includes(id)) { cell.remove(); cells.delete(id); }
      for (const id of hosts) {
        const entry = seat.table[id];
        if (!cells.has(id)) {
          cells.set(id, el("td", { "data-seat": seat.number, "data-id": id }));
          node.append(cells.get(id));
        }
        const cell = cells.get(id);
        const out = entry && entry.live && entry.within === false ? "outside" : null;
        set(cell, { class: entry?.live ? out : "down", "data-value": entry ? String(entry[field]) : null });
        say(cell, !entry ? "" : entry.live ? words[field](entry) : field === "delay" ? number(entry.delay) : "–");
      }
    }
    return { node, update };
  }

  function update(view) {
    const most = Math.max(...view.seats.map((s) => s.table.length));
    const widest = view.seats.find((s) => s.table.length === most);
    options(byId("matrix-host"), [["", t("matrix.all")], ...widest.table.map((e) => [e.id, `${e.id} ${e.name}`])]);
    const live = (id) => view.seats.some((s) => s.table[id]?.live);
    const chosen = byId("matrix-host").value;
    const only = byId("matrix-live").checked;
    const all = widest.table.map((e) => e.id).filter((id) => (chosen === "" || String(id) === chosen) && (!only || live(id)));
    // In a long table a host that is down everywhere is left out.
    const hosts = most > 32 && chosen === "" ? all.filter(live) : all;
    const seats = view.seats.filter((s) => !only || hosts.some((id) => s.table[id]?.live));
    none.hidden = hosts.length > 0 && seats.length > 0;
    const now = hosts.map((id) => `${id} ${widest.table[id].name}`).join();
    if (now !== ids) {
      ids = now;
      head.replaceChildren(...headRow([t("matrix.seat"), ...hosts.map((id) => `${id} ${widest.table[id].name}`)]).children);
    }
    const field = byId("matrix-field").value;
    say(caption, t(field === "pid" ? "matrix.caption.pid" : "matrix.caption", { what: t(`matrix.${field}`) }));
    keyed(body, seats.map((seat) => ({ seat, hosts, field })), (item) => item.seat.number, row);
  }
  return { update };
}
