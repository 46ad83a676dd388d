// A host table, with rows that are updated in place. The teacher's has the true difference,
// the error and the bound of each entry beside it. In a long table rows that are down are folded.

import { button, el, keyed, say, set } from "./dom.js";
import { cell } from "./marks.js";
import { count, t } from "./language.js";
import { number, signed, timeOfDay } from "./words.js";

const all = ["live", "delay", "offset", "true", "error", "bound", "within", "ttl", "pid", "time"];
const hinted = new Set(["true", "error", "bound", "pid"]);
const teachers = new Set(["true", "error", "within"]);
// A table of more rows than these is folded.
const LONG = 16;

function stateWords(entry, own) {
  if (!entry.live) return t(entry.ttl > 0 ? "table.down_held" : "table.down");
  return t(own ? "table.itself" : entry.here ? "table.here" : "table.up");
}

const words = {
  delay: (e) => number(e.delay),
  offset: (e) => signed(e.offset),
  ttl: (e) => number(e.ttl),
  pid: (e) => number(e.pid),
  time: (e) => (e.time ? timeOfDay(e.time) : "–"),
  bound: (e) => (e.live ? "±" + number(e.bound) : "–"),
  true: (e) => (e.true === null || e.true === undefined ? "–" : signed(e.true)),
  error: (e) => (e.live ? signed(e.error) : "–"),
  within: (e, promised) => (!e.live || e.within === null ? "–" : t(e.within ? "table.within" : promised ? "table.outside" : "table.not_promised")),
};

function row(columns) {
  return (first) => {
    const name = el("th", { scope: "row" });
    const cells = columns.map((field) => cell("td", field));
    const node = el("tr", { "data-id": first.id }, name, cells.map((c) => c.node));
    const seen = [];
    function update({ entry, own, marks, promised }) {
      say(name, `${entry.id} ${entry.name ?? ""}`);
      const out = entry.within === false ? (promised ? " outside" : " unpromised") : "";
      set(node, { class: entry.live ? `up${out}` : "down" });
      columns.forEach((field, i) => {
        const before = marks?.size ? marks.get(`host ${entry.id}/${field}`) : undefined;
        if (field === "live") return cells[i].update(stateWords(entry, own), entry.live, before);
        const now = [entry[field], entry.live, before, promised];
        if (seen[i] && now.every((part, k) => part === seen[i][k])) return;
        seen[i] = now;
        cells[i].update(words[field](entry, promised), entry[field], before);
      });
    }
    return { node, update };
  };
}

// {node, update(seat, marks, promised)}; `promised` is whether the bound is promised for this room.
export function makeTable({ teacher = false } = {}) {
  const columns = all.filter((field) => teacher || !teachers.has(field));
  const caption = el("caption");
  const body = el("tbody");
  const head = el("tr", {}, el("th", { scope: "col" }, t("table.host")),
    columns.map((field) => el("th", { scope: "col", title: hinted.has(field) ? t(`table.${field}.hint`) : null }, t(field === "within" ? "table.kept" : `table.${field}`))));
  const table = el("table", { class: "hosts-table" }, caption, el("thead", {}, head), body);
  const folded = el("p", { class: "folded row", hidden: true });
  const node = el("div", { class: "scroll", tabindex: 0, role: "region" }, table, folded);
  const make = row(columns);
  let open = false;
  let last = null;
  const unfold = button("", () => { open = !open; if (last) update(...last); }, { class: "quiet unfold" });
  const foldedWords = el("span", { class: "quiet" });
  folded.append(foldedWords, unfold);
  function update(seat, marks, promised = true) {
    last = [seat, marks, promised];
    set(node, { "data-seat": seat.number, "aria-label": t("table.of", { name: seat.name }) });
    say(caption, seat.clock ? t("table.of_clock", { name: seat.name, clock: seat.clock.words }) : t("table.of", { name: seat.name }));
    const entries = seat.table ?? [];
    const own = seat.id ?? seat.number;
    const changed = new Set([...(marks?.keys() ?? [])].map((key) => key.split("/")[0]));
    const hides = (e) => entries.length > LONG && !e.live && e.id !== own && !changed.has(`host ${e.id}`);
    const down = entries.filter(hides).length;
    folded.hidden = down === 0;
    say(foldedWords, count("table.folded", down));
    say(unfold, t(open ? "table.fold" : "table.unfold"));
    const rows = entries.filter((e) => open || !hides(e)).map((entry) => ({ id: entry.id, entry, own: entry.id === own, marks, promised }));
    keyed(body, rows, (r) => r.id, make);
  }
  return { node, update };
}

// The tables of several seats, one under the other.
export function makeTables(root, settings) {
  return (seats, promised = true) => keyed(root, seats.map((seat) => ({ seat, promised })), (item) => item.seat.number, () => {
    const table = makeTable(settings);
    return { node: table.node, update: (item) => table.update(item.seat, undefined, item.promised) };
  });
}
