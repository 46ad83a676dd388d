// The list of all calls with their answers, the newest on top.

import { byId, el, keyed, options, say } from "./dom.js";
import { t } from "./language.js";
import { answerName, callName, number, roomTime } from "./words.js";

const KEPT = 4000;
const SHOWN = 150;

// What a call was given, in short; the file has it whole, the counter and the packet's octets with it.
function withWords(given) {
  return Object.entries(given ?? {}).filter(([name]) => name !== "counter" && name !== "count").map(([name, value]) => {
    if (name === "packet") return t("calls.packet", { n: value.replaceAll(" ", "").length / 2 });
    if (name === "address" && Array.isArray(value)) return value.join(".");
    const words = typeof value === "object" ? JSON.stringify(value) : String(value);
    return `${name} ${words.length > 40 ? words.slice(0, 38) + "…" : words}`;
  }).join(", ");
}

export function makeCalls() {
  let calls = [];
  let names = {};
  let changed = true;
  const seat = byId("calls-seat"), ticks = byId("calls-ticks"), refused = byId("calls-refused"), hold = byId("calls-hold");
  const body = byId("calls").tBodies[0];
  for (const field of [seat, ticks, refused, hold]) field.addEventListener("change", () => { changed = true; });

  function add(more) {
    if (!more.length) return;
    // A line may come again, with more times.
    const known = new Set(more.map((c) => c.line));
    if (calls.length && more[0].line <= calls.at(-1).line) calls = calls.filter((c) => !known.has(c.line));
    calls = calls.concat(more).slice(-KEPT);
    changed = true;
  }

  function row(call) {
    const node = el("tr", { "data-line": call.line, "data-answer": call.answer, class: call.answer ? "refusal" : null },
      el("th", { scope: "row" }, number(call.line)));
    const cells = ["time", "seat", "call", "with", "times", "answer"].map((field) => el("td", { "data-field": field }));
    node.append(...cells);
    function update(call) {
      const times = call.times > 1 ? "×" + number(call.times) : "";
      const said = [roomTime(call.time), names[call.seat] ?? t("tab.nets"), callName(call.call), withWords(call.with), times, answerName(call)];
      cells.forEach((cell, i) => say(cell, said[i]));
    }
    return { node, update };
  }

  function update(view) {
    names = Object.fromEntries(view.seats.map((s) => [s.number, s.name]));
    options(seat, [["", t("calls.all")], ["null", t("tab.nets")], ...view.seats.map((s) => [s.number, s.name])]);
    if (!changed || (hold.checked && body.childElementCount)) return;
    changed = false;
    const wanted = calls.filter((c) => (seat.value === "" || String(c.seat) === seat.value)
      && (ticks.checked || c.call !== "tick") && (!refused.checked || c.answer !== 0));
    keyed(body, wanted.slice(-SHOWN).reverse(), (c) => c.line, row);
    const shown = Math.min(wanted.length, SHOWN);
    say(byId("calls-words"), t("calls.shown", { shown, all: wanted.length }));
  }
  function clear() {
    calls = [];
    changed = true;
    keyed(body, [], (c) => c.line, row);
  }
  return { add, update, clear };
}
