// A message as text, as octets and as fields. The octets of the field in focus are lit.

import { el, headRow, set } from "./dom.js";
import { number, t, written } from "./language.js";
import { fieldName } from "./marks.js";

const ACROSS = 16;

function octetsPart(octets) {
  const spans = octets.split(" ").map((octet) => el("span", {}, octet));
  const rows = [];
  for (let i = 0; i < spans.length; i += ACROSS) {
    rows.push(el("div", {}, el("span", { class: "at" }, String(i).padStart(4)), spans.slice(i, i + ACROSS)));
  }
  function light(field) {
    spans.forEach((span, i) => span.classList.toggle("lit", !!field && i >= field.octets[0] && i < field.octets[1]));
  }
  const label = t("packet.octets", { n: spans.length });
  return { node: el("div", { class: "octets", role: "group", "aria-label": label }, rows), light };
}

// "host 3 DELAY" and the names of a header's fields.
function nameOf(name) {
  const [, id, field] = name.match(/^host (\d+) (.*)$/) ?? [];
  return id === undefined ? fieldName(name) : t("field.host_entry", { id, field });
}

function octetsWords([first, end]) {
  return end - first === 1 ? String(first) : `${first}–${end - 1}`;
}

// One stop of the Tab key; the arrow keys go from field to field.
function fieldsPart(fields, light) {
  const rows = fields.map((field, i) => el("tr", {
    tabindex: i ? -1 : 0, "data-name": field.name, onfocus: () => light(field), onblur: () => light(null),
  }, el("th", { scope: "row" }, nameOf(field.name)), el("td", {}, written(field.value)),
  el("td", { class: "quiet" }, octetsWords(field.octets))));
  function move(event) {
    const step = { ArrowDown: 1, ArrowUp: -1 }[event.key];
    const next = step && rows[rows.indexOf(event.target) + step];
    if (!next) return;
    event.preventDefault();
    set(event.target, { tabindex: -1 });
    set(next, { tabindex: 0 });
    next.focus();
  }
  return el("div", { class: "scroll fields" }, el("table", { onkeydown: move },
    el("caption", {}, t("packet.fields")),
    headRow([t("packet.field"), t("packet.value"), t("packet.of_octets")]), el("tbody", {}, rows)));
}

// What a prediction needs, in a line each: of the packet, and of the host as it is.
export function facts(walk, seat) {
  const of = Object.fromEntries(walk.packet.fields.map((field) => [field.name, field.value]));
  const id = walk.next?.line ? walk.next.id : null;
  const fields = ["source", ...(walk.next?.line === "d" ? ["DATE"] : []), "TIME", "TSP", "NHOSTS", ...(id === null ? [] : [`host ${id} DELAY`, `host ${id} OFFSET`])];
  const link = seat.links[walk.link - 1];
  const own = [["LOCAL-ADDRESS", seat.address], ["NEIGHBOR-ADDRESS", link.neighbor], ["KEEP-ALIVE", number(link.keep_alive)],
    ["TSP", number(link.tsp)], ["HOLD", number(seat.clock.hold)], [t("predict.reading"), number(walk.held?.reading ?? seat.clock.time)]];
  if (walk.held?.delay !== null && walk.held?.delay !== undefined) {
    own.push(["DELAY", number(walk.held.delay)], ["OFFSET", number(walk.held.offset)]);
  }
  if (id !== null) {
    const entry = seat.table[id];
    for (const [name, value] of [["DELAY", entry.delay], ["TTL", entry.ttl], ["PID", entry.pid]]) own.push([t("predict.entry", { name }), number(value)]);
  }
  const list = (pairs) => el("dl", { class: "facts small" }, pairs.map(([name, value]) => el("div", {}, el("dt", {}, name), el("dd", {}, value))));
  return el("div", { class: "known-facts" }, el("strong", {}, t("predict.packet")),
    list(fields.filter((name) => name in of).map((name) => [nameOf(name), written(of[name])])), el("strong", {}, t("predict.here")), list(own));
}

// Made where it is first opened.
export function inside(message, open) {
  const node = el("details", { class: "look" }, el("summary", {}, t("packet.inside")));
  function fill() {
    if (node.childElementCount > 1) return;
    const octets = octetsPart(message.octets);
    node.append(el("pre", { class: "text", tabindex: 0, "aria-label": t("packet.as_text") }, message.text),
      el("div", { class: "inside" }, octets.node, fieldsPart(message.fields, octets.light)));
  }
  if (open) fill();
  return set(node, { open, ontoggle: fill });
}
