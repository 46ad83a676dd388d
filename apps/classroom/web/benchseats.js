// The seats of the bench: clock, links and host table of each, with what the last event changed marked.

import { byId, el, headRow, keyed, options, say, set } from "./dom.js";
import { cell, marksOf } from "./marks.js";
import { makeTable } from "./table.js";
import { t } from "./language.js";
import { ms, number, signed } from "./words.js";

// With more entries than these not all seats are shown at once.
const MANY = 600;
const DOWN = 30000;
const facts = [["time", "CLOCK"], ["delta", "DELTA"], ["hold", "HOLD"], ["date", "DATE"]];
const columns = [["neighbor", "NEIGHBOR-ADDRESS"], ["keep_alive", "KEEP-ALIVE"], ["tsp", t("links.tsp")]];

// An entry of a view, which has its numbers alone.
function entryOf([delay, offset, ttl, pid, here, time], id, names) {
  const live = delay < DOWN;
  return { id, name: names[id], delay, offset, ttl, pid, here, time, live, bound: (101 * delay) / 200 };
}

function linkRow(first) {
  const cells = columns.map(([field]) => cell("td", field));
  const head = el("th", { scope: "row" }, number(first.link.link));
  const node = el("tr", { "data-link": first.link.link }, head, cells.map((c) => c.node));
  function update({ link, marks }) {
    const said = [link.neighbor === "0.0.0.0" ? t("links.none_yet") : link.neighbor, number(link.keep_alive), signed(link.tsp)];
    cells.forEach((c, i) => c.update(said[i], link[columns[i][0]], marks.get(`link ${link.link}/${columns[i][0]}`)));
  }
  return { node, update };
}

function seatPart(first) {
  const face = el("strong", { class: "clock" });
  const cells = facts.map(([field]) => cell("dd", field));
  const links = el("tbody");
  const table = makeTable();
  const node = el("article", { class: "bench-seat", "data-seat": first.seat.number },
    el("h3", {}, t("bench.seat_at", { seat: first.seat.number, address: first.seat.address }), " ", face),
    el("dl", { class: "facts" }, facts.map(([, words], i) => el("div", {}, el("dt", {}, words), cells[i].node))),
    table.node,
    el("table", { class: "hosts-table" }, headRow([t("links.link"), ...columns.map((c) => c[1])]), links));
  function update({ seat, names, marks }) {
    const { clock } = seat;
    say(face, clock.words);
    const said = [ms(clock.time), `${signed(clock.delta)} ms`, `${number(clock.hold)} s`, `${clock.date}, ${clock.day}`];
    cells.forEach((c, i) => c.update(said[i], clock[facts[i][0]], marks.get(`clock/${facts[i][0]}`)));
    const entries = seat.table.map((entry, id) => entryOf(entry, id, names));
    table.update({ number: seat.number, id: seat.id, name: t("bench.seat", { seat: seat.number }), table: entries }, marks);
    keyed(links, seat.links.map((link) => ({ link, marks })), (item) => item.link.link, linkRow);
  }
  return { node, update };
}

export function makeBenchSeats(changed) {
  const root = byId("bench-seats"), choice = byId("bench-seat");
  choice.addEventListener("change", changed);
  let file = null;

  // A seat with marks where the last event changed it.
  function part(seat, names, changes) {
    const marks = marksOf(changes.filter((c) => c.seat === seat.number));
    return { seat, names, marks };
  }

  function update({ number: of, seats = [], last, trays = [] }, names) {
    const many = seats.length * names.length > MANY;
    options(choice, [...(many ? [] : [["", t("bench.all_seats")]]), ...seats.map((s) => [s.number, t("bench.seat", { seat: s.number })])]);
    // Another file has other seats.
    if (file !== of) keyed(root, [], (item) => item.seat.number, seatPart);
    file = of;
    const wanted = seats.filter((s) => choice.value === "" || String(s.number) === choice.value);
    keyed(root, wanted.map((s) => part(s, names, last?.changes ?? [])), (item) => item.seat.number, seatPart);
    const words = trays.map(({ tray, octets, way }) => t("bench.slot", { slot: tray, octets, way }));
    say(byId("bench-trays"), words.length ? t("bench.slots", { words: words.join("; ") }) : t("bench.no_slots"));
    set(byId("bench-trays"), { hidden: !seats.length });
  }
  return { update };
}
