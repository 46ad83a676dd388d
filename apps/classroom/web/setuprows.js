// The rows of the form of a room: a host, a cable.

import { button, el, options, say } from "./dom.js";
import { t } from "./language.js";
import { seatName } from "./shapes.js";

function field(name, type, value, label, more = {}) {
  const content = type === "checkbox" ? { checked: !!value } : { value: String(value) };
  return el("input", { type, "data-name": name, "aria-label": t(`setup.in.${label}`), ...content, ...more });
}

const whole = (name, value, label, min, max) => field(name, "number", value, label, { step: 1, min, max });
const choice = (name, label) => el("select", { "data-name": name, "aria-label": t(`setup.in.${label}`) });
const pair = (...parts) => el("span", { class: "pair" }, parts);
const row = (props, cells) => el("tr", props, cells.map((cell) => el("td", {}, cell)));
const remover = (remove) => button(t("setup.remove"), remove, { class: "quiet remove" });

export const value = (row, name) => row.querySelector(`[data-name="${name}"]`);
export const numeric = (row, name) => Number(value(row, name).value);
const numbers = (row, name) => value(row, name).value.split(" ").filter(Boolean).map(Number);

export function seatRow(seat, renumber, remove) {
  const node = row({}, [
    field("name", "text", seat.name, "name", { size: 6, maxlength: 16, onchange: renumber }),
    whole("difference", seat.difference, "difference", -43199999, 43199999),
    field("crystal", "checkbox", seat.crystal, "crystal"),
    field("by_hand", "checkbox", seat.by_hand, "by_hand"),
    choice("clock_host", "clock_host"),
    field("also", "text", (seat.also ?? []).join(" "), "also",
      { size: 5, pattern: "[0-9 ]*", placeholder: t("setup.none") }),
    remover(() => remove(node)),
  ]);
  node.prepend(el("th", { scope: "row" }));
  return node;
}

export function seatOf(row, i) {
  return {
    name: value(row, "name").value.trim() || seatName(i),
    difference: numeric(row, "difference"),
    crystal: value(row, "crystal").checked,
    by_hand: value(row, "by_hand").checked,
    clock_host: value(row, "clock_host").value === "" ? null : numeric(row, "clock_host"),
    also: numbers(row, "also"),
  };
}

// change(row) is there for a cable of the room as it is.
export function cableRow({ cable, ends, ways, loss }, change, remove) {
  const end = (name, link, label) => pair(choice(name, `${label}_host`),
    whole(`${name}-link`, link, `${label}_link`, 1, 8));
  const way = (name, i) => [
    pair(whole(`${name}-least`, ways[i][0], `${name}_least`, 0, 60000), "–",
      whole(`${name}-most`, ways[i][1], `${name}_most`, 0, 60000)),
    whole(`${name}-loss`, loss[i], `${name}_loss`, 0, 100),
  ];
  const now = change && button(t("setup.change"), () => change(node), { class: "change", title: t("setup.change_title") });
  const node = row({ "data-cable": cable }, [
    end("a", ends[0][1], "from"), end("b", ends[1][1], "to"), ...way("there", 0), ...way("back", 1),
    pair(now, remover(() => remove(node))),
  ]);
  return node;
}

// The times and losses of a row, as both a new room and a change have them.
export function wayOf(row) {
  const both = ["there", "back"];
  return {
    ways: both.map((name) => [numeric(row, `${name}-least`), numeric(row, `${name}-most`)]),
    loss: both.map((name) => numeric(row, `${name}-loss`)),
  };
}

export function cableOf(row) {
  return { ends: ["a", "b"].map((end) => [numeric(row, end), numeric(row, `${end}-link`)]), ...wayOf(row) };
}

// Numbers the hosts, and offers them where one is chosen.
export function renumber(seats, cables) {
  const names = seats.map((row, i) => [i, value(row, "name").value || seatName(i)]);
  seats.forEach((row, i) => {
    say(row.cells[0], String(i));
    options(value(row, "clock_host"), [["", t("setup.off")], ...names]);
  });
  for (const row of cables) for (const end of ["a", "b"]) options(value(row, end), names);
}
