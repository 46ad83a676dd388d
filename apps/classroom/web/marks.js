// What the last call changed, to be marked where it stands: a value with what it was before.

import { el, say, set } from "./dom.js";
import { has, number, t } from "./language.js";

// Field names as the places that show them are called.
const places = {
  "NEIGHBOR-ADDRESS": "neighbor", "KEEP-ALIVE": "keep_alive", CLOCK: "time", "TIME OF UPDATE": "time", UPDATED: "time",
};

function place(field) {
  const name = field.toUpperCase().replaceAll("_", "-");
  return places[name] ?? name.toLowerCase();
}

// From the changes of a reply: where and field to the value before.
export function marksOf(changes = []) {
  return new Map((changes ?? []).map((c) => [`${c.where}/${place(c.field)}`, c.before]));
}

// A cell that shows a value, and beneath it what it was, where the last call changed it.
export function cell(tag, field) {
  const now = el("span", { class: "now" });
  const was = el("small", { class: "was", hidden: true });
  const node = el(tag, { "data-field": field }, now, was);
  let shown = [];
  function update(words, value, before) {
    if (shown[0] === words && shown[1] === value && shown[2] === before) return;
    shown = [words, value, before];
    say(now, words);
    set(node, { "data-value": value === undefined || value === null ? null : String(value),
      class: before === undefined ? null : "changed" });
    set(was, { hidden: before === undefined });
    if (before !== undefined) say(was, t("marks.was", { before: number(before) }));
  }
  return { node, update };
}

// The changes without the next place of a walk, which the checklist shows.
export function shownChanges(changes) {
  return (changes ?? []).filter((c) => !(c.where === "walk" && c.field === "next"));
}

// The name of a field: one of the RFC stays.
export function fieldName(field) {
  const key = `changed.${field.replaceAll(" ", "_")}`;
  return has(key) ? t(key) : field;
}

// A place of a host, "link 1": what it is, and its number.
function placeWords({ seat, where }) {
  const [kind, n] = where.split(" ");
  const words = t(`where.${kind}`, { n });
  return seat === undefined ? words : t("where.at_seat", { seat, where: words });
}

export function changesWords(changes) {
  return shownChanges(changes).map((c) => `${placeWords(c)} ${fieldName(c.field)} ${number(c.before)} → ${number(c.after)}`).join(", ");
}

// The changes of a call or a box as a list.
export function changesList(changes) {
  return el("ul", { class: "changes" }, shownChanges(changes).map((c) => el("li", {},
    el("span", { class: "where" }, c.where === "walk" ? t("marks.held", { field: fieldName(c.field) }) : `${placeWords(c)}, ${fieldName(c.field)}: `),
    el("span", { class: "before" }, number(c.before)), " → ", el("strong", {}, number(c.after)))));
}
