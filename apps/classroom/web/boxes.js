// The boxes of the checklist: which are done, next and to come, and what each made.

import { el, say, set } from "./dom.js";
import { changesList, fieldName, shownChanges } from "./marks.js";
import { arithmetic } from "./predict.js";
import { glossed } from "./glossary.js";
import { number, t } from "./language.js";

const states = { done: t("box.done"), next: t("box.next"), later: t("box.later") };

export const placeOf = (box) => `${box.step}/${box.line ?? ""}`;

// The boxes taken, by their places on the card; at the lines those of the host in hand.
export function takenAt(walk) {
  const host = walk.next?.line ? walk.next.id : walk.boxes.findLast((box) => box.line)?.id;
  const taken = new Map();
  walk.boxes.forEach((box, i) => {
    if (!box.line || box.id === host) taken.set(placeOf(box), { ...box, key: `${walk.message}/${i}` });
  });
  return { taken, host };
}

// The sum of a box and what it changed, which `none` tells where it is nothing.
export function outcome(box, none = []) {
  const changed = shownChanges(box.changes).length ? [changesList(box.changes)] : none;
  return box.words?.length ? [arithmetic(box.words), ...changed] : changed;
}

export function boxPart(first) {
  const state = el("span", { class: "state" });
  const title = el("strong");
  const made = el("div");
  const node = el("li", { "data-box": placeOf(first.box) },
    el("div", { class: "box-head" }, title, state), el("p", { class: "rule" }, glossed(t(first.box.text))),
    el("p", { class: "quiet section" }, t("box.section", { section: first.box.section })), made);
  let shown;
  function update({ box, standing, taken, host }) {
    set(node, { class: `box ${standing}${box.line ? " line" : ""}`,
      "aria-current": standing === "next" ? "step" : null });
    say(state, states[standing]);
    say(title, !box.line ? t("box.step", { step: box.step }) : host === undefined ? t("box.line", { line: box.line })
      : t("box.line_host", { line: box.line, host }));
    if (taken?.key === shown) return;
    shown = taken?.key;
    made.replaceChildren(...(taken ? outcome(taken) : []));
  }
  return { node, update };
}

// What the lines did to each host that is behind, or at the end to each.
export function hostsDone(walk) {
  const hosts = new Map();
  for (const box of walk.boxes) {
    if (!box.line || box.id === walk.next?.id) continue;
    hosts.set(box.id, [...(hosts.get(box.id) ?? []), box]);
  }
  return [...hosts].map(([id, boxes]) => {
    const changes = boxes.flatMap((box) => shownChanges(box.changes)).filter((c) => c.where !== "walk");
    const last = boxes.at(-1);
    const words = changes.map((c) => `${fieldName(c.field)} ${number(c.before)} → ${number(c.after)}`).join(", ");
    const sum = (last.words ?? []).map(([key, values]) => t(key, values)).join("; ");
    return { id, words: words || t("walk.by_line", { line: last.line, sum }) };
  });
}
