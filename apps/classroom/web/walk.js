// A walk: an arrival one box at a time, by the boxes of section 3.3.3. Where the teacher asks for it,
// the student first writes what the next box will set.

import { el, button, keyed, say, set } from "./dom.js";
import { boxPart, hostsDone, outcome, placeOf, takenAt } from "./boxes.js";
import { follow } from "./follow.js";
import { facts, inside } from "./packet.js";
import { makeForm, marksList, verdict } from "./predict.js";
import { count, t } from "./language.js";
import { answerName, placeName } from "./words.js";

// actions: call(name) gives a promise of the reply; walk(message) opens another walk; predict(message)
// gives a promise of the marks, or null.
export function makeWalk(actions) {
  let checklist = [];
  let walk = null;
  let mode = "off";
  let busy = false;
  let behind = "";
  let calledFor = false;
  let waiting;
  let walked;
  const place = el("p", { class: "place", id: "walk-place" });
  const just = el("div", { class: "just", id: "walk-just" });
  const packet = el("div");
  const card = el("ol", { class: "checklist" });
  const hosts = el("ul", { class: "hosts-done" });
  const hostsTitle = el("h3", {}, t("walk.hosts_done"));
  const isOpen = () => !!walk && !walk.ended && !!walk.next;

  // One message for a box, or for all boxes to the next host or to the end.
  async function go(name, more) {
    if (busy || !isOpen() || mode === "required") return;
    busy = true;
    walked = walk.message;
    await actions.call(name, more);
    busy = false;
  }
  const form = makeForm({
    send: (fields) => {
      walked = walk.message;
      return actions.predict({ of: "step", fields });
    },
    skip: () => go("step"), go: () => t("predict.check_box"), without: () => t("predict.skip_box"),
  });
  const known = el("div", { class: "known" });
  const step = button(t("walk.next"), () => go("step"), { class: "step primary", id: "step", "aria-describedby": "walk-place" });
  const host = button(t("walk.to_host"), () => go("walk_on", { to: "host" }), { class: "step-host" });
  const end = button(t("walk.to_end"), () => go("walk_on", { to: "end" }), { class: "step-end" });
  const another = button("", () => actions.walk(waiting), { class: "walk-next", hidden: true });
  const steps = el("div", { class: "buttons" }, step, host, end, another);
  const bar = el("div", { class: "walk-bar" }, place, steps, known, form.node, just);
  const node = el("section", { class: "card", id: "walk", "aria-labelledby": "walk-title", hidden: true },
    el("h2", { id: "walk-title" }, t("walk.title")), bar, packet, card, hostsTitle, hosts);

  function standing(box, taken) {
    if (isOpen() && placeOf(walk.next) === placeOf(box)) return "next";
    return taken.has(placeOf(box)) ? "done" : "later";
  }

  // Brings the walk to the top of the page, with the focus on its next box.
  function bring() {
    calledFor = node.hidden;
    if (node.hidden) return;
    node.scrollIntoView({ block: "start" });
    if (form.node.hidden) step.focus({ preventScroll: true });
    else form.focus();
  }

  function placeWords(last) {
    const boxes = count("walk.boxes", walk.boxes.length);
    if (isOpen()) return t("walk.at", { message: walk.message, link: walk.link, boxes, next: placeName(walk.next) });
    const answer = last?.call === "step" || last?.call === "walk_on" ? t("walk.answer", { answer: answerName(last) }) : "";
    return `${t("walk.ended", { message: walk.message, boxes })} ${answer}`;
  }

  // The box that was taken last, with its marks, sum and changes; whether it is a new one.
  function showJust(predicted) {
    const box = walk.boxes.at(-1);
    const key = box ? `${walk.message}/${walk.boxes.length}/${predicted ? "p" : ""}` : "";
    just.hidden = !box;
    if (key === behind || !box) return false;
    behind = key;
    const nothing = el("p", { class: "quiet" }, t("walk.nothing"));
    const marks = predicted?.of === "step" && predicted.place === box.name
      ? [verdict(predicted), marksList(predicted.fields)] : [];
    just.replaceChildren(el("h3", {}, t("walk.just", { box: placeName(box) })), ...marks, ...outcome(box, [nothing]));
    return true;
  }

  function showForm(seat) {
    const asked = isOpen() && mode !== "off" && !actions.teacher;
    known.hidden = !asked;
    if (!asked) return form.hide();
    known.replaceChildren(facts(walk, seat));
    const name = placeName(walk.next);
    const optional = walk.asks.includes("then") ? walk.asks.filter((field) => field === "DELAY") : [];
    form.show({
      key: `${walk.message}/${walk.boxes.length}/${walk.asks.join()}`, fields: walk.asks, optional,
      heading: t("predict.box", { box: name }), required: true, rule: checklist.find((box) => placeOf(box) === placeOf(walk.next))?.text,
      first: seat.trying?.find((tried) => tried.of === "step" && tried.place === walk.next.name),
    });
  }

  function update(seat) {
    walk = seat.walk;
    node.hidden = !walk;
    if (!walk) return;
    const open = isOpen();
    const held = mode === "required" && !actions.teacher;
    say(place, placeWords(seat.last));
    say(step, open ? t("walk.next_is", { box: placeName(walk.next) }) : t("walk.next"));
    for (const part of [step, host, end]) set(part, { "aria-disabled": open ? null : "true", hidden: held && open });
    set(node, { class: `card ${open ? "walking" : "walked"}${open && mode !== "off" && !actions.teacher ? " predicting" : ""}` });
    waiting = open ? undefined : seat.waiting[0]?.message;
    another.hidden = waiting === undefined;
    say(another, t("walk.another", { message: waiting ?? 0 }));
    showForm(seat);
    if (open && calledFor) bring();
    const stepped = showJust(seat.predicted);
    if (walk.packet && packet.dataset.of !== String(walk.message)) {
      packet.dataset.of = walk.message;
      packet.replaceChildren(inside(walk.packet, false));
    }
    const { taken, host: id } = takenAt(walk);
    const items = checklist.map((box) => ({
      box, standing: standing(box, taken), taken: taken.get(placeOf(box)), host: box.line ? id : undefined,
    }));
    keyed(card, items, (item) => placeOf(item.box), boxPart);
    if (stepped && walked === walk.message) requestAnimationFrame(() => follow(card, bar));
    const done = hostsDone(walk);
    hostsTitle.hidden = done.length === 0;
    keyed(hosts, done, (h) => h.id, (h) => {
      const node = el("li", { "data-host": h.id });
      return { node, update: ({ id, words }) => say(node, t("walk.host", { id, words })) };
    });
  }
  const setMode = (next) => { mode = next; };
  return { node, update, step: () => step.click(), bring, setMode, setChecklist: (list) => { checklist = list; } };
}
