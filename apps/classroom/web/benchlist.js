// The events of a bench file, each in words with its answer. The list is made once for a file; then
// only the rows that were carried out, or taken back, are touched.

import { byId, el, say, set } from "./dom.js";
import { t } from "./language.js";
import { answerMeaning, answerName, number } from "./words.js";

// Only the arrival of such a tray has this answer: what a seat sends is in form.
const IP_FORM = 3;

export function meaningOf(kind, answer) {
  return kind === "arrival" && answer === IP_FORM ? t("bench.never_filled") : answerMeaning(answer);
}

export function makeBenchList() {
  const body = byId("bench-events").tBodies[0], scroll = byId("bench-events").parentElement;
  let events = [];
  let rows = [];
  let answers = new Map();
  let next = null;
  let first = 0;
  byId("bench-refused").addEventListener("change", (event) => {
    set(byId("bench-events"), { class: event.target.checked ? "refusals" : null });
  });

  function row([, words], i) {
    const cell = el("td", { "data-field": "answer" });
    const event = el("td", { "data-field": "call" }, t(...words));
    const place = first + i;
    return { node: el("tr", { "data-event": place }, el("th", { scope: "row" }, number(place)), event, cell), cell };
  }

  // `before` is how many events of a long text come before those of this file.
  function load(file, before = 0) {
    events = file;
    first = before;
    rows = events.map(row);
    next = null;
    body.replaceChildren(...rows.map((r) => r.node));
    scroll.scrollTop = 0;
  }

  function fill(i, answer) {
    const { name } = answers.get(answer);
    const refused = answer ? `: ${meaningOf(events[i][0], answer)}` : "";
    set(rows[i].node, { "data-answer": answer, class: answer ? "refusal" : null });
    say(rows[i].cell, answerName({ answer, name }) + refused);
  }

  function clear(i) {
    set(rows[i].node, { "data-answer": null, class: null });
    say(rows[i].cell, "");
  }

  // Of `given` each event that is done has its answer.
  function update(given) {
    if (next !== null) set(rows[next].node, { class: null, "aria-current": null });
    rows.forEach((r, i) => {
      if (r.answer === given[i]) return;
      r.answer = given[i];
      if (r.answer === undefined) clear(i);
      else fill(i, r.answer);
    });
    next = given.length < rows.length ? given.length : null;
    if (next !== null) set(rows[next].node, { class: "next", "aria-current": "step" });
    const at = rows[next ?? rows.length - 1]?.node;
    if (at) scroll.scrollTop = at.offsetTop - scroll.clientHeight / 2;
  }
  return { load, update, setAnswers: (list) => { answers = new Map(list.map((a) => [a.number, a])); } };
}
