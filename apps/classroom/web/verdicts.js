// What was expected at each stage of an exercise, and what was found. Both pages show it; it is a part of the view,
// so a reload keeps it.

import { el, headRow, keyed, say, set } from "./dom.js";
import { count, language, number, t } from "./language.js";

export const markOf = (right) => (right === null || right === undefined ? "▶" : right ? "✓" : "✗");

// A text of an exercise in the reader's language, or in English.
export const said = (texts) => (texts ? texts[language] ?? texts.en : "");

function check(first) {
  const cells = ["what", "expected", "actual", "right"].map((field) => el(field === "what" ? "th" : "td",
    { "data-field": field, scope: field === "what" ? "row" : null }));
  const node = el("tr", { "data-check": first.i }, cells);
  function update({ what, expected, actual, right }) {
    set(node, { class: right ? null : "refusal", "data-key": what[0] });
    say(cells[0], t(...what));
    say(cells[1], number(expected));
    say(cells[2], actual === null ? t("exercise.not_made") : number(actual));
    say(cells[3], right ? "✓" : "✗");
  }
  return { node, update };
}

function stage(first) {
  const words = el("span", { class: "words" }), mark = el("strong", { class: "mark" });
  const outcome = el("p", { class: "outcome" }), more = el("p", { class: "quiet" });
  const body = el("tbody");
  const table = el("table", {}, headRow(["", t("exercise.expected"), t("exercise.actual"), ""]), body);
  const details = el("details", {}, el("summary", {}, t("exercise.both")), el("div", { class: "scroll" }, table), more);
  const node = el("li", { "data-stage": first.i }, mark, words, outcome, details);
  let open = null;
  function update({ i, words: texts, outcome: end, result, last }) {
    set(node, { class: result.right === null ? "next" : result.right ? "done" : "done wrong", "data-right": String(result.right) });
    say(mark, `${markOf(result.right)} ${i + 1}. `);
    say(words, said(texts));
    outcome.hidden = !end;
    say(outcome, said(end));
    details.hidden = result.checks.length === 0;
    // The newest stage that is done is open, and so is a wrong one; a click of the reader counts from then on.
    const wanted = last || result.right === false;
    if (open !== wanted) {
      open = wanted;
      details.open = wanted;
    }
    keyed(body, result.checks.map((each, k) => ({ ...each, i: k })), (each) => each.i, check);
    more.hidden = !result.more;
    say(more, result.more ? count("exercise.more", result.more) : "");
  }
  return { node, update };
}

// Shows the stages that are done, and with `now` the one under way, with the results of one copy.
export function makeVerdicts(list, { now = true } = {}) {
  return (key, stages, results) => {
    const known = results.map((result, i) => ({ i, ...stages[i], result })).filter((each) => each.words && (now || each.result.right !== null));
    const done = known.filter((each) => each.result.right !== null).length;
    keyed(list, known.map((each) => ({ ...each, last: each.i === done - 1 })), (each) => `${key}/${each.i}`, stage);
  };
}
