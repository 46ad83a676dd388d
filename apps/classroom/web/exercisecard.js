// The exercise on a student's page: title, task, question, her part, her partners, the stage that is under way, what
// came of those before, and at the end the explanation.

import { byId, el, keyed, say, set } from "./dom.js";
import { number, t } from "./language.js";
import { makeVerdicts, markOf, said } from "./verdicts.js";

function nameOf({ name, part, seat }) {
  return name ? t("exercise.partner.named", { name, part, seat }) : t("exercise.partner", { part, seat });
}

function partWords(exercise) {
  const others = exercise.partners.map(nameOf).join(", ");
  const values = { part: exercise.part ?? "", copy: exercise.copy + 1, copies: exercise.copies, others };
  if (exercise.observes) return t(exercise.copies > 1 ? "exercise.observes.copy" : "exercise.observes", values);
  const you = t(exercise.copies > 1 ? "exercise.you.copy" : "exercise.you", values);
  if (!exercise.partners.length) return you;
  return `${you} ${t(exercise.partners.length === 1 ? "exercise.with.one" : "exercise.with.many", values)}`;
}

function stageWords({ at, of, stages, ended, right }) {
  if (ended) return t(right ? "exercise.all_right" : "exercise.not_all_right", { of });
  return t("exercise.stage", { at: at + 1, of, words: said(stages[at].words) });
}

function doneWords({ at, of, results }) {
  const marks = results.filter((result) => result.right !== null).map((result) => markOf(result.right)).join("");
  return t("exercise.done", { marks, at, of });
}

function hint(first) {
  const text = el("p");
  const node = el("details", { "data-hint": first.i }, el("summary", {}, t("exercise.hint", { n: first.i + 1 })), text);
  return { node, update: ({ words }) => say(text, said(words)) };
}

const DOWN = 30000;

// A value as a student writes it: a whole number, or "down".
function valueOf(text) {
  const words = text.trim().toLowerCase().replaceAll(",", "");
  return words === t("exercise.down") || words === "down" ? DOWN : Number(words);
}

function field(first) {
  const input = el("input", { type: "text", size: 7, required: true, autocomplete: "off", "data-field": first.i });
  const words = el("span");
  const update = ({ seat_name: seat, host_name: host, field: name }) => say(words, t("exercise.entry", { seat, host, field: name }));
  return { node: el("label", {}, words, input), update };
}

// What was expected of a stage that is over: each value, and what it was.
function marksWords({ stage, fields }) {
  const each = fields.map(({ seat, host, field: name, given, actual, right }) => {
    const values = { entry: ["exercise.entry", { seat, host, field: name }], given, actual };
    return t(right ? "exercise.predicted.right" : "exercise.predicted.wrong", values);
  });
  return `${t("exercise.predicted", { stage: stage + 1 })} ${each.join("; ")}`;
}

// The form in which a student writes what she expects of the stage under way, and the marks of the one before.
function makePrediction(ask) {
  const form = byId("exercise-predict"), fields = byId("exercise-fields");
  let now = null;
  form.addEventListener("submit", async (event) => {
    event.preventDefault();
    const values = [...fields.querySelectorAll("input")].map((input) => valueOf(input.value));
    if (values.some((value) => !Number.isInteger(value))) return say(byId("exercise-predict-said"), t("exercise.whole"));
    try {
      await ask({ do: "foretell", stage: now, values });
      say(byId("exercise-predict-said"), "");
    } catch (error) {
      say(byId("exercise-predict-said"), error.message);
    }
    return null;
  });
  return (exercise, key) => {
    const asked = !exercise.observes && exercise.predict.length > 0;
    now = exercise.at;
    form.hidden = !asked || !!exercise.predicted;
    keyed(fields, asked ? exercise.predict.map((each, i) => ({ ...each, i })) : [], (each) => `${key}/${exercise.at}/${each.i}`, field);
    byId("exercise-expected").hidden = !asked || !exercise.predicted;
    say(byId("exercise-expected"), exercise.predicted ? t("exercise.you_expect", { values: exercise.predicted.map((value) => number(value)).join(", ") }) : "");
    const last = exercise.marks.at(-1);
    byId("exercise-marked").hidden = !last;
    set(byId("exercise-marked"), { "data-right": last ? String(last.fields.every((each) => each.right)) : null });
    say(byId("exercise-marked"), last ? marksWords(last) : "");
  };
}

// ask(message) gives a promise of the reply.
export function makeExerciseCard(ask) {
  const card = byId("exercise");
  const prediction = makePrediction(ask);
  const verdicts = makeVerdicts(byId("exercise-stages"), { now: false });
  let shown = null;
  return (exercise, room) => {
    card.hidden = !exercise;
    if (!exercise) return;
    const key = `${room}/${exercise.number}`;
    set(card, { "data-exercise": exercise.number, "data-at": exercise.at, "data-observes": String(exercise.observes) });
    say(byId("exercise-title"), `${exercise.number}. ${said(exercise.title)}`);
    say(byId("exercise-part"), partWords(exercise));
    for (const name of ["task", "question", "law"]) say(byId(`exercise-${name}`), said(exercise[name]));
    for (const part of card.querySelectorAll(".law")) part.hidden = !exercise.law;
    say(byId("exercise-now"), stageWords(exercise));
    set(byId("exercise-now"), { "data-right": String(exercise.right) });
    const before = exercise.at > 0 ? exercise.stages[exercise.at - 1] : null;
    const mark = before ? markOf(exercise.results[exercise.at - 1].right) : "";
    byId("exercise-last").hidden = !before?.outcome;
    say(byId("exercise-last"), before?.outcome ? `${mark} ${exercise.at}. ${said(before.outcome)}` : "");
    keyed(byId("exercise-hints"), exercise.hints.map((words, i) => ({ words, i })), (each) => `${key}/${each.i}`, hint);
    byId("exercise-after").hidden = !exercise.explanation;
    say(byId("exercise-explained"), said(exercise.explanation));
    byId("exercise-done").hidden = exercise.at === 0;
    // What was expected is open as soon as a stage came out otherwise.
    const wrong = exercise.results.some((result) => result.right === false);
    if (wrong && shown !== key) {
      shown = key;
      byId("exercise-done").open = true;
    }
    say(byId("exercise-marks"), doneWords(exercise));
    verdicts(key, exercise.stages, exercise.results);
    prediction(exercise, key);
  };
}
