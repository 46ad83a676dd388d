// The answer of the last call: its number, its meaning, what it changes and what it changed.

import { el, headRow } from "./dom.js";
import { changesList, changesWords, shownChanges } from "./marks.js";
import { t, written } from "./language.js";
import { answerChanges, answerMeaning, answerName, callName, number, roomTime, timeOfDay } from "./words.js";

// What a box returns is shown in the walk.
const elsewhere = new Set(["next", "box", "sum"]);

// Where a message that was sent is, and when it arrives.
export function wayWords(way, names) {
  const to = names[way.to] ?? t("host", { id: way.to });
  if (way.to === null) return t("way.no_cable", { message: way.message });
  if (way.lost) return t("way.lost", { message: way.message, to });
  return t("way.goes", { message: way.message, to, time: roomTime(way.arrival) });
}

function returnedValue(name, value, names) {
  if (name === "time") return `${number(value)} ms, ${timeOfDay(value)}`;
  if (name === "way") return wayWords(value, names);
  return written(value);
}

function returnedList(returned = {}, names) {
  const pairs = Object.entries(returned).filter(([name, value]) => !elsewhere.has(name) && value !== null);
  if (!pairs.length) return null;
  return el("dl", { class: "returned" }, pairs.map(([name, value]) => [
    el("dt", {}, t(`returned.${name}`)),
    el("dd", { class: name === "octets" ? "octets" : null, "data-returned": name }, returnedValue(name, value, names)),
  ]));
}

function headline(mark, ...words) {
  return el("p", { class: "headline" }, el("span", { class: "mark", "aria-hidden": "true" }, mark), words);
}

// {node, strip, show(reply), refused(words), note(words)}; `asked` is whom the calls are made of.
export function makeAnswer(id = "answer", asked = t("answer.host")) {
  const body = el("div", { id, class: "answer", role: "status", "aria-live": "polite", "aria-atomic": "true" });
  const title = el("h2", { id: `${id}-title` }, t("answer.last"));
  const node = el("section", { class: "card", "aria-labelledby": title.id }, title, body);
  // The same in a line at the foot of the page, which stays in sight; the card is what is read out.
  const strip = el("p", { class: "strip", "aria-hidden": "true", hidden: true });

  function put(answer, sort, parts, short) {
    body.dataset.answer = answer;
    body.className = `answer ${sort}`;
    body.replaceChildren(...parts.filter(Boolean));
    strip.hidden = !short;
    strip.className = `strip ${sort}`;
    strip.replaceChildren(...(short ?? []));
  }

  function show(reply, names = {}) {
    const call = `${reply.words ?? callName(reply.call)}: `;
    if (reply.answer !== 0) return showRefusal(reply, call, names);
    const inWalk = reply.call === "step" || reply.call === "walk_on";
    const changed = shownChanges(reply.changes).length ? changesList(reply.changes)
      : el("p", { class: "quiet" }, t("answer.nothing"));
    put(0, "done", [
      headline("✓", call, el("strong", {}, answerName(reply))),
      returnedList(reply.returned, names),
      inWalk ? el("p", { class: "quiet" }, t("answer.in_walk")) : changed,
    ], inWalk ? null : [el("strong", {}, `✓ ${call}${answerName(reply)} `), changesWords(reply.changes)]);
  }

  function showRefusal(reply, call, names) {
    const words = t("answer.refused", { meaning: reply.words_of_answer ?? answerMeaning(reply.answer), changes: answerChanges(reply.answer) });
    put(reply.answer, "refusal", [
      headline("✗", call, el("strong", {}, answerName(reply))),
      el("p", {}, words),
      reply.returned?.fault ? el("p", { class: "fault", "data-returned": "fault" }, t(...reply.returned.fault)) : null,
      shownChanges(reply.changes).length ? changesList(reply.changes) : el("p", { class: "quiet" }, t("answer.nothing")),
    ], [el("strong", {}, `✗ ${call}${answerName(reply)} `), words]);
  }

  // A message that the room did not take: no call was made.
  function refused(words) {
    const title = t("answer.not_asked", { asked });
    put("none", "refusal", [headline("✗", el("strong", {}, title)), el("p", {}, words)],
      [el("strong", {}, `✗ ${title}: `), words]);
  }

  function note(words) {
    put("none", "", [el("p", { class: "quiet" }, words)], null);
  }
  return { node, strip, show, refused, note };
}

// All answers, to look up a number.
export function answersTable(answers) {
  return el("table", {}, el("caption", {}, t("answers.title")), headRow(["number", "name", "meaning", "changes"].map((part) => t(`answers.${part}`))),
    el("tbody", {}, answers.map((a) => el("tr", {}, el("th", { scope: "row" }, String(a.number)),
      [a.name, answerMeaning(a.number), answerChanges(a.number)].map((words) => el("td", {}, words))))));
}
