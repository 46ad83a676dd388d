// The teacher's exercises: the list, one of her own, and the card of the exercise that is set up, with each copy's
// results. What comes of a stage is shown after it.

import { byId, button, el, keyed, options, say, set } from "./dom.js";
import { count, language, t } from "./language.js";
import { makeVerdicts, markOf, said } from "./verdicts.js";
import { sure } from "./sure.js";

const LONGEST_TEXT = 150000;

function headWords({ copies, students, observers }) {
  const words = t(copies.length === 1 ? "exercise.for.one" : "exercise.for.many", { students, copies: copies.length, hosts: copies[0].seats.length });
  return observers ? `${words} ${count("exercise.observers", observers)}` : words;
}

// Whether it came out as the exercise says, as far as it was carried out.
function verdictWords({ copies, ended }) {
  const wrong = copies.filter((copy) => copy.results.some((result) => result.right === false));
  const done = copies.some((copy) => copy.results.some((result) => result.right !== null));
  const many = copies.length > 1 ? "many" : "one";
  if (!done) return "";
  if (!wrong.length) return t(`exercise.${ended ? "right" : "right_so_far"}.${many}`, { copies: copies.length });
  const stage = wrong[0].results.findIndex((result) => result.right === false) + 1;
  return t(`exercise.wrong.${many}`, { copy: wrong[0].copy + 1, stage });
}

// send(message) tells what is refused; ask(message) gives a promise of the reply; chosen() is called when one is set up.
export function makeExercises(send, chosen, ask) {
  let busy = false;
  let current = null;
  let key = null;
  const verdicts = makeVerdicts(byId("exercise-stages"));
  // Takes one stage, or all: one by one, so that their progress is seen and nobody has to wait.
  async function go(all) {
    if (busy || byId("exercise-next").getAttribute("aria-disabled")) return;
    busy = true;
    let reply;
    do {
      say(byId("exercise-count"), t("exercise.working", { at: current.at, of: current.of }));
      reply = await send({ do: "next" });
    } while (all && reply && !reply.ended);
    busy = false;
    if (current) update(current);
  }
  byId("exercise-next").addEventListener("click", () => go(false));
  byId("exercise-end").addEventListener("click", () => go(true));
  byId("exercise-copy").addEventListener("change", () => current && update(current));

  async function setUp(number) {
    // A room in which nothing has happened yet is no loss.
    const lost = Number(byId("room").dataset.time) > 0;
    if (lost && !await sure(t("sure.set_up"), t("sure.set_up_yes"))) return;
    const students = Math.trunc(Number(byId("exercise-students").value));
    if (await send({ do: "exercise", number, ...(students ? { students } : {}) })) chosen();
  }

  function list(exercises) {
    byId("exercise-list").replaceChildren(...exercises.map(({ number, title, hosts, own }) => el("li", { "data-exercise": number },
      button(t("exercise.set_up"), () => setUp(number), { "aria-label": t("exercise.set_up_this", { number, title: said(title) }) }),
      el("span", {}, `${number}. ${said(title)}`), el("span", { class: "quiet" }, t(own ? "exercise.hosts.own" : "exercise.hosts", { hosts })),
      el("a", { href: `/teacher/print/exercise?number=${number}&language=${language}`, target: "_blank", rel: "noopener" }, t("exercise.print")))));
  }

  // The faults of a text, each with its line.
  function report(words, faults = [], more = 0, refused = false) {
    say(byId("exercise-said"), words);
    set(byId("exercise-said"), { hidden: !words, class: refused ? "said refusal" : "said" });
    const rows = faults.map(({ line, text }) => el("li", { "data-line": line }, el("strong", {}, `${t("exercise.line", { line })} `), t(...text)));
    if (more) rows.push(el("li", {}, count("exercise.more_lines", more)));
    byId("exercise-faults").replaceChildren(...rows);
  }

  async function load(file) {
    if (file.size > LONGEST_TEXT) return report(t("exercise.too_long"), [], 0, true);
    try {
      const text = new TextDecoder("utf-8", { fatal: true }).decode(await file.arrayBuffer());
      const reply = await ask({ do: "exercise_load", name: file.name.replace(/\.txt$/, "").slice(0, 100), text });
      if (reply.faults.length) return report(count("exercise.faults", reply.faults.length + reply.more, { file: file.name }), reply.faults, reply.more, true);
      return report(t("exercise.loaded", { file: file.name, number: reply.number }));
    } catch (error) {
      return report(error instanceof TypeError ? t("exercise.no_utf8") : t("exercise.not_loaded", { why: error.message }), [], 0, true);
    }
  }
  byId("exercise-choose").addEventListener("change", async (event) => {
    const [file] = event.target.files;
    if (file) await load(file);
    event.target.value = "";
  });

  function copyRow(first) {
    const name = button("", () => { byId("exercise-copy").value = String(first.copy); update(current); }, { class: "quiet" });
    const marks = el("span", { class: "marks" }), state = el("span", { class: "quiet" });
    const node = el("li", { "data-copy": first.copy }, name, marks, state);
    function next({ copy, names, results, stage, of, chosen: on }) {
      set(node, { "data-stage": stage, class: on ? "chosen" : null, "data-right": String(results.every((r) => r.right !== false)) });
      say(name, `${copy + 1}: ${names.join(", ")}`);
      say(marks, results.filter((r) => r.right !== null).map((r) => markOf(r.right)).join(""));
      say(state, stage === of ? t("exercise.copy_done") : t("exercise.copy_stage", { stage: stage + 1 }));
    }
    return { node, update: next };
  }

  function update(exercise) {
    current = exercise;
    byId("exercise").hidden = !exercise;
    if (!exercise) return;
    key = `${exercise.number}`;
    set(byId("exercise"), { "data-exercise": exercise.number, "data-at": exercise.at });
    say(byId("exercise-title"), `${exercise.number}. ${said(exercise.title)}`);
    for (const name of ["task", "question", "law"]) say(byId(`exercise-${name}`), said(exercise[name]));
    for (const part of document.querySelectorAll("#exercise .law")) part.hidden = !exercise.law;
    say(byId("exercise-for"), headWords(exercise));
    say(byId("exercise-held"), verdictWords(exercise));
    const { at, of } = exercise;
    const next = exercise.ended ? t("exercise.count", { at, of }) : t("exercise.count_next", { at, of, words: said(exercise.stages[at].words) });
    if (!busy) say(byId("exercise-count"), next);
    for (const id of ["exercise-next", "exercise-end"]) set(byId(id), { "aria-disabled": exercise.ended || busy ? "true" : null });
    byId("exercise-after").hidden = !exercise.explanation;
    say(byId("exercise-explained"), said(exercise.explanation));
    options(byId("exercise-copy"), exercise.copies.map(({ copy, names }) => [copy, `${copy + 1}: ${names.join(", ")}`]));
    const shown = exercise.copies.find(({ copy }) => String(copy) === byId("exercise-copy").value) ?? exercise.copies[0];
    byId("exercise-copies").hidden = exercise.copies.length === 1;
    byId("exercise-which").hidden = exercise.copies.length === 1;
    keyed(byId("exercise-copies"), exercise.copies.map((copy) => ({ ...copy, of: exercise.of, chosen: copy === shown })), (copy) => `${key}/${copy.copy}`, copyRow);
    verdicts(`${key}/${shown.copy}`, exercise.stages, shown.results);
  }
  return { list, update, next: () => go(false), setPlaces: (places) => { byId("exercise-students").value = places; } };
}
