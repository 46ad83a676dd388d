// The teacher's bench: a file is loaded, set up, and run by one event, by some, or to its end.

import { byId, options, say, set } from "./dom.js";
import { makeAnswer } from "./answer.js";
import { loadMessage } from "./benchfile.js";
import { makeBenchList, meaningOf } from "./benchlist.js";
import { makeBenchSeats } from "./benchseats.js";
import { count, t, written } from "./language.js";

// This many events are asked for at once; the room carries out fewer, so that progress is seen and nobody has to wait.
const AT_ONCE = 2048;

function fileWords(view) {
  if (!view) return t("bench.no_file");
  const octets = count("bench.octets", view.octets);
  if (view.fault) return t("bench.file_fault", { name: view.name, octets });
  const values = { name: view.name, seats: count("bench.n_seats", view.seats_of_file), cables: count("bench.n_cables", view.cables_of_file),
    events: count("bench.n_events", view.of), nhosts: view.nhosts, size: view.pieces > 1 ? t("bench.pieces", { n: view.pieces }) : octets };
  return t(view.ready ? "bench.file" : "bench.file_not_ready", values);
}

// What came of taking the room as a file.
function roomWords(reply) {
  const parts = [t("bench.taken", { line: reply.lines, of: reply.of, events: count("bench.n_events", reply.events) })];
  if (reply.left_out.length) parts.push(t("bench.left_out", { lines: reply.left_out.join(", ") }));
  if (reply.stopped) parts.push(t("bench.stopped", { why: reply.stopped }));
  return parts.join(" ");
}

// Of a long text the answers of the file that is run now are here.
function ranWords(start, view) {
  if (start === view.done) return t("bench.at_end");
  const here = Math.max(start - view.first, 0);
  const refused = view.answers.slice(here).filter((answer) => answer !== 0).length;
  return t(start < view.first ? "bench.ran_file" : "bench.ran", { first: start, last: view.done - 1, refused });
}

// What the text promises, as far as it was looked at.
function promisedWords({ of, looked, broken }) {
  if (broken.length) return t("bench.broken", { broken });
  return t("bench.kept", { looked, of });
}

// ask(message) gives a promise of the reply.
export function makeBench(ask) {
  let view = null;
  let events = [];
  let names = [];
  let busy = false;
  let stopped = false;
  let ran = null;
  let drawn = null;
  const list = makeBenchList();
  const seats = makeBenchSeats(() => { drawn = null; update(); });
  const answer = makeAnswer("bench-answer", t("bench.asked"));
  byId("bench-answered").replaceChildren(answer.node);

  // Asks; gives the reply, and null where it is refused, which is shown.
  async function asked(message) {
    try {
      const reply = await ask(await message);
      tell("");
      return reply;
    } catch (error) {
      tell(t("teacher.not_done", { why: error.message }), true);
      return null;
    }
  }
  function tell(words, refused = false) {
    set(byId("bench-said"), { class: refused ? "said refusal" : "said", hidden: !words });
    say(byId("bench-said"), words);
  }

  function progress(done, of) {
    set(byId("bench-progress"), { max: of || 1, value: done });
    say(byId("bench-done"), t("bench.done", { done, n: of }));
    set(byId("bench-work"), { "data-done": done, "data-of": of });
  }

  async function run(most) {
    if (busy || !view?.ready) return;
    busy = true;
    stopped = false;
    ran = view.done;
    buttons();
    let left = most, reply = null;
    do {
      reply = await asked({ do: "bench_run", events: Math.min(left, AT_ONCE) });
      left -= reply?.count ?? left;
      if (reply?.count) progress(reply.done, reply.of);
    } while (reply?.count && left > 0 && reply.done < reply.of && !stopped);
    busy = false;
    buttons();
  }

  function buttons() {
    const off = (is) => ({ "aria-disabled": is ? "true" : null });
    const ended = !view?.ready || view.done >= view.of;
    for (const id of ["bench-one", "bench-some", "bench-end"]) set(byId(id), off(busy || ended));
    set(byId("bench-back"), off(busy || !view?.ready));
    set(byId("bench-set-up"), { ...off(busy), class: view?.ready ? null : "primary" });
    set(byId("bench-one"), { class: view?.ready ? "primary" : null });
    set(byId("bench-stop"), off(!busy));
  }

  const click = (id, action) => byId(id).addEventListener("click", (event) => {
    if (!event.currentTarget.getAttribute("aria-disabled")) action();
  });
  byId("bench-choose").addEventListener("change", async (event) => {
    const [file] = event.target.files;
    if (file) await asked(loadMessage(file));
    event.target.value = "";
  });
  click("bench-load-ready", () => asked({ do: "bench_ready", file: byId("bench-ready").value }));
  click("bench-room", async () => {
    const reply = await asked({ do: "bench_room" });
    if (reply) tell(roomWords(reply), !!reply.stopped);
  });
  click("bench-set-up", () => asked({ do: "bench_set_up", net: byId("bench-net").checked ? "class" : "own" }));
  click("bench-one", () => run(1));
  byId("bench-run").addEventListener("submit", (event) => {
    event.preventDefault();
    run(Math.trunc(Number(byId("bench-count").value)));
  });
  click("bench-end", () => run(view.of - view.done));
  click("bench-stop", () => { stopped = true; });
  click("bench-back", () => asked({ do: "bench_back" }));

  // What set-up and runs came to.
  function showLast(last) {
    if (!last) return answer.note(t("bench.nothing"));
    if (last.call !== "bench_event" && last.answer === 0) {
      if (last.call === "bench_set_up") return answer.note(t("bench.is_set_up"));
      // Of a run in pieces the last one is shown: it began where this page began it.
      return answer.note(ranWords(Math.min(ran ?? last.returned.first, last.returned.first), view));
    }
    const [kind, words] = events[last.event - view.first] ?? [];
    const call = kind ? { words: t("bench.event_is", { event: last.event, words }), words_of_answer: meaningOf(kind, last.answer) } : {};
    answer.show({ ...last, ...call });
  }

  // A view's part; the events in words come with a new file alone.
  function take(next) {
    view = next;
    if (!next?.last?.returned.count) ran = null;
    if (!next?.events) return;
    events = next.events;
    names = next.hosts.map((host) => (host ? written(host) : ""));
    list.load(events, next.first);
  }

  function update() {
    if (drawn === view) return;
    drawn = view;
    say(byId("bench-file"), fileWords(view));
    set(byId("bench-file"),
      { "data-number": view?.number, "data-name": view?.name, "data-ready": String(!!view?.ready) });
    byId("bench-fault").hidden = !view?.fault;
    say(byId("bench-fault"), view?.fault ? t("bench.refused", { why: view.fault }) : "");
    byId("bench-work").hidden = !view;
    byId("bench-save").hidden = !view;
    byId("bench-save-text").hidden = !view || !!view.fault;
    buttons();
    if (!view) return;
    progress(view.done ?? 0, view.of ?? 0);
    list.update(view.answers ?? []);
    byId("bench-promised").hidden = !view.promised;
    say(byId("bench-promised"), view.promised ? promisedWords(view.promised) : "");
    seats.update(view, names);
    showLast(view.last);
  }

  function setFiles(files) {
    options(byId("bench-ready"), files.map((name) => [name, name.replaceAll("-", " ")]));
  }
  return { take, update, setFiles, setAnswers: list.setAnswers, one: () => run(1) };
}
