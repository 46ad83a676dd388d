// The teacher's page.

import { byId, el, options, say } from "./dom.js";
import { connect, paced } from "./socket.js";
import { makeControls } from "./controls.js";
import { makePicture } from "./picture.js";
import { makeTraffic } from "./traffic.js";
import { makeTables } from "./table.js";
import { makePlot } from "./plot.js";
import { makeCalls } from "./calls.js";
import { makeExercises } from "./exercises.js";
import { makeSetup } from "./setup.js";
import { makeStart } from "./start.js";
import { makeSeat } from "./seat.js";
import { makeTutor } from "./tutor.js";
import { makeBench } from "./bench.js";
import { makeBoard } from "./board.js";
import { makeMatrix } from "./matrix.js";
import { offerLanguages, t, translate, translateLinks } from "./language.js";
import { makeHistory } from "./history.js";
import { makeTabs } from "./tabs.js";
import { answersTable } from "./answer.js";
import { listen } from "./keys.js";

translate();
translateLinks();
offerLanguages(byId("language"));

let view = null;
let room = null;
let exercise = null;

// Sends a message. Gives its reply; where it is refused, that is shown in words, and it gives false.
// It is shown until the next action, and only on the tab on which that was.
let refusal = null;
async function send(message) {
  const tab = document.body.dataset.tab;
  refusal = null;
  try {
    return await ask(message);
  } catch (error) {
    refusal = { tab, words: t("teacher.not_done", { why: error.message }) };
    return false;
  } finally {
    showRefusal();
  }
}

function showRefusal() {
  say(byId("refused"), refusal && refusal.tab === document.body.dataset.tab ? refusal.words : "");
}

const chosen = byId("seat-choice");
const seatNumber = () => Number(chosen.value);
const controls = makeControls(send);
const tables = makeTables(byId("tables"), { teacher: true });
const plot = makePlot();
const calls = makeCalls();
const traffic = makeTraffic();
const exercises = makeExercises(send, () => choose("tables", true), (message) => ask(message));
const setup = makeSetup(send);
const tutor = makeTutor((message) => ask(message));
const bench = makeBench((message) => ask(message));
const seat = makeSeat(byId("seat"), {
  ask: (message) => ask({ ...message, seat: seatNumber() }),
  byHand: (on) => ask({ do: "by_hand", seat: seatNumber(), on }),
  teacher: true,
});
const past = makeHistory((message) => ask(message));
const choose = makeTabs(byId("tabs"), (name) => {
  showRefusal();
  if (name === "history") past.open();
  if (view) show(view);
});
const board = makeBoard(byId("board"), atSeat);
const matrix = makeMatrix();

// Which conditions of the bound no longer hold, and since when.
function showPromise(broken = []) {
  byId("promise").hidden = broken.length === 0;
  say(byId("promise"), broken.length ? t("promise.not", { why: broken.map(([key, values]) => t(key, values)).join("; ") }) : "");
}
const picture = makePicture(byId("picture"), atSeat);

function atSeat(number) {
  chosen.value = String(number);
  choose("seat");
}

const start = makeStart({
  run: controls.actions.run,
  exercises: () => choose("exercises", true),
  byHand: async (number) => {
    await send({ do: "waits", on: true });
    await send({ do: "by_hand", seat: number, on: true });
    atSeat(number);
  },
  walk: (number) => {
    atSeat(number);
    const waiting = view.seats.find((s) => s.number === number).waiting[0];
    if (waiting) seat.openWalk(waiting.message);
  },
});

// What each tab shows is updated only while it is seen.
const panels = {
  tables: () => {
    options(byId("tables-seat"), [["", t("tables.all")], ...view.seats.map((s) => [s.number, s.name])]);
    const wanted = byId("tables-seat").value;
    showPromise(view.promise);
    tables(view.seats.filter((s) => wanted === "" || String(s.number) === wanted), !view.promise?.length);
  },
  plot: () => plot.update(view),
  calls: () => calls.update(view),
  setup: () => setup.update(view),
  nets: () => tutor.update(view),
  bench: () => bench.update(),
  board: () => board.update(view),
  matrix: () => matrix.update(view),
  seat: () => {
    const now = view.seats.find((s) => s.number === seatNumber()) ?? view.seats[0];
    say(byId("seat-title"), t("teacher.at_seat", { name: now.name }));
    seat.update(now, view.room, view.net_table, view.seats);
  },
};

function show(next) {
  view = next;
  const names = Object.fromEntries(view.seats.map((s) => [s.number, s.name]));
  options(chosen, view.seats.map((s) => [s.number, s.name]));
  controls.update(view.room, names);
  picture(view, traffic.busy);
  start.update(view);
  exercises.update(exercise);
  panels[document.body.dataset.tab]?.();
}

const paint = paced(show);

const ask = connect((next, first) => {
  if (first || next.room.number !== room) {
    calls.clear();
    plot.clear();
    traffic.clear();
  }
  room = next.room.number;
  calls.add(next.calls ?? []);
  traffic.add(next);
  plot.add(next.points ?? []);
  if (next.checklist) seat.setChecklist(next.checklist);
  if (next.exercises) exercises.list(next.exercises);
  if (next.exercise !== undefined) exercise = next.exercise;
  if (first) exercises.setPlaces(next.room.places);
  if (next.bench_files) bench.setFiles(next.bench_files);
  if (next.answers) bench.setAnswers(next.answers);
  if (next.bench !== undefined) bench.take(next.bench);
  if (next.answers) byId("answers").replaceChildren(el("summary", {}, t("student.answers")), answersTable(next.answers));
  if (next.addresses) start.setAddresses(next.addresses);
  paint(next);
});

// What is chosen within a tab counts at once, also while the room stands.
for (const field of document.querySelectorAll("[role=tabpanel] > .row select, [role=tabpanel] > .row input")) {
  field.addEventListener("change", () => view && show(view));
}
choose("tables");

// What sticks below the header has to know how high that is.
new ResizeObserver(([entry]) => {
  const sticks = getComputedStyle(entry.target).position === "sticky";
  document.documentElement.style.setProperty("--head", `${sticks ? Math.round(entry.target.offsetHeight) : 0}px`);
}).observe(document.querySelector("header"));

listen({
  r: controls.actions.turn,
  s: controls.actions.second,
  m: controls.actions.message,
  "-": controls.actions.slower,
  "+": controls.actions.faster,
  b: () => seat.step(),
  n: exercises.next,
  e: () => document.body.dataset.tab === "bench" && bench.one(),
});
