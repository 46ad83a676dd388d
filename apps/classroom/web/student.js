// The student's page.

import { byId, el, say, set } from "./dom.js";
import { connect, paced } from "./socket.js";
import { makeSeat } from "./seat.js";
import { makePicture } from "./picture.js";
import { makeTraffic } from "./traffic.js";
import { makeTables } from "./table.js";
import { makeExerciseCard } from "./exercisecard.js";
import { answersTable } from "./answer.js";
import { glossary } from "./glossary.js";
import { listen } from "./keys.js";
import { offerLanguages, t, translate } from "./language.js";
import { roomTime, speedWords } from "./words.js";

translate();
offerLanguages(byId("language"));
byId("terms").replaceChildren(glossary());
const seat = makeSeat(byId("seat"), { ask: (message) => ask(message), byHand: (on) => ask({ do: "by_hand", on }) });
const picture = makePicture(byId("picture"));
const traffic = makeTraffic();
const tables = makeTables(byId("tables"));
const exercise = makeExerciseCard((message) => ask(message));
const observed = makeTables(byId("observed-tables"));

function roomWords(room, own) {
  const time = t("student.time", { time: roomTime(room.time) });
  if (room.waiting_for?.includes(own)) return `${time}: ${t("student.waits_you")}`;
  if (room.waiting_for?.length) return `${time}: ${t("student.waits_other")}`;
  return `${time}: ${room.running ? t("student.runs", { speed: speedWords(room.speed) }) : t("student.paused")}`;
}

byId("name-form").addEventListener("submit", async (event) => {
  event.preventDefault();
  try {
    await ask({ do: "name", name: byId("student-name").value.trim() });
    byId("student-name").blur();
  } catch { byId("student-name").focus(); }
});

// The name form is there until a name is written.
function showName(seat) {
  byId("name-form").hidden = !!seat.student;
}

const show = paced((view) => {
  byId("none").hidden = !!view.seat || !!view.observed;
  exercise(view.exercise, view.room.number);
  byId("observed").hidden = !view.observed;
  if (view.observed) observed(view.observed);
  byId("seat").hidden = !view.seat;
  byId("undo").hidden = !view.undo;
  say(byId("room-state"), roomWords(view.room, view.seat?.number));
  set(byId("room-state"), { class: view.room.waiting_for?.includes(view.seat?.number) ? "your-turn" : null });
  byId("predict-asked").hidden = view.room.predict !== "required";
  set(byId("room-state"), { "data-time": view.room.time, "data-running": String(view.room.running) });
  if (view.seat) {
    say(byId("name"), view.seat.student ? `${view.seat.student} · ${t("student.host", { name: view.seat.name })}` : t("student.host", { name: view.seat.name }));
    say(byId("address"), t("student.id", { address: view.seat.address, id: view.seat.id }));
    document.title = t("student.host", { name: view.seat.name });
    showName(view.seat);
    seat.update(view.seat, view.room, view.net_table, view.others?.seats);
  }
  byId("others").hidden = !view.others;
  if (!view.others) return;
  picture(view.others, traffic.busy, view.seat?.number);
  tables(view.others.seats.filter((s) => s.table));
});

const ask = connect((view) => {
  if (view.checklist) seat.setChecklist(view.checklist);
  if (view.answers) byId("answers").replaceChildren(el("summary", {}, t("student.answers")), answersTable(view.answers));
  if (view.others) traffic.add(view.others);
  show(view);
});

byId("undo").addEventListener("click", async () => {
  try {
    await ask({ do: "undo" });
    say(byId("undo-said"), t("undo.done"));
  } catch (error) {
    say(byId("undo-said"), error.message);
  }
});

listen({
  b: () => seat.step(),
  w: () => seat.first() !== undefined && seat.openWalk(seat.first()),
});

// What sticks below the header has to know how high that is.
new ResizeObserver(([entry]) => {
  const sticks = getComputedStyle(entry.target).position === "sticky";
  document.documentElement.style.setProperty("--head", `${sticks ? Math.round(entry.target.offsetHeight) : 0}px`);
}).observe(document.querySelector("header"));
