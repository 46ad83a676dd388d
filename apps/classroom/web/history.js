// Back in time: the tables and the picture as they were at any call of any room of the class. Students
// notice nothing of it until the teacher lets a room go on from there.

import { byId, options, say, set } from "./dom.js";
import { fetched, t } from "./language.js";
import { makePicture } from "./picture.js";
import { makeTables } from "./table.js";
import { callName } from "./words.js";

const PAUSE = 120;

export function makeHistory(ask) {
  const rooms = byId("history-room");
  const slider = byId("history-line");
  const picture = makePicture(byId("history-picture"));
  const tables = makeTables(byId("history-tables"), { teacher: true });
  let known = [];
  let asked = null;
  let shown = null;
  let timer = null;

  const complain = (words) => say(byId("history-said"), words);

  async function get(path) {
    const answer = await fetched(path);
    if (!answer.ok) throw new Error((await answer.text()).trim());
    return answer.json();
  }

  // The newest question alone is answered.
  async function look() {
    const place = `${rooms.value}/${slider.value}`;
    asked = place;
    try {
      const past = await get(`/teacher/rooms/${place}`);
      if (asked !== place) return;
      shown = { room: Number(rooms.value), line: past.line };
      show(past);
      complain("");
    } catch (error) {
      if (asked === place) complain(error.message);
    }
  }

  function show(past) {
    const { call } = past;
    const words = call ? t("history.call", {
      line: call.line, of: Number(slider.max), call: callName(call.call),
      seat: call.seat === null ? t("history.tutor") : past.seats[call.seat]?.name ?? String(call.seat), answer: call.answer,
    }) : t("history.begin");
    say(byId("history-call"), words);
    set(byId("panel-history"), { "data-room": shown.room, "data-line": shown.line });
    for (const way of past.on_their_way) way.left = Math.max(way.arrives - past.room.time, 0);
    picture(past, () => false);
    tables(past.seats);
  }

  function soon() {
    clearTimeout(timer);
    timer = setTimeout(look, PAUSE);
  }

  function choose(line) {
    slider.value = String(line);
    soon();
  }

  function room() {
    const now = known.find((r) => String(r.number) === rooms.value);
    set(slider, { max: now?.lines ?? 0 });
    choose(now?.lines ?? 0);
  }

  async function open() {
    try {
      const returned = await get("/teacher/rooms");
      const newest = returned.rooms.length !== known.length;
      known = returned.rooms;
      byId("history-undo").checked = returned.undo;
      options(rooms, known.map((r) => [r.number, t("history.room", { number: r.number, title: r.title, lines: r.lines })]));
      if (newest) rooms.value = String(known.at(-1).number);
      room();
    } catch (error) {
      complain(error.message);
    }
  }

  async function goOn() {
    if (!shown) return;
    try {
      const reply = await ask({ do: "go_on_from", ...shown });
      complain(t("history.gone", { number: reply.room }));
      open();
    } catch (error) {
      complain(error.message);
    }
  }

  rooms.addEventListener("change", room);
  slider.addEventListener("input", soon);
  byId("history-back").addEventListener("click", () => choose(Number(slider.value) - 1));
  byId("history-forward").addEventListener("click", () => choose(Number(slider.value) + 1));
  byId("history-go-on").addEventListener("click", goOn);
  byId("history-undo").addEventListener("change", async () => {
    try {
      await ask({ do: "allow_undo", on: byId("history-undo").checked });
    } catch (error) {
      complain(error.message);
    }
  });
  return { open };
}
