// Run, pause, slower, faster, one second, one message; waiting for hands; what students see.

import { byId, say, set } from "./dom.js";
import { t } from "./language.js";
import { roomTime, speedWords } from "./words.js";

const speeds = [0.01, 0.02, 0.05, 0.1, 0.2, 0.5, 1, 2, 5, 10, 20, 50, 100];

// The next speed of the list, up or down.
function other(now, up) {
  return up ? speeds.find((s) => s > now) ?? 100 : speeds.findLast((s) => s < now) ?? 0.01;
}

// send(message) shows a refusal by itself.
export function makeControls(send) {
  let room = { speed: 1 };
  const actions = {
    run: () => send({ do: "run" }),
    pause: () => send({ do: "pause" }),
    turn: () => send({ do: room.running ? "pause" : "run" }),
    second: () => send({ do: "one_second" }),
    message: () => send({ do: "one_message" }),
    slower: () => send({ do: "speed", factor: other(room.speed, false) }),
    faster: () => send({ do: "speed", factor: other(room.speed, true) }),
  };
  const ids = { second: "one-second", message: "one-message" };
  for (const name of ["run", "pause", "second", "message", "slower", "faster"]) {
    byId(ids[name] ?? name).addEventListener("click", actions[name]);
  }
  byId("waits").addEventListener("change", (event) => send({ do: "waits", on: event.target.checked }));
  byId("predict").addEventListener("change", (event) => send({ do: "predict", mode: event.target.value }));
  byId("show").addEventListener("change", (event) => send({ do: "show", what: event.target.value }));

  function state(names) {
    if (room.full) return t("teacher.full");
    if (room.waiting_for?.length) return t("teacher.waits_for", { names: room.waiting_for.map((n) => names[n] ?? n).join(", ") });
    return t(room.running ? "teacher.runs" : "teacher.paused");
  }

  function update(next, names) {
    room = next;
    say(byId("room-time"), roomTime(room.time));
    say(byId("room-state"), state(names));
    set(byId("room"), { "data-time": room.time, "data-running": String(room.running), "data-number": room.number });
    say(byId("speed"), speedWords(room.speed));
    set(byId("run"), { class: room.running ? null : "primary" });
    set(byId("pause"), { class: room.running ? "primary" : null });
    set(byId("waits"), { checked: room.waits });
    if (document.activeElement !== byId("predict")) set(byId("predict"), { value: room.predict });
    if (document.activeElement !== byId("show")) set(byId("show"), { value: room.show });
  }
  return { update, actions };
}
