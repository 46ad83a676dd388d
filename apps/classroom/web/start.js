// "Start here": from a fresh page to a running room with a walked arrival, each step with a button
// that does it, and with its state in words.

import { byId, el, keyed, say, set } from "./dom.js";
import { t } from "./language.js";

const CLOSED = "start-closed";

function remember(closed) {
  try { localStorage.setItem(CLOSED, closed ? "yes" : "no"); } catch { /* no store: it opens again next time */ }
}

function remembered() {
  try { return localStorage.getItem(CLOSED) === "yes"; } catch { return false; }
}

// actions: run(), byHand(seat), walk(seat), exercises().
export function makeStart(actions) {
  let view = null;
  let walked = false;
  let addresses = [];
  const panel = byId("start"), again = byId("start-again");
  function show(on) {
    panel.hidden = !on;
    again.hidden = on;
    remember(!on);
  }
  byId("start-close").addEventListener("click", () => { show(false); again.focus(); });
  again.addEventListener("click", () => { show(true); byId("start-title").focus(); });
  show(!remembered());

  const second = () => view?.seats[1] ?? view?.seats[0];
  byId("start-run").addEventListener("click", actions.run);
  byId("start-hand").addEventListener("click", () => actions.byHand(second().number));
  byId("start-exercises").addEventListener("click", actions.exercises);
  byId("start-walk").addEventListener("click", () => actions.walk(second().number));

  // The students' addresses, for the seats of this room.
  function pages() {
    const links = view.seats.filter((seat) => addresses[seat.number]);
    byId("start-pages-hint").hidden = links.length > 0;
    byId("start-pages-here").hidden = links.length === 0;
    keyed(byId("start-pages"), links, (seat) => seat.number, (seat) => {
      const link = el("a", { href: addresses[seat.number], target: "_blank", rel: "noopener" });
      return { node: el("li", {}, link), update: ({ name }) => say(link, name) };
    });
  }

  function step(id, done, words) {
    set(byId(id), { class: done ? "done" : null });
    say(byId(id).querySelector(".state"), words);
  }

  function update(next) {
    view = next;
    const seat = second();
    if (!seat) return;
    pages();
    say(panel.querySelector(".start-hand-words"), t("start.hand", { name: seat.name }));
    say(panel.querySelector(".start-walk-words"), t("start.walk", { name: seat.name }));
    const walking = seat.walk && !seat.walk.ended;
    walked = walked || !!seat.walk?.ended;
    const waits = seat.waiting.length > 0;
    const ran = next.room.time > 0 ? "start.it_ran" : "start.to_do";
    step("start-2", next.room.time > 0, t(next.room.running ? "start.it_runs" : ran));
    step("start-3", seat.by_hand, t(seat.by_hand ? "start.is_by_hand" : "start.to_do"));
    const state = walking ? "start.in_walk" : waits ? "start.waits" : "start.when";
    step("start-4", walked, t(walked ? "start.walked" : state));
    byId("start-done").hidden = !walked;
    set(byId("start-walk"), { disabled: !waits && !walking });
  }
  return { update, setAddresses: (list) => { addresses = list; } };
}
