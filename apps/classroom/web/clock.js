// A seat's clock and the calls that move it.

import { el, button, labelled, say } from "./dom.js";
import { cell } from "./marks.js";
import { t } from "./language.js";
import { sure } from "./sure.js";
import { number, signed, ms } from "./words.js";

// A correction outside these is made at once, and is asked for first.
const SLEWED = [-128, 127];

const driven = (seat) => t(seat.crystal ? "clock.crystal" : "clock.line");

// actions: call(name, with).
export function makeClock(actions) {
  const face = el("p", { class: "face", id: "clock-face" });
  const day = el("p", { class: "quiet", id: "clock-day" });
  const fields = [["time", t("clock.reading")], ["delta", "DELTA"], ["hold", "HOLD"], ["date", "DATE"]];
  const cells = fields.map(([field]) => cell("dd", field));
  const amount = el("input", { id: "set-ms", type: "number", step: 1, value: "50", size: 7 });
  async function set(event) {
    event.preventDefault();
    const by = Math.trunc(Number(amount.value));
    const large = by < SLEWED[0] || by > SLEWED[1];
    if (large && !await sure(t("sure.set", { ms: by }), t("sure.set_yes"))) return;
    actions.call("set", { ms: by });
  }
  const node = el("section", { class: "card", id: "clock", "aria-labelledby": "clock-title" },
    el("h2", { id: "clock-title", class: "hidden" }, t("clock.title")),
    el("div", { class: "faces" }, face, day),
    el("dl", { class: "facts" }, fields.map(([, words], i) => el("div", {}, el("dt", {}, words), cells[i].node))),
    el("div", { class: "row calls", role: "group", "aria-label": t("clock.calls") },
      button(t("clock.tick"), () => actions.call("tick"), { "data-call": "tick" }),
      button(t("clock.adjust"), () => actions.call("adjust"), { "data-call": "adjust" }),
      button(t("clock.second"), () => actions.call("second"), { "data-call": "second" }),
      button(t("clock.read"), () => actions.call("read"), { "data-call": "read" }),
      el("form", { class: "together", onsubmit: set },
        labelled(t("clock.set_by"), amount, { title: t("clock.set_title") }),
        el("button", { type: "submit", "data-call": "set" }, t("clock.set")))));

  function update(seat, marks) {
    const clock = seat.clock;
    say(face, clock.words);
    say(day, `${clock.day}${clock.date >= 32768 ? t("clock.awaiting") : ""}; ${driven(seat)}`);
    const said = [ms(clock.time), `${signed(clock.delta)} ms`, `${number(clock.hold)} s`, String(clock.date)];
    cells.forEach((c, i) => c.update(said[i], clock[fields[i][0]], marks.get(`clock/${fields[i][0]}`)));
  }
  return { node, update };
}
