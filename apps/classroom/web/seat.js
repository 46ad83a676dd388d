// All that is done at one seat. The student's page is this; the teacher has it as "At seat B".

import { el, set, say } from "./dom.js";
import { makeAnswer } from "./answer.js";
import { makeClock } from "./clock.js";
import { makeLinks } from "./links.js";
import { makeRoutes } from "./routes.js";
import { makeNetTable } from "./nettable.js";
import { makeMessages } from "./messages.js";
import { makeWalk } from "./walk.js";
import { makeWrite } from "./write.js";
import { marksOf } from "./marks.js";
import { t } from "./language.js";

// ask(message) sends a call of this seat; byHand(on) lets it work by hand or by itself; a teacher is
// never asked for a prediction.
export function makeSeat(root, { ask, byHand, teacher = false }) {
  const answer = makeAnswer();
  const netTable = makeNetTable();
  let seat = null;
  let own = null;
  let place = null;
  let names = {};

  // A reply, or why there is none, stays until the next action at this seat.
  async function asked(message, show) {
    try {
      own = await ask(message);
      show(own);
      return own;
    } catch (error) {
      own = { refused: error.message };
      answer.refused(error.message);
      return null;
    }
  }
  function call(name, more = {}) {
    return asked({ do: "call", call: name, ...more }, (reply) => {
      if (reply.answer === undefined) answer.note(t("answer.dropped"));
      else answer.show(reply, names);
    });
  }
  // The marks of a prediction; where it is finished, its call was made.
  async function predict(message) {
    const made = await asked({ do: "predict", ...message }, (reply) => reply.done && answer.show(reply.reply, names));
    if (made?.done) own = made.reply;
    return made;
  }
  async function openWalk(message) {
    const reply = await call("open_walk", { message });
    if (reply?.answer === 0) parts.walk.bring();
  }

  const actions = { call, predict, teacher, walk: openWalk, edit: (...text) => parts.write.edit(...text) };
  const parts = {
    clock: makeClock(actions), links: makeLinks(actions), routes: makeRoutes(actions),
    messages: makeMessages(actions), walk: makeWalk(actions), write: makeWrite(actions),
  };
  async function turn() {
    try {
      await byHand(hand.checked);
    } catch (error) {
      own = { refused: error.message };
      answer.refused(error.message);
      if (seat) hand.checked = seat.by_hand;
    }
  }
  const hand = el("input", { type: "checkbox", id: "by-hand", onchange: turn });
  const handWords = el("span", { class: "quiet" });
  const label = el("label", { class: "check" }, hand, el("span", {}, t("seat.by_hand")));
  const mode = el("p", { class: "row mode" }, label, handWords);
  const afresh = el("p", { class: "afresh", id: "afresh", role: "status", hidden: true });
  const nets = el("section", { class: "card", id: "nets" }, netTable.node);
  root.replaceChildren(mode, afresh, el("div", { class: "seat" },
    el("div", { class: "column" }, parts.clock.node, parts.links.node, parts.routes.node, nets),
    el("div", { class: "column" }, answer.node, parts.walk.node, parts.messages.node, parts.write.node)), answer.strip);

  // `room` is the room of a view: in a new one, and at another seat, nothing was asked yet. `net` is
  // the class's net table.
  function update(next, room, net, seats = []) {
    if (place !== `${room.number}/${next.number}`) {
      place = `${room.number}/${next.number}`;
      own = null;
      answer.note(t("answer.none"));
      parts.write.start(next);
    }
    seat = next;
    names = Object.fromEntries([...seat.table, ...seats.map((s) => ({ id: s.number, name: s.name }))].map((e) => [e.id, e.name]));
    if (!own && seat.last && seat.by_hand) answer.show(seat.last, names);
    const reply = own ?? (seat.by_hand ? seat.last : null);
    const marks = marksOf(reply?.changes);
    set(root, { "data-seat": seat.number, class: seat.walk && !seat.walk.ended ? "in-walk" : null });
    afresh.hidden = seat.nhosts === net.nhosts;
    say(afresh, afresh.hidden ? "" : t("seat.other_nhosts", { class: net.nhosts, own: seat.nhosts }));
    netTable.update(net);
    set(hand, { checked: seat.by_hand });
    say(handWords, seat.by_hand ? t("seat.hand_words") : t("seat.itself_words"));
    const predicts = teacher ? "off" : room.predict ?? "off";
    for (const part of [parts.walk, parts.links, parts.messages]) part.setMode(predicts);
    for (const part of Object.values(parts)) part.update(seat, marks);
  }
  const { setChecklist, step } = parts.walk;
  return { update, setChecklist, step, openWalk, first: () => seat?.waiting[0]?.message };
}
