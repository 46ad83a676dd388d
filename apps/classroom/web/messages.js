// The messages that wait at a seat's links, and what can be done with each.

import { el, button, headRow, keyed, say } from "./dom.js";
import { inside } from "./packet.js";
import { makeForm } from "./predict.js";
import { number, t } from "./language.js";
import { sure } from "./sure.js";
import { answerMeaning, answerName, ms, roomTime } from "./words.js";

// The answer to "will it be taken?" in words.
function inspected({ answer, returned, ...reply }) {
  if (answer !== 0) return t("messages.not_taken", { answer: answerName({ answer, ...reply }), meaning: answerMeaning(answer) });
  return t("messages.taken", { source: returned.source, time: returned.time, tsp: returned.tsp, nhosts: returned.nhosts });
}

// actions: call(name, with) gives a promise of the reply, null where the room did not take it;
// walk(message) opens a walk; edit(text, link, from) puts a text into the editor; predict(message).
export function makeMessages(actions) {
  let mode = "off";
  let seat = null;
  let asked = null;
  const list = el("div", { class: "messages" });
  const none = el("p", { class: "quiet" });
  const lost = el("p", { class: "afresh", id: "lost", role: "status", hidden: true });
  const title = el("h2", { id: "messages-title", tabindex: -1 }, t("messages.title"));
  const node = el("section", { class: "card", id: "messages", "aria-labelledby": "messages-title" }, title, lost, none, list);

  // The fields of an arrival: its answer, and of each entry DELAY and OFFSET where they change.
  function layout(inputs) {
    const entry = (id, field) => inputs.get(`host ${id} ${field}`);
    const rows = seat.table.map((e) => el("tr", {}, el("th", { scope: "row" }, `${e.id} ${e.name}`),
      el("td", {}, number(e.delay)), el("td", {}, entry(e.id, "DELAY")),
      el("td", {}, number(e.offset)), el("td", {}, entry(e.id, "OFFSET"))));
    const head = headRow([t("table.host"), t("predict.delay_now"), t("predict.delay_then"), t("predict.offset_now"), t("predict.offset_then")]);
    return [el("label", {}, el("span", {}, t("field.answer")), inputs.get("answer")), el("p", { class: "quiet" }, t("predict.entries")),
      el("div", { class: "scroll tall" }, el("table", {}, head, el("tbody", {}, rows)))];
  }

  function card(first) {
    const head = el("h3");
    const said = el("p", { class: "said", role: "status", hidden: true });
    const call = (name) => actions.call(name, { message: first.message });
    async function inspect() {
      const reply = await call("inspect");
      if (!reply) return;
      say(said, inspected(reply));
      said.hidden = false;
    }
    const form = makeForm({
      send: (fields) => actions.predict({ of: "receive", message: first.message, fields }),
      skip: () => call("receive"), go: () => t("predict.check_take"), without: () => t("predict.skip_take"),
    });
    function take() {
      if (mode === "off" || actions.teacher) return call("receive");
      asked = first.message;
      const fields = ["answer", ...seat.table.flatMap((e) => [`host ${e.id} DELAY`, `host ${e.id} OFFSET`])];
      form.show({ key: String(first.message), fields, layout, optional: fields.slice(1), heading: t("predict.arrival"),
        required: mode === "required", first: seat.trying?.find((tried) => tried.of === "receive" && tried.call.message === first.message) });
      return form.focus();
    }
    const drop = async () => (await sure(t("sure.drop", { message: first.message }), t("sure.drop_yes"))) && call("drop");
    const edit = () => actions.edit(first.text, first.link, first.from);
    const part = el("article", { class: "message", "data-message": first.message }, head,
      el("div", { class: "buttons" },
        button(t("messages.inspect"), inspect, { class: "inspect" }),
        button(t("messages.take"), take, { class: "receive" }),
        button(t("messages.walk"), () => actions.walk(first.message), { class: "open-walk primary" }),
        button(t("messages.edit"), edit, { class: "edit" }),
        button(t("messages.drop"), drop, { class: "drop quiet" })),
      said, form.node, inside(first, list.childElementCount === 0));
    function update({ message, link, from, waited }) {
      say(head, t("messages.head", { message, link, from, waited: ms(waited) }));
      if (asked !== first.message || mode === "off") form.hide();
    }
    return { node: part, update };
  }

  function update(next) {
    seat = next;
    none.hidden = seat.waiting.length > 0;
    say(none, seat.by_hand ? t("messages.none_by_hand") : t("messages.none_by_itself"));
    lost.hidden = !seat.lost?.length;
    say(lost, (seat.lost ?? []).map((l) => t("messages.lost", { ...l, time: roomTime(l.time) })).join(" "));
    const focused = list.contains(document.activeElement);
    keyed(list, seat.waiting, (m) => m.message, card);
    if (focused && !list.contains(document.activeElement)) title.focus();
  }
  return { node, update, setMode: (next) => { mode = next; } };
}
