// A HELLO written by hand in the text form, and sent to oneself.

import { el, button, labelled, options, say } from "./dom.js";
import { t } from "./language.js";
import { answerMeaning, answerName } from "./words.js";

// What the neighbor could send now: its table left out, its TSP a round trip of 100 ms ago.
function example(seat) {
  const time = seat.clock.time;
  const tsp = (((time - 100) % 65536) + 65536) % 65536 || 1;
  return `hello ${seat.clock.date % 32768} ${time} ${tsp} 1 0\n`;
}

const BLACKBOARD = "hello 12331 3600000 4660 1 0\n";

// actions: call(name, with) gives a promise of the reply.
export function makeWrite(actions) {
  let seat = null;
  const text = el("textarea",
    { id: "write-text", rows: 6, spellcheck: "false", autocomplete: "off", "aria-describedby": "write-form" });
  const link = el("select", { id: "write-link" });
  const source = el("input", { id: "write-source", type: "text", inputmode: "decimal", size: 15, autocomplete: "off" });
  const said = el("p", { class: "said", role: "status", hidden: true });

  const far = () => seat?.links.find((l) => String(l.link) === link.value);
  function neighbor() {
    const to = far()?.to;
    source.value = to === null || to === undefined ? "192.0.2.1" : `192.0.2.${to + 1}`;
  }
  link.addEventListener("change", neighbor);

  function put(words) {
    text.value = words;
    text.focus();
  }

  async function send() {
    const words = text.value.endsWith("\n") || text.value === "" ? text.value : text.value + "\n";
    const reply = await actions.call("write", { link: Number(link.value), text: words, source: source.value.trim() });
    if (!reply) return;
    said.hidden = false;
    const fault = reply.returned?.fault ? t(...reply.returned.fault) : "";
    say(said, reply.answer === 0 ? t("write.waits") : t("write.refused", { answer: answerName(reply), meaning: answerMeaning(reply.answer), fault }));
  }

  const node = el("section", { class: "card", id: "write", "aria-labelledby": "write-title" },
    el("h2", { id: "write-title" }, t("write.title")),
    el("p", { id: "write-form", class: "quiet" }, t("write.form")),
    el("div", { class: "buttons" },
      button(t("write.example"), () => put(example(seat)), { class: "example" }),
      button(t("write.blackboard"), () => put(BLACKBOARD), { class: "blackboard" })),
    labelled(t("write.text"), text, { class: "wide" }),
    el("div", { class: "row" }, labelled(t("write.at"), link), labelled(t("write.from"), source),
      button(t("write.send"), send, { class: "primary", id: "write-send" })),
    said);

  function update(next) {
    seat = next;
    options(link, seat.links.map((l) => [l.link, t("write.link", { link: l.link })]));
  }
  // At another seat, or in a new room.
  function start(next) {
    update(next);
    text.value = example(seat);
    neighbor();
    said.hidden = true;
  }
  function edit(words, at, from) {
    link.value = String(at);
    source.value = from;
    put(words);
  }
  return { node, start, update, edit };
}
