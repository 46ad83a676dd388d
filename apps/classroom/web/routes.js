// A seat's host table with its calls: self-report, look up a route, set afresh.

import { el, button, labelled, say } from "./dom.js";
import { makeTable } from "./table.js";
import { t } from "./language.js";
import { sure } from "./sure.js";
import { answerMeaning, answerName } from "./words.js";

function found(reply) {
  if (reply.answer !== 0) return `${answerName(reply)}, ${answerMeaning(reply.answer)}`;
  return t(reply.returned.pid ? "routes.by_link" : "routes.by_itself", { id: reply.returned.id, link: reply.returned.pid });
}

// actions: call(name, with).
export function makeRoutes(actions) {
  const table = makeTable();
  const address = el("input",
    { id: "lookup-address", type: "text", inputmode: "decimal", size: 13, value: "192.0.2.1", autocomplete: "off" });
  const said = el("p", { class: "said", role: "status", hidden: true });
  async function lookup(event) {
    event.preventDefault();
    const reply = await actions.call("lookup", { address: address.value.trim() });
    if (!reply) return;
    said.hidden = false;
    say(said, `${address.value}: ${found(reply)}.`);
  }
  const initialize = async () => (await sure(t("sure.initialize"), t("sure.initialize_yes"))) && actions.call("initialize");
  const node = el("section", { class: "card", id: "routes", "aria-labelledby": "routes-title" },
    el("h2", { id: "routes-title", class: "hidden" }, t("table.title")), table.node,
    el("form", { class: "row", onsubmit: lookup }, labelled(t("routes.to"), address),
      el("button", { type: "submit", "data-call": "lookup" }, t("routes.lookup")),
      button(t("routes.self_report"), () => actions.call("self_report"), { "data-call": "self_report" }),
      button(t("routes.initialize"), initialize,
        { "data-call": "initialize", class: "quiet", title: t("routes.initialize_title") })),
    said);
  return { node, update: table.update };
}
