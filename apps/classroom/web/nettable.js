// The class's net table as everybody sees it: the class's NHOSTS, and rows numbered from 1. What the
// teacher's last call changed is marked.

import { el, headRow, keyed, say } from "./dom.js";
import { cell, marksOf } from "./marks.js";
import { count, number, t } from "./language.js";
import { answerName, callName } from "./words.js";

function row(first) {
  const net = cell("td", "net"), id = cell("td", "id"), name = el("td", { "data-field": "name" });
  const node = el("tr", { "data-row": first.row }, el("th", { scope: "row" }, number(first.row)), net.node, id.node, name);
  function update(now) {
    net.update(now.net, now.net, now.marks.get(`row ${now.row}/net`));
    id.update(number(now.id), now.id, now.marks.get(`row ${now.row}/host id`));
    say(name, now.name || "–");
  }
  return { node, update };
}

// {node, update(net table of a view)}
export function makeNetTable() {
  const caption = el("caption");
  const body = el("tbody");
  const none = el("p", { class: "quiet" }, t("nets.none"));
  const last = el("p", { class: "quiet" });
  const table = el("table", { class: "net-rows" }, caption, headRow(["row", "net", "id", "host"].map((part) => t(`nets.${part}`))), body);
  const rows = el("div", { class: "scroll", tabindex: 0, role: "region", "aria-label": t("nets.title") }, table);
  const node = el("div", {}, rows, none, last);
  let shown;
  // A row that the last call changed is brought into sight, once.
  function bring(call) {
    if (call === shown) return;
    shown = call;
    const place = body.querySelector(".changed")?.parentElement;
    if (place) rows.scrollTop = place.offsetTop - rows.clientHeight / 2;
  }
  function update(net) {
    say(caption, t("nets.caption", { nhosts: net.nhosts, rows: count("nets.rows", net.rows.length) }));
    none.hidden = net.rows.length > 0;
    last.hidden = !net.last;
    if (net.last) say(last, t("nets.last", { call: callName(net.last.call), answer: answerName(net.last) }));
    const marks = marksOf(net.last?.changes);
    keyed(body, net.rows.map((r) => ({ ...r, marks })), (r) => r.row, row);
    bring(JSON.stringify(net.last));
  }
  return { node, update };
}
