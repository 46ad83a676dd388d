// The board: one row for each seat, those that need help first. A click leads to the seat.

import { byId, button, el, headRow, keyed, say, set } from "./dom.js";
import { count, language, number, t } from "./language.js";
import { answerName, callName, placeName } from "./words.js";

const columns = ["name", "here", "by_hand", "at", "waiting", "calls", "marks", "last", "table", "needs"];

const clockOf = (seconds) => new Date(seconds * 1000).toLocaleTimeString(language, { hour: "2-digit", minute: "2-digit" });

function hereWords(row) {
  if (row.connected) return t("board.there", { time: clockOf(row.since) });
  return row.since === null ? t("board.never") : t("board.gone", { time: clockOf(row.since) });
}

const words = {
  name: (row) => row.name ?? t("board.no_name"),
  here: hereWords,
  by_hand: (row) => t(row.by_hand ? "board.hand" : "board.itself"),
  at: (row) => [row.exercise_number && t("board.exercise", { number: row.exercise_number }), row.box && placeName(row.box)].filter(Boolean).join(", ") || "–",
  waiting: (row) => number(row.waiting),
  calls: (row) => t("board.refused", { calls: row.calls, refusals: row.refusals }),
  marks: (row) => (row.tried ? t(row.second ? "board.of_second" : "board.of", row) : "–"),
  last: (row) => (row.last ? `${callName(row.last.call)}: ${answerName(row.last)}` : "–"),
  table: (row) => t(row.table_right ? "board.right" : "board.not_right"),
  needs: (row) => row.needs.map((key) => t(key)).join(", ") || "–",
};

const values = { table: "table_right", waiting: "waiting", name: "name", here: "connected", marks: "right" };

// choose(seat) leads to a seat.
export function makeBoard(root, choose) {
  const body = el("tbody");
  root.replaceChildren(el("table", {}, headRow([t("board.seat"), ...columns.map((c) => t(`board.${c}`))]), body));

  function row(first) {
    const host = button("", () => choose(first.seat), { class: "quiet board-seat" });
    const cells = columns.map((field) => el("td", { "data-field": field }));
    const node = el("tr", { "data-seat": first.seat, onclick: () => choose(first.seat) }, el("th", { scope: "row" }, host), cells);
    function update(row) {
      say(host, row.host);
      set(node, { class: row.needs.length ? "needs" : null, "data-tried": row.tried, "data-right": row.right, "data-second": row.second });
      columns.forEach((field, i) => {
        say(cells[i], words[field](row));
        if (field in values) set(cells[i], { "data-value": String(row[values[field]]) });
        if (field === "table") set(cells[i], { "data-right": String(row.table_right) });
      });
    }
    return { node, update };
  }

  function update(view) {
    keyed(body, view.board, (r) => r.seat, row);
    const right = view.board.filter((r) => r.table_right).length;
    say(byId("board-words"), count("board.all_right", right, { all: view.board.length }));
  }
  return { update };
}
