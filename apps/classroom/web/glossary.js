// The words of HELLO, explained behind a "?" beside each.

import { button, el } from "./dom.js";
import { has, t } from "./language.js";

// The longer names first, so that KEEP-ALIVE is one word.
export const TERMS = ["NEIGHBOR-ADDRESS", "LOCAL-ADDRESS", "ADDRESS-OFFSET", "KEEP-ALIVE", "CLOCK-TICK", "OFFSET", "NHOSTS",
  "DELAY", "DELTA", "CLOCK", "HOLD", "DATE", "TTL", "TSP", "PID"];
const FIND = new RegExp(`(${TERMS.join("|")})`);

function explained(term, from) {
  const open = document.querySelector(".gloss-open");
  const again = open?.dataset.term === term && open.previousElementSibling === from;
  open?.remove();
  if (again) return;
  from.after(el("span", { class: "gloss-open", role: "note", "data-term": term }, `${term}: ${t(`term.${term}`)}`));
}

// A "?" that shows what a term means; a second press hides it.
export function question(term) {
  const node = button("?", () => explained(term, node), { class: "gloss", "aria-label": t("gloss.what", { term }), title: t(`term.${term}`) });
  return node;
}

// A text in which the first use of each term has its "?".
export function glossed(text) {
  const seen = new Set();
  return text.split(FIND).flatMap((part) => {
    if (!TERMS.includes(part) || seen.has(part) || !has(`term.${part}`)) return [part];
    seen.add(part);
    return [part, question(part)];
  });
}

// All terms, in a list that opens.
export function glossary() {
  return el("details", { id: "glossary" }, el("summary", {}, t("gloss.title")), el("dl", { class: "terms" },
    [...TERMS].sort().map((term) => [el("dt", {}, term), el("dd", {}, t(`term.${term}`))])));
}
