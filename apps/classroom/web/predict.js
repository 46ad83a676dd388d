// Predict, then see: a form for what a call will set. The room marks each field; after a first miss
// there is a hint and a second try, and then the call is made and the answers are shown.

import { button, el, say } from "./dom.js";
import { glossed } from "./glossary.js";
import { number, t } from "./language.js";

function labelOf(field) {
  const [, id, of] = field.match(/^host (\d+) (.*)$/) ?? [];
  return id === undefined ? t(`field.${field.replaceAll(" ", "_")}`) : t("field.host_entry", { id, field: of });
}

// A number as people write it, "30,000" too; else the text itself.
function read(field, words) {
  const plain = words.trim();
  if (plain === "") return null;
  if (field === "then" || field === "NEIGHBOR-ADDRESS") return plain;
  const digits = plain.replaceAll("−", "-").replace(/[\s,.'’]/g, "");
  return /^[-+]?\d{1,9}$/.test(digits) ? Number(digits) : plain.slice(0, 40);
}

function valueWords(field, value) {
  if (field === "then") return value === "on" ? t("predict.on") : value === "end" ? t("predict.end") : String(value ?? "–");
  return number(value);
}

function inputOf(field) {
  const props = { "data-predict": field, "aria-label": labelOf(field) };
  if (field !== "then") {
    return el("input", { ...props, type: "text", inputmode: field === "NEIGHBOR-ADDRESS" ? "decimal" : "numeric", size: 9, autocomplete: "off" });
  }
  return el("select", props, el("option", { value: "" }, t("predict.choose")),
    el("option", { value: "on" }, t("predict.on")), el("option", { value: "end" }, t("predict.end")));
}

// The marks of a finished or a first try: what was written, and whether it is right.
export function marksList(fields, labels = labelOf) {
  return el("ul", { class: "marks" }, fields.map((mark) => el("li",
    { class: mark.right ? "right" : "wrong", "data-mark": mark.field, "data-right": String(mark.right) },
    el("span", { class: "mark", "aria-hidden": "true" }, mark.right ? "✓" : "✗"), ` ${labels(mark.field)}: `,
    mark.right ? el("strong", {}, valueWords(mark.field, mark.given))
      : [el("span", { class: "before" }, valueWords(mark.field, mark.given)),
        mark.expected === undefined ? ` ${t("predict.wrong")}` : [" ", el("strong", {}, valueWords(mark.field, mark.expected))]])));
}

// The arithmetic in words, a line for each part.
export function arithmetic(texts = []) {
  return el("p", { class: "sum" }, texts.map(([key, values]) => el("span", {}, t(key, values))));
}

export function verdict(made) {
  const key = made.right ? (made.try === 1 ? "predict.right" : "predict.right_second") : "predict.answer";
  return el("p", { class: made.right ? "verdict right" : "verdict wrong", role: "status" }, t(key));
}

// A form. `send(fields)` asks the room; `skip()` makes the call without a prediction, where it may be.
export function makeForm({ send, skip, go, without }) {
  let shown = null;
  let inputs = new Map();
  const title = el("h3", {});
  const about = el("p", { class: "predict-rule" });
  const body = el("div", { class: "predict-fields" });
  const said = el("div", { class: "predict-said", role: "status" });
  const check = el("button", { type: "submit", class: "primary predict-check" }, go());
  const past = button(without(), () => skip(), { class: "quiet predict-skip" });
  async function submit(event) {
    event.preventDefault();
    const fields = {};
    for (const [field, input] of inputs) {
      const value = read(field, input.value);
      if (value !== null) fields[field] = value;
      else if (!input.dataset.optional) {
        say(said, t("predict.fill"));
        input.focus();
        return;
      }
    }
    check.disabled = true;
    try {
      const made = await send(fields);
      if (made && !made.done) tried(made);
    } finally {
      check.disabled = false;
    }
  }
  const node = el("form", { class: "predict", onsubmit: submit, hidden: true }, title, about, body,
    el("div", { class: "buttons" }, check, past), said);

  // What a first try found: the marks, hints, and that there is one more try.
  function tried(made) {
    for (const mark of made.fields) inputs.get(mark.field)?.setAttribute("aria-invalid", String(!mark.right));
    said.replaceChildren(marksList(made.fields),
      ...(made.more ? [el("p", {}, t("predict.more", { n: made.more }))] : []),
      ...made.hints.map((key) => el("p", { class: "hint-words" }, t(key))), el("p", {}, t("predict.again")));
  }

  // Shows the form for these fields; `key` says of what, so that what was written stays.
  function show({ key, fields, heading, required, first, rule = null, optional = [], layout }) {
    node.hidden = false;
    past.hidden = required;
    if (key === shown) return;
    shown = key;
    say(title, heading);
    about.replaceChildren(...(rule ? glossed(t(rule)) : []));
    inputs = new Map(fields.map((field) => [field, inputOf(field)]));
    for (const field of optional) inputs.get(field).dataset.optional = "yes";
    body.replaceChildren(...(layout ? layout(inputs) : [...inputs].map(([field, input]) =>
      el("label", {}, el("span", {}, labelOf(field)), input))));
    if (!fields.length) body.append(el("p", {}, t("predict.nothing")));
    said.replaceChildren();
    if (first) tried(first);
    say(check, go());
  }
  function hide() {
    node.hidden = true;
    shown = null;
  }
  return { node, show, hide, focus: () => body.querySelector("input, select")?.focus() };
}
