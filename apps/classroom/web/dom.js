// Builds and updates elements. Data goes in as text, never as HTML.

const properties = new Set(["checked", "value", "disabled", "hidden", "open", "selected"]);

// Sets attributes, properties, text ("text") and listeners ("onclick"); touches only what differs.
export function set(node, props) {
  for (const [name, value] of Object.entries(props)) {
    if (name.startsWith("on")) node.addEventListener(name.slice(2), value);
    else if (name === "text") say(node, value);
    else if (properties.has(name)) {
      if (node[name] !== value) node[name] = value;
    } else if (value === null || value === undefined || value === false) node.removeAttribute(name);
    else {
      const text = value === true ? "" : String(value);
      if (node.getAttribute(name) !== text) node.setAttribute(name, text);
    }
  }
  return node;
}

export function say(node, text) {
  const words = text === null || text === undefined ? "" : String(text);
  if (node.textContent !== words) node.textContent = words;
  return node;
}

function build(node, props, children) {
  node.append(...children.flat(Infinity).filter((child) => child !== null && child !== undefined));
  return set(node, props);
}

export function el(tag, props = {}, ...children) {
  return build(document.createElement(tag), props, children);
}

export function svg(tag, props = {}, ...children) {
  return build(document.createElementNS("http://www.w3.org/2000/svg", tag), props, children);
}

export function button(words, onclick, props = {}) {
  return el("button", { type: "button", onclick, ...props }, words);
}

export function labelled(words, field, props = {}) {
  return el("label", props, el("span", {}, words), field);
}

export function headRow(titles) {
  return el("thead", {}, el("tr", {}, titles.map((title) => el("th", { scope: "col" }, title))));
}

export function options(select, pairs) {
  const now = JSON.stringify(pairs);
  if (select.dataset.pairs === now) return;
  const chosen = select.value;
  select.dataset.pairs = now;
  select.replaceChildren(...pairs.map(([value, words]) => el("option", { value: String(value) }, words)));
  if (pairs.some(([value]) => String(value) === chosen)) select.value = chosen;
}

// Keeps a parent's children in step with a list. An item's part, {node, update(item)}, lives as
// long as its key is in the list, so that focus stays where it is.
const parts = new WeakMap();

export function keyed(parent, items, keyOf, make) {
  if (!parts.has(parent)) parts.set(parent, new Map());
  const known = parts.get(parent);
  const keys = new Set(items.map((item) => String(keyOf(item))));
  for (const [key, part] of known) {
    if (!keys.has(key)) {
      part.node.remove();
      known.delete(key);
    }
  }
  let place = parent.firstElementChild;
  for (const item of items) {
    const key = String(keyOf(item));
    if (!known.has(key)) known.set(key, make(item));
    const part = known.get(key);
    if (part.node === place) place = place.nextElementSibling;
    else parent.insertBefore(part.node, place);
    part.update?.(item);
  }
}

export const byId = (id) => document.getElementById(id);
