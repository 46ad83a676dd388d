// The texts that people read, in the reader's language: words-en.json and words-de.json, by key.
// Texts that other parts of the class send come as [key, values].

const KNOWN = ["en", "de"];
const STORE = "language";

function chosen() {
  let kept = null;
  try { kept = localStorage.getItem(STORE); } catch { /* no store: the browser's language counts */ }
  const wanted = kept ?? navigator.language.slice(0, 2);
  return KNOWN.includes(wanted) ? wanted : "en";
}

export const language = chosen();
const read = async (code) => (await fetch(`/web/words-${code}.json`)).json();
// A text that another language lacks is shown in English.
const words = language === "en" ? await read("en") : { ...await read("en"), ...await read(language) };
document.documentElement.lang = language;

const numbers = new Intl.NumberFormat(language === "de" ? "de-DE" : "en-US", { maximumFractionDigits: 3 });

// 30000 as "30,000", -51 with a true minus sign.
export function number(n) {
  if (n === null || n === undefined) return "–";
  if (typeof n === "boolean") return t(n ? "yes" : "no");
  if (typeof n !== "number") return String(n);
  const digits = numbers.format(Math.abs(n));
  return n < 0 ? "−" + digits : digits;
}

// A value of a text: a number, words, a text, or a list of texts, which has a line for each.
export function written(value) {
  if (!Array.isArray(value)) return number(value);
  return Array.isArray(value[0]) ? value.map((text) => t(...text)).join("\n") : t(...value);
}

// A text by its key, with its values: numbers as this language writes them, texts within it too.
export function t(key, values = {}) {
  const text = words[key] ?? key;
  return text.replace(/\{(\w+)\}/g, (whole, name) => {
    return name in values ? written(values[name]) : whole;
  });
}

// One text for one thing, another for several: KEY.one and KEY.many.
export function count(key, n, values = {}) {
  return t(`${key}.${n === 1 ? "one" : "many"}`, { n, ...values });
}

export const has = (key) => key in words;

// Fills in what the page itself has: [data-text], [data-title], [data-label] and [data-placeholder].
export function translate(root = document) {
  for (const node of root.querySelectorAll("[data-text]")) node.textContent = t(node.dataset.text);
  for (const [name, attribute] of [["title", "title"], ["label", "aria-label"], ["placeholder", "placeholder"]]) {
    for (const node of root.querySelectorAll(`[data-${name}]`)) node.setAttribute(attribute, t(node.dataset[name]));
  }
}

// Links to sheets that are printed ask for them in this language.
export function translateLinks(root = document) {
  for (const link of root.querySelectorAll('a[href^="/teacher/print/"]')) {
    const address = new URL(link.href);
    address.searchParams.set("language", language);
    link.href = address.pathname + address.search;
  }
}

// Fetches a part of the class; what is refused is said in this language.
export const fetched = (path, more = {}) => fetch(path, { ...more, headers: { "Accept-Language": language } });

// The list in which a reader chooses her language: the page is loaded again in it.
export function offerLanguages(select) {
  select.replaceChildren(...KNOWN.map((code) => new Option(t(`language.${code}`), code, false, code === language)));
  select.addEventListener("change", () => {
    try { localStorage.setItem(STORE, select.value); } catch { /* it is asked again next time */ }
    location.reload();
  });
}
