// A bench file that is chosen: octets or text, as a message that loads it.

import { t } from "./language.js";

const LONGEST = 33956;
const LONGEST_TEXT = 150000;

function base64(octets) {
  let letters = "";
  for (const octet of octets) letters += String.fromCharCode(octet);
  return btoa(letters);
}

// Octets have a 0 in front, and a text has none.
function isText(name, octets) {
  return name.endsWith(".txt") || (!name.endsWith(".bench") && !octets.includes(0));
}

function textOf(octets) {
  try {
    return new TextDecoder("utf-8", { fatal: true }).decode(octets);
  } catch {
    throw new Error(t("bench.no_utf8"));
  }
}

export async function loadMessage(file) {
  const name = file.name.replace(/\.(bench|txt)$/, "").slice(0, 100);
  if (file.size > LONGEST_TEXT) throw new Error(t("bench.too_long"));
  const octets = new Uint8Array(await file.arrayBuffer());
  if (isText(file.name, octets)) return { do: "bench_load", name, text: textOf(octets) };
  if (octets.length > LONGEST) throw new Error(t("refused.bench_long", { octets: octets.length, most: LONGEST }));
  return { do: "bench_load", name, octets: base64(octets) };
}
