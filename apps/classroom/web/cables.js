// The times and losses of cables in words.

import { t } from "./language.js";
import { way } from "./words.js";

// The arrow that points from one place to another.
export function arrow([x1, y1], [x2, y2]) {
  return "→↘↓↙←↖↑↗"[(Math.round((Math.atan2(y2 - y1, x2 - x1) * 4) / Math.PI) + 8) % 8];
}

// The two lines at a cable: time and loss where both ways are alike, else a line for each way,
// behind what is said for the two directions.
export function cableWords(cable, directions) {
  const loss = [0, 1].map((i) => (cable.loss?.[i] ? t("picture.lost", { n: cable.loss[i] }) : ""));
  const [there, back] = cable.ways.map((times) => `${way(times)} ms`);
  if (there === back && loss[0] === loss[1]) return [there, loss[0].slice(2)];
  return [`${directions[0]} ${there}${loss[0]}`, `${directions[1]} ${back}${loss[1]}`];
}

function cableSentence(cable, names) {
  const [a, b] = cable.ends.map((end) => names[end[0]]);
  return cableWords(cable, [`${a}→${b}`, `${b}→${a}`]).filter(Boolean).join(", ");
}

// Under the picture: the cables, where all are alike, or where there are too many for words at each.
export function noteWords(cables, names, many) {
  const kinds = new Map();
  for (const cable of cables) {
    const words = cableSentence(cable, names);
    kinds.set(words, (kinds.get(words) ?? 0) + 1);
  }
  const [most, times] = [...kinds].sort((a, b) => b[1] - a[1])[0] ?? ["", 0];
  if (cables.length > 2 && times === cables.length) return t("picture.all_cables", { words: most });
  if (!many) return "";
  const others = cables.filter((cable) => cableSentence(cable, names) !== most);
  const ends = (cable) => cable.ends.map(([seat]) => names[seat]).join("–");
  return t("picture.most_cables", { words: most, others: others.map((cable) => `${ends(cable)}: ${cableSentence(cable, names)}`).join("; ") });
}
