// Rooms to begin with: names and cables for a number of hosts.

import { t } from "./language.js";

export const shapes = ["line", "ring", "star", "tree", "all"].map((shape) => [shape, t(`shape.${shape}`)]);

export const seatName = (i) => String.fromCharCode(65 + i);

export const plainCable = (...ends) => ({ ends, ways: [[20, 40], [20, 40]], loss: [0, 0] });

const plainSeat = (i) => ({ name: seatName(i), difference: i * 250, crystal: false, by_hand: false, clock_host: null });

function pairs(shape, n) {
  const line = Array.from({ length: n - 1 }, (_, i) => [i, i + 1]);
  if (shape === "ring" && n > 2) return [...line, [n - 1, 0]];
  if (shape === "star") return line.map(([i]) => [0, i + 1]);
  // Each host has up to seven below it, so that all are joined.
  if (shape === "tree") return line.map(([i]) => [Math.floor(i / 7), i + 1]);
  if (shape === "all") return line.flatMap(([i]) => Array.from({ length: n - 1 - i }, (_, k) => [i, i + 1 + k]));
  return line;
}

// The seats without a cable, by name.
export function unjoined({ seats, cables }) {
  const joined = new Set(cables.flatMap(({ ends }) => ends.map(([seat]) => seat)));
  return seats.length < 2 ? [] : seats.filter((_, i) => !joined.has(i)).map((seat) => seat.name);
}

// The seats and cables of a room of this shape; no host has more than 8 links, no room more than 32 cables.
export function roomOf(shape, n) {
  const links = new Array(n).fill(0);
  const cables = [];
  for (const [a, b] of pairs(shape, n)) {
    if (links[a] > 7 || links[b] > 7 || cables.length > 31) continue;
    links[a] += 1;
    links[b] += 1;
    cables.push(plainCable([a, links[a]], [b, links[b]]));
  }
  return { seats: Array.from({ length: n }, (_, i) => plainSeat(i)), cables };
}
