// Draws a series of stores, [time, error, delay] each, with axes and the band of the bound.

import { svg } from "./dom.js";
import { t } from "./language.js";
import { number, signed } from "./words.js";

const wide = 800, high = 400, left = 88, right = 16, top = 14, foot = 58;
// An entry that is not stored for so long has gone down.
const HELD = 120000;
const DOTS = 300;

export const size = `0 0 ${wide} ${high}`;
export const bound = ([, , delay]) => (delay * 101) / 200;

// Steps of 1, 2 or 5 times a power of ten, about `about` of them.
function ticks(from, to, about) {
  const raw = (to - from) / about || 1;
  const power = 10 ** Math.floor(Math.log10(raw));
  const step = [1, 2, 5, 10].map((k) => k * power).find((s) => s >= raw);
  const all = [];
  for (let t = Math.ceil(from / step) * step; t <= to; t += step) all.push(Math.round(t * 1000) / 1000);
  return all;
}

// The stores from a time on, with the one before it moved there.
function since(all, from) {
  const before = all.findLastIndex((p) => p[0] <= from);
  return all.slice(Math.max(0, before)).map(([time, ...rest]) => [Math.max(time, from), ...rest]);
}

function axes(x, y, from, to, most) {
  const across = { x1: left, x2: wide - right };
  return [
    ...ticks(-most, most, 6).map((v) => svg("g", { class: "tick" },
      svg("line", { ...across, y1: y(v), y2: y(v), class: v === 0 ? "zero" : null }),
      svg("text", { x: left - 8, y: Number(y(v)) + 6, class: "end" }, signed(v)))),
    ...ticks(from / 1000, to / 1000, 6).map((s) => svg("text",
      { x: x(s * 1000), y: high - foot + 24, class: "mid" }, number(s))),
    svg("text", { x: (left + wide) / 2, y: high - 8, class: "mid title" }, t("plot.x")),
    svg("text", { class: "mid title", transform: `translate(20 ${(high - foot) / 2}) rotate(-90)` }, t("plot.y")),
  ];
}

// The parts of the picture.
export function draw(all, from, now) {
  const shown = since(all, from);
  const to = Math.max(now, from + 1000);
  const most = Math.max(60, ...shown.map((p) => Math.max(bound(p), Math.abs(p[1])))) * 1.08;
  const x = (t) => (left + ((t - from) / (to - from)) * (wide - left - right)).toFixed(1);
  const y = (v) => (top + ((most - v) / (2 * most)) * (high - top - foot)).toFixed(1);
  const line = [], band = [], edges = [], dots = [];
  let last = null;
  shown.forEach((p, i) => {
    const [time, error] = p;
    const end = Math.min(shown[i + 1]?.[0] ?? to, time + HELD);
    const [start, stop, upper, lower] = [x(time), x(end), y(bound(p)), y(-bound(p))];
    line.push(`${last === time ? "L" : "M"}${start} ${y(error)} H${stop}`);
    band.push(`M${start} ${upper} H${stop} V${lower} H${start} Z`);
    edges.push(`M${start} ${upper} H${stop} M${start} ${lower} H${stop}`);
    const outside = Math.abs(error) > bound(p);
    dots.push(svg("circle", { cx: start, cy: y(error), r: 4, class: outside ? "dot outside" : "dot" }));
    last = end;
  });
  return [
    svg("path", { class: "band", d: band.join(" ") }), ...axes(x, y, from, to, most),
    svg("path", { class: "edge", d: edges.join(" ") }), svg("path", { class: "error", d: line.join(" ") }),
    ...dots.slice(-DOTS),
  ];
}
