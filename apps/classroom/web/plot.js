// The error of one entry over time, inside its band of 101/200 DELAY either way.

import { byId, options, say, set, svg } from "./dom.js";
import { draw, bound, size } from "./plotdraw.js";
import { t } from "./language.js";
import { signed } from "./words.js";

const KEPT = 2000;

function words(all) {
  const last = all.at(-1);
  if (!last) return t("plot.none");
  const [, error, delay] = last;
  const within = [Math.abs(error) <= bound(last) ? "plot.within" : "plot.outside", {}];
  const outside = all.filter((p) => Math.abs(p[1]) > bound(p)).length;
  return t("plot.words", { n: all.length, error: signed(error), delay, bound: bound(last), within,
    all: outside ? ["plot.some_outside", { n: outside }] : ["plot.all_within", {}] });
}

export function makePlot() {
  const series = new Map();
  let room = null;
  let drawn = "";
  const picture = svg("svg", { class: "plot", viewBox: size, role: "img", "aria-describedby": "plot-words" });
  byId("plot").replaceChildren(picture);
  const seat = byId("plot-seat"), entry = byId("plot-entry"), span = byId("plot-span");

  // Each point is [time, error, delay] in the series of its seat and id.
  function add(points) {
    for (const [time, from, id, error, delay] of points) {
      const key = `${from}/${id}`;
      if (!series.has(key)) series.set(key, []);
      const all = series.get(key);
      all.push([time, error, delay]);
      if (all.length > KEPT) all.splice(0, KEPT / 4);
    }
  }

  function update(view) {
    const now = view.room.time;
    const names = view.seats.map((s) => [s.number, s.name]);
    const fresh = room !== view.room.number;
    room = view.room.number;
    options(seat, names);
    options(entry, (view.seats[0]?.table ?? []).map((e) => [e.id, `${e.id} ${e.name}`]));
    if (fresh && names.length > 1) entry.value = String(names[1][0]);
    const all = series.get(`${seat.value}/${entry.value}`) ?? [];
    const state = [room, seat.value, entry.value, span.value, all.length, all.at(-1)?.[0], Math.floor(now / 500)].join();
    if (state === drawn) return;
    drawn = state;
    const from = span.value === "all" ? Math.min(all[0]?.[0] ?? 0, now) : Math.max(0, now - Number(span.value));
    picture.replaceChildren(...draw(all, from, now));
    say(byId("plot-words"), words(all));
    set(picture, { "aria-label": t("plot.label", { entry: entry.value, seat: seat.selectedOptions[0]?.text }) });
  }
  return { add, update, clear: () => series.clear() };
}
