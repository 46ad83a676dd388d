// Which cables have just been used, so that a message of some ms is seen too.

const MOMENT = 700;

export function makeTraffic() {
  const used = new Map();

  // By what is on its way, and by the sends of a view.
  function add({ on_their_way: ways, calls = [], cables }) {
    const now = performance.now();
    for (const way of ways) used.set(way.cable, now);
    for (const call of calls) {
      if (call.call !== "send" || call.answer !== 0) continue;
      const cable = cables.find((c) => c.ends.some(([seat, link]) => seat === call.seat && link === call.with.link));
      if (cable) used.set(cable.cable, now);
    }
  }
  return { add, clear: () => used.clear(), busy: (cable) => performance.now() - (used.get(cable) ?? -MOMENT) < MOMENT };
}
