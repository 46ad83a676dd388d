// Views as the server sends them: at first a full one, then what changed. server/patch.py makes them.

function changed(value, path, change, at = 0) {
  if (at === path.length) {
    if (change.length === 1) return change[0];
    const [start, count, items] = change;
    return [...value.slice(0, start), ...items, ...value.slice(start + count)];
  }
  const key = path[at];
  const copy = Array.isArray(value) ? [...value] : { ...value };
  if (at === path.length - 1 && change.length === 0) delete copy[key];
  else copy[key] = changed(value[key], path, change, at + 1);
  return copy;
}

// The server sends when a message arrived or arrives; how long it waits, and is on its way, is counted here.
function counted(view) {
  const now = view.room.time;
  const waits = (seat) => {
    for (const message of seat?.waiting ?? []) message.waited = now - message.arrived;
    for (const message of seat?.sent ?? []) message.left = Math.max(message.arrival - now, 0);
  };
  waits(view.seat);
  for (const seat of view.seats ?? []) waits(seat);
  for (const part of [view, view.others]) {
    for (const way of part?.on_their_way ?? []) way.left = Math.max(way.arrives - now, 0);
  }
  return view;
}

// take(message) gives the view that is shown now, with what is new in it; null if a patch does not fit
// the view that is here, so that a full one is to be asked for.
export function makeViews() {
  let parts = null;
  let versions = {};
  return function take({ view, patch, news = {} }) {
    if (view) {
      parts = view;
      versions = {};
      return counted({ ...view });
    }
    if (!parts) return null;
    const next = { ...parts };
    for (const [key, [version, changes]] of Object.entries(patch)) {
      if (version !== (versions[key] ?? (key in parts ? 1 : 0)) + 1) return null;
      versions[key] = version;
      for (const [path, ...change] of changes) next[key] = changed(next[key], path, change);
    }
    for (const key of NEWS) delete next[key];
    parts = next;
    return counted({ ...next, ...news });
  };
}

const NEWS = ["calls", "points", "bench", "checklist", "answers", "exercises", "bench_files", "addresses"];
