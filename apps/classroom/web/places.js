// Where the hosts are in the picture: a cable never runs behind a host that it does not join.
// Each part of the net has its own area: a ring with its tails outside, a tree with its centre in the
// middle, a line in a row. What is none of these begins as a round and is moved until no cable is hidden.

const GAP = 8;

// The neighbors of each host, by seat numbers.
function neighborsOf(seats, cables) {
  const near = new Map(seats.map((seat) => [seat, []]));
  for (const [a, b] of cables) {
    if (!near.has(a) || !near.has(b) || near.get(a).includes(b)) continue;
    near.get(a).push(b);
    near.get(b).push(a);
  }
  return near;
}

function parts(seats, near) {
  const seen = new Set();
  const all = [];
  for (const first of seats) {
    if (seen.has(first)) continue;
    const found = [first];
    seen.add(first);
    for (const at of found) for (const to of near.get(at)) if (!seen.has(to)) { seen.add(to); found.push(to); }
    all.push(found);
  }
  return all;
}

// What is left when hosts with one neighbor are taken away again and again.
function coreOf(part, near) {
  const core = new Set(part);
  const degree = (seat) => near.get(seat).filter((to) => core.has(to)).length;
  for (let again = true; again;) {
    again = false;
    for (const seat of core) if (degree(seat) < 2) { core.delete(seat); again = true; }
  }
  return core;
}

// A round trip through the core, as long as one is found.
function order(core, near) {
  const first = Math.min(...core);
  const path = [first];
  const used = new Set(path);
  for (let at = first; ;) {
    const next = near.get(at).filter((to) => core.has(to) && !used.has(to)).sort((a, b) => near.get(a).length - near.get(b).length || a - b)[0];
    if (next === undefined) break;
    path.push(next);
    used.add(next);
    at = next;
  }
  return [...path, ...[...core].filter((seat) => !used.has(seat))];
}

// The children of a tree that hangs at a host.
const childrenOf = (seat, from, near, core) => near.get(seat).filter((to) => to !== from && !core.has(to));

function deepest(seat, from, near, core) {
  return Math.max(0, ...childrenOf(seat, from, near, core).map((to) => 1 + deepest(to, seat, near, core)));
}

function leaves(seat, from, near, core) {
  const under = childrenOf(seat, from, near, core);
  return under.length ? under.reduce((sum, to) => sum + leaves(to, seat, near, core), 0) : 1;
}

// A tree outward from a place: each child in its share of the angle.
function outward(spots, seat, from, radius, step, [low, high], near, core) {
  const under = childrenOf(seat, from, near, core);
  const all = under.reduce((sum, to) => sum + leaves(to, seat, near, core), 0);
  let at = low;
  for (const to of under) {
    const share = ((high - low) * leaves(to, seat, near, core)) / all;
    const angle = at + share / 2;
    spots.set(to, [radius * Math.cos(angle), radius * Math.sin(angle)]);
    outward(spots, to, seat, radius + step, step, [at, at + share], near, core);
    at += share;
  }
}

// Places of one part between -1 and 1.
function shapeOf(part, near) {
  const spots = new Map();
  const core = coreOf(part, near);
  if (core.size) {
    const ring = order(core, near);
    const depth = Math.max(...ring.map((seat) => deepest(seat, null, near, core)));
    const radius = 1 / (1 + 0.7 * depth);
    const start = ring.length === 4 ? -Math.PI * 0.75 : -Math.PI / 2;
    ring.forEach((seat, i) => {
      const angle = start + (2 * Math.PI * i) / ring.length;
      const half = Math.PI / ring.length;
      spots.set(seat, [radius * Math.cos(angle), radius * Math.sin(angle)]);
      outward(spots, seat, null, radius + 0.7 * radius, 0.7 * radius, [angle - half, angle + half], near, core);
    });
    return spots;
  }
  const most = [...part].sort((a, b) => near.get(b).length - near.get(a).length || a - b)[0];
  if (near.get(most).length > 2) {
    const depth = deepest(most, null, near, core);
    spots.set(most, [0, 0]);
    outward(spots, most, null, 1 / depth, 1 / depth, [-Math.PI, Math.PI], near, core);
    return spots;
  }
  const ends = part.filter((seat) => near.get(seat).length < 2);
  const line = [Math.min(...ends)];
  while (line.length < part.length) line.push(near.get(line.at(-1)).find((to) => !line.includes(to)));
  const open = line.length > 3;
  line.forEach((seat, i) => {
    const angle = Math.PI + (2 * Math.PI * i) / line.length;
    spots.set(seat, open ? [Math.cos(angle), Math.sin(angle)] : [line.length === 1 ? 0 : -1 + (2 * i) / (line.length - 1), 0]);
  });
  return spots;
}

// Whether a line from a to b runs behind a box around c.
export function hides([ax, ay], [bx, by], [cx, cy], [wide, high]) {
  const halfX = wide / 2 + 3, halfY = high / 2 + 3;
  if (Math.max(ax, bx) < cx - halfX || Math.min(ax, bx) > cx + halfX) return false;
  if (Math.max(ay, by) < cy - halfY || Math.min(ay, by) > cy + halfY) return false;
  // All four corners on one side of the line: it passes beside the box.
  const side = (x, y) => (bx - ax) * (y - ay) - (by - ay) * (x - ax);
  const corners = [side(cx - halfX, cy - halfY), side(cx + halfX, cy - halfY), side(cx - halfX, cy + halfY), side(cx + halfX, cy + halfY)];
  return !(corners.every((value) => value > 0) || corners.every((value) => value < 0));
}

// How bad an arrangement is: hosts over each other, cables behind hosts, crossings, long cables.
function cost(spots, part, edges, box) {
  let sum = 0;
  for (let i = 0; i < part.length; i += 1) {
    for (let k = i + 1; k < part.length; k += 1) {
      const [a, b] = [spots.get(part[i]), spots.get(part[k])];
      const over = Math.min(box[0] + GAP - Math.abs(a[0] - b[0]), box[1] + GAP - Math.abs(a[1] - b[1]));
      if (over > 0) sum += 1000 + over;
    }
  }
  for (const [a, b] of edges) {
    const [from, to] = [spots.get(a), spots.get(b)];
    for (const seat of part) if (seat !== a && seat !== b && hides(from, to, spots.get(seat), box)) sum += 1000;
    sum += Math.hypot(from[0] - to[0], from[1] - to[1]) / 50;
  }
  return sum;
}

// Moves hosts within an area until nothing is hidden; the same room always ends alike.
function arranged(spots, part, edges, area, box) {
  let seed = 12345;
  const chance = () => { seed = (seed * 1103515245 + 12345) % 2147483648; return seed / 2147483648; };
  let now = cost(spots, part, edges, box);
  for (let round = 0; round < 3000 && now >= 1000; round += 1) {
    const seat = part[Math.floor(chance() * part.length)];
    const other = part[Math.floor(chance() * part.length)];
    const [was, there] = [spots.get(seat), spots.get(other)];
    const swap = seat !== other && chance() < 0.3;
    if (swap) { spots.set(seat, there); spots.set(other, was); } else {
      spots.set(seat, [area[0] / 2 + (chance() - 0.5) * (area[0] - box[0]), area[1] / 2 + (chance() - 0.5) * (area[1] - box[1])]);
    }
    const next = cost(spots, part, edges, box);
    if (next <= now) now = next;
    else { spots.set(seat, was); if (swap) spots.set(other, there); }
  }
  return spots;
}

// More than these stand along the four sides of their area, where they are a ring or a line.
const ROUND = 8;

function sides(list, area, box) {
  const last = list.length > 12 ? 4 : 3;
  const slots = [];
  for (let k = 0; k < last; k += 1) slots.push([k, 0]);
  for (let k = 0; k < last; k += 1) slots.push([last, k]);
  for (let k = last; k > 0; k -= 1) slots.push([k, last]);
  for (let k = last; k > 0; k -= 1) slots.push([0, k]);
  return new Map(list.map((seat, i) => {
    const slot = slots[Math.floor((i * slots.length) / list.length)];
    return [seat, slot.map((at, axis) => box[axis] / 2 + (at * (area[axis] - box[axis])) / last)];
  }));
}

// Whether a part is a plain ring or a plain line.
const plain = (part, near) => part.every((seat) => near.get(seat).length <= 2);

function highOf(count, box) {
  const rows = count < 3 ? 1 : count < 5 ? 2 : count < 8 ? 3 : count < 11 ? 4 : 5;
  return rows * (box[1] + (rows > 3 ? 26 : 44)) - (rows > 1 ? 0 : 24);
}

// One part within an area: its places, and whether nothing is hidden there.
function placed(part, near, area, box) {
  const edges = part.flatMap((seat) => near.get(seat).filter((to) => to > seat).map((to) => [seat, to]));
  const core = coreOf(part, near);
  let spots;
  if (part.length > ROUND && plain(part, near)) {
    spots = sides(core.size ? order(core, near) : [...shapeOf(part, near).keys()], area, box);
  } else {
    const shape = shapeOf(part, near);
    const range = [0, 1].map((i) => [...shape.values()].map((spot) => spot[i]));
    const low = range.map((all) => Math.min(...all)), far = range.map((all) => Math.max(...all) - Math.min(...all));
    const fill = (value, i) => (far[i] < 1e-6 ? area[i] / 2 : box[i] / 2 + ((value - low[i]) / far[i]) * (area[i] - box[i]));
    spots = new Map([...shape].map(([seat, spot]) => [seat, spot.map(fill)]));
  }
  arranged(spots, part, edges, area, box);
  return { spots, free: cost(spots, part, edges, box) < 1000 };
}

// The height of the picture, the size of a host's box and the place of each host, by seat, in pixels.
export function places(seats, cables, wide) {
  const near = neighborsOf(seats, cables);
  const all = parts(seats, near);
  const biggest = Math.max(...all.map((part) => part.length), 1);
  const columns = all.length > 1 && biggest < 4 && wide > 400 ? 2 : 1;
  const across = biggest > 12 ? 5 : biggest > 4 ? 4 : biggest > 2 ? 3 : 2;
  const widest = Math.max(76, Math.min(150, Math.floor(wide / columns / across) - 16));
  // Where a net is too dense for its area, that grows, and the boxes become narrower.
  for (const [taller, narrower] of [[1, 1], [1.3, 0.9], [1.7, 0.8], [2.2, 0.7]]) {
    const box = [Math.max(76, Math.floor(widest * narrower)), 70];
    const made = arrangement(all, near, wide, columns, box, taller);
    if (made.free || taller > 2) return made;
  }
  return null;
}

function arrangement(all, near, wide, columns, box, taller) {
  const spots = new Map();
  let [left, top, row, free] = [0, 4, 0, true];
  all.forEach((part, i) => {
    const area = [wide / columns - 8, taller * highOf(part.length, box)];
    const made = placed(part, near, area, box);
    free = free && made.free;
    for (const [seat, [x, y]] of made.spots) spots.set(seat, [left + x + 4, top + y]);
    row = Math.max(row, area[1]);
    if ((i + 1) % columns === 0 || i === all.length - 1) { left = 0; top += row + 18; row = 0; } else left += wide / columns;
  });
  return { high: Math.ceil(top), box, spots, free };
}
