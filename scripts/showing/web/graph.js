"use strict";
// The objects by heap. Every object keeps its place for as long as it is there, so that what changes is seen.
const NODE = { width: 82, height: 34, gap: 14 };
const CHIP = { width: 34, height: 18, gap: 5 };
const EDGE = 14; // from a heap's border to what is in it
const HEAD = 44; // for a heap's title
const MOST_NODES = 36; // that are drawn of one heap
const MOST_HEAPS = 32;
const BETWEEN = 32; // heaps
const CLEAR_EXITS = 24; // where a heap has more exit items, they are drawn fainter

// For each object its place in its segment, and for each segment how many places it needs at once; and which registers are used.
function places() {
  const place = new Map();
  const need = RUN.segments.map(() => 0);
  const free = RUN.segments.map(() => []);
  const registers = RUN.processes.map(() => new Set());
  for (const [what, one, two, three, four] of RUN.changes.flat()) {
    const key = one * SPACING + two;
    if (what === "p" && two === "frozen") bringIn(place, keyOf(four));
    if (what === "o") {
      free[one].sort((a, b) => b - a);
      place.set(key, free[one].length ? free[one].pop() : need[one]++);
    }
    if (what === "x") free[one].push(place.get(key));
    if (what === "r" && three !== null) registers[one].add(two);
  }
  return { place, need, registers: registers.map((used) => [...used].sort((a, b) => a - b)) };
}

// Gives the root of a frozen heap a place that is drawn.
function bringIn(place, root) {
  if (place.get(root) < MOST_NODES) return;
  for (const [key, at] of place) {
    if (segmentOf(key) === segmentOf(root) && at === MOST_NODES - 1) {
      place.set(key, place.get(root));
      place.set(root, at);
      return;
    }
  }
}

const PLACES = places();

// The boxes of the heaps, one beside the other as far as there is room.
function layOut(room) {
  const boxes = new Map();
  let [x, y, low] = [8, 8, 0];
  const used = RUN.segments.map((_, segment) => segment).filter((segment) => PLACES.need[segment] || (PLACES.registers[segment - 1] || []).length);
  for (const segment of used.slice(0, MOST_HEAPS)) {
    const nodes = Math.min(PLACES.need[segment], MOST_NODES);
    const chips = (PLACES.registers[segment - 1] || []).length;
    const columns = Math.max(2, Math.min(5, Math.ceil(Math.sqrt(nodes))));
    const width = 2 * EDGE + columns * NODE.width + (columns - 1) * NODE.gap;
    const perRow = Math.floor((width - 2 * EDGE + CHIP.gap) / (CHIP.width + CHIP.gap));
    const chipRows = Math.ceil(chips / perRow);
    const top = HEAD + chipRows * (CHIP.height + CHIP.gap) + (chipRows ? 16 : 0);
    const height = top + Math.max(1, Math.ceil(nodes / columns)) * (NODE.height + NODE.gap) + 12;
    if (x > 8 && x + width > room) [x, y, low] = [8, low + BETWEEN, 0];
    boxes.set(segment, { x, y, width, height, columns, perRow, top });
    low = Math.max(low, y + height);
    x += width + BETWEEN;
  }
  const all = [...boxes.values()];
  return { boxes, left: used.length - boxes.size, width: Math.max(300, ...all.map((box) => box.x + box.width)) + 8, height: Math.max(80, ...all.map((box) => box.y + box.height)) + 8 };
}

class Graph {
  constructor(choose) {
    this.svg = document.getElementById("graph");
    this.choose = choose;
    this.resize();
  }

  resize() {
    this.plan = layOut(Math.max(640, this.svg.parentElement.clientWidth));
    this.svg.setAttribute("width", this.plan.width);
    this.svg.setAttribute("height", this.plan.height);
  }

  // The rectangle of an object, where it is drawn.
  spot(key) {
    const box = this.plan.boxes.get(segmentOf(key));
    const at = PLACES.place.get(key);
    if (!box || at >= MOST_NODES) return null;
    const left = box.x + EDGE + (at % box.columns) * (NODE.width + NODE.gap);
    return { x: left, y: box.y + box.top + Math.floor(at / box.columns) * (NODE.height + NODE.gap), width: NODE.width, height: NODE.height };
  }

  chip(process, at) {
    const box = this.plan.boxes.get(process + 1);
    const number = PLACES.registers[process].indexOf(at);
    if (!box || number < 0) return null;
    const left = box.x + EDGE + (number % box.perRow) * (CHIP.width + CHIP.gap);
    return { x: left, y: box.y + HEAD + Math.floor(number / box.perRow) * (CHIP.height + CHIP.gap), width: CHIP.width, height: CHIP.height };
  }

  show(state, chosen) {
    this.state = state;
    this.live = state.live();
    this.kept = state.keptByExits();
    this.paths = new Map();
    const [boxes, edges, nodes, titles] = [draw("g"), draw("g"), draw("g"), draw("g")];
    this.plan.boxes.forEach((box, segment) => boxes.append(this.heap(segment, box, titles)));
    this.registers(edges, nodes);
    this.exits(edges, titles);
    let hidden = 0;
    for (const [key, body] of state.objects) {
      const spot = this.spot(key);
      if (!spot) hidden += 1;
      else nodes.append(this.node(key, body, spot));
      for (const [at, target] of state.references(key)) this.edge(edges, `${key} ${at}`, spot, this.spot(target), `ref ${this.live.has(key) ? "" : "dead"}`, "ref");
    }
    this.svg.replaceChildren(this.arrows(), boxes, edges, titles, nodes);
    this.note(hidden);
    this.mark(chosen);
  }

  arrows() {
    const tip = (kind) => draw("marker", { id: `arrow-${kind}`, viewBox: "0 0 8 8", refX: 7, refY: 4, markerUnits: "userSpaceOnUse", markerWidth: 9, markerHeight: 9, orient: "auto" }, draw("path", { d: "M0 0L8 4L0 8Z" }));
    return draw("defs", {}, tip("ref"), tip("reg"), tip("exit"), tip("on"));
  }

  heap(segment, box, titles) {
    const owner = this.state.owner(segment);
    const kind = kindOf(owner);
    const style = `--fill: var(--${kind}-soft)`;
    const place = { x: box.x, y: box.y, width: box.width, height: box.height };
    const title = owner === segment ? RUN.segments[segment] : `${RUN.segments[segment]}, now the kernel’s`;
    const phase = kindOf(segment) === "shared" && owner === segment ? `${heapSays(this.state, segment).split(";")[0]}, ` : "";
    const sub = phase + counted(this.state.count[segment], "object");
    titles.append(draw("text", { class: "title", style, x: box.x + EDGE, y: box.y + 19 }, title));
    titles.append(draw("text", { class: "sub", style, x: box.x + EDGE, y: box.y + 35 }, sub));
    return draw("g", { class: kind, style }, draw("rect", { class: "heap", ...place }));
  }

  node(key, body, spot) {
    const standing = this.live.has(key) ? "live" : this.kept.has(key) ? "kept" : "garbage";
    const type = body.type === null ? "directory" : RUN.types[body.type].name;
    const numbers = body.fields.filter((value) => value !== null && !Array.isArray(value)).join(" ");
    const what = `${type} ${numbers}`.trim();
    const label = `${nameOf(key)}, ${what}, ${standing}`;
    const look = `node ${standing} ${key === 1 ? "directory" : ""} ${kindOf(this.state.owner(segmentOf(key)))}`;
    const group = draw("g", { class: look, tabindex: 0, role: "button", "aria-label": label, "data-key": key });
    const middle = spot.x + spot.width / 2;
    group.append(draw("title", {}, label), draw("rect", spot), draw("text", { x: middle, y: spot.y + 14 }, nameOf(key)));
    group.append(draw("text", { class: "what", x: middle, y: spot.y + 27 }, what.length > 13 ? `${what.slice(0, 12)}…` : what));
    group.addEventListener("click", () => this.choose(key));
    group.addEventListener("keydown", (pressed) => {
      if (pressed.key === "Enter" || pressed.key === " ") { pressed.preventDefault(); this.choose(key); }
    });
    return group;
  }

  registers(edges, nodes) {
    PLACES.registers.forEach((used, process) => used.forEach((at) => {
      const chip = this.chip(process, at);
      if (!chip || this.state.ended[process]) return;
      const held = this.state.registers[process][at];
      const text = draw("text", { x: chip.x + chip.width / 2, y: chip.y + 13 }, `r${at}`);
      nodes.append(draw("g", { class: `chip ${held === null ? "null" : ""}` }, draw("rect", chip), text));
      if (held !== null) this.edge(edges, `r ${process} ${at}`, chip, this.spot(held), "reg", "reg");
    }));
  }

  exits(edges, titles) {
    this.state.exits.forEach((targets, heap) => {
      const box = this.plan.boxes.get(heap);
      if (!targets.size || !box) return;
      const port = { x: box.x + box.width - 92, y: box.y + 6, width: 84, height: 18 };
      titles.append(draw("text", { class: "port", style: `--fill: var(--${kindOf(this.state.owner(heap))}-soft)`, x: port.x + port.width, y: port.y + 13, "text-anchor": "end" }, counted(targets.size, "exit item")));
      const group = draw("g", { opacity: Math.max(0.15, Math.min(1, CLEAR_EXITS / targets.size)) });
      targets.forEach((key) => this.edge(group, `e ${heap} ${key}`, port, this.spot(key), "exit", "exit"));
      edges.append(group);
    });
  }

  // An arrow from one rectangle to another, a little bent.
  edge(group, id, from, to, look, tip) {
    if (!from || !to) return;
    const a = { x: from.x + from.width / 2, y: from.y + from.height / 2 };
    const b = { x: to.x + to.width / 2, y: to.y + to.height / 2 };
    let d = `M${from.x + from.width - 12} ${from.y}c4 -16 22 -14 14 8`;
    if (from.x !== to.x || from.y !== to.y) {
      const bend = 0.14;
      const c = { x: (a.x + b.x) / 2 - (b.y - a.y) * bend, y: (a.y + b.y) / 2 + (b.x - a.x) * bend };
      const start = tip === "reg" && b.y > from.y ? { x: a.x, y: from.y + from.height } : border(from, a, c);
      const end = border(to, b, c);
      d = `M${start.x.toFixed(1)} ${start.y.toFixed(1)}Q${c.x.toFixed(1)} ${c.y.toFixed(1)} ${end.x.toFixed(1)} ${end.y.toFixed(1)}`;
    }
    const path = draw("path", { class: look, d, "marker-end": `url(#arrow-${tip})` });
    this.paths.set(id, path);
    group.append(path);
  }

  note(hidden) {
    const parts = [];
    if (hidden) parts.push(`${counted(hidden, "object")} of ${spaced(this.state.objects.size)} not drawn: at most ${MOST_NODES} of one heap are.`);
    if (this.plan.left) parts.push(`${counted(this.plan.left, "heap")} not drawn.`);
    document.getElementById("graph-note").textContent = parts.join(" ");
  }

  // Marks an object and the path that keeps it.
  mark(chosen) {
    if (chosen === null || !this.state.objects.has(chosen)) return;
    const on = (key, how) => this.svg.querySelector(`[data-key="${key}"]`)?.classList.add(how);
    on(chosen, "chosen");
    let key = chosen;
    for (let came = this.live.get(key); came; came = this.live.get(key)) {
      this.markPath(`${came[0]} ${came[1]}`);
      key = came[0];
      on(key, "on");
    }
    const reason = this.live.has(key) && /^register r(\d+) of (.*)$/.exec(this.state.reasons().get(key));
    if (reason) this.markPath(`r ${RUN.processes.findIndex((each) => each.name === reason[2])} ${reason[1]}`);
  }

  markPath(id) {
    const path = this.paths.get(id);
    if (!path) return;
    path.classList.add("on");
    path.setAttribute("marker-end", "url(#arrow-on)");
  }
}

// Where the line from the middle of a rectangle to a point leaves it.
function border(rectangle, middle, point) {
  const [dx, dy] = [point.x - middle.x, point.y - middle.y];
  const scale = Math.min(Math.abs(rectangle.width / 2 / (dx || 1e-9)), Math.abs(rectangle.height / 2 / (dy || 1e-9)));
  return { x: middle.x + dx * scale, y: middle.y + dy * scale };
}
