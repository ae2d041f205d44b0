"use strict";
// The rows of limits, processes and heaps: a name, a bar with numbers, and a curve over all events.
const WIDTH = 1000;
const HEIGHT = 40;
const MOST_ROWS = 24;
const MOST_DOTS = 1001; // samples of a watcher
const SVG = "http://www.w3.org/2000/svg";

function make(tag, attributes, ...inside) {
  const made = document.createElement(tag);
  for (const [name, value] of Object.entries(attributes || {})) made.setAttribute(name, value);
  made.append(...inside);
  return made;
}

function draw(tag, attributes, ...inside) {
  const made = document.createElementNS(SVG, tag);
  for (const [name, value] of Object.entries(attributes || {})) made.setAttribute(name, value);
  made.append(...inside);
  return made;
}

const across = (event) => (EVENTS ? (event / EVENTS) * WIDTH : 0);

// At most a few steps for each column of the picture: where it begins, its least, its greatest, and where it ends.
function thinned(steps) {
  if (steps.length <= 2 * WIDTH) return steps;
  const columns = new Map();
  for (const step of steps) {
    const column = Math.floor(across(step[0]));
    const kept = columns.get(column);
    if (!kept) columns.set(column, [step, step, step, step]);
    else columns.set(column, [kept[0], step[1] < kept[1][1] ? step : kept[1], step[1] > kept[2][1] ? step : kept[2], step]);
  }
  return [...columns.values()].flatMap((kept) => [...new Set(kept)].sort((a, b) => a[0] - b[0]));
}

function stepPath(steps, most) {
  const up = (value) => (HEIGHT - 2 - (most ? value / most : 0) * (HEIGHT - 6)).toFixed(2);
  let path = "";
  thinned(steps).forEach(([event, value], at) => {
    path += at ? `H${across(event).toFixed(2)}V${up(value)}` : `M0 ${up(value)}`;
  });
  return `${path}H${WIDTH}`;
}

// A curve with its area, the maximum where there is one, and the refusals that name the limit.
function curve(row) {
  const bounded = row.most !== undefined && row.most !== null && peak(row.most) <= 8 * peak(row.steps) + 1;
  const most = Math.max(1, bounded ? peak(row.most) : 0, 1.2 * peak(row.steps));
  const line = stepPath(row.steps, most);
  const svg = draw("svg", { viewBox: `0 0 ${WIDTH} ${HEIGHT}`, preserveAspectRatio: "none", role: "img", "aria-label": `${row.name}: at most ${spaced(peak(row.steps))} bytes` });
  svg.append(draw("path", { class: "area", d: `${line}V${HEIGHT}H0Z` }), draw("path", { class: "line", d: line }));
  if (bounded) svg.append(draw("path", { class: "most", d: stepPath(row.most, most) }));
  if (row.refused && row.refused.length) {
    const seen = new Set(row.refused.map((event) => across(event).toFixed(0)));
    svg.append(draw("path", { class: "refused", d: [...seen].map((x) => `M${x} ${HEIGHT}v-9`).join("") }));
  }
  const cursor = make("i", { class: "cursor" });
  const box = make("div", { class: "curve" }, svg, make("span", { class: "peak" }, `peak ${spaced(peak(row.steps))}`), cursor);
  const height = (value) => `${(100 * (2 + (value / most) * (HEIGHT - 6))) / HEIGHT}%`;
  for (const [event, value] of (row.samples || []).slice(0, MOST_DOTS)) {
    box.append(make("i", { class: "dot", style: `left: ${across(event) / (WIDTH / 100)}%; bottom: ${height(value)}`, title: `sample after ${event} events: ${spaced(value)} bytes` }));
  }
  box.at = (event) => cursor.style.setProperty("--height", (100 * (HEIGHT - 2 - (valueAt(row.steps, event) / most) * (HEIGHT - 6))) / HEIGHT);
  hover(box, (event) => `${row.name}: ${spaced(valueAt(row.steps, event))} bytes`);
  return box;
}

const peak = (steps) => steps.reduce((high, step) => Math.max(high, step[1]), 0);

// A row, and what brings it to the state after an event.
function rowOf(row) {
  const small = make("small");
  const parts = [make("i"), make("i")];
  const bar = make("div", { class: "bar", role: "meter", "aria-label": row.name, "aria-valuemin": 0 }, ...parts);
  const number = make("div", { class: "number" });
  const label = make("div", { class: "label" }, make("b", {}, row.name), small);
  label.style.setProperty("--depth", row.depth || 0);
  const picture = curve(row);
  const box = make("div", { class: `row ${row.tone} ${row.part ? "part" : ""}` }, label, make("div", {}, bar, number), picture);
  box.show = (state) => {
    const value = valueAt(row.steps, state.at);
    const most = row.most ? valueAt(row.most, state.at) : null;
    const whole = most === null ? row.scale() : most;
    const shared = row.shared ? row.shared(state) : 0;
    parts[0].style.width = `${whole ? Math.min(100, (100 * (value - shared)) / whole) : 0}%`;
    parts[1].style.width = `${whole ? Math.min(100, (100 * shared) / whole) : 0}%`;
    bar.classList.toggle("full", most !== null && most > 0 && value >= most && row.tone !== "process");
    bar.setAttribute("aria-valuenow", value);
    bar.setAttribute("aria-valuemax", Math.max(whole, value));
    number.replaceChildren(spaced(value), make("span", {}, most === null ? (shared ? ` (${spaced(shared)} shared)` : "") : ` of ${spaced(most)}`));
    small.textContent = row.says(state);
    picture.at(state.at);
  };
  return box;
}

// The limits as a tree, and under each the processes that are charged there.
function limitRows() {
  const rows = [];
  const add = (limit, depth) => {
    const { name, parent, hard } = RUN.limits[limit];
    const kind = parent !== null ? (hard ? "hard" : "soft") : RUN.whole ? "root" : "";
    rows.push({ name, depth, tone: "limit", steps: RUN.series.limits[limit], most: RUN.series.maxima[limit], refused: RUN.refusals[name], samples: limit === 0 ? RUN.samples : [], says: () => kind });
    RUN.processes.forEach((process, number) => {
      if (process.limit === limit) rows.push(processRow(process, number, depth + 1));
    });
    RUN.limits.forEach((child, at) => {
      if (child.parent === limit) add(at, depth + 1);
    });
  };
  RUN.limits.forEach((limit, at) => {
    if (limit.parent === null) add(at, 0);
  });
  RUN.processes.forEach((process, number) => {
    if (process.limit < 0) rows.push(processRow(process, number, 0));
  });
  return rows;
}

function processRow(process, number, depth) {
  const steps = RUN.series.charges[number];
  const most = process.limit >= 0 ? RUN.series.maxima[process.limit] : null;
  const own = RUN.series.heaps[number + 1];
  const says = (state) => (state.ended[number] ? "process, ended" : "process");
  const scale = () => (most ? valueAt(most, EVENTS) : peak(steps));
  return { name: process.name, depth, part: true, tone: "process", steps, says, scale, shared: (state) => (state.ended[number] ? 0 : valueAt(steps, state.at) - valueAt(own, state.at)) };
}

function heapRows() {
  const greatest = Math.max(1, ...RUN.series.heaps.slice(1).map(peak));
  return RUN.segments.map((name, heap) => {
    const tone = kindOf(heap);
    const says = (state) => `${heapSays(state, heap)}${state.scans.has(heap) ? ", being collected" : ""}`;
    const most = heap === 0 ? [[0, RUN.ceiling]] : null;
    return { name, tone, part: heap > 0, steps: RUN.series.heaps[heap], most, scale: () => greatest, says };
  });
}

function heapSays(state, heap) {
  const objects = counted(RUN.segments.reduce((sum, _, segment) => sum + (state.owner(segment) === heap ? state.count[segment] : 0), 0), "object");
  if (heap === 0) return `kernel heap, ${objects}`;
  if (kindOf(heap) === "process") return state.ended[heap - 1] ? "ended; its objects are the kernel’s" : objects;
  const [phase, process, root] = state.phases[heap];
  if (phase === "unmade") return "shared heap, unmade";
  if (phase === "absorbed") return "absorbed; its objects are the kernel’s";
  const names = state.sharers(heap).map((each) => RUN.processes[each].name).join(", ") || "nobody";
  return `${phase === "frozen" ? `frozen, root ${nameOf(root)}` : `populated by ${RUN.processes[process].name}`}; ${objects}; shared by ${names}`;
}

// Puts rows into a box, the first ones at once and the rest where they are asked for.
function fill(id, rows) {
  const box = document.getElementById(id);
  const shown = [];
  const add = (some) => some.forEach((row) => {
    const made = rowOf(row);
    shown.push(made);
    box.append(made);
  });
  add(rows.slice(0, MOST_ROWS));
  if (rows.length > MOST_ROWS) {
    const more = make("button", { type: "button", class: "more" }, `Show all ${rows.length}`);
    more.addEventListener("click", () => { more.remove(); add(rows.slice(MOST_ROWS)); refresh(); });
    box.after(more);
  }
  return shown;
}
