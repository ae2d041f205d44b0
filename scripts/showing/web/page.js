"use strict";
// What ties the page together: the slider, the line of the event, the list of events, and why an object is kept.
const KINDS = { refused: "refused", collected: "collection", end: "end", absorbed: "absorbed", closing: "closing" };
const AROUND = 9; // events that are listed before and after the present one
const slider = document.getElementById("slider");
const tip = document.getElementById("tip");
const state = new State();
const marks = new Map(RUN.marks);
let chosen = null;
let rows = [];
let graph = null;

const lineOf = (event) => (event === 0 ? "the opening state" : RUN.lines[event - 1]);
const kindAt = (event) => (event === 0 ? "opening" : marks.get(event) || "");
const eventUnder = (box, x) => {
  const { left, width } = box.getBoundingClientRect();
  return Math.max(0, Math.min(EVENTS, Math.round(((x - left) / width) * EVENTS)));
};

// Shows the line of the event under the pointer, and goes there on a click.
function hover(box, says) {
  box.addEventListener("pointermove", (pointer) => {
    const event = eventUnder(box, pointer.clientX);
    tip.textContent = `${RUN.whole ? `after event ${spaced(event)}: ${lineOf(event)}` : "at the end"}\n${says(event)}`.trim();
    tip.hidden = false;
    tip.style.left = `${Math.min(pointer.clientX + 14, innerWidth - tip.offsetWidth - 8)}px`;
    tip.style.top = `${Math.min(pointer.clientY + 18, innerHeight - tip.offsetHeight - 8)}px`;
  });
  box.addEventListener("pointerleave", () => { tip.hidden = true; });
  box.addEventListener("click", (pointer) => goTo(eventUnder(box, pointer.clientX)));
}

function goTo(event) {
  slider.value = Math.max(0, Math.min(EVENTS, event));
  refresh();
}

function refresh() {
  const at = Number(slider.value);
  state.go(at);
  document.documentElement.style.setProperty("--at", EVENTS ? at / EVENTS : 0);
  document.getElementById("count").textContent = RUN.whole ? `${spaced(at)} of ${spaced(EVENTS)}` : "the end";
  document.getElementById("line").textContent = RUN.whole ? lineOf(at) : "";
  const badge = document.getElementById("kind");
  badge.className = `badge ${kindAt(at)}`;
  badge.textContent = RUN.whole ? KINDS[kindAt(at)] || (at ? "" : "opening") : "";
  document.getElementById("back").disabled = at === 0;
  document.getElementById("forth").disabled = at === EVENTS;
  slider.setAttribute("aria-valuetext", `after ${at} of ${EVENTS} events: ${lineOf(at)}`);
  rows.forEach((row) => row.show(state));
  graph.show(state, chosen);
  explain();
  list(at);
}

function list(at) {
  const items = [];
  const [first, last] = RUN.whole ? [Math.max(0, at - AROUND), Math.min(EVENTS, Math.max(at + AROUND, 2 * AROUND))] : [1, Math.min(RUN.lines.length, 1000)];
  for (let event = first; event <= last; event += 1) {
    const button = make("button", { type: "button", class: `${kindAt(event)} ${event > at && RUN.whole ? "to-come" : ""}` });
    button.append(make("span", { class: "which" }, spaced(event)), make("span", { class: "what" }, KINDS[kindAt(event)] || ""), make("span", {}, lineOf(event)));
    if (event === at && RUN.whole) button.setAttribute("aria-current", "true");
    if (RUN.whole) button.addEventListener("click", () => goTo(event));
    items.push(make("li", {}, button));
  }
  document.getElementById("events").replaceChildren(...items);
}

function link(key) {
  const button = make("button", { type: "button", class: "link" }, nameOf(key));
  button.addEventListener("click", () => choose(key));
  return button;
}

function choose(key) {
  chosen = key === chosen ? null : key;
  graph.show(state, chosen);
  explain();
}

// The object that is chosen: its fields, and the path that keeps it.
function explain() {
  const box = document.getElementById("why");
  if (chosen === null) return box.replaceChildren(make("p", { class: "hint" }, "Choose an object to see why it is kept."));
  const body = state.objects.get(chosen);
  const head = make("h3", {}, nameOf(chosen));
  if (!body) return box.replaceChildren(head, make("p", {}, chosen % SPACING > (made(segmentOf(chosen))) ? "It is not made yet." : "It was freed."));
  const owner = RUN.segments[state.owner(segmentOf(chosen))];
  const type = body.type === null ? null : RUN.types[body.type];
  const table = make("table", {}, ...body.fields.map((value, at) => {
    const shown = Array.isArray(value) ? link(keyOf(value)) : String(value);
    return make("tr", {}, make("td", {}, String(at)), make("td", {}, type ? type.kinds[at] : "ref"), make("td", {}, shown));
  }));
  const about = make("p", { class: "hint" }, `${type ? type.name : "the directory"}, ${sizeOf(body.fields.length)} bytes, in the heap ${owner}`);
  return box.replaceChildren(head, about, table, ...reasonFor(chosen));
}

const made = (segment) => RUN.changes.slice(0, state.at + 1).flat().reduce((high, change) => (change[0] === "o" && change[1] === segment ? Math.max(high, change[2]) : high), 0);

function reasonFor(key) {
  if (!graph.live.has(key)) {
    const kept = "Nothing can use it any more, and yet a collection of its heap keeps it: an exit item of another heap leads to it.";
    return [make("p", {}, graph.kept.has(key) ? kept : "It is garbage: the next collection of its heap frees it.")];
  }
  const steps = [];
  let at = key;
  for (let came = graph.live.get(at); came; came = graph.live.get(at)) {
    const leaves = state.owner(segmentOf(came[0])) !== state.owner(segmentOf(at)) ? `, by the exit item ${RUN.segments[state.owner(segmentOf(came[0]))]} ${nameOf(at)}` : "";
    steps.unshift(make("li", {}, `field ${came[1]}: `, link(at), leaves));
    at = came[0];
  }
  return [make("p", {}, "A shortest path that keeps it:"), make("ol", {}, make("li", {}, `${state.reasons().get(at)}: `, link(at)), ...steps)];
}

function tiles() {
  const number = (kind) => RUN.marks.filter((mark) => mark[1] === kind).length;
  const facts = [[RUN.lines.length, "events"], [RUN.refused, "refused"]];
  if (RUN.whole) facts.push([number("collected"), `collections, which freed ${counted(RUN.freed[0], "object")} of ${counted(RUN.freed[1], "byte")}`], [RUN.processes.length, `processes, of which ${RUN.endings} ended`]);
  facts.push([valueAt(RUN.series.limits[0], EVENTS), `bytes used at ${RUN.limits[0].name} at the end, at most ${spaced(peak(RUN.series.limits[0]))}`]);
  document.getElementById("tiles").append(...facts.map(([value, what]) => make("li", {}, make("b", {}, spaced(value)), what)));
}

// The marks over the slider, one at most for each kind and column, and the buttons that go from one mark to the next.
function time() {
  const svg = document.getElementById("marks");
  const lanes = [["refused", 0], ["collected", 8], ["end", 16], ["absorbed", 16], ["closing", 16]];
  svg.append(draw("path", { class: "base", d: "M0 23H1000" }));
  for (const [kind, top] of lanes) {
    const events = RUN.marks.filter((mark) => mark[1] === kind).map((mark) => mark[0]);
    if (!events.length) continue;
    const columns = new Set(events.map((event) => across(event).toFixed(0)));
    svg.append(draw("path", { class: kind, style: "stroke: var(--kind)", d: [...columns].map((x) => `M${x} ${top}v7`).join("") }));
    const button = make("button", { type: "button", class: kind }, make("i"), `next ${KINDS[kind]}`);
    button.addEventListener("click", () => goTo(events.find((event) => event > state.at) ?? events[0]));
    document.getElementById("jumps").append(button);
  }
  hover(svg, () => "");
}

// Puts the event and the object into the page's address, so that it can be kept and sent.
function note() {
  const why = chosen === null ? "" : `&why=${nameOf(chosen)}`;
  history.replaceState(null, "", `#after=${state.at}${why}`);
}

function begin() {
  slider.max = EVENTS;
  tiles();
  time();
  rows = [...fill("limits", limitRows()), ...fill("heaps", heapRows())];
  graph = new Graph(choose);
  if (!RUN.whole) document.getElementById("time").hidden = true;
  if (RUN.samples.length) {
    document.getElementById("samples").hidden = false;
    document.querySelector("#samples tbody").append(...RUN.samples.map((sample) => make("tr", {}, ...sample.map((value) => make("td", {}, spaced(value))))));
  }
  slider.addEventListener("input", refresh);
  addEventListener("pointerup", () => setTimeout(note));
  addEventListener("keyup", note);
  document.getElementById("back").addEventListener("click", () => goTo(state.at - 1));
  document.getElementById("forth").addEventListener("click", () => goTo(state.at + 1));
  addEventListener("resize", () => { graph.resize(); graph.show(state, chosen); });
  const wanted = new URLSearchParams(location.hash.slice(1));
  const [segment, serial] = (wanted.get("why") || "").split(".");
  if (RUN.segments.includes(segment)) chosen = RUN.segments.indexOf(segment) * SPACING + Number(serial);
  goTo(wanted.has("after") ? Number(wanted.get("after")) : EVENTS);
}

begin();
