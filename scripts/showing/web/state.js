"use strict";
// The run as the page has it, and the state after each event. RUN.changes[n] leads from the state after n - 1 events to that after n.
const RUN = JSON.parse(document.getElementById("run").textContent);
const EVENTS = RUN.changes.length - 1;
const SPACING = 4294967296; // serials are below it

const keyOf = (name) => name[0] * SPACING + name[1];
const nameOf = (key) => `${RUN.segments[Math.floor(key / SPACING)]}.${key % SPACING}`;
const segmentOf = (key) => Math.floor(key / SPACING);
const sizeOf = (fields) => 16 + 8 * fields;
const spaced = (number) => number.toLocaleString("en-US");
const counted = (number, what) => `${spaced(number)} ${what}${number === 1 ? "" : "s"}`;
const kindOf = (heap) => (heap === 0 ? "kernel" : heap <= RUN.processes.length ? "process" : "shared");

class State {
  constructor() {
    this.reset();
  }

  reset() {
    this.at = -1;
    this.objects = new Map();
    this.count = RUN.segments.map(() => 0);
    this.registers = RUN.processes.map(() => new Array(16).fill(null));
    this.exits = RUN.segments.map(() => new Set());
    this.shares = new Set();
    this.phases = RUN.segments.map(() => ["unmade", null, null]);
    this.ended = RUN.processes.map(() => false);
    this.scans = new Set();
    this.maxima = RUN.limits.map((limit) => limit.maximum);
  }

  // Goes to the state after so many events.
  go(to) {
    if (to < this.at) this.reset();
    while (this.at < to) {
      this.at += 1;
      for (const change of RUN.changes[this.at]) this.apply(change);
    }
  }

  apply([what, one, two, three, four]) {
    const key = one * SPACING + two;
    const sharedHeap = 1 + RUN.processes.length + one;
    switch (what) {
      case "o": this.objects.set(key, { type: three, fields: four.slice() }); this.count[one] += 1; break;
      case "x": this.objects.delete(key); this.count[one] -= 1; break;
      case "f": this.objects.get(key).fields[three] = four; break;
      case "r": this.registers[one][two] = three === null ? null : keyOf(three); break;
      case "e": this.exits[one].add(two * SPACING + three); break;
      case "d": this.exits[one].delete(two * SPACING + three); break;
      case "s": this.shares.add(`${one} ${two}`); break;
      case "u": this.shares.delete(`${one} ${two}`); break;
      case "p": this.phases[sharedHeap] = [two, three, four === null ? null : keyOf(four)]; break;
      case "t": this.ended[one] = true; break;
      case "c": this.scans.add(one); break;
      case "z": this.scans.delete(one); break;
      case "m": this.maxima[one] = two; break;
    }
  }

  owner(segment) {
    if (kindOf(segment) === "process") return this.ended[segment - 1] ? 0 : segment;
    return this.phases[segment][0] === "absorbed" ? 0 : segment;
  }

  sharers(heap) {
    const shared = heap - 1 - RUN.processes.length;
    return RUN.processes.map((_, process) => process).filter((process) => this.shares.has(`${process} ${shared}`));
  }

  references(key) {
    const body = this.objects.get(key);
    return body ? body.fields.map((value, at) => [at, value]).filter((pair) => Array.isArray(pair[1])).map(([at, value]) => [at, keyOf(value)]) : [];
  }

  // What is live by itself, each with why: the directory, registers, and the objects of shared heaps.
  reasons() {
    const found = new Map();
    if (this.objects.has(1)) found.set(1, "the directory is never freed");
    this.registers.forEach((held, process) => held.forEach((key, at) => {
      if (key !== null && !found.has(key)) found.set(key, `register r${at} of ${RUN.processes[process].name}`);
    }));
    for (const key of this.objects.keys()) {
      const segment = segmentOf(key);
      if (kindOf(segment) !== "shared" || this.owner(segment) === 0 || found.has(key)) continue;
      const names = this.sharers(segment).map((process) => RUN.processes[process].name);
      found.set(key, `shared heap ${RUN.segments[segment]}, ${names.length ? `shared by ${names.join(" and ")}` : "shared by nobody, and not absorbed yet"}`);
    }
    return found;
  }

  // For each object that some of these reach, by any reference that may be followed, how a shortest path comes to it.
  reach(start, follows) {
    const came = new Map([...start].map((key) => [key, null]));
    const waiting = [...came.keys()];
    for (let next = 0; next < waiting.length; next += 1) {
      for (const [at, target] of this.references(waiting[next])) {
        if (!came.has(target) && follows(target)) {
          came.set(target, [waiting[next], at]);
          waiting.push(target);
        }
      }
    }
    return came;
  }

  live() {
    return this.reach(this.reasons().keys(), () => true);
  }

  // The objects that are not live, and yet are kept, since an exit item of another heap leads to them or to what reaches them.
  keptByExits() {
    const entered = [];
    this.exits.forEach((targets, heap) => targets.forEach((key) => {
      if (this.owner(segmentOf(key)) !== heap) entered.push(key);
    }));
    const kept = new Set();
    for (const key of entered) {
      const heap = this.owner(segmentOf(key));
      for (const each of this.reach([key], (target) => this.owner(segmentOf(target)) === heap).keys()) kept.add(each);
    }
    return kept;
  }
}

// The value that steps of [event, value] have after so many events.
function valueAt(steps, event) {
  let low = 0;
  let high = steps.length;
  while (high - low > 1) {
    const middle = (low + high) >> 1;
    if (steps[middle][0] <= event) low = middle;
    else high = middle;
  }
  return steps[low][1];
}
