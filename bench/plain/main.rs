//! The running tables as a Rust programmer would write them with the standard library, with no look at the design of the proved ones:
//! references that keep the place of their object, marks by the number of the collection, a stack of gray objects, hash maps.
//! `bench/run` compares its lines and times with those of `crates/k_measure`; the words are the same.

mod entries;
mod exits;
mod heap;
mod names;

use entries::EntryTable;
use exits::ExitTable;
use heap::{Area, Field, Kind, Segment, Swept};
use names::{Name, Reference};
use std::env;
use std::process::exit;

const SEGMENT: u32 = 1;
const FAR: u32 = 2;
const ROUNDS: u32 = 10;
const SEGMENTS: u32 = 129;
const MOST: u32 = 10_000_000;

struct Watch {
    is_timed: bool,
    last: u64,
}

#[repr(C)]
struct Timespec {
    seconds: i64,
    nanos: i64,
}

unsafe extern "C" {
    fn clock_gettime(clock: i32, time: *mut Timespec) -> i32;
}

/// The processor time that the process has used, in nanoseconds.
fn now() -> u64 {
    let mut time = Timespec {
        seconds: 0,
        nanos: 0,
    };
    unsafe { clock_gettime(2, &mut time) };
    time.seconds as u64 * 1_000_000_000 + time.nanos as u64
}

impl Watch {
    fn lap(&mut self, phase: &str) {
        if self.is_timed {
            eprintln!("{phase} {}", now() - self.last);
        }
        self.last = now();
    }
}

fn scattered(count: u32, half: bool) -> Vec<Name> {
    (0..count)
        .map(|i| {
            let number = (u64::from(i) * 7919 % u64::from(count)) as u32;
            let number = number + if half && i % 2 == 1 { count } else { 0 };
            Name {
                segment: 1 + number % 4,
                serial: 1 + number / 4,
            }
        })
        .collect()
}

#[inline(never)]
fn make(size: u32) -> Vec<Box<[Field]>> {
    let types = vec![vec![Kind::Ref, Kind::Ref, Kind::Int]];
    (0..size)
        .map(|_| types[0].iter().map(|kind| Field::new(*kind)).collect())
        .collect()
}

#[inline(never)]
fn place(segment: &mut Segment, bodies: Vec<Box<[Field]>>) {
    for body in bodies {
        segment.place(body);
    }
}

#[inline(never)]
fn link(segment: &mut Segment, size: u32) {
    for i in 1..size + 1 {
        let Some(from) = segment.find(i) else {
            continue;
        };
        let first = 2 * i + i % 2;
        for field in 0..2 {
            let target = segment.find(first + 2 * field);
            segment.set_ref(from, field as usize, target);
        }
    }
}

#[inline(never)]
fn mark_from(area: &mut Area, exits: &mut ExitTable, last: u32) {
    area.clear(exits);
    for serial in 1..last + 1 {
        if let Some(at) = area.get(SEGMENT).and_then(|segment| segment.find(serial)) {
            area.root(at);
        }
    }
    area.mark(exits);
}

const STAGES: [&str; 7] = [
    "make",
    "place",
    "link",
    "mark",
    "sweep",
    "mark_half",
    "sweep_half",
];

fn told(word: &str, size: u32, made: u32, bytes: u64, swept: Swept) -> String {
    format!(
        "{word} {size}: {} objects of {bytes} bytes, {} freed of {} bytes",
        made - swept.objects,
        swept.objects,
        swept.bytes
    )
}

fn heap(watch: &mut Watch, size: u32, last: usize) -> String {
    let mut segment = Segment::with_capacity(SEGMENT, size as usize);
    let mut exits = ExitTable::with_capacity(1);
    let mut swept = Swept::default();
    watch.lap("before");
    let bodies = make(size);
    watch.lap("make");
    if last >= 1 {
        place(&mut segment, bodies);
        watch.lap("place");
    }
    if last >= 2 {
        link(&mut segment, size);
        watch.lap("link");
    }
    let mut area = Area::of(vec![segment]);
    watch.lap("before");
    if last >= 3 {
        mark_from(&mut area, &mut exits, 2);
        watch.lap("mark");
    }
    if last >= 4 {
        swept = area.sweep();
        watch.lap("sweep");
    }
    if last >= 5 {
        mark_from(&mut area, &mut exits, 1);
        watch.lap("mark_half");
    }
    if last >= 6 {
        swept = area.sweep();
        watch.lap("sweep_half");
    }
    told(STAGES[last], size, size, area.bytes(), swept)
}

/// Collects so many times, where of `size` objects that were made about `live` are reached.
fn again(watch: &mut Watch, word: &str, size: u32, live: u32, rounds: u32) -> String {
    let mut segment = Segment::with_capacity(SEGMENT, size as usize);
    place(&mut segment, make(size));
    link(&mut segment, live);
    let mut exits = ExitTable::with_capacity(1);
    let mut area = Area::of(vec![segment]);
    mark_from(&mut area, &mut exits, 1);
    let swept = area.sweep();
    watch.lap("before");
    for _ in 0..rounds {
        area.clear(&mut exits);
    }
    watch.lap("clears");
    for _ in 0..rounds {
        mark_from(&mut area, &mut exits, 1);
    }
    watch.lap("clears_marks");
    for _ in 0..rounds {
        mark_from(&mut area, &mut exits, 1);
        area.sweep();
    }
    watch.lap("collections");
    told(word, size, size, area.bytes(), swept)
}

fn exits(watch: &mut Watch, size: u32, looks: bool) -> String {
    let targets = scattered(size / ROUNDS, false);
    let names = scattered(size / ROUNDS, true);
    let room = (size / ROUNDS + 1) as usize;
    let mut table = ExitTable::with_capacity(room);
    watch.lap("before");
    let mut new = 0;
    for _ in 0..ROUNDS {
        for target in &targets {
            new += u32::from(table.len() < room && table.add(*target));
        }
    }
    watch.lap("add");
    let mut there = 0;
    if looks {
        for _ in 0..ROUNDS {
            there += names.iter().filter(|name| table.has(**name)).count();
        }
        watch.lap("has");
    }
    format!(
        "{} {size}: {} targets, {new} new, {there} there",
        if looks { "has" } else { "add" },
        table.len()
    )
}

/// Drains the half of the targets that isn't marked, and adds it again. Draining alone is timed.
fn drain(watch: &mut Watch, size: u32) -> String {
    let targets = scattered(size / ROUNDS, false);
    let names = scattered(size / ROUNDS, true);
    let mut table = ExitTable::with_capacity((size / ROUNDS + 1) as usize);
    let mut drained = 0;
    for _ in 0..ROUNDS {
        for target in &targets {
            table.add(*target);
        }
        table.clear_marks();
        for name in &names {
            table.mark(*name);
        }
        watch.lap("before");
        table.drain_unmarked(|_| drained += 1);
        watch.lap("drain");
    }
    format!("drain {size}: {} targets, {drained} drained", table.len())
}

/// Marks an area of many segments again and again.
fn wide(watch: &mut Watch, size: u32) -> String {
    let each = size / (ROUNDS * SEGMENTS);
    let segments = (0..SEGMENTS)
        .map(|number| {
            let mut segment = Segment::with_capacity(number, each as usize);
            place(&mut segment, make(each));
            link(&mut segment, each);
            segment
        })
        .collect();
    let mut area = Area::of(segments);
    let mut exits = ExitTable::with_capacity(1);
    watch.lap("before");
    for _ in 0..ROUNDS {
        area.clear(&mut exits);
        for number in 0..SEGMENTS {
            if let Some(at) = area.get(number).and_then(|segment| segment.find(1)) {
                area.root(at);
            }
        }
        area.mark(&mut exits);
    }
    watch.lap("wide");
    format!("wide {size}: {} bytes are marked", area.bytes())
}

/// Has each field that would refer to an object past the last one refer to one of `count` objects of another heap.
fn link_out(segment: &mut Segment, exits: &mut ExitTable, size: u32, count: u32) {
    for i in 1..size + 1 {
        let Some(from) = segment.find(i) else {
            continue;
        };
        let first = 2 * i + i % 2;
        for field in 0..2 {
            if first + 2 * field <= size {
                continue;
            }
            let target = Reference {
                segment: FAR,
                slot: 0,
                serial: 1 + (2 * i + field) % count,
            };
            exits.add(target.name());
            segment.set_ref(from, field as usize, Some(target));
        }
    }
}

/// Marks objects half of whose references lead to another heap.
fn foreign(watch: &mut Watch, size: u32) -> String {
    let count = size / ROUNDS + 1;
    let mut segment = Segment::with_capacity(SEGMENT, size as usize);
    place(&mut segment, make(size));
    link(&mut segment, size);
    let mut exits = ExitTable::with_capacity(count as usize + 1);
    link_out(&mut segment, &mut exits, size, count);
    let mut area = Area::of(vec![segment]);
    watch.lap("before");
    mark_from(&mut area, &mut exits, 2);
    watch.lap("mark_foreign");
    let mut others = 0;
    exits.drain_unmarked(|_| others += 1);
    format!(
        "mark_foreign {size}: {} bytes, {} exit items marked, {others} not",
        area.bytes(),
        exits.len()
    )
}

fn walk(watch: &mut Watch, size: u32) -> String {
    let targets = scattered(size / ROUNDS, false);
    let mut table = EntryTable::with_capacity(&[0, 1, 2, 3, 4], (size / ROUNDS) as usize);
    for _ in 0..ROUNDS {
        for target in &targets {
            table.up(*target);
        }
    }
    watch.lap("before");
    let mut sum = 0;
    for _ in 0..ROUNDS {
        for home in 0..5 {
            sum += table.of_home(home).map(|object| u64::from(object.serial)).sum::<u64>();
        }
    }
    watch.lap("walk");
    format!("walk {size}: the serials are {sum} in all")
}

fn entries(watch: &mut Watch, size: u32, downs: bool) -> String {
    let targets = scattered(size / ROUNDS, false);
    let mut table = EntryTable::with_capacity(&[0, 1, 2, 3, 4], (size / ROUNDS) as usize);
    watch.lap("before");
    for _ in 0..ROUNDS {
        for target in &targets {
            table.up(*target);
        }
    }
    watch.lap("up");
    if downs {
        for _ in 0..ROUNDS {
            for target in &targets {
                table.down(*target);
            }
        }
        watch.lap("down");
    }
    let total: u64 = targets.iter().map(|target| u64::from(table.count(*target))).sum();
    format!(
        "{} {size}: the counts are {total} in all",
        if downs { "down" } else { "up" }
    )
}

fn main() {
    let words: Vec<String> = env::args().skip(1).collect();
    if words.len() < 2 || words.len() > 3 {
        exit(2);
    }
    let size = words[1].parse::<u32>().unwrap_or(0).min(MOST);
    let mut watch = Watch {
        is_timed: words.len() == 3,
        last: now(),
    };
    let word = words[0].as_str();
    let line = match word {
        "add" | "has" => exits(&mut watch, size, word == "has"),
        "up" | "down" => entries(&mut watch, size, word == "down"),
        "wide" => wide(&mut watch, size),
        "mark_foreign" => foreign(&mut watch, size),
        "walk" => walk(&mut watch, size),
        "drain" => drain(&mut watch, size),
        "again" => again(&mut watch, word, size, size / 10 * 3, 4_000),
        "dead" => again(&mut watch, word, size, 10, 60_000),
        _ => match STAGES.iter().position(|stage| *stage == word) {
            Some(last) => heap(&mut watch, size, last),
            None => exit(2),
        },
    };
    println!("{line}");
}
