//! A plain Rust twin of the running tables, in their design. `bench/run` compares its lines and times with those of
//! `crates/k_measure`; the words are the same.

mod collect;
mod entries;
mod exits;
mod names;
mod segment;

use collect::{Area, Swept, clear, mark, sweep};
use entries::EntryTable;
use exits::ExitTable;
use names::{Link, Name, Seg, Serial};
use segment::{Body, Field, Segment};
use std::env;
use std::process::exit;

const SEG: Seg = Seg(1);
const FAR: Seg = Seg(2);
const ROUNDS: u32 = 10;
const SEGMENTS: u32 = 129;
const MOST: u32 = 10_000_000;

struct Watch {
    is_timed: bool,
    last: u64,
}

#[repr(C)]
struct Timespec {
    seconds: i64,
    nanos: i64,
}

unsafe extern "C" {
    fn clock_gettime(clock: i32, time: *mut Timespec) -> i32;
}

/// The processor time that the process has used, in nanoseconds.
fn now() -> u64 {
    let mut time = Timespec {
        seconds: 0,
        nanos: 0,
    };
    unsafe { clock_gettime(2, &mut time) };
    time.seconds as u64 * 1_000_000_000 + time.nanos as u64
}

impl Watch {
    fn lap(&mut self, phase: &str) {
        if self.is_timed {
            eprintln!("{phase} {}", now() - self.last);
        }
        self.last = now();
    }
}

fn scattered(count: u32, half: bool) -> Vec<Name> {
    let mut names = Vec::with_capacity(count as usize);
    for i in 0..count {
        let number = (i as u64 * 7919 % count as u64) as u32;
        let beyond = if half && i % 2 == 1 { count } else { 0 };
        let number = number + beyond;
        names.push(Name {
            seg: Seg(1 + number % 4),
            serial: Serial(1 + number / 4),
        });
    }
    names
}

fn link_to(name: Name) -> Link {
    Link {
        seg: name.seg,
        slot: 0,
        serial: name.serial,
    }
}

#[inline(never)]
fn make(size: u32) -> Vec<Body> {
    let types = vec![vec![Field::Ref, Field::Ref, Field::Int]];
    let mut bodies = Vec::with_capacity(size as usize);
    for _ in 0..size {
        bodies.push(Body::make(&types, 0));
    }
    bodies
}

#[inline(never)]
fn place(segment: &mut Segment, bodies: Vec<Body>) {
    for body in bodies {
        segment.place(body);
    }
}

fn link_in(segment: &Segment, serial: u32) -> Option<Link> {
    let slot = segment.find(Serial(serial))?;
    Some(Link {
        seg: segment.number,
        slot,
        serial: Serial(serial),
    })
}

#[inline(never)]
fn link(segment: &mut Segment, size: u32) {
    for i in 1..size + 1 {
        let Some(from) = segment.find(Serial(i)) else {
            continue;
        };
        let first = 2 * i + i % 2;
        for field in 0..2 {
            let target = link_in(segment, first + 2 * field);
            if segment.body_at(from).kind_of(field) == Some(Field::Ref) {
                segment.write_ref(from, field, target);
            }
        }
    }
}

#[inline(never)]
fn mark_from(area: &mut Area, exits: &mut ExitTable, last: u32) {
    clear(area, exits);
    for serial in 1..last + 1 {
        if let Some(link) = area.get(SEG).and_then(|segment| link_in(segment, serial)) {
            area.make_gray(link.name());
        }
    }
    mark(area, exits);
}

const STAGES: [&str; 7] = [
    "make",
    "place",
    "link",
    "mark",
    "sweep",
    "mark_half",
    "sweep_half",
];

fn heap(watch: &mut Watch, size: u32, last: usize) -> String {
    let mut segment = Segment::make(SEG, size);
    let mut exits = ExitTable::make(1);
    let mut swept = Swept::default();
    watch.lap("before");
    let bodies = make(size);
    watch.lap("make");
    let made = bodies.len() as u32;
    if last >= 1 {
        place(&mut segment, bodies);
        watch.lap("place");
    }
    if last >= 2 {
        link(&mut segment, size);
        watch.lap("link");
    }
    let mut area = Area::of(segment);
    watch.lap("before");
    if last >= 3 {
        mark_from(&mut area, &mut exits, 2);
        watch.lap("mark");
    }
    if last >= 4 {
        sweep(&mut area, &mut swept);
        watch.lap("sweep");
    }
    if last >= 5 {
        mark_from(&mut area, &mut exits, 1);
        watch.lap("mark_half");
    }
    if last >= 6 {
        swept = Swept::default();
        sweep(&mut area, &mut swept);
        watch.lap("sweep_half");
    }
    format!(
        "{} {size}: {} objects of {} bytes, {} freed of {} bytes",
        STAGES[last],
        made - swept.objects,
        area.get(SEG).map_or(0, |segment| segment.bytes),
        swept.objects,
        swept.bytes
    )
}

/// Collects so many times, where of `size` objects that were made about `live` are reached.
fn again(watch: &mut Watch, word: &str, size: u32, live: u32, rounds: u32) -> String {
    let mut segment = Segment::make(SEG, size);
    place(&mut segment, make(size));
    link(&mut segment, live);
    let mut exits = ExitTable::make(1);
    let mut area = Area::of(segment);
    let mut swept = Swept::default();
    mark_from(&mut area, &mut exits, 1);
    sweep(&mut area, &mut swept);
    watch.lap("before");
    for _ in 0..rounds {
        clear(&mut area, &mut exits);
    }
    watch.lap("clears");
    for _ in 0..rounds {
        mark_from(&mut area, &mut exits, 1);
    }
    watch.lap("clears_marks");
    for _ in 0..rounds {
        mark_from(&mut area, &mut exits, 1);
        sweep(&mut area, &mut Swept::default());
    }
    watch.lap("collections");
    format!(
        "{word} {size}: {} objects of {} bytes, {} freed of {} bytes",
        size - swept.objects,
        area.get(SEG).map_or(0, |segment| segment.bytes),
        swept.objects,
        swept.bytes
    )
}

#[inline(never)]
fn add_all(table: &mut ExitTable, targets: &[Name], room: u32) -> u32 {
    let mut new = 0;
    for target in targets {
        if table.len() < room && table.add(link_to(*target)) {
            new += 1;
        }
    }
    new
}

#[inline(never)]
fn count_there(table: &ExitTable, names: &[Name]) -> u32 {
    names.iter().filter(|name| table.has(**name)).count() as u32
}

fn exits(watch: &mut Watch, size: u32, looks: bool) -> String {
    let targets = scattered(size / ROUNDS, false);
    let names = scattered(size / ROUNDS, true);
    let mut table = ExitTable::make(size / ROUNDS + 1);
    watch.lap("before");
    let mut new = 0;
    for _ in 0..ROUNDS {
        new += add_all(&mut table, &targets, size / ROUNDS + 1);
    }
    watch.lap("add");
    let mut there = 0;
    if looks {
        for _ in 0..ROUNDS {
            there += count_there(&table, &names);
        }
        watch.lap("has");
    }
    format!(
        "{} {size}: {} targets, {new} new, {there} there",
        if looks { "has" } else { "add" },
        table.len()
    )
}

#[inline(never)]
fn up_all(table: &mut EntryTable, targets: &[Name]) {
    for target in targets {
        table.up(link_to(*target));
    }
}

#[inline(never)]
fn down_all(table: &mut EntryTable, targets: &[Name]) {
    for target in targets {
        table.down(*target);
    }
}

/// Drains the half of the targets that isn't marked, and adds it again. Draining alone is timed.
fn drain(watch: &mut Watch, size: u32) -> String {
    let targets = scattered(size / ROUNDS, false);
    let names = scattered(size / ROUNDS, true);
    let mut table = ExitTable::make(size / ROUNDS + 1);
    let mut drained = 0;
    for _ in 0..ROUNDS {
        add_all(&mut table, &targets, size / ROUNDS + 1);
        table.unmark_all();
        for name in &names {
            if table.has(*name) {
                table.mark(*name);
            }
        }
        watch.lap("before");
        while table.take_unmarked().is_some() {
            drained += 1;
        }
        watch.lap("drain");
    }
    format!("drain {size}: {} targets, {drained} drained", table.len())
}

/// Marks an area of many segments again and again.
fn wide(watch: &mut Watch, size: u32) -> String {
    let each = size / (ROUNDS * SEGMENTS);
    let segments = (0..SEGMENTS)
        .map(|number| {
            let mut segment = Segment::make(Seg(number), each);
            place(&mut segment, make(each));
            link(&mut segment, each);
            segment
        })
        .collect();
    let mut area = Area::of_many(segments);
    let mut exits = ExitTable::make(1);
    watch.lap("before");
    for _ in 0..ROUNDS {
        clear(&mut area, &mut exits);
        for number in 0..SEGMENTS {
            area.make_gray(Name {
                seg: Seg(number),
                serial: Serial(1),
            });
        }
        mark(&mut area, &mut exits);
    }
    watch.lap("wide");
    let bytes: u64 = (0..SEGMENTS)
        .map(|number| area.get(Seg(number)).map_or(0, |segment| segment.bytes))
        .sum();
    format!("wide {size}: {bytes} bytes are marked")
}

/// Has each field that would refer to an object past the last one refer to one of `count` objects of another heap.
fn link_out(segment: &mut Segment, exits: &mut ExitTable, size: u32, count: u32) {
    for i in 1..size + 1 {
        let Some(from) = segment.find(Serial(i)) else {
            continue;
        };
        let first = 2 * i + i % 2;
        for field in 0..2 {
            if first + 2 * field <= size {
                continue;
            }
            let target = link_to(Name {
                seg: FAR,
                serial: Serial(1 + (2 * i + field) % count),
            });
            exits.add(target);
            segment.write_ref(from, field, Some(target));
        }
    }
}

/// Marks objects half of whose references lead to another heap.
fn foreign(watch: &mut Watch, size: u32) -> String {
    let count = size / ROUNDS + 1;
    let mut segment = Segment::make(SEG, size);
    place(&mut segment, make(size));
    link(&mut segment, size);
    let mut exits = ExitTable::make(count + 1);
    link_out(&mut segment, &mut exits, size, count);
    let bytes = segment.bytes;
    let mut area = Area::of(segment);
    watch.lap("before");
    mark_from(&mut area, &mut exits, 2);
    watch.lap("mark_foreign");
    let mut others = 0;
    while exits.take_unmarked().is_some() {
        others += 1;
    }
    format!(
        "mark_foreign {size}: {bytes} bytes, {} exit items marked, {others} not",
        exits.len()
    )
}

fn walk(watch: &mut Watch, size: u32) -> String {
    let targets = scattered(size / ROUNDS, false);
    let mut table = EntryTable::make(&[0, 1, 2, 3, 4], size / ROUNDS);
    for _ in 0..ROUNDS {
        up_all(&mut table, &targets);
    }
    watch.lap("before");
    let mut sum = 0;
    for _ in 0..ROUNDS {
        for home in 0..5 {
            let mut at = table.first_of(home);
            while let Some(link) = at {
                sum += link.serial.0 as u64;
                at = table.next_at(link);
            }
        }
    }
    watch.lap("walk");
    format!("walk {size}: the serials are {sum} in all")
}

fn entries(watch: &mut Watch, size: u32, downs: bool) -> String {
    let targets = scattered(size / ROUNDS, false);
    let mut table = EntryTable::make(&[0, 1, 2, 3, 4], size / ROUNDS);
    watch.lap("before");
    for _ in 0..ROUNDS {
        up_all(&mut table, &targets);
    }
    watch.lap("up");
    if downs {
        for _ in 0..ROUNDS {
            down_all(&mut table, &targets);
        }
        watch.lap("down");
    }
    let total: u64 = targets
        .iter()
        .map(|target| table.count(*target) as u64)
        .sum();
    format!(
        "{} {size}: the counts are {total} in all",
        if downs { "down" } else { "up" }
    )
}

fn main() {
    let words: Vec<String> = env::args().skip(1).collect();
    if words.len() < 2 || words.len() > 3 {
        exit(2);
    }
    let size = words[1].parse::<u32>().unwrap_or(0).min(MOST);
    let mut watch = Watch {
        is_timed: words.len() == 3,
        last: now(),
    };
    let word = words[0].as_str();
    let line = match STAGES.iter().position(|stage| *stage == word) {
        Some(last) => heap(&mut watch, size, last),
        None if word == "add" || word == "has" => exits(&mut watch, size, word == "has"),
        None if word == "up" || word == "down" => entries(&mut watch, size, word == "down"),
        None if word == "wide" => wide(&mut watch, size),
        None if word == "mark_foreign" => foreign(&mut watch, size),
        None if word == "walk" => walk(&mut watch, size),
        None if word == "drain" => drain(&mut watch, size),
        None if word == "again" => again(&mut watch, word, size, size / 10 * 3, 4_000),
        None if word == "dead" => again(&mut watch, word, size, 10, 60_000),
        None => String::new(),
    };
    println!("{line}");
}
