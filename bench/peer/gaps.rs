//! How long a process waits at most while the heap of another one is collected.

use crate::names::Operation;
use crate::process::Process;
use crate::world::{hold, Publishing, World};
use std::hint::black_box;
use std::sync::atomic::{AtomicBool, Ordering};
use std::thread;
use std::time::{Duration, Instant};

/// How many collections are looked at.
const COLLECTIONS: u32 = 10;

/// Room for the journal, so that it does not grow while the book is held. What is not written takes no memory.
const EVENTS: usize = 1 << 25;

/// What the sibling does again and again.
#[derive(Clone, Copy)]
pub enum Sibling {
    /// Writes an integer into its own object, without the book.
    Inside,
    /// Makes an object, drops it and collects its own heap, all of which needs the book.
    WithBook,
}

/// The time of one collection, and the longest time between two rounds of the sibling.
pub struct Gap {
    pub collection: Duration,
    pub longest: Duration,
}

/// The gaps of a sibling while a heap of so many live objects, a list, is collected.
pub fn longest_gap(objects: u32, sibling: Sibling) -> Gap {
    let maxima = vec![u64::MAX / 4; 2];
    let world = World::new(vec![Vec::new(); 2], maxima, u64::MAX / 2);
    hold(&world.book).journal = Vec::with_capacity(EVENTS);
    make_list(&world, objects);
    let is_over = AtomicBool::new(false);
    let began = AtomicBool::new(false);
    thread::scope(|scope| {
        let watched = scope.spawn(|| watch(&world, sibling, &began, &is_over));
        while !began.load(Ordering::Acquire) {
            thread::yield_now();
        }
        let start = Instant::now();
        for _ in 0..COLLECTIONS {
            step(&world, 0, Operation::Collect);
        }
        let collection = start.elapsed() / COLLECTIONS;
        is_over.store(true, Ordering::Release);
        let longest = watched.join().expect("the sibling ended otherwise than by the end of the collections");
        Gap { collection, longest }
    })
}

fn step(world: &World, process: usize, operation: Operation) {
    let mut process = hold(&world.processes[process]);
    world.step(&mut process, operation, Publishing::Later);
}

/// The first process makes a list of all objects and keeps it in a register.
fn make_list(world: &World, objects: u32) {
    for _ in 0..objects {
        step(world, 0, Operation::New { to: 0 });
        step(world, 0, Operation::Store { base: 0, field: 0, from: 1 });
        step(world, 0, Operation::Move { to: 1, from: 0 });
    }
    let mut book = hold(&world.book);
    book.publish(&mut hold(&world.processes[0]));
    book.journal.clear();
}

fn watch(world: &World, sibling: Sibling, began: &AtomicBool, is_over: &AtomicBool) -> Duration {
    step(world, 1, Operation::New { to: 0 });
    let mut longest = Duration::ZERO;
    let mut last = Instant::now();
    while !is_over.load(Ordering::Acquire) {
        match sibling {
            Sibling::Inside => write_own(&mut hold(&world.processes[1])),
            Sibling::WithBook => {
                step(world, 1, Operation::New { to: 0 });
                step(world, 1, Operation::Drop { register: 0 });
                step(world, 1, Operation::Collect);
            }
        }
        let now = Instant::now();
        longest = longest.max(now - last);
        last = now;
        began.store(true, Ordering::Release);
    }
    longest
}

/// An operation inside the heap. Its event is not kept: as many as come would need memory of their own.
fn write_own(process: &mut Process) {
    black_box(process.do_inside(Operation::Put { base: 0, field: 2, number: 7 }));
}
