//! The host of four_guests.c in Rust: four guests of one host, which up to four threads drive.
//!
//! `four_guests THREADS ROUNDS` prints how many events the journal has at the end, which depends on no schedule, and on standard error how
//! long that took. With 0 threads it does all by one thread and then by four, and says how many times as fast these are.
#[path = "kaffe.rs"]
#[allow(dead_code)]
mod kaffe;

use kaffe::parts::Parts;
use kaffe::{Pid, Refusal, Reg, TypeId};
use std::env;
use std::error::Error;
use std::thread;
use std::time::{Duration, Instant};

const GUESTS: u32 = 4;
const NODE: TypeId = TypeId(0);
const OWN: Reg = Reg(0);
const OTHER: Reg = Reg(1);
const FOUND: Reg = Reg(2);
const DIR: Reg = Reg(3);

const DECLARED: &str = "\
kaffe 1
kernel 4096 4
type Node ref ref int
limit root 100000
limit a root hard 10000
limit b root hard 10000
limit c root hard 10000
limit d root hard 10000
proc a a
proc b b
proc c c
proc d d
";

/// Five operations inside the heap of the guest.
fn round(host: &Parts, guest: Pid) -> Result<(), Refusal> {
    host.put(guest, OWN, 2, 7)?;
    host.get(guest, OWN, 2)?;
    host.store(guest, OTHER, 1, OWN)?;
    host.load(guest, FOUND, OTHER, 1)?;
    host.copy(guest, FOUND, OTHER)
}

/// Two objects, of which the first leads to the second; the rounds; and a store of the first into the directory, which is the kernel's.
fn work(host: &Parts, guest: Pid, rounds: u32) -> Result<(), Refusal> {
    host.new(guest, OWN, NODE)?;
    host.new(guest, OTHER, NODE)?;
    host.store(guest, OWN, 0, OTHER)?;
    for _ in 0..rounds {
        round(host, guest)?;
    }
    host.dir(guest, DIR)?;
    host.store(guest, DIR, 0, OWN)?;
    host.collect(guest).map(|_| ())
}

/// Has so many threads drive the guests, each of them those whose numbers leave its own by division.
fn drive(host: &Parts, threads: u32, rounds: u32) -> Result<(), Refusal> {
    let share = |first: u32| (first..GUESTS).step_by(threads as usize).try_for_each(|guest| work(host, Pid(guest), rounds));
    thread::scope(|scope| {
        let running: Vec<_> = (0..threads).map(|first| scope.spawn(move || share(first))).collect();
        running.into_iter().try_for_each(|one| one.join().expect("a thread that drives guests does not panic"))
    })
}

/// How many events the journal of a host has that so many threads drove, and how long they did.
fn events(threads: u32, rounds: u32) -> Result<(u64, Duration), Box<dyn Error>> {
    let host = Parts::open(DECLARED, NODE, 10, 1000)?;
    let began = Instant::now();
    drive(&host, threads, rounds)?;
    let time = began.elapsed();
    Ok((host.events().unwrap_or(0), time))
}

fn main() -> Result<(), Box<dyn Error>> {
    let words = env::args().skip(1).map(|word| word.parse()).collect::<Result<Vec<u32>, _>>()?;
    let [threads @ 0..=GUESTS, rounds] = words[..] else {
        return Err("four_guests THREADS ROUNDS, with at most 4 threads".into());
    };
    let (count, alone) = events(threads.max(1), rounds)?;
    println!("{count} events");
    eprintln!("{}: {:.3} s", threads.max(1), alone.as_secs_f64());
    if threads == 0 {
        let (again, time) = events(GUESTS, rounds)?;
        assert_eq!(again, count);
        eprintln!("{GUESTS}: {:.3} s, {:.2} times as fast", time.as_secs_f64(), alone.as_secs_f64() / time.as_secs_f64());
    }
    Ok(())
}
