//! A plain Rust peer of this project's program: the workload of `big N` as a Rust programmer would write the same design with the
//! standard library, a lock for each heap, one for the kernel's heap, one for the book, and workers that take turns. It proves
//! nothing, and takes its input for granted as far as that costs time. `bench/measure` runs both programs in turn.
//!
//!     peer big N [WORKERS] [each|stretches]       runs the workload on threads and writes its summary
//!     peer trace N                                writes the workload's trace
//!     peer replay < TRACE                         writes the report of a run in the order of the file
//!     peer run [WORKERS] [each|stretches] < TRACE writes that of a run on threads, and its time in ms to standard error
//!     peer gaps OBJECTS [inside|book]             the longest time, in ms, that a process waits while another's heap is collected
//!
//! `each` takes the book for each operation that needs it, `stretches` for up to 64 of them, as the measured program does.

mod book;
mod gaps;
mod heap;
mod names;
mod process;
mod report;
mod trace;
mod workload;
mod world;

use gaps::{longest_gap, Sibling};
use report::write_report;
use std::env;
use std::io::{self, BufWriter, Read, Write};
use std::process::ExitCode;
use std::time::Duration;
use trace::Trace;
use workload::{big, Summary};
use world::{hold, Form, Publishing, World};

const USAGE: &str = "usage: peer big N [WORKERS] [each|stretches] | trace N | replay | run [WORKERS] [each|stretches] | gaps OBJECTS [inside|book]";

/// How many workers there are where none are named: as many as the measured program has.
const WORKERS: usize = 4;

/// How many bytes are gathered before they are written.
const BUFFER: usize = 1 << 16;

/// What the command line asks for.
enum Command {
    Big { count: u64, workers: usize, form: Form },
    Trace { count: u64 },
    Replay,
    Run { workers: usize, form: Form },
    Gaps { objects: u32, sibling: Sibling },
}

fn workers_of(word: Option<&str>) -> Option<usize> {
    word.map_or(Some(WORKERS), |word| word.parse().ok())
}

fn form_of(word: Option<&str>) -> Option<Form> {
    match word {
        None | Some("each") => Some(Form::Each),
        Some("stretches") => Some(Form::Stretches),
        Some(_) => None,
    }
}

impl Command {
    fn of(words: &[&str]) -> Option<Command> {
        let word = |at: usize| words.get(at).copied();
        let command = match (word(0)?, words.len()) {
            ("big", 2..=4) => Command::Big { count: words[1].parse().ok()?, workers: workers_of(word(2))?, form: form_of(word(3))? },
            ("trace", 2) => Command::Trace { count: words[1].parse().ok()? },
            ("replay", 1) => Command::Replay,
            ("run", 1..=3) => Command::Run { workers: workers_of(word(1))?, form: form_of(word(2))? },
            ("gaps", 2 | 3) => {
                let sibling = match word(2) {
                    None | Some("book") => Sibling::WithBook,
                    Some("inside") => Sibling::Inside,
                    Some(_) => return None,
                };
                Command::Gaps { objects: words[1].parse().ok()?, sibling }
            }
            _ => return None,
        };
        Some(command)
    }

    fn obey(self) -> io::Result<()> {
        let mut out = BufWriter::with_capacity(BUFFER, io::stdout().lock());
        match self {
            Command::Big { count, workers, form } => {
                let trace = big(count);
                let world = World::new(trace.operations, trace.maxima, trace.root_maximum);
                world.run(workers, form);
                write!(out, "{}", Summary::of(&world, count))?;
            }
            Command::Trace { count } => big(count).write(&mut out)?,
            Command::Replay => write_report(replay(read_trace()?), &mut out)?,
            Command::Run { workers, form } => {
                let trace = read_trace()?;
                let world = World::new(trace.operations, trace.maxima, trace.root_maximum);
                eprintln!("run {:.3}", milliseconds(world.run(workers, form)));
                write_report(world, &mut out)?;
            }
            Command::Gaps { objects, sibling } => {
                let gap = longest_gap(objects, sibling);
                writeln!(out, "collection {:.3} longest {:.3}", milliseconds(gap.collection), milliseconds(gap.longest))?;
            }
        }
        out.flush()
    }
}

fn milliseconds(time: Duration) -> f64 {
    time.as_secs_f64() * 1e3
}

fn read_trace() -> io::Result<Trace> {
    let mut text = String::new();
    io::stdin().read_to_string(&mut text)?;
    Trace::read(&text)
}

/// A run of the trace in the order of its file.
fn replay(trace: Trace) -> World {
    let world = World::new(trace.operations, trace.maxima, trace.root_maximum);
    for number in trace.order {
        let mut process = hold(&world.processes[number as usize]);
        let operation = world.operations[number as usize][process.done];
        world.step(&mut process, operation, Publishing::AtOnce);
    }
    world
}

fn main() -> ExitCode {
    let words: Vec<String> = env::args().skip(1).collect();
    let words: Vec<&str> = words.iter().map(String::as_str).collect();
    let Some(command) = Command::of(&words) else {
        eprintln!("{USAGE}");
        return ExitCode::from(2);
    };
    match command.obey() {
        Ok(()) => ExitCode::SUCCESS,
        Err(error) => {
            eprintln!("peer: {error}");
            ExitCode::FAILURE
        }
    }
}
