//! Runs a program and writes what it used: launch FILE PROGRAM WORDS..
//!
//! The line in FILE has the elapsed time, the processor time of user and of system in microseconds, the peak memory in kB, how often a
//! thread slept, and the exit status. A process takes the peak memory of whoever started it as its own, so this one is small.

use std::env;
use std::fs;
use std::io;
use std::os::unix::process::ExitStatusExt;
use std::process::{Command, ExitCode};
use std::time::Instant;

/// `struct rusage` of Linux on 64 bits.
#[repr(C)]
#[derive(Default)]
struct Usage {
    user: [i64; 2],
    system: [i64; 2],
    peak: i64,
    unused: [i64; 11],
    voluntary_switches: i64,
    involuntary_switches: i64,
}

const RUSAGE_CHILDREN: i32 = -1;

/// What a shell adds to a signal's number to make a status of it.
const SIGNALLED: i32 = 128;

extern "C" {
    fn getrusage(who: i32, usage: *mut Usage) -> i32;
}

fn microseconds(time: [i64; 2]) -> i64 {
    time[0] * 1_000_000 + time[1]
}

fn launch(file: &str, program: &str, words: &[String]) -> io::Result<()> {
    let start = Instant::now();
    let status = Command::new(program).args(words).status()?;
    let elapsed = start.elapsed().as_micros();
    let mut usage = Usage::default();
    // Safety: the struct has the layout and at least the size of the one that is written.
    if unsafe { getrusage(RUSAGE_CHILDREN, &mut usage) } != 0 {
        return Err(io::Error::last_os_error());
    }
    let status = status.code().unwrap_or_else(|| SIGNALLED + status.signal().unwrap_or(0));
    let (user, system) = (microseconds(usage.user), microseconds(usage.system));
    fs::write(file, format!("{elapsed} {user} {system} {} {} {status}\n", usage.peak, usage.voluntary_switches))
}

fn main() -> ExitCode {
    let words: Vec<String> = env::args().collect();
    let [_, file, program, words @ ..] = words.as_slice() else {
        eprintln!("usage: launch FILE PROGRAM WORDS..");
        return ExitCode::from(2);
    };
    match launch(file, program, words) {
        Ok(()) => ExitCode::SUCCESS,
        Err(error) => {
            eprintln!("launch: {program}: {error}");
            ExitCode::FAILURE
        }
    }
}
