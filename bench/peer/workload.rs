//! The workload of `big N`, as docs/BIG.md of this project describes it, and its summary.

use crate::names::{Event, Operation, Reply};
use crate::trace::Trace;
use crate::world::{hold, World};
use std::fmt::{self, Display, Formatter};

const PROCESSES: u8 = 8;

/// The register that holds the directory.
const DIRECTORY_REGISTER: u8 = 15;

/// Each so many-th object is referred to by the directory.
const KEPT_EACH: u64 = 5;

/// After so many objects each process drops its registers and collects its heap.
const COLLECTED_EACH: u64 = 10;

/// The trace: eight processes that make `count` objects each.
pub fn big(count: u64) -> Trace {
    let maximum = 40 * count;
    Trace {
        root_maximum: u64::from(PROCESSES) * maximum,
        maxima: vec![maximum; PROCESSES.into()],
        operations: (0..PROCESSES).map(|process| operations(process, count)).collect(),
        order: Vec::new(),
    }
}

fn operations(process: u8, count: u64) -> Vec<Operation> {
    let mut all = vec![Operation::Directory { to: DIRECTORY_REGISTER }];
    for j in 0..count {
        all.extend([
            Operation::New { to: 0 },
            Operation::Store { base: 0, field: 0, from: 1 },
            Operation::Move { to: 1, from: 0 },
            Operation::Put { base: 0, field: 2, number: j },
        ]);
        if j % KEPT_EACH == 0 {
            all.push(Operation::Store { base: DIRECTORY_REGISTER, field: process, from: 0 });
        }
        if (j + 1) % COLLECTED_EACH == 0 {
            all.extend([Operation::Drop { register: 0 }, Operation::Drop { register: 1 }, Operation::Collect]);
        }
    }
    if process % 2 == 0 {
        all.push(Operation::Exit);
    }
    all
}

/// The eight lines that `big` writes of a run.
pub struct Summary {
    count: u64,
    operations: usize,
    events: usize,
    faults: usize,
    freed: u64,
    kernel: u64,
    live: u64,
    root: u64,
}

impl Summary {
    pub fn of(world: &World, count: u64) -> Self {
        let book = hold(&world.book);
        let (mut ends, mut faults, mut freed) = (0, 0, 0);
        for event in &book.journal {
            match event {
                Event::Collected { objects, .. } => {
                    ends += 1;
                    freed += u64::from(*objects);
                }
                Event::Operated { reply: Reply::LimitFull, .. } => faults += 1,
                Event::Operated { .. } => {}
            }
        }
        Summary {
            count,
            operations: book.journal.len() - ends,
            events: book.journal.len(),
            faults,
            freed,
            kernel: book.kernel_bytes,
            live: book.uses.iter().sum(),
            root: book.root_use(),
        }
    }
}

impl Display for Summary {
    fn fmt(&self, out: &mut Formatter<'_>) -> fmt::Result {
        writeln!(out, "big {}\noperations {}\nevents {}", self.count, self.operations, self.events)?;
        writeln!(out, "faults {}\nfreed {}\nkernel {}", self.faults, self.freed, self.kernel)?;
        writeln!(out, "live {}\nroot {}", self.live, self.root)
    }
}
