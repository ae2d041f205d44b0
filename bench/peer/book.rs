//! What lies between heaps: what is used at each limit, the entry items and pins of each heap, the kernel, and the journal.

use crate::heap::{ExitItems, Heap};
use crate::names::{Event, Name, Operation, Reference, Reply, DIRECTORY, DIRECTORY_BYTES, DIRECTORY_FIELDS, KERNEL, NODE_BYTES, REGISTERS};
use crate::process::Process;
use std::collections::HashMap;
use std::mem;

/// The kernel's heap. It is never collected here, so the heaps of ended processes are kept as they were.
pub struct Kernel {
    pub directory: [Reference; DIRECTORY_FIELDS],
    pub exits: ExitItems,
    pub merged: Vec<Heap>,
}

impl Kernel {
    pub fn new() -> Self {
        Kernel { directory: [None; DIRECTORY_FIELDS], exits: ExitItems::new(), merged: Vec::new() }
    }
}

pub struct Book {
    /// By process: what its hard limit has in use, and the most that it may have.
    pub uses: Vec<u64>,
    pub maxima: Vec<u64>,
    pub root_maximum: u64,
    pub kernel_bytes: u64,
    /// By home process: how many heaps refer to each of its objects.
    entries: Vec<HashMap<Name, u32>>,
    /// How many registers of other processes hold an object.
    pins: HashMap<Name, u32>,
    pub journal: Vec<Event>,
}

impl Book {
    /// The maxima are those of the processes' limits. `events` is the room for the journal, taken at once.
    pub fn new(maxima: Vec<u64>, root_maximum: u64, events: usize) -> Self {
        Book {
            uses: vec![0; maxima.len()],
            entries: vec![HashMap::new(); maxima.len()],
            maxima,
            root_maximum,
            kernel_bytes: DIRECTORY_BYTES,
            pins: HashMap::new(),
            journal: Vec::with_capacity(events),
        }
    }

    /// What is used of the root: the hard limits' maxima, which are reserved.
    pub fn root_use(&self) -> u64 {
        self.maxima.iter().sum()
    }

    /// Enters what the process did by itself.
    pub fn publish(&mut self, process: &mut Process) {
        self.journal.append(&mut process.unpublished);
    }

    /// Enters an event behind what its process did before it.
    pub fn enter(&mut self, process: &mut Process, event: Event) {
        self.publish(process);
        self.journal.push(event);
    }

    fn set_register(&mut self, process: &mut Process, register: u8, value: Reference) {
        let home = process.heap.number;
        let old = mem::replace(&mut process.registers[register as usize], value);
        if let Some(name) = value.filter(|name| name.heap != home) {
            *self.pins.entry(name).or_insert(0) += 1;
        }
        if let Some(name) = old.filter(|name| name.heap != home) {
            self.unpin(name);
        }
    }

    fn unpin(&mut self, name: Name) {
        if let Some(count) = self.pins.get_mut(&name) {
            *count -= 1;
            if *count == 0 {
                self.pins.remove(&name);
            }
        }
    }

    /// Does an operation that needs the book and no other lock than the process's; `None` where it needs the kernel's, or collects.
    pub fn do_with_book(&mut self, process: &mut Process, operation: Operation) -> Option<Reply> {
        let reply = match operation {
            Operation::New { to } => self.allocate(process, to),
            Operation::Directory { to } => {
                self.set_register(process, to, Some(DIRECTORY));
                Reply::Object(DIRECTORY)
            }
            Operation::Move { to, from } => {
                let value = process.register(from);
                self.set_register(process, to, value);
                Reply::Done
            }
            Operation::Drop { register } => {
                self.set_register(process, register, None);
                Reply::Done
            }
            _ => return None,
        };
        Some(reply)
    }

    fn allocate(&mut self, process: &mut Process, to: u8) -> Reply {
        let at = process.number as usize;
        if self.uses[at] + NODE_BYTES > self.maxima[at] {
            return Reply::LimitFull;
        }
        self.uses[at] += NODE_BYTES;
        let name = process.heap.place();
        self.set_register(process, to, Some(name));
        Reply::Object(name)
    }

    /// Has a field of the directory refer to what the register holds.
    pub fn write_directory(&mut self, kernel: &mut Kernel, field: u8, value: Reference) -> Reply {
        kernel.directory[field as usize] = value;
        if let Some(name) = value.filter(|name| name.heap != KERNEL) {
            if kernel.exits.insert(name, false).is_none() {
                *self.entries[name.heap as usize - 1].entry(name).or_insert(0) += 1;
            }
        }
        Reply::Done
    }

    /// The objects from which a collection of the process's heap begins.
    pub fn roots(&self, process: &Process) -> Vec<Name> {
        let own = |name: &&Name| name.heap == process.heap.number;
        let entered = self.entries[process.number as usize].keys();
        entered.chain(process.registers.iter().flatten().filter(own)).copied().collect()
    }

    /// Ends the process: its heap becomes the kernel's, and nothing is charged for it any more.
    pub fn end(&mut self, kernel: &mut Kernel, process: &mut Process) -> Reply {
        for register in 0..REGISTERS as u8 {
            self.set_register(process, register, None);
        }
        process.has_ended = true;
        let at = process.number as usize;
        let entered = mem::take(&mut self.entries[at]);
        kernel.exits.retain(|name, _| !entered.contains_key(name));
        let heap = mem::replace(&mut process.heap, Heap::new(process.number + 1));
        self.kernel_bytes += u64::from(heap.live) * NODE_BYTES;
        self.uses[at] = 0;
        kernel.merged.push(heap);
        Reply::Done
    }
}
