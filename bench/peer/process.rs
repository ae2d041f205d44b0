//! A process: its heap, its registers, and what it did that the journal has not yet.

use crate::heap::{ExitItems, Heap};
use crate::names::{Event, Name, Operation, Reference, Reply, KERNEL, REGISTERS};

pub struct Process {
    pub number: u32,
    pub heap: Heap,
    pub registers: [Reference; REGISTERS],
    pub exits: ExitItems,
    /// How many of its operations are done.
    pub done: usize,
    pub unpublished: Vec<Event>,
    pub has_ended: bool,
}

impl Process {
    pub fn new(number: u32) -> Self {
        Process {
            number,
            heap: Heap::new(number + 1),
            registers: [None; REGISTERS],
            exits: ExitItems::new(),
            done: 0,
            unpublished: Vec::new(),
            has_ended: false,
        }
    }

    pub fn register(&self, register: u8) -> Reference {
        self.registers[register as usize]
    }

    fn is_inside(&self, reference: Reference) -> bool {
        reference.is_none_or(|name| name.heap == self.heap.number)
    }

    fn own_object(&self, register: u8) -> Option<Name> {
        self.register(register).filter(|name| name.heap == self.heap.number)
    }

    /// Whether the operation writes the directory.
    pub fn writes_directory(&self, operation: Operation) -> bool {
        matches!(operation, Operation::Store { base, .. } if self.register(base).is_some_and(|name| name.heap == KERNEL))
    }

    /// Does the operation where it touches this heap alone and changes nothing that the book has; `None` where it does not.
    pub fn do_inside(&mut self, operation: Operation) -> Option<Event> {
        match operation {
            Operation::Store { base, field, from } => {
                let base = self.own_object(base)?;
                let value = self.register(from);
                if !self.is_inside(value) {
                    return None;
                }
                self.heap.object(base).references[field as usize] = value;
            }
            Operation::Move { to, from } => {
                let value = self.register(from);
                if !self.is_inside(self.register(to)) || !self.is_inside(value) {
                    return None;
                }
                self.registers[to as usize] = value;
            }
            Operation::Drop { register } => {
                if !self.is_inside(self.register(register)) {
                    return None;
                }
                self.registers[register as usize] = None;
            }
            Operation::Put { base, number, .. } => {
                let base = self.own_object(base)?;
                self.heap.object(base).integer = number;
            }
            _ => return None,
        }
        self.done += 1;
        Some(Event::Operated { process: self.number, operation, reply: Reply::Done })
    }
}
