//! What the peer speaks of: names of objects, operations, replies and events.

/// The number of the kernel's heap. The heap of process `p` has number `p + 1`.
pub const KERNEL: u32 = 0;

/// How many registers a process has.
pub const REGISTERS: usize = 16;

/// How many fields the directory has, the one object of the kernel.
pub const DIRECTORY_FIELDS: usize = 8;

/// The bytes of an object of the workload's only type, two references and an integer with a header.
pub const NODE_BYTES: u64 = 16 + 8 * 3;

/// The bytes of the directory.
pub const DIRECTORY_BYTES: u64 = 16 + 8 * DIRECTORY_FIELDS as u64;

/// An object: the heap that it was made in, how many were made there before it, and where it lies.
#[derive(Clone, Copy, PartialEq, Eq, Hash, PartialOrd, Ord)]
pub struct Name {
    pub heap: u32,
    pub serial: u32,
    pub slot: u32,
}

/// The directory.
pub const DIRECTORY: Name = Name { heap: KERNEL, serial: 1, slot: 0 };

/// What a register or a field of a reference holds.
pub type Reference = Option<Name>;

/// An operation of a process. Registers and fields are numbers.
#[derive(Clone, Copy)]
pub enum Operation {
    New { to: u8 },
    Store { base: u8, field: u8, from: u8 },
    Move { to: u8, from: u8 },
    Drop { register: u8 },
    Directory { to: u8 },
    Put { base: u8, field: u8, number: u64 },
    Collect,
    Exit,
}

/// What an operation is answered.
#[derive(Clone, Copy)]
pub enum Reply {
    Done,
    Object(Name),
    LimitFull,
}

/// One entry of the journal.
#[derive(Clone, Copy)]
pub enum Event {
    Operated { process: u32, operation: Operation, reply: Reply },
    Collected { process: u32, objects: u32, bytes: u64, exits: u32 },
}
