//! What a host is told and answers: numbers of what is declared, errors, faults and events. `kaffe.rs` has this as a module.
use super::call;
use std::error::Error;
use std::fmt;

/// What came of it, as `kaffe_answer` of `kaffe.h`.
#[repr(C)]
#[derive(Clone, Copy, Debug, Default, PartialEq, Eq)]
pub(super) struct Answer {
    pub status: u32,
    pub fault: u32,
    pub at: u32,
    pub what: u32,
    pub seg: u32,
    pub serial: u32,
    pub number: u64,
}

/// What an event was asked for begins here: this and the number of the call.
const ASKED: u32 = 32;
/// The numbers of events that are no calls.
mod event {
    pub const ENDED: u32 = 22;
    pub const CLOSING: u32 = 23;
}

/// The number of a process, from 0 in order of declaration.
#[derive(Clone, Copy, Debug, PartialEq, Eq, PartialOrd, Ord, Hash)]
pub struct Pid(pub u32);
/// The number of a register, 0 to 15.
#[derive(Clone, Copy, Debug, PartialEq, Eq, PartialOrd, Ord, Hash)]
pub struct Reg(pub u8);
/// The number of a type, from 0 in order of declaration.
#[derive(Clone, Copy, Debug, PartialEq, Eq, PartialOrd, Ord, Hash)]
pub struct TypeId(pub u32);
/// The number of a limit, from 0 in order of declaration.
#[derive(Clone, Copy, Debug, PartialEq, Eq, PartialOrd, Ord, Hash)]
pub struct LimitId(pub u32);
/// The number of a shared heap, from 0 in order of declaration.
#[derive(Clone, Copy, Debug, PartialEq, Eq, PartialOrd, Ord, Hash)]
pub struct SharedId(pub u32);

/// The name of an object: it is never used again, so a host may keep it as a key.
#[derive(Clone, Copy, Debug, PartialEq, Eq, PartialOrd, Ord, Hash)]
pub struct Name {
    pub seg: u32,
    pub serial: u32,
}

/// What a collection freed.
#[derive(Clone, Copy, Debug, PartialEq, Eq)]
pub struct Freed {
    pub objects: u32,
    pub bytes: u64,
    pub exit_items: u32,
    pub shares: u32,
}

/// What a host has printed, as bytes: a trace, and a report that is accepted for it.
#[derive(Clone, Debug, PartialEq, Eq)]
pub struct Texts {
    pub trace: Vec<u8>,
    pub report: Vec<u8>,
}

/// What a call lacks. Nothing has changed.
#[derive(Clone, Copy, Debug, PartialEq, Eq)]
pub enum Lack {
    /// No such process, register, type, limit or shared heap is declared, a field is 16 or above, or a maximum is 2^40 or more; or the
    /// question has no answer.
    Unknown,
    /// The operation has a call of its own. No method answers it.
    OwnCall,
    /// The process has ended.
    Ended,
    /// A collection of a heap that is touched is open, or of a host that is to be printed. The methods leave none open.
    Phase,
    /// The journal has no room for the event, or the process has done 2^64 - 1 operations.
    Full,
    /// Memory is wanting for the object, and the supply of the process has no body of its type; or for printing, or for larger rooms.
    NoMemory,
    /// The shared heap to be absorbed is not the first orphan.
    Orphan,
    /// No more events are left than are kept for collections. `kill` asks for none of them.
    Reserved,
    /// As many objects live in the heap as it has room for: collect it, or the kernel heap after `knew`.
    Objects,
    /// A reference that leads out of its heap may need an exit item or an entry item, and no more is left of these.
    Items,
    /// The host is not printed: fewer events are kept than there are.
    Forgotten,
    /// The host is not printed: there are more operations than a trace has, 200,000.
    TooMany,
    /// The host is not printed: a check reads no texts so long, 16,777,216 bytes of a trace and 67,108,864 of both.
    TooLong,
    /// The host is not printed: every process has ended.
    Over,
    /// The rooms are less than those that the host has, or not fit.
    Rooms,
    /// The library is of another version than this module: it has no such call, or answers a number that this module has not.
    NoCall,
}

/// Why an operation is refused. It counts as done, and has changed no heap, register or charge.
#[derive(Clone, Copy, Debug, PartialEq, Eq)]
pub enum Fault {
    /// The base register, or the root register of `freeze`, is null.
    Null,
    /// Another living process owns the base object.
    Foreign,
    /// The shared heap owns the base object, and the process does not share it.
    NotSharer(SharedId),
    /// The object has no such field.
    NoField,
    /// A reference was asked of an integer field, or a number of a reference field.
    WrongKind,
    /// The base object is in a frozen shared heap.
    Frozen,
    /// The write barrier refuses the store, or the root of `freeze` is not in that heap.
    Segv,
    /// The process does not populate the shared heap.
    NotPopulating(SharedId),
    /// The shared heap is not frozen.
    NotFrozen(SharedId),
    /// The shared heap has been made before.
    Taken(SharedId),
    /// The limit is full: collect a heap that it counts, or kill a guest. On `resize`, one of the path above a hard limit.
    LimitFull(LimitId),
    /// The kernel heap is at its ceiling.
    KernelFull,
    /// The limit of the process is not strictly below that of the process that would kill it.
    ProcNotBelow(Pid),
    /// The limit is not strictly below that of the process that would resize it.
    LimitNotBelow(LimitId),
    /// More bytes are in use at the limit than the maximum that it would get.
    InUse(LimitId),
}

/// Why a call is not done.
#[derive(Clone, Copy, Debug, PartialEq, Eq)]
pub enum Refusal {
    Lack(Lack),
    Fault(Fault),
}

/// Why no host is made.
#[derive(Clone, Copy, Debug, PartialEq, Eq)]
pub enum OpenError {
    /// The first bad line of the text, and the number of its reason in `docs/FORMATS.md`.
    Bad { line: u32, reason: u32 },
    /// Memory ran out.
    NoMemory,
    /// The type is not declared, or the rooms are not as [`Rooms`] says.
    Terms,
}

impl fmt::Display for Refusal {
    fn fmt(&self, f: &mut fmt::Formatter<'_>) -> fmt::Result {
        match self {
            Refusal::Lack(lack) => write!(f, "{lack:?}"),
            Refusal::Fault(fault) => write!(f, "{fault:?}"),
        }
    }
}

impl fmt::Display for OpenError {
    fn fmt(&self, f: &mut fmt::Formatter<'_>) -> fmt::Result {
        write!(f, "{self:?}")
    }
}

impl Error for Refusal {}
impl Error for OpenError {}

pub(super) fn lack_of(status: u32) -> Lack {
    match status {
        1 => Lack::Unknown,
        2 => Lack::OwnCall,
        3 => Lack::Ended,
        4 => Lack::Phase,
        5 => Lack::Full,
        6 => Lack::NoMemory,
        7 => Lack::Orphan,
        10 => Lack::Reserved,
        11 => Lack::Objects,
        12 => Lack::Items,
        13 => Lack::Forgotten,
        14 => Lack::TooMany,
        15 => Lack::TooLong,
        16 => Lack::Over,
        19 => Lack::Rooms,
        _ => Lack::NoCall,
    }
}

fn fault_of(fault: u32, at: u32) -> Option<Fault> {
    Some(match fault {
        1 => Fault::Null,
        2 => Fault::Foreign,
        3 => Fault::NotSharer(SharedId(at)),
        4 => Fault::NoField,
        5 => Fault::WrongKind,
        6 => Fault::Frozen,
        7 => Fault::Segv,
        8 => Fault::NotPopulating(SharedId(at)),
        9 => Fault::NotFrozen(SharedId(at)),
        10 => Fault::Taken(SharedId(at)),
        11 => Fault::LimitFull(LimitId(at)),
        12 => Fault::KernelFull,
        13 => Fault::ProcNotBelow(Pid(at)),
        14 => Fault::LimitNotBelow(LimitId(at)),
        15 => Fault::InUse(LimitId(at)),
        _ => return None,
    })
}

pub(super) fn refusal_of(fault: u32, at: u32) -> Refusal {
    fault_of(fault, at).map_or(Refusal::Lack(Lack::NoCall), Refusal::Fault)
}

pub(super) fn freed(a: Answer) -> Freed {
    Freed { objects: a.seg, bytes: a.number, exit_items: a.serial, shares: a.at }
}

pub(super) fn name(a: Answer) -> Name {
    Name { seg: a.seg, serial: a.serial }
}

pub(super) fn target(a: Answer) -> Option<Name> {
    (a.serial != 0).then(|| name(a))
}

/// What was asked for by a call that is an event.
#[derive(Clone, Copy, Debug, PartialEq, Eq)]
pub enum Asked {
    New { pid: Pid, reg: Reg, ty: TypeId },
    KNew { pid: Pid, reg: Reg, ty: TypeId },
    SNew { pid: Pid, reg: Reg, shared: SharedId, ty: TypeId },
    Store { pid: Pid, base: Reg, field: u32, value: Reg },
    Load { pid: Pid, reg: Reg, base: Reg, field: u32 },
    Copy { pid: Pid, reg: Reg, from: Reg },
    Clear { pid: Pid, reg: Reg },
    Dir { pid: Pid, reg: Reg },
    Put { pid: Pid, base: Reg, field: u32, number: u64 },
    Get { pid: Pid, base: Reg, field: u32 },
    Share { pid: Pid, shared: SharedId },
    Freeze { pid: Pid, shared: SharedId, root: Reg },
    Attach { pid: Pid, reg: Reg, shared: SharedId },
    KillBy { pid: Pid, target: Pid },
    Resize { pid: Pid, limit: LimitId, most: u64 },
    /// A collection of the process's heap begins; its end is an event of its own, as is that of `KCollect`.
    Collect { pid: Pid },
    KCollect { pid: Pid },
    Kill { pid: Pid },
    Absorb { shared: SharedId },
    /// The collection of the heap of that process has ended, or that of the kernel heap.
    Ended { of: Option<Pid> },
    /// The last collection of a run. No method adds it.
    Closing,
}

/// What came of a call that is an event.
#[derive(Clone, Copy, Debug, PartialEq, Eq)]
pub enum Came {
    Done,
    Refused(Fault),
    /// The object, or null.
    Referred(Option<Name>),
    Number(u64),
    Freed(Freed),
}

/// An event: a call that was done, with what came of it, or the end of a collection.
#[derive(Clone, Copy, Debug, PartialEq, Eq)]
pub struct Event {
    pub asked: Asked,
    pub came: Came,
}

/// An event that was taken out, with its number from 0 in the order of the journal.
#[derive(Clone, Copy, Debug, PartialEq, Eq)]
pub struct Taken {
    pub number: u64,
    pub event: Event,
}

/// The call whose numbers the answer has, and `None` where this module has no such call.
pub(super) fn asked_of(a: Answer) -> Option<Asked> {
    let (pid, at, number) = (Pid(a.at), a.seg, a.number);
    let (reg, base) = (Reg((a.serial % 256) as u8), Reg((a.serial / 256) as u8));
    let (shared, ty) = (SharedId(at), TypeId(at));
    Some(match a.what.checked_sub(ASKED)? {
        call::NEW => Asked::New { pid, reg, ty },
        call::KNEW => Asked::KNew { pid, reg, ty },
        call::SNEW => Asked::SNew { pid, reg, shared, ty: TypeId(number as u32) },
        call::STORE => Asked::Store { pid, base, field: at, value: reg },
        call::LOAD => Asked::Load { pid, reg, base, field: at },
        call::MOVE => Asked::Copy { pid, reg, from: base },
        call::CLEAR => Asked::Clear { pid, reg },
        call::DIR => Asked::Dir { pid, reg },
        call::PUT => Asked::Put { pid, base, field: at, number },
        call::GET => Asked::Get { pid, base, field: at },
        call::SHARE => Asked::Share { pid, shared },
        call::FREEZE => Asked::Freeze { pid, shared, root: reg },
        call::ATTACH => Asked::Attach { pid, reg, shared },
        call::KILL_BY => Asked::KillBy { pid, target: Pid(at) },
        call::RESIZE => Asked::Resize { pid, limit: LimitId(at), most: number },
        call::COLLECT => Asked::Collect { pid },
        call::KCOLLECT => Asked::KCollect { pid },
        call::KILL => Asked::Kill { pid },
        call::ABSORB => Asked::Absorb { shared },
        event::ENDED => Asked::Ended { of: (reg == Reg(1)).then_some(pid) },
        event::CLOSING => Asked::Closing,
        _ => return None,
    })
}

/// What the answer to a call says.
pub(super) fn came_of(a: Answer) -> Came {
    match (a.fault, a.what) {
        (0, 1) => Came::Referred(target(a)),
        (0, 2) => Came::Number(a.number),
        (0, 3) => Came::Freed(freed(a)),
        (0, _) => Came::Done,
        (fault, _) => fault_of(fault, a.at).map_or(Came::Done, Came::Refused),
    }
}
