//! The host: limits, processes, the kernel, and what each call does.

use crate::heap::{object_bytes, Field, Heap, Link};
use crate::{Answer, Request};
use std::collections::HashMap;

pub struct Limit {
    pub parent: Option<usize>,
    pub is_hard: bool,
    pub maximum: u64,
    pub used: u64,
}

pub struct Process {
    pub limit: usize,
    pub heap: Heap,
    pub registers: [Option<Link>; 16],
}

pub struct Host {
    /// By type: whether each field is an integer.
    pub kinds: Vec<Vec<bool>>,
    pub limits: Vec<Limit>,
    pub processes: Vec<Process>,
    kernel: Heap,
    /// How many heaps refer to an object of another one, and how many registers of other processes hold it.
    entries: HashMap<Link, u32>,
    pins: HashMap<Link, u32>,
    journal: Vec<(Request, Answer)>,
}

const DIRECTORY: Link = Link { segment: 0, slot: 0, serial: 1 };
const KEEPS_JOURNAL: bool = cfg!(feature = "journal");

const UNKNOWN: u32 = 1;
const NO_CALL: u32 = 8;

/// Why an operation is refused, and the limit that is full.
struct Fault(u32, usize);

const NULL: Fault = Fault(1, 0);
const FOREIGN: Fault = Fault(2, 0);
const NO_FIELD: Fault = Fault(4, 0);
const WRONG_KIND: Fault = Fault(5, 0);
const BARRIER: Fault = Fault(7, 0);
const LIMIT_FULL: u32 = 11;

const A_NAME: u32 = 1;
const A_NUMBER: u32 = 2;
const WHAT_WAS_FREED: u32 = 3;

/// The numbers of the calls.
mod call {
    pub const NEW: u32 = 0;
    pub const STORE: u32 = 3;
    pub const LOAD: u32 = 4;
    pub const MOVE: u32 = 5;
    pub const CLEAR: u32 = 6;
    pub const DIRECTORY: u32 = 7;
    pub const PUT: u32 = 8;
    pub const GET: u32 = 9;
    pub const COLLECT: u32 = 16;
    pub const FIRST_QUESTION: u32 = 32;
    pub const BYTES: u32 = 33;
    pub const CHARGE: u32 = 34;
    pub const USE: u32 = 35;
    pub const MAXIMUM: u32 = 36;
    pub const EVENTS: u32 = 39;
}

fn numbered(number: u64) -> Answer {
    Answer { what: A_NUMBER, number, ..Answer::default() }
}

fn named(link: Option<Link>) -> Answer {
    let (segment, serial) = link.map_or((0, 0), |link| (link.segment, link.serial));
    Answer { what: A_NAME, segment, serial, ..Answer::default() }
}

impl Host {
    pub fn new(events: u64) -> Self {
        let journal = Vec::with_capacity(if KEEPS_JOURNAL { events as usize } else { 0 });
        let (kinds, limits, processes) = (Vec::new(), Vec::new(), Vec::new());
        Host { kinds, limits, processes, kernel: Heap::new(0), entries: HashMap::new(), pins: HashMap::new(), journal }
    }

    pub fn open_kernel(&mut self, fields: usize) {
        self.kernel.place(vec![Field::Null; fields].into());
    }

    /// The next limit whose use a charge at this one changes.
    fn above(&self, limit: usize) -> Option<usize> {
        if self.limits[limit].is_hard { None } else { self.limits[limit].parent }
    }

    /// Charges the bytes at the limit and those above it, or answers which of them is full.
    pub fn charge(&mut self, limit: usize, bytes: u64) -> Result<(), usize> {
        let mut at = Some(limit);
        while let Some(limit) = at {
            if self.limits[limit].used + bytes > self.limits[limit].maximum {
                return Err(limit);
            }
            at = self.above(limit);
        }
        self.add(limit, bytes);
        Ok(())
    }

    fn add(&mut self, limit: usize, bytes: u64) {
        let mut at = Some(limit);
        while let Some(limit) = at {
            self.limits[limit].used = self.limits[limit].used.wrapping_add(bytes);
            at = self.above(limit);
        }
    }

    fn set_register(&mut self, process: usize, register: u8, value: Option<Link>) {
        let home = process as u32 + 1;
        let old = std::mem::replace(&mut self.processes[process].registers[register as usize], value);
        if let Some(link) = value.filter(|link| link.segment != home) {
            *self.pins.entry(link).or_insert(0) += 1;
        }
        if let Some(link) = old.filter(|link| link.segment != home) {
            count_down(&mut self.pins, link);
        }
    }

    fn heap(&mut self, segment: u32) -> &mut Heap {
        match segment {
            0 => &mut self.kernel,
            _ => &mut self.processes[segment as usize - 1].heap,
        }
    }

    /// The object in a register, where its field may be read or written: of the process's own heap or of the kernel's, and of this kind.
    fn access(&mut self, process: usize, base: u8, field: u32, is_integer: bool) -> Result<Link, Fault> {
        let link = self.processes[process].registers[base as usize].ok_or(NULL)?;
        if link.segment != 0 && link.segment != process as u32 + 1 {
            return Err(FOREIGN);
        }
        match self.heap(link.segment).field(link, field).ok_or(NO_FIELD)? {
            Field::Holds(_) if is_integer => Ok(link),
            Field::Null | Field::Refers(_) if !is_integer => Ok(link),
            _ => Err(WRONG_KIND),
        }
    }

    fn allocate(&mut self, process: usize, register: u8, kind: u32) -> Result<Answer, Fault> {
        let integers = &self.kinds[kind as usize];
        let fields: Box<[Field]> = integers.iter().map(|is_integer| if *is_integer { Field::Holds(0) } else { Field::Null }).collect();
        let limit = self.processes[process].limit;
        self.charge(limit, object_bytes(fields.len())).map_err(|full| Fault(LIMIT_FULL, full))?;
        let link = self.processes[process].heap.place(fields);
        self.set_register(process, register, Some(link));
        Ok(named(Some(link)))
    }

    fn store(&mut self, process: usize, request: &Request) -> Result<Answer, Fault> {
        let into = self.access(process, request.base, request.at, false)?;
        let value = self.processes[process].registers[request.register as usize];
        if let Some(link) = value.filter(|link| link.segment != into.segment) {
            if into.segment != 0 && link.segment != 0 {
                return Err(BARRIER);
            }
            if self.heap(into.segment).exits.insert(link, false).is_none() {
                *self.entries.entry(link).or_insert(0) += 1;
            }
        }
        self.heap(into.segment).set_field(into, request.at, value.map_or(Field::Null, Field::Refers));
        Ok(Answer::default())
    }

    fn load(&mut self, process: usize, request: &Request) -> Result<Answer, Fault> {
        let from = self.access(process, request.base, request.at, false)?;
        let value = match self.heap(from.segment).field(from, request.at) {
            Some(Field::Refers(link)) => Some(link),
            _ => None,
        };
        self.set_register(process, request.register, value);
        Ok(named(value))
    }

    fn operate(&mut self, process: usize, request: &Request) -> Result<Answer, Fault> {
        match request.call {
            call::NEW => self.allocate(process, request.register, request.at),
            call::STORE => self.store(process, request),
            call::LOAD => self.load(process, request),
            call::MOVE => {
                let value = self.processes[process].registers[request.base as usize];
                self.set_register(process, request.register, value);
                Ok(Answer::default())
            }
            call::CLEAR => {
                self.set_register(process, request.register, None);
                Ok(Answer::default())
            }
            call::DIRECTORY => {
                self.set_register(process, request.register, Some(DIRECTORY));
                Ok(named(Some(DIRECTORY)))
            }
            call::PUT => {
                let into = self.access(process, request.base, request.at, true)?;
                self.heap(into.segment).set_field(into, request.at, Field::Holds(request.number));
                Ok(Answer::default())
            }
            call::GET => {
                let from = self.access(process, request.base, request.at, true)?;
                let field = self.heap(from.segment).field(from, request.at);
                Ok(numbered(if let Some(Field::Holds(number)) = field { number } else { 0 }))
            }
            _ => Ok(Answer { status: NO_CALL, ..Answer::default() }),
        }
    }

    fn collect(&mut self, process: usize) -> Answer {
        let home = process as u32 + 1;
        let registers = self.processes[process].registers.iter().flatten();
        let links = registers.chain(self.entries.keys()).chain(self.pins.keys());
        let roots: Vec<Link> = links.filter(|link| link.segment == home).copied().collect();
        let heap = &mut self.processes[process].heap;
        heap.mark(&roots);
        let freed = heap.sweep();
        let gone: Vec<Link> = heap.exits.iter().filter(|(_, is_marked)| !**is_marked).map(|(link, _)| *link).collect();
        heap.exits.retain(|_, is_marked| *is_marked);
        for link in &gone {
            count_down(&mut self.entries, *link);
        }
        self.add(self.processes[process].limit, freed.bytes.wrapping_neg());
        Answer { what: WHAT_WAS_FREED, segment: freed.objects, serial: gone.len() as u32, number: freed.bytes, ..Answer::default() }
    }

    fn question(&self, process: usize, request: &Request) -> Answer {
        let limit = self.limits.get(request.at as usize);
        match (request.call, limit) {
            (call::BYTES | call::CHARGE, _) => numbered(self.processes[process].heap.bytes),
            (call::USE, Some(limit)) => numbered(limit.used),
            (call::MAXIMUM, Some(limit)) => numbered(limit.maximum),
            (call::EVENTS, _) => numbered(self.journal.len() as u64),
            _ => Answer { status: NO_CALL, ..Answer::default() },
        }
    }

    pub fn call(&mut self, request: &Request) -> Answer {
        let process = request.process as usize;
        let is_known = process < self.processes.len() && request.register < 16 && request.base < 16;
        if !is_known || (request.call == call::NEW && request.at as usize >= self.kinds.len()) {
            return Answer { status: UNKNOWN, ..Answer::default() };
        }
        if request.call >= call::FIRST_QUESTION {
            return self.question(process, request);
        }
        let answer = match request.call {
            call::COLLECT => self.collect(process),
            _ => self.operate(process, request).unwrap_or_else(|Fault(fault, at)| Answer { fault, at: at as u32, ..Answer::default() }),
        };
        if KEEPS_JOURNAL {
            self.journal.push((*request, answer));
        }
        answer
    }
}

fn count_down(counts: &mut HashMap<Link, u32>, link: Link) {
    if let Some(count) = counts.get_mut(&link) {
        *count -= 1;
        if *count == 0 {
            counts.remove(&link);
        }
    }
}
