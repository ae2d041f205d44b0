//! The whole of a run: a lock for each process with its heap, one for the kernel, one for the book, and workers that take turns.
//!
//! Locks are taken in the order process, kernel, book. A heap is marked and swept under its process's lock alone.

use crate::book::{Book, Kernel};
use crate::names::{Event, Name, Operation, Reply, NODE_BYTES};
use crate::process::Process;
use std::collections::VecDeque;
use std::sync::{Mutex, MutexGuard, PoisonError};
use std::thread;
use std::time::{Duration, Instant};

/// How many rounds a worker goes on with one process before it takes the next.
const ROUNDS_OF_A_TURN: usize = 64;

/// How many stretches a worker does in a round before the operation that each round does by itself.
const STRETCHES_OF_A_ROUND: usize = 4;

/// How many operations a stretch does at most under one hold of the book, and before it takes the book.
const STRETCH: usize = 64;

/// How often workers take the book.
#[derive(Clone, Copy, PartialEq, Eq)]
pub enum Form {
    /// For each operation that needs it.
    Each,
    /// For up to [`STRETCH`] operations of a process, and the beginning of a collection.
    Stretches,
}

/// When work inside a heap enters the journal.
#[derive(Clone, Copy, PartialEq, Eq)]
pub enum Publishing {
    /// At once, so that the journal has the order in which operations were done.
    AtOnce,
    /// With the process's next event that needs the book, or at the end of the run.
    Later,
}

pub struct World {
    pub operations: Vec<Vec<Operation>>,
    pub processes: Vec<Mutex<Process>>,
    pub kernel: Mutex<Kernel>,
    pub book: Mutex<Book>,
}

/// The value of a lock. No thread of this program panics while it holds one.
pub fn hold<T>(lock: &Mutex<T>) -> MutexGuard<'_, T> {
    lock.lock().unwrap_or_else(PoisonError::into_inner)
}

impl World {
    /// The operations are those of each process, and the maxima those of their limits. Room for all events is taken at once.
    pub fn new(operations: Vec<Vec<Operation>>, maxima: Vec<u64>, root_maximum: u64) -> Self {
        let is_collect = |operation: &&Operation| matches!(operation, Operation::Collect);
        let events = operations.iter().flatten().count() + operations.iter().flatten().filter(is_collect).count();
        World {
            processes: (0..maxima.len() as u32).map(|number| Mutex::new(Process::new(number))).collect(),
            kernel: Mutex::new(Kernel::new()),
            book: Mutex::new(Book::new(maxima, root_maximum, events)),
            operations,
        }
    }

    /// The process's next operation, if it is not at its end.
    fn next(&self, process: &Process) -> Option<Operation> {
        if process.has_ended {
            return None;
        }
        self.operations[process.number as usize].get(process.done).copied()
    }

    /// Does one operation of the process.
    pub fn step(&self, process: &mut Process, operation: Operation, publishing: Publishing) {
        if publishing == Publishing::Later && self.do_inside(process, operation) {
            return;
        }
        let needs_kernel = process.writes_directory(operation) || matches!(operation, Operation::Exit);
        let mut kernel = needs_kernel.then(|| hold(&self.kernel));
        let mut book = hold(&self.book);
        if let Some(event) = process.do_inside(operation) {
            book.enter(process, event);
            return;
        }
        match (operation, kernel.as_deref_mut()) {
            (Operation::Collect, _) => {
                let roots = begin_collection(&mut book, process);
                drop(book);
                self.finish_collection(process, &roots);
            }
            (Operation::Exit, Some(kernel)) => {
                let reply = book.end(kernel, process);
                enter(&mut book, process, operation, reply);
            }
            (Operation::Store { field, from, .. }, Some(kernel)) => {
                let reply = book.write_directory(kernel, field, process.register(from));
                enter(&mut book, process, operation, reply);
            }
            _ => {
                let reply = book.do_with_book(process, operation).expect("an operation that the peer has no rule for");
                enter(&mut book, process, operation, reply);
            }
        }
    }

    fn do_inside(&self, process: &mut Process, operation: Operation) -> bool {
        match process.do_inside(operation) {
            Some(event) => process.unpublished.push(event),
            None => return false,
        }
        true
    }

    fn finish_collection(&self, process: &mut Process, roots: &[Name]) {
        process.heap.mark(roots, &mut process.exits);
        let objects = process.heap.sweep();
        let had = process.exits.len();
        process.exits.retain(|_, is_marked| *is_marked);
        let exits = (had - process.exits.len()) as u32;
        let bytes = u64::from(objects) * NODE_BYTES;
        let mut book = hold(&self.book);
        book.uses[process.number as usize] -= bytes;
        book.journal.push(Event::Collected { process: process.number, objects, bytes, exits });
    }

    /// Does what can be done without the book, then goes on under one hold of it. Answers whether it ended with a collection.
    fn stretch(&self, process: &mut Process) -> bool {
        for _ in 0..STRETCH {
            match self.next(process) {
                Some(operation) if self.do_inside(process, operation) => {}
                Some(_) => break,
                None => return false,
            }
        }
        let mut book = hold(&self.book);
        for _ in 0..STRETCH {
            let Some(operation) = self.next(process) else { return false };
            if self.do_inside(process, operation) {
                continue;
            }
            let Some(reply) = self.try_under_book(&mut book, process, operation) else { break };
            enter(&mut book, process, operation, reply);
        }
        if !matches!(self.next(process), Some(Operation::Collect)) {
            return false;
        }
        let roots = begin_collection(&mut book, process);
        drop(book);
        self.finish_collection(process, &roots);
        true
    }

    /// Does an operation while the book is held; the kernel's lock is only tried, since it is taken before the book elsewhere.
    fn try_under_book(&self, book: &mut Book, process: &mut Process, operation: Operation) -> Option<Reply> {
        match operation {
            Operation::Store { field, from, .. } if process.writes_directory(operation) => {
                let mut kernel = self.kernel.try_lock().ok()?;
                Some(book.write_directory(&mut kernel, field, process.register(from)))
            }
            _ => book.do_with_book(process, operation),
        }
    }

    /// A round of a turn; answers whether the process has more to do.
    fn round(&self, process: &mut Process, form: Form) -> bool {
        if form == Form::Stretches {
            (0..STRETCHES_OF_A_ROUND).all(|_| self.stretch(process));
        }
        let Some(operation) = self.next(process) else { return false };
        self.step(process, operation, Publishing::Later);
        true
    }

    /// Does all operations by so many workers, and answers how long they took.
    pub fn run(&self, workers: usize, form: Form) -> Duration {
        let queue: Mutex<VecDeque<usize>> = Mutex::new((0..self.processes.len()).collect());
        let turns = || loop {
            let Some(number) = hold(&queue).pop_front() else { return };
            if (0..ROUNDS_OF_A_TURN).all(|_| self.round(&mut hold(&self.processes[number]), form)) {
                hold(&queue).push_back(number);
            }
        };
        let start = Instant::now();
        thread::scope(|scope| {
            for _ in 0..workers {
                scope.spawn(turns);
            }
        });
        let took = start.elapsed();
        for process in &self.processes {
            hold(&self.book).publish(&mut hold(process));
        }
        took
    }
}

fn enter(book: &mut Book, process: &mut Process, operation: Operation, reply: Reply) {
    book.enter(process, Event::Operated { process: process.number, operation, reply });
    process.done += 1;
}

fn begin_collection(book: &mut Book, process: &mut Process) -> Vec<Name> {
    enter(book, process, Operation::Collect, Reply::Done);
    book.roots(process)
}
