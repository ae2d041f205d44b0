//! The text of a trace, read and written: traces of the workload's form, whose process `i` is `wi` on a hard limit `li` of its own,
//! and whose only type is two references and an integer.

use crate::names::{Name, Operation, Reference, KERNEL};
use std::fmt::{self, Display, Formatter};
use std::io::{self, Write};

pub struct Trace {
    pub root_maximum: u64,
    /// By process: the most that its limit may have in use.
    pub maxima: Vec<u64>,
    /// By process: its operations in order.
    pub operations: Vec<Vec<Operation>>,
    /// The process of each operation in the order of the file; empty where the processes' operations come one process after another.
    pub order: Vec<u32>,
}

fn bad(line: usize) -> io::Error {
    io::Error::new(io::ErrorKind::InvalidData, format!("line {} has no form that the peer knows", line + 1))
}

fn numbered(word: Option<&str>, letter: char) -> Option<u8> {
    word?.strip_prefix(letter)?.parse().ok()
}

fn number(word: Option<&str>) -> Option<u64> {
    word?.parse().ok()
}

impl Trace {
    pub fn read(text: &str) -> io::Result<Trace> {
        let mut trace = Trace { root_maximum: 0, maxima: Vec::new(), operations: Vec::new(), order: Vec::new() };
        for (at, line) in text.lines().enumerate() {
            trace.read_line(line).ok_or_else(|| bad(at))?;
        }
        Ok(trace)
    }

    fn read_line(&mut self, line: &str) -> Option<()> {
        let mut words = line.split(' ');
        match words.next()? {
            "kaffe" | "kernel" | "type" => {}
            "limit" => match (words.next()?, words.next()?, words.next(), words.next()) {
                ("root", maximum, None, None) => self.root_maximum = maximum.parse().ok()?,
                (_, "root", Some("hard"), maximum) => self.maxima.push(number(maximum)?),
                _ => return None,
            },
            "proc" => self.operations.push(Vec::new()),
            process => {
                let process = numbered(Some(process), 'w')?;
                let operation = read_operation(&mut words)?;
                self.operations.get_mut(usize::from(process))?.push(operation);
                self.order.push(process.into());
            }
        }
        Some(())
    }

    /// Writes the header and then the operations of each process, one process after another.
    pub fn write(&self, out: &mut impl Write) -> io::Result<()> {
        writeln!(out, "kaffe 1\nkernel 80 8\ntype Node ref ref int\nlimit root {}", self.root_maximum)?;
        for (process, maximum) in self.maxima.iter().enumerate() {
            writeln!(out, "limit l{process} root hard {maximum}")?;
        }
        for process in 0..self.maxima.len() {
            writeln!(out, "proc w{process} l{process}")?;
        }
        for (process, operations) in self.operations.iter().enumerate() {
            for operation in operations {
                writeln!(out, "w{process} {operation}")?;
            }
        }
        out.flush()
    }
}

fn read_operation<'a>(words: &mut impl Iterator<Item = &'a str>) -> Option<Operation> {
    let form = words.next()?;
    let mut register = || numbered(words.next(), 'r').filter(|register| *register < 16);
    Some(match form {
        "new" => Operation::New { to: register()? },
        "store" => {
            let base = register()?;
            let field = number(words.next())? as u8;
            Operation::Store { base, field, from: numbered(words.next(), 'r')? }
        }
        "move" => Operation::Move { to: register()?, from: register()? },
        "drop" => Operation::Drop { register: register()? },
        "dir" => Operation::Directory { to: register()? },
        "put" => {
            let base = register()?;
            let field = number(words.next())? as u8;
            Operation::Put { base, field, number: number(words.next())? }
        }
        "collect" => Operation::Collect,
        "exit" => Operation::Exit,
        _ => return None,
    })
}

impl Display for Operation {
    fn fmt(&self, out: &mut Formatter<'_>) -> fmt::Result {
        match self {
            Operation::New { to } => write!(out, "new r{to} Node"),
            Operation::Store { base, field, from } => write!(out, "store r{base} {field} r{from}"),
            Operation::Move { to, from } => write!(out, "move r{to} r{from}"),
            Operation::Drop { register } => write!(out, "drop r{register}"),
            Operation::Directory { to } => write!(out, "dir r{to}"),
            Operation::Put { base, field, number } => write!(out, "put r{base} {field} {number}"),
            Operation::Collect => write!(out, "collect"),
            Operation::Exit => write!(out, "exit"),
        }
    }
}

impl Display for Name {
    fn fmt(&self, out: &mut Formatter<'_>) -> fmt::Result {
        match self.heap {
            KERNEL => write!(out, "kernel.{}", self.serial),
            heap => write!(out, "w{}.{}", heap - 1, self.serial),
        }
    }
}

/// A reference as a report writes it.
pub struct Written(pub Reference);

impl Display for Written {
    fn fmt(&self, out: &mut Formatter<'_>) -> fmt::Result {
        match self.0 {
            Some(name) => name.fmt(out),
            None => out.write_str("null"),
        }
    }
}
