//! Reading and writing alone: reads a trace from standard input into vectors of operations, one for each process, and writes
//! its operations back in the order of the file. No machine runs. It is what the program's time for cheap operations is
//! compared with, and takes every trace for granted.
//!
//!     bench/measure --only reading

use std::collections::HashMap;
use std::io::{self, BufWriter, Read, Write};

#[derive(Clone, Copy)]
enum Op {
    New { reg: u8, ty: u32 },
    KNew { reg: u8, ty: u32 },
    SNew { reg: u8, shared: u32, ty: u32 },
    Store { base: u8, field: u8, value: u8 },
    Load { reg: u8, base: u8, field: u8 },
    Move { reg: u8, from: u8 },
    Drop { reg: u8 },
    Dir { reg: u8 },
    Put { base: u8, field: u8, number: u64 },
    Get { base: u8, field: u8 },
    Collect,
    KCollect,
    Share { shared: u32 },
    Freeze { shared: u32, root: u8 },
    Attach { reg: u8, shared: u32 },
    Exit,
}

/// Names in the order in which they were declared.
#[derive(Default)]
struct Names<'a> {
    names: Vec<&'a str>,
    numbers: HashMap<&'a str, u32>,
}

impl<'a> Names<'a> {
    fn add(&mut self, name: &'a str) {
        self.numbers.insert(name, self.names.len() as u32);
        self.names.push(name);
    }

    fn number(&self, name: &str) -> Option<u32> {
        self.numbers.get(name).copied()
    }
}

#[derive(Default)]
struct Trace<'a> {
    types: Names<'a>,
    procs: Names<'a>,
    shared: Names<'a>,
    order: Vec<u32>,
    ops: Vec<Vec<Op>>,
}

fn register(word: &str) -> Option<u8> {
    word.strip_prefix('r')?.parse().ok().filter(|n| *n < 16)
}

impl<'a> Trace<'a> {
    fn read(text: &'a str) -> Option<Trace<'a>> {
        let mut trace = Trace::default();
        for line in text.lines() {
            let mut words = line.split(' ');
            match words.next()? {
                "kaffe" | "kernel" | "limit" => {}
                "type" => trace.types.add(words.next()?),
                "proc" => {
                    trace.procs.add(words.next()?);
                    trace.ops.push(Vec::new());
                }
                "shared" => trace.shared.add(words.next()?),
                process => {
                    let pid = trace.procs.number(process)?;
                    let op = trace.operation(&mut words)?;
                    trace.order.push(pid);
                    trace.ops[pid as usize].push(op);
                }
            }
        }
        Some(trace)
    }

    fn operation<'w>(&self, words: &mut impl Iterator<Item = &'w str>) -> Option<Op> {
        let kind = words.next()?;
        let mut reg = || register(words.next()?);
        Some(match kind {
            "new" => Op::New { reg: reg()?, ty: self.types.number(words.next()?)? },
            "knew" => Op::KNew { reg: reg()?, ty: self.types.number(words.next()?)? },
            "snew" => Op::SNew { reg: reg()?, shared: self.shared.number(words.next()?)?, ty: self.types.number(words.next()?)? },
            "store" => Op::Store { base: reg()?, field: words.next()?.parse().ok()?, value: register(words.next()?)? },
            "load" => Op::Load { reg: reg()?, base: reg()?, field: words.next()?.parse().ok()? },
            "move" => Op::Move { reg: reg()?, from: reg()? },
            "drop" => Op::Drop { reg: reg()? },
            "dir" => Op::Dir { reg: reg()? },
            "put" => Op::Put { base: reg()?, field: words.next()?.parse().ok()?, number: words.next()?.parse().ok()? },
            "get" => Op::Get { base: reg()?, field: words.next()?.parse().ok()? },
            "collect" => Op::Collect,
            "kcollect" => Op::KCollect,
            "share" => Op::Share { shared: self.shared.number(words.next()?)? },
            "freeze" => Op::Freeze { shared: self.shared.number(words.next()?)?, root: register(words.next()?)? },
            "attach" => Op::Attach { reg: reg()?, shared: self.shared.number(words.next()?)? },
            "exit" => Op::Exit,
            _ => return None,
        })
    }

    fn write_operation(&self, out: &mut impl Write, op: Op) -> io::Result<()> {
        let ty = |n: u32| self.types.names[n as usize];
        let heap = |n: u32| self.shared.names[n as usize];
        match op {
            Op::New { reg, ty: t } => write!(out, "new r{reg} {}", ty(t)),
            Op::KNew { reg, ty: t } => write!(out, "knew r{reg} {}", ty(t)),
            Op::SNew { reg, shared, ty: t } => write!(out, "snew r{reg} {} {}", heap(shared), ty(t)),
            Op::Store { base, field, value } => write!(out, "store r{base} {field} r{value}"),
            Op::Load { reg, base, field } => write!(out, "load r{reg} r{base} {field}"),
            Op::Move { reg, from } => write!(out, "move r{reg} r{from}"),
            Op::Drop { reg } => write!(out, "drop r{reg}"),
            Op::Dir { reg } => write!(out, "dir r{reg}"),
            Op::Put { base, field, number } => write!(out, "put r{base} {field} {number}"),
            Op::Get { base, field } => write!(out, "get r{base} {field}"),
            Op::Collect => write!(out, "collect"),
            Op::KCollect => write!(out, "kcollect"),
            Op::Share { shared } => write!(out, "share {}", heap(shared)),
            Op::Freeze { shared, root } => write!(out, "freeze {} r{root}", heap(shared)),
            Op::Attach { reg, shared } => write!(out, "attach r{reg} {}", heap(shared)),
            Op::Exit => write!(out, "exit"),
        }
    }

    fn write(&self, out: &mut impl Write) -> io::Result<()> {
        let mut next: Vec<_> = self.ops.iter().map(|list| list.iter()).collect();
        for pid in &self.order {
            if let Some(op) = next[*pid as usize].next() {
                write!(out, "{} ", self.procs.names[*pid as usize])?;
                self.write_operation(out, *op)?;
                writeln!(out, " = ok")?;
            }
        }
        out.flush()
    }
}

fn main() -> io::Result<()> {
    let mut text = String::new();
    io::stdin().read_to_string(&mut text)?;
    let Some(trace) = Trace::read(&text) else {
        return Err(io::Error::other("the input is no trace"));
    };
    trace.write(&mut BufWriter::new(io::stdout().lock()))
}
