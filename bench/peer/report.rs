//! The report of a run, in the form that docs/FORMATS.md of this project describes.

use crate::book::{Book, Kernel};
use crate::heap::{Heap, Object};
use crate::names::{Event, Name, Reply, DIRECTORY_BYTES};
use crate::process::Process;
use crate::trace::Written;
use crate::world::World;
use std::io::{self, Write};
use std::sync::{Mutex, PoisonError};

fn inner<T>(lock: Mutex<T>) -> T {
    lock.into_inner().unwrap_or_else(PoisonError::into_inner)
}

pub fn write_report(world: World, out: &mut impl Write) -> io::Result<()> {
    let (book, kernel) = (inner(world.book), inner(world.kernel));
    let processes: Vec<Process> = world.processes.into_iter().map(inner).collect();
    out.write_all(b"report 1\n")?;
    for event in &book.journal {
        write_event(event, out)?;
    }
    write_graph(&kernel, &processes, out)?;
    write_roots(&processes, out)?;
    write_exits(&kernel, &processes, out)?;
    out.write_all(b"shares\n")?;
    write_faults(&book, out)?;
    write_charges(&book, out)?;
    out.write_all(b"end\n")?;
    out.flush()
}

fn write_event(event: &Event, out: &mut impl Write) -> io::Result<()> {
    match event {
        Event::Operated { process, operation, reply } => {
            write!(out, "w{process} {operation} = ")?;
            match reply {
                Reply::Done => writeln!(out, "ok"),
                Reply::Object(name) => writeln!(out, "{name}"),
                // Each process has a hard limit of its own, so that no other limit is ever asked.
                Reply::LimitFull => writeln!(out, "fault LimitFull l{process}"),
            }
        }
        Event::Collected { process, objects, bytes, exits } => writeln!(out, "ended w{process} {objects} {bytes} {exits} 0"),
    }
}

fn write_graph(kernel: &Kernel, processes: &[Process], out: &mut impl Write) -> io::Result<()> {
    write!(out, "graph\nkernel.1 kernel directory")?;
    for reference in kernel.directory {
        write!(out, " {}", Written(reference))?;
    }
    writeln!(out)?;
    for process in processes {
        match kernel.merged.iter().find(|heap| heap.number == process.heap.number) {
            Some(heap) => write_heap(heap, "kernel", out)?,
            None => write_heap(&process.heap, &format!("w{}", process.number), out)?,
        }
    }
    Ok(())
}

fn write_heap(heap: &Heap, owner: &str, out: &mut impl Write) -> io::Result<()> {
    let mut live: Vec<(usize, &Object)> = heap.objects.iter().enumerate().filter(|(_, object)| object.is_live).collect();
    live.sort_unstable_by_key(|(_, object)| object.serial);
    for (slot, object) in live {
        let name = Name { heap: heap.number, serial: object.serial, slot: slot as u32 };
        let [first, second] = object.references;
        writeln!(out, "{name} {owner} Node {} {} {}", Written(first), Written(second), object.integer)?;
    }
    Ok(())
}

fn write_roots(processes: &[Process], out: &mut impl Write) -> io::Result<()> {
    out.write_all(b"roots\n")?;
    for process in processes {
        for (register, reference) in process.registers.iter().enumerate() {
            if let Some(name) = reference {
                writeln!(out, "w{} r{register} {name}", process.number)?;
            }
        }
    }
    Ok(())
}

fn write_exits(kernel: &Kernel, processes: &[Process], out: &mut impl Write) -> io::Result<()> {
    out.write_all(b"exits\n")?;
    let mut names: Vec<&Name> = kernel.exits.keys().collect();
    names.sort_unstable();
    for name in names {
        writeln!(out, "kernel {name}")?;
    }
    for process in processes {
        let mut names: Vec<&Name> = process.exits.keys().collect();
        names.sort_unstable();
        for name in names {
            writeln!(out, "w{} {name}", process.number)?;
        }
    }
    Ok(())
}

fn write_faults(book: &Book, out: &mut impl Write) -> io::Result<()> {
    let mut faults = vec![0; book.uses.len()];
    for event in &book.journal {
        if let Event::Operated { process, reply: Reply::LimitFull, .. } = event {
            faults[*process as usize] += 1;
        }
    }
    out.write_all(b"faults\n")?;
    for (process, count) in faults.iter().enumerate() {
        writeln!(out, "w{process} {count}")?;
    }
    Ok(())
}

fn write_charges(book: &Book, out: &mut impl Write) -> io::Result<()> {
    writeln!(out, "charges\nkernel {} of {DIRECTORY_BYTES}", book.kernel_bytes)?;
    writeln!(out, "limit root {} of {}", book.root_use(), book.root_maximum)?;
    for (process, (used, maximum)) in book.uses.iter().zip(&book.maxima).enumerate() {
        writeln!(out, "limit l{process} {used} of {maximum}")?;
    }
    for (process, used) in book.uses.iter().enumerate() {
        writeln!(out, "process w{process} {used}")?;
    }
    Ok(())
}
