//! The head of a trace, by which a host is declared.

use crate::heap::Heap;
use crate::host::{Host, Limit, Process};

/// A host of what the text declares, or the number of the first line that declares nothing.
pub fn read(text: &str, events: u64) -> Result<Host, u32> {
    let mut host = Host::new(events);
    let mut names: Vec<&str> = Vec::new();
    for (at, line) in text.lines().enumerate() {
        let words: Vec<&str> = line.split(' ').collect();
        read_line(&mut host, &mut names, &words).ok_or(at as u32 + 1)?;
    }
    Ok(host)
}

fn read_line<'a>(host: &mut Host, names: &mut Vec<&'a str>, words: &[&'a str]) -> Option<()> {
    let limit_of = |names: &[&str], name: &str| names.iter().position(|other| *other == name);
    match words {
        ["kaffe", "1"] | ["shared", _] => {}
        ["kernel", _, fields] => host.open_kernel(fields.parse().ok()?),
        ["type", _, kinds @ ..] => host.kinds.push(kinds.iter().map(|kind| *kind == "int").collect()),
        ["limit", name, maximum] => {
            names.push(name);
            host.limits.push(Limit { parent: None, is_hard: true, maximum: maximum.parse().ok()?, used: 0 });
        }
        ["limit", name, parent, form, maximum] => {
            let parent = limit_of(names, parent)?;
            let maximum = maximum.parse().ok()?;
            names.push(name);
            host.limits.push(Limit { parent: Some(parent), is_hard: *form == "hard", maximum, used: 0 });
            if *form == "hard" {
                host.charge(parent, maximum).ok()?;
            }
        }
        ["proc", _, limit] => {
            let number = host.processes.len() as u32 + 1;
            host.processes.push(Process { limit: limit_of(names, limit)?, heap: Heap::new(number), registers: [None; 16] });
        }
        _ => return None,
    }
    Some(())
}
