//! The host of printed.c in Rust: it prints what it has done, in the middle of its life and at the end of it. `kaffe check` accepts the two texts.
#[path = "kaffe.rs"]
#[allow(dead_code)]
mod kaffe;

use kaffe::{Fault, Host, Pid, Refusal, Reg, Rooms, SharedId, TypeId};

const HOST: Pid = Pid(0);
const GUEST: Pid = Pid(1);
const NODE: TypeId = TypeId(0);
const TABLE: SharedId = SharedId(0);
const EVENTS: u32 = 1000;

const DECLARED: &str = "\
kaffe 1
kernel 4096 4
type Node ref ref int
limit root 10000
limit guests root soft 400
proc host root
proc guest guests
shared table
";

/// One node more in front of the guest's list. Where the limit is full the list is given up.
fn step(host: &mut Host, number: u64) -> Result<(), Refusal> {
    match host.new(GUEST, Reg(1), NODE) {
        Err(Refusal::Fault(Fault::LimitFull(_))) => {
            host.clear(GUEST, Reg(0))?;
            host.collect(GUEST)?;
        }
        came => drop(came?),
    }
    host.put(GUEST, Reg(1), 2, number)?;
    host.store(GUEST, Reg(1), 0, Reg(0))?;
    host.copy(GUEST, Reg(0), Reg(1))
}

fn print(host: &mut Host, names: &[String]) -> Result<(), Box<dyn std::error::Error>> {
    let texts = host.print()?;
    std::fs::write(&names[0], texts.trace)?;
    std::fs::write(&names[1], texts.report)?;
    Ok(())
}

fn main() -> Result<(), Box<dyn std::error::Error>> {
    let names: Vec<String> = std::env::args().skip(1).collect();
    if names.len() != 2 {
        return Err("usage: printed TRACE REPORT".into());
    }
    // Only a host that keeps all its events is printed.
    let rooms = Rooms { events: u64::from(EVENTS), kept: EVENTS, ..Rooms::for_objects(100, 2, 1) };
    let mut host = Host::open_with(DECLARED, NODE, 10, rooms)?;
    for number in 0..20 {
        step(&mut host, number)?;
    }
    host.share(GUEST, TABLE)?;
    host.snew(GUEST, Reg(2), TABLE, NODE)?;
    print(&mut host, &names)?;
    host.kill_by(HOST, GUEST)?;
    host.kcollect(HOST)?;
    print(&mut host, &names)
}
