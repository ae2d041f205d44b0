//! The host of two_guests.c in Rust: two guests with limits, and the one that is over its budget is killed on another thread.
#[path = "kaffe.rs"]
#[allow(dead_code)]
mod kaffe;

use kaffe::{Fault, Host, LimitId, Pid, Refusal, Reg, TypeId};

const HOST: Pid = Pid(0);
const GOOD: Pid = Pid(1);
const GREEDY: Pid = Pid(2);
const GUESTS: LimitId = LimitId(2);
const NODE: TypeId = TypeId(0);

const DECLARED: &str = "\
kaffe 1
kernel 4096 4
type Node ref ref int
limit root 10000
limit own root hard 1000
limit guests root hard 6000
limit a guests soft 4000
limit b guests soft 4000
proc host own
proc good a
proc greedy b
";

/// One node more in front of the guest's list, which keeps at most `most` nodes.
fn grow(host: &mut Host, guest: Pid, step: u64, most: u64) -> Result<(), Refusal> {
    if most != 0 && step % most == 0 {
        host.clear(guest, Reg(0))?;
    }
    host.new(guest, Reg(1), NODE)?;
    host.put(guest, Reg(1), 2, step)?;
    host.store(guest, Reg(1), 0, Reg(0))?;
    host.copy(guest, Reg(0), Reg(1))
}

fn charges(host: &mut Host, when: &str) {
    println!(
        "{when:<26} good {:>5}  greedy {:>5}  guests {:>5} of {}  kernel heap {}",
        host.charge(GOOD).unwrap_or(0),
        host.charge(GREEDY).unwrap_or(0),
        host.used(GUESTS).unwrap_or(0),
        host.most(GUESTS).unwrap_or(0),
        host.kernel_bytes().unwrap_or(0)
    );
}

/// Collects a guest that is refused, and kills it where that frees nothing.
fn refused(mut host: Host, guest: Pid, limit: LimitId, step: u64) -> Result<Host, Refusal> {
    let freed = host.collect(guest)?;
    println!("guest {}: limit {} full at step {step}, a collection freed {} objects", guest.0, limit.0, freed.objects);
    if freed.bytes != 0 {
        return Ok(host);
    }
    charges(&mut host, "over budget:");
    let mut host = std::thread::spawn(move || host.kill(guest).map(|()| host)).join().expect("no panic")?;
    charges(&mut host, "killed:");
    host.kcollect(HOST)?;
    charges(&mut host, "kernel heap collected:");
    Ok(host)
}

fn main() -> Result<(), Box<dyn std::error::Error>> {
    let mut host = Host::open(DECLARED, NODE, 2000, 1000)?;
    for step in 1..=300 {
        for (guest, most) in [(GOOD, 20), (GREEDY, 0)] {
            if host.lives(guest) != Some(true) {
                continue;
            }
            match grow(&mut host, guest, step, most) {
                Err(Refusal::Fault(Fault::LimitFull(limit))) => host = refused(host, guest, limit, step)?,
                came => came?,
            }
        }
    }
    charges(&mut host, "at the end:");
    Ok(())
}
