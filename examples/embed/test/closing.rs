//! A host in Rust is closed exactly once, wherever it goes out of scope; its errors and events have the names of the module, also where its rooms
//! grow; and a host in parts tells charges and events. Linked with
//! `-Wl,--wrap=kaffe_close`, so that each closing is counted on its way to the library.
#[path = "../kaffe.rs"]
#[allow(dead_code)]
mod kaffe;

use kaffe::parts::Parts;
use kaffe::{Asked, Came, Event, Host, Lack, OpenError, Pid, Refusal, Reg, Rooms, Taken, TypeId};
use std::sync::atomic::{AtomicUsize, Ordering};

const GUEST: Pid = Pid(0);
const NODE: TypeId = TypeId(0);
const DECLARED: &str = "kaffe 1\nkernel 48 2\ntype Node ref\nlimit root 1000\nproc guest root\nproc other root\n";
static CLOSED: AtomicUsize = AtomicUsize::new(0);

unsafe extern "C" {
    fn __real_kaffe_close(host: *mut u8);
}

#[unsafe(no_mangle)]
unsafe extern "C" fn __wrap_kaffe_close(host: *mut u8) {
    CLOSED.fetch_add(1, Ordering::SeqCst);
    // SAFETY: what is asked of the caller is what the library asks.
    unsafe { __real_kaffe_close(host) }
}

/// How often something was closed by the work.
fn closed_by(work: impl FnOnce()) -> usize {
    let before = CLOSED.load(Ordering::SeqCst);
    work();
    CLOSED.load(Ordering::SeqCst) - before
}

fn host() -> Host {
    Host::open(DECLARED, NODE, 0, 10).expect("the text is good")
}

fn is_closed_once() {
    assert_eq!(closed_by(|| drop(host())), 1, "dropped");
    assert_eq!(closed_by(|| std::thread::spawn(|| drop(host())).join().expect("no panic")), 1, "dropped on a thread");
    let moved = host();
    assert_eq!(closed_by(move || std::thread::spawn(move || drop(moved)).join().expect("no panic")), 1, "moved to a thread");
    assert_eq!(closed_by(|| drop(vec![host(), host(), host()])), 3, "three of them");
    assert_eq!(closed_by(|| assert!(matches!(Host::open("x", NODE, 0, 10), Err(OpenError::Bad { line: 1, .. })))), 1, "none is made");
    assert_eq!(closed_by(|| std::mem::forget(host())), 0, "forgotten");
}

/// What is lacking and which event it was, by a host with room for two objects in each heap, one exit item and the last three events.
fn has_names() {
    let rooms = Rooms { kept: 3, objects: 2, exits: 1, kernel_exits: 2, entries: 1, ..Rooms::for_objects(10, 2, 0) };
    let mut host = Host::open_with(DECLARED, NODE, 0, rooms).expect("the rooms are fit");
    assert_eq!(host.take_event(), None);
    let made = host.new(GUEST, Reg(1), NODE).expect("there is room");
    host.new(GUEST, Reg(2), NODE).expect("there is room");
    assert_eq!(host.new(GUEST, Reg(2), NODE), Err(Refusal::Lack(Lack::Objects)));
    host.dir(GUEST, Reg(3)).expect("done");
    assert_eq!(host.store(GUEST, Reg(3), 0, Reg(1)), Err(Refusal::Lack(Lack::Items)));
    let event = Event { asked: Asked::New { pid: GUEST, reg: Reg(1), ty: NODE }, came: Came::Referred(Some(made)) };
    assert_eq!(host.take_event(), Some(Taken { number: 0, event }));
    host.collect(GUEST).expect("there is room");
    let next = host.take_event().expect("there is one");
    assert_eq!((next.number, next.event.asked), (2, Asked::Dir { pid: GUEST, reg: Reg(3) }), "event 1 is forgotten");
    assert_eq!(host.take_event().map(|taken| taken.event.asked), Some(Asked::Collect { pid: GUEST }));
    assert_eq!(host.take_event().map(|taken| taken.event.asked), Some(Asked::Ended { of: Some(GUEST) }));
    assert_eq!(host.take_event(), None);
    assert_eq!(host.event(1), None);
    assert_eq!(host.events(), Some(5));
    assert_eq!(host.new(GUEST, Reg(4), NODE), Err(Refusal::Lack(Lack::Objects)));
    assert_eq!(host.grow(Rooms { objects: 1, ..rooms }), Err(Lack::Rooms));
    assert_eq!(host.grow(Rooms { kept: 5, objects: 3, ..rooms }), Ok(3), "two events are forgotten");
    host.new(GUEST, Reg(4), NODE).expect("there is room now");
    assert_eq!(host.charge(GUEST), Some(72));
    let unfit = Host::open_with(DECLARED, NODE, 0, Rooms { tail: 0, ..rooms });
    assert!(matches!(unfit, Err(OpenError::Terms)));
}

/// What a guest is charged, and which event is next, by a host in parts.
fn parts_tell() {
    let rooms = Rooms { kept: 2, ..Rooms::for_objects(10, 2, 0) };
    let host = Parts::open_with(DECLARED, NODE, 0, rooms).expect("the rooms are fit");
    assert_eq!((host.charge(GUEST), host.charge(Pid(2))), (Some(0), None));
    assert_eq!(host.take_event(), None);
    let made = host.new(GUEST, Reg(1), NODE).expect("there is room");
    assert_eq!(host.charge(GUEST), Some(24));
    let event = Event { asked: Asked::New { pid: GUEST, reg: Reg(1), ty: NODE }, came: Came::Referred(Some(made)) };
    assert_eq!(host.take_event(), Some(Taken { number: 0, event }));
    assert_eq!(host.take_event(), None);
    host.collect(GUEST).expect("there is room");
    host.kill(GUEST).expect("it lives");
    assert_eq!(host.charge(GUEST), Some(0));
    let next = host.take_event().expect("there is one");
    assert_eq!((next.number, next.event.asked), (2, Asked::Ended { of: Some(GUEST) }), "event 1 is forgotten");
    assert_eq!(host.take_event().map(|taken| taken.number), Some(3));
    assert_eq!(host.take_event(), None);
}

fn main() {
    is_closed_once();
    has_names();
    parts_tell();
}
