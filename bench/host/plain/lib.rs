//! A host as a plain Rust programmer would write it, behind the C functions of `kaffe.h`: heaps of guests, limits in a tree, registers
//! as roots, the write barrier, exit items, entry counts and pins. It proves nothing, and has the calls that `calls.c` uses.
//!
//! With the feature `journal` it keeps the list of all events, as a host of this project does where it is asked to.

mod declared;
mod heap;
mod host;

use host::Host;
use std::ptr;
use std::slice;

/// A call, as C passes it. Not every field has a use here.
#[allow(dead_code)]
#[repr(C)]
#[derive(Clone, Copy)]
pub struct Request {
    call: u32,
    process: u32,
    at: u32,
    to: u32,
    register: u8,
    base: u8,
    unused: [u8; 2],
    unused_word: u32,
    number: u64,
}

/// Its answer.
#[allow(dead_code)]
#[repr(C)]
#[derive(Clone, Copy, Default)]
pub struct Answer {
    status: u32,
    fault: u32,
    at: u32,
    what: u32,
    segment: u32,
    serial: u32,
    number: u64,
}

/// For how much a host has room. A plain host has room for all of it that memory gives, but for events.
#[allow(dead_code)]
#[repr(C)]
#[derive(Clone, Copy, Default)]
pub struct Rooms {
    events: u64,
    kept: u32,
    tail: u32,
    objects: u32,
    exits: u32,
    kernel_exits: u32,
    entries: u32,
}

/// What `kaffe_open` writes: a host, or the first line that declares none.
pub enum Place {
    Open(Box<Host>),
    Bad { line: u32 },
}

const NO_HOST: u32 = 9;

#[no_mangle]
pub extern "C" fn kaffe_size() -> usize {
    size_of::<Place>()
}

#[no_mangle]
pub extern "C" fn kaffe_rooms_for(objects: u32, _processes: u32, _heaps: u32) -> Rooms {
    Rooms { objects, ..Rooms::default() }
}

/// # Safety
/// `text` has `length` bytes, and `at` has `kaffe_size()` that nobody else uses until `kaffe_close`.
#[no_mangle]
pub unsafe extern "C" fn kaffe_open(text: *const u8, length: usize, _kind: u32, _bodies: u32, rooms: Rooms, at: *mut Place) {
    let text = String::from_utf8_lossy(slice::from_raw_parts(text, length));
    let place = match declared::read(&text, rooms.events) {
        Ok(host) => Place::Open(Box::new(host)),
        Err(line) => Place::Bad { line },
    };
    ptr::write(at, place);
}

/// # Safety
/// `at` is what `kaffe_open` wrote, and no other call is inside it.
#[no_mangle]
pub unsafe extern "C" fn kaffe_call(at: *mut Place, request: Request) -> Answer {
    match &mut *at {
        Place::Open(host) => host.call(&request),
        Place::Bad { line } => Answer { status: NO_HOST, segment: *line, ..Answer::default() },
    }
}

/// # Safety
/// `at` is what `kaffe_open` wrote, and nobody uses it any more.
#[no_mangle]
pub unsafe extern "C" fn kaffe_close(at: *mut Place) {
    ptr::drop_in_place(at);
}
