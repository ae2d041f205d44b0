//! A library loaded before the C library that watches the threads of a program which has no clock of its own.
//!
//! When a thread has ended and been waited for, it writes a line `watch RUN GAP FREED` to standard error: the nanoseconds since the first
//! thread was started; the longest time between two calls of `free` meanwhile, by whatever thread; and how many calls there were. The last
//! such line counts: the program's first thread works too, and waits for the others when it has nothing more to do. Calls of `free` are
//! watched only where the environment has WATCH_FREE. In a run of which one process alone frees objects, the longest gap is that of this
//! process. Gaps are looked at from the first call that gives back a wide piece of memory up to the second one, which another process can make.
#![no_std]

use core::ffi::{c_char, c_int, c_void, CStr};
use core::ops::Range;
use core::sync::atomic::{AtomicBool, AtomicU64, Ordering::SeqCst};

type Create = unsafe extern "C" fn(*mut c_void, *const c_void, *const c_void, *mut c_void) -> c_int;
type Join = unsafe extern "C" fn(usize, *mut *mut c_void) -> c_int;

#[repr(C)]
struct Timespec {
    seconds: i64,
    nanoseconds: i64,
}

extern "C" {
    fn __libc_free(memory: *mut c_void);
    fn clock_gettime(clock: c_int, time: *mut Timespec) -> c_int;
    fn dlsym(library: *mut c_void, name: *const c_char) -> *mut c_void;
    fn dprintf(file: c_int, format: *const c_char, ...) -> c_int;
    fn getenv(name: *const c_char) -> *const c_char;
    fn malloc_usable_size(memory: *mut c_void) -> usize;
}

const CLOCK_MONOTONIC: c_int = 1;
const RTLD_NEXT: *mut c_void = usize::MAX as *mut c_void;
const STANDARD_ERROR: c_int = 2;

/// A piece of memory of so many bytes is wide: as the sixteen fields of an object have, and no three.
const WIDE: Range<usize> = 200..400;

static BEGAN: AtomicU64 = AtomicU64::new(0);
static WATCHES_FREE: AtomicBool = AtomicBool::new(false);
static LAST: AtomicU64 = AtomicU64::new(0);
static LONGEST: AtomicU64 = AtomicU64::new(0);
static FREED: AtomicU64 = AtomicU64::new(0);
static LOOKS: AtomicBool = AtomicBool::new(false);

#[panic_handler]
fn panic(_: &core::panic::PanicInfo) -> ! {
    loop {}
}

fn now() -> u64 {
    let mut time = Timespec { seconds: 0, nanoseconds: 0 };
    unsafe { clock_gettime(CLOCK_MONOTONIC, &mut time) };
    time.seconds as u64 * 1_000_000_000 + time.nanoseconds as u64
}

/// The C library's function of this name.
unsafe fn next(name: &CStr) -> *mut c_void {
    dlsym(RTLD_NEXT, name.as_ptr())
}

/// # Safety
/// As the C library's.
#[no_mangle]
pub unsafe extern "C" fn pthread_create(thread: *mut c_void, attributes: *const c_void, start: *const c_void, argument: *mut c_void) -> c_int {
    if BEGAN.load(SeqCst) == 0 {
        WATCHES_FREE.store(!getenv(c"WATCH_FREE".as_ptr()).is_null(), SeqCst);
        BEGAN.store(now(), SeqCst);
    }
    let create: Create = core::mem::transmute(next(c"pthread_create"));
    create(thread, attributes, start, argument)
}

/// # Safety
/// As the C library's.
#[no_mangle]
pub unsafe extern "C" fn pthread_join(thread: usize, result: *mut *mut c_void) -> c_int {
    let join: Join = core::mem::transmute(next(c"pthread_join"));
    let status = join(thread, result);
    let run = now() - BEGAN.load(SeqCst);
    dprintf(STANDARD_ERROR, c"watch %lu %lu %lu\n".as_ptr(), run, LONGEST.load(SeqCst), FREED.load(SeqCst));
    status
}

/// # Safety
/// As the C library's.
#[no_mangle]
pub unsafe extern "C" fn free(memory: *mut c_void) {
    if !WATCHES_FREE.load(SeqCst) {
        __libc_free(memory);
        return;
    }
    let is_wide = WIDE.contains(&malloc_usable_size(memory));
    __libc_free(memory);
    let now = now();
    let last = LAST.swap(now, SeqCst);
    if LOOKS.load(SeqCst) {
        LONGEST.fetch_max(now.saturating_sub(last), SeqCst);
    }
    if is_wide {
        LOOKS.fetch_xor(true, SeqCst);
    }
    FREED.fetch_add(1, SeqCst);
}
