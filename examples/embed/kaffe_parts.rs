//! A host in parts, which several threads drive: each part is behind a lock of its own, and a call takes those of the parts that its event
//! touches, in the order: processes by rising number, the kernel's, a shared heap's, the book's. `kaffe.rs` has this as a module.
use super::{
    Answer, Event, Freed, Lack, LimitId, Name, Opaque, OpenError, Pid, Refusal, Reg, Request, Rooms, SharedId, Taken, TypeId, asked_of,
    call, came_of, freed, lack_of, lines_of, name, refusal_of, target,
};
use std::sync::{Mutex, MutexGuard, PoisonError};

/// The statuses that only calls over parts answer, as `kaffe_part_status` of `kaffe_parts.h`.
mod status {
    pub const FULL: u32 = 5;
    pub const ORPHAN: u32 = 7;
    pub const NO_HOST: u32 = 9;
    pub const NEEDS: u32 = 18;
}

/// Which part a call needs, as `kaffe_needed`; any other is that of a process which is killed.
mod needs {
    pub const BOOK: u32 = 1;
    pub const KERNEL: u32 = 2;
    pub const SHARED: u32 = 3;
}

unsafe extern "C" {
    fn kaffe_part_size() -> usize;
    fn kaffe_split(text: *const u8, length: usize, ty: u32, bodies: u32, rooms: Rooms, number: u64, freed: u32, row: *mut Opaque);
    fn kaffe_part_take(row: *mut Opaque, part: *mut Opaque);
    fn kaffe_call_one(part: *mut Opaque, request: Request) -> Answer;
    fn kaffe_call_two(one: *mut Opaque, two: *mut Opaque, request: Request) -> Answer;
    fn kaffe_call_three(one: *mut Opaque, two: *mut Opaque, three: *mut Opaque, request: Request) -> Answer;
    fn kaffe_call_four(one: *mut Opaque, two: *mut Opaque, three: *mut Opaque, four: *mut Opaque, request: Request) -> Answer;
    fn kaffe_part_close(part: *mut Opaque);
}

/// A line of a processor's cache, or two.
#[repr(align(128))]
#[derive(Clone, Copy)]
struct Line {
    _bytes: [u8; 128],
}

/// Room in which a part lies, or the row of all parts; no other part lies in a line of a processor's cache with it. Dropping it closes it.
struct Part(Box<[Line]>);

impl Part {
    /// What `fill` leaves at the address that it is given.
    ///
    /// # Safety
    ///
    /// `fill` leaves a row or a part there, or a place without one.
    unsafe fn filled(fill: impl FnOnce(*mut Opaque)) -> Part {
        // SAFETY: `kaffe_part_size` asks nothing.
        let size = unsafe { kaffe_part_size() };
        let mut room = vec![Line { _bytes: [0; 128] }; size.div_ceil(size_of::<Line>())].into_boxed_slice();
        fill(room.as_mut_ptr().cast());
        Part(room)
    }

    fn at(&mut self) -> *mut Opaque {
        self.0.as_mut_ptr().cast()
    }

    /// The next part of this row.
    fn take(&mut self) -> Part {
        // SAFETY: the room is as large as `kaffe_part_size` says and aligned to 128, and `kaffe_part_take` leaves a part there; `&mut self`
        // keeps calls of the row apart.
        unsafe { Part::filled(|at| kaffe_part_take(self.at(), at)) }
    }

    fn ask(&mut self, request: Request) -> Answer {
        // SAFETY: in the room is what `filled` left, which `drop` alone closes; `&mut self` keeps calls apart.
        unsafe { kaffe_call_one(self.at(), request) }
    }
}

impl Drop for Part {
    fn drop(&mut self) {
        // SAFETY: in the room is what `filled` left, and nobody uses it after.
        unsafe { kaffe_part_close(self.at()) }
    }
}

/// Calls over several parts, all of one host.
mod over {
    use super::{Answer, Part, Request, kaffe_call_four, kaffe_call_three, kaffe_call_two};

    pub(super) fn two(one: &mut Part, two: &mut Part, request: Request) -> Answer {
        // SAFETY: in the rooms is what `filled` left; `&mut` keeps calls apart, and `Parts` lends parts of one host alone.
        unsafe { kaffe_call_two(one.at(), two.at(), request) }
    }

    pub(super) fn three(one: &mut Part, two: &mut Part, three: &mut Part, request: Request) -> Answer {
        // SAFETY: as of `two`.
        unsafe { kaffe_call_three(one.at(), two.at(), three.at(), request) }
    }

    pub(super) fn four(one: &mut Part, two: &mut Part, three: &mut Part, four: &mut Part, request: Request) -> Answer {
        // SAFETY: as of `two`.
        unsafe { kaffe_call_four(one.at(), two.at(), three.at(), four.at(), request) }
    }
}

/// A part behind its lock. No other lock lies in a line of a processor's cache with it: a thread that takes one would wait for the others.
#[repr(align(128))]
struct Lock(Mutex<Part>);

/// A host in parts, each behind a lock. Threads share it, by `&Parts`. Dropping it gives all its memory back.
pub struct Parts {
    guests: Vec<Lock>,
    kernel: Lock,
    heaps: Vec<Lock>,
    book: Lock,
    /// The address of this is the host's number, which no other host has at the same time.
    _number: Box<u64>,
}

/// The part, locked. A thread that panics while it has a part leaves it as a call left it.
fn locked(Lock(part): &Lock) -> MutexGuard<'_, Part> {
    part.lock().unwrap_or_else(PoisonError::into_inner)
}

fn result_of(answer: Answer) -> Result<Answer, Refusal> {
    match (answer.status, answer.fault) {
        (0, 0) => Ok(answer),
        (0, fault) => Err(refusal_of(fault, answer.at)),
        (status, _) => Err(Refusal::Lack(lack_of(status))),
    }
}

impl Parts {
    /// The parts of a host of what the text declares, with rooms for so many living objects in each heap, by [`Rooms::for_objects`].
    pub fn open(text: &str, ty: TypeId, bodies: u32, objects: u32) -> Result<Parts, OpenError> {
        let rooms = Rooms::for_objects(objects, lines_of(text, "proc"), lines_of(text, "shared"));
        Parts::open_with(text, ty, bodies, rooms)
    }

    /// The parts of a host of what the text declares, with these rooms, as `Host::open_with` makes one.
    pub fn open_with(text: &str, TypeId(ty): TypeId, bodies: u32, rooms: Rooms) -> Result<Parts, OpenError> {
        let place = Box::new(0u64);
        let number = &raw const *place as u64;
        let split = |at| {
            // SAFETY: pointer and length are those of one text, and `at` is the room that `filled` gives.
            unsafe { kaffe_split(text.as_ptr(), text.len(), ty, bodies, rooms, number, rooms.entries, at) }
        };
        // SAFETY: `kaffe_split` leaves a row, or a place without one.
        let mut row = unsafe { Part::filled(split) };
        let why = row.ask(Request { call: call::EVENTS, ..Request::default() });
        match (why.status, why.seg, why.at) {
            (status::NO_HOST, 0, 1) => return Err(OpenError::NoMemory),
            (status::NO_HOST, 0, _) => return Err(OpenError::Terms),
            (status::NO_HOST, line, reason) => return Err(OpenError::Bad { line, reason }),
            _ => {}
        }
        let guests = (0..lines_of(text, "proc")).map(|_| Lock(Mutex::new(row.take()))).collect();
        let kernel = Lock(Mutex::new(row.take()));
        let heaps = (0..lines_of(text, "shared")).map(|_| Lock(Mutex::new(row.take()))).collect();
        let book = Lock(Mutex::new(row.take()));
        Ok(Parts { guests, kernel, heaps, book, _number: place })
    }

    fn guest(&self, Pid(pid): Pid) -> Result<MutexGuard<'_, Part>, Refusal> {
        self.guests.get(pid as usize).map(locked).ok_or(Refusal::Lack(Lack::Unknown))
    }

    fn heap(&self, SharedId(id): SharedId) -> Result<MutexGuard<'_, Part>, Refusal> {
        self.heaps.get(id as usize).map(locked).ok_or(Refusal::Lack(Lack::Unknown))
    }

    /// Does the operation inside the process's heap, or with the other parts that it needs, while nobody else has the process's.
    fn operate(&self, pid: Pid, request: Request) -> Result<Answer, Refusal> {
        let mut guest = self.guest(pid)?;
        let mut answer = guest.ask(request);
        if answer.status == status::FULL {
            answer = over::two(&mut guest, &mut locked(&self.book), request);
        }
        while answer.status == status::NEEDS {
            answer = match answer.seg {
                needs::BOOK => over::two(&mut guest, &mut locked(&self.book), request),
                needs::KERNEL => {
                    let mut kernel = locked(&self.kernel);
                    over::three(&mut guest, &mut kernel, &mut locked(&self.book), request)
                }
                needs::SHARED => {
                    let mut heap = self.heap(SharedId(answer.at))?;
                    over::three(&mut guest, &mut heap, &mut locked(&self.book), request)
                }
                _ => {
                    drop(guest);
                    return result_of(self.kill_both(pid, Pid(answer.at), request)?);
                }
            };
        }
        result_of(answer)
    }

    /// The process's kill of the target, of which the one with the lower number is locked first.
    fn kill_both(&self, pid: Pid, target: Pid, request: Request) -> Result<Answer, Refusal> {
        let first = self.guest(pid.min(target))?;
        let second = self.guest(pid.max(target))?;
        let (mut guest, mut target) = if pid < target { (first, second) } else { (second, first) };
        let mut kernel = locked(&self.kernel);
        Ok(over::four(&mut guest, &mut target, &mut kernel, &mut locked(&self.book), request))
    }

    fn op(&self, pid: Pid, request: Request) -> Result<(), Refusal> {
        self.operate(pid, request).map(|_| ())
    }

    /// An object in the heap of the process, to which the register refers.
    pub fn new(&self, pid: Pid, Reg(reg): Reg, TypeId(at): TypeId) -> Result<Name, Refusal> {
        self.operate(pid, Request { call: call::NEW, at, reg, ..Request::default() }).map(name)
    }

    /// The same in the kernel heap.
    pub fn knew(&self, pid: Pid, Reg(reg): Reg, TypeId(at): TypeId) -> Result<Name, Refusal> {
        self.operate(pid, Request { call: call::KNEW, at, reg, ..Request::default() }).map(name)
    }

    /// The same in a shared heap that the process populates.
    pub fn snew(&self, pid: Pid, Reg(reg): Reg, SharedId(at): SharedId, TypeId(to): TypeId) -> Result<Name, Refusal> {
        self.operate(pid, Request { call: call::SNEW, at, to, reg, ..Request::default() }).map(name)
    }

    /// The field of the object in `base` refers to what `reg` holds.
    pub fn store(&self, pid: Pid, Reg(base): Reg, at: u32, Reg(reg): Reg) -> Result<(), Refusal> {
        self.op(pid, Request { call: call::STORE, at, reg, base, ..Request::default() })
    }

    /// `reg` holds what the field refers to.
    pub fn load(&self, pid: Pid, Reg(reg): Reg, Reg(base): Reg, at: u32) -> Result<Option<Name>, Refusal> {
        self.operate(pid, Request { call: call::LOAD, at, reg, base, ..Request::default() }).map(target)
    }

    /// `reg` holds what `from` holds.
    pub fn copy(&self, pid: Pid, Reg(reg): Reg, Reg(base): Reg) -> Result<(), Refusal> {
        self.op(pid, Request { call: call::MOVE, reg, base, ..Request::default() })
    }

    /// `reg` is null.
    pub fn clear(&self, pid: Pid, Reg(reg): Reg) -> Result<(), Refusal> {
        self.op(pid, Request { call: call::CLEAR, reg, ..Request::default() })
    }

    /// `reg` refers to the directory of the kernel heap.
    pub fn dir(&self, pid: Pid, Reg(reg): Reg) -> Result<(), Refusal> {
        self.op(pid, Request { call: call::DIR, reg, ..Request::default() })
    }

    /// The integer field of the object in `base` becomes the number.
    pub fn put(&self, pid: Pid, Reg(base): Reg, at: u32, number: u64) -> Result<(), Refusal> {
        self.op(pid, Request { call: call::PUT, at, base, number, ..Request::default() })
    }

    /// The integer field of the object in `base`.
    pub fn get(&self, pid: Pid, Reg(base): Reg, at: u32) -> Result<u64, Refusal> {
        self.operate(pid, Request { call: call::GET, at, base, ..Request::default() }).map(|a| a.number)
    }

    /// The process begins to populate the shared heap.
    pub fn share(&self, pid: Pid, SharedId(at): SharedId) -> Result<(), Refusal> {
        self.op(pid, Request { call: call::SHARE, at, ..Request::default() })
    }

    /// The shared heap is frozen, with the object in `root` as its root.
    pub fn freeze(&self, pid: Pid, SharedId(at): SharedId, Reg(reg): Reg) -> Result<(), Refusal> {
        self.op(pid, Request { call: call::FREEZE, at, reg, ..Request::default() })
    }

    /// The process shares the frozen heap, and `reg` refers to its root.
    pub fn attach(&self, pid: Pid, Reg(reg): Reg, SharedId(at): SharedId) -> Result<Option<Name>, Refusal> {
        self.operate(pid, Request { call: call::ATTACH, at, reg, ..Request::default() }).map(target)
    }

    /// The process kills the target, whose limit must be strictly below its own. Nothing changes where the target has ended before.
    pub fn kill_by(&self, pid: Pid, Pid(at): Pid) -> Result<(), Refusal> {
        self.op(pid, Request { call: call::KILL_BY, at, ..Request::default() })
    }

    /// The process gives the limit, which must be strictly below its own, another maximum, which is below 2^40.
    pub fn resize(&self, pid: Pid, LimitId(at): LimitId, number: u64) -> Result<(), Refusal> {
        self.op(pid, Request { call: call::RESIZE, at, number, ..Request::default() })
    }

    /// What the process did inside its heap comes to the journal.
    pub fn publish(&self, pid: Pid) -> Result<(), Refusal> {
        let mut guest = self.guest(pid)?;
        result_of(over::two(&mut guest, &mut locked(&self.book), Request { call: call::PUBLISH, ..Request::default() })).map(|_| ())
    }

    /// Collects the heap of the process, whole, and gives the names of the objects that went, each once and in any order.
    pub fn collect(&self, pid: Pid) -> Result<(Freed, Vec<Name>), Refusal> {
        let mut guest = self.guest(pid)?;
        let mut book = locked(&self.book);
        let answer = result_of(over::two(&mut guest, &mut book, Request { call: call::COLLECT, ..Request::default() }))?;
        Ok((freed(answer), freed_names(&mut book)))
    }

    /// Absorbs every orphan, and collects the kernel heap whole, as the process. Another thread may go on between an absorption and the
    /// collection.
    pub fn kcollect(&self, pid: Pid) -> Result<(Freed, Vec<Name>), Refusal> {
        loop {
            let mut guest = self.guest(pid)?;
            let mut kernel = locked(&self.kernel);
            let mut book = locked(&self.book);
            let answer = over::three(&mut guest, &mut kernel, &mut book, Request { call: call::KCOLLECT, ..Request::default() });
            if answer.status != status::ORPHAN {
                return Ok((freed(result_of(answer)?), freed_names(&mut book)));
            }
            drop((guest, kernel, book));
            self.absorb_first()?;
        }
    }

    /// Absorbs the first orphan, where there is one still.
    fn absorb_first(&self) -> Result<(), Refusal> {
        match self.orphan() {
            Some(id) => match self.absorb(id) {
                Err(Refusal::Lack(Lack::Orphan)) => Ok(()),
                came => came,
            },
            None => Ok(()),
        }
    }

    /// Absorbs the shared heap, which must be the first orphan.
    pub fn absorb(&self, id: SharedId) -> Result<(), Refusal> {
        let mut kernel = locked(&self.kernel);
        let mut heap = self.heap(id)?;
        let mut book = locked(&self.book);
        result_of(over::three(&mut heap, &mut kernel, &mut book, Request { call: call::ABSORB, ..Request::default() })).map(|_| ())
    }

    /// Ends the process, whoever asks: its heap is the kernel's from here on.
    pub fn kill(&self, pid: Pid) -> Result<(), Refusal> {
        let mut guest = self.guest(pid)?;
        let mut kernel = locked(&self.kernel);
        result_of(over::three(&mut guest, &mut kernel, &mut locked(&self.book), Request { call: call::KILL, ..Request::default() })).map(|_| ())
    }

    fn of_guest(&self, pid: Pid, call: u32) -> Option<u64> {
        let answer = self.guest(pid).ok()?.ask(Request { call, ..Request::default() });
        (answer.status == 0).then_some(answer.number)
    }

    fn of_book(&self, call: u32, at: u32) -> Option<u64> {
        let answer = locked(&self.book).ask(Request { call, at, ..Request::default() });
        (answer.status == 0).then_some(answer.number)
    }

    /// Whether the process lives; `None` where there is no such process. So with the questions below.
    pub fn lives(&self, pid: Pid) -> Option<bool> {
        self.of_guest(pid, call::LIVES).map(|n| n == 1)
    }

    /// The bytes of the process's own heap.
    pub fn heap_bytes(&self, pid: Pid) -> Option<u64> {
        self.of_guest(pid, call::BYTES)
    }

    /// The bytes that the process is charged: its heap, and each shared heap that it shares in full.
    pub fn charge(&self, pid: Pid) -> Option<u64> {
        let mut guest = self.guest(pid).ok()?;
        let answer = over::two(&mut guest, &mut locked(&self.book), Request { call: call::CHARGE, ..Request::default() });
        (answer.status == 0).then_some(answer.number)
    }

    /// What the register holds.
    pub fn register(&self, pid: Pid, Reg(reg): Reg) -> Result<Option<Name>, Refusal> {
        result_of(self.guest(pid)?.ask(Request { call: call::REGISTER, reg, ..Request::default() })).map(target)
    }

    /// How many operations the process has done.
    pub fn done(&self, pid: Pid) -> Option<u64> {
        self.of_guest(pid, call::DONE)
    }

    /// How many bodies the supply of the process has yet.
    pub fn bodies_left(&self, pid: Pid) -> Option<u64> {
        self.of_guest(pid, call::BODIES)
    }

    /// The bytes of the kernel heap.
    pub fn kernel_bytes(&self) -> u64 {
        locked(&self.kernel).ask(Request { call: call::KERNEL_BYTES, ..Request::default() }).number
    }

    /// The bytes of the shared heap.
    pub fn shared_bytes(&self, id: SharedId) -> Option<u64> {
        let answer = self.heap(id).ok()?.ask(Request { call: call::BYTES, ..Request::default() });
        (answer.status == 0).then_some(answer.number)
    }

    /// The bytes in use at the limit.
    pub fn used(&self, LimitId(at): LimitId) -> Option<u64> {
        self.of_book(call::USE, at)
    }

    /// The most bytes that may be in use at the limit.
    pub fn most(&self, LimitId(at): LimitId) -> Option<u64> {
        self.of_book(call::MAX, at)
    }

    /// The first shared heap that was made and that nobody shares any more.
    pub fn orphan(&self) -> Option<SharedId> {
        self.of_book(call::ORPHAN, 0).map(|n| SharedId(n as u32))
    }

    /// How many events the journal has.
    pub fn events(&self) -> Option<u64> {
        self.of_book(call::EVENTS, 0)
    }

    /// The event of that number, from 0. `None` where there is none yet, or where it is older than the last that are kept.
    pub fn event(&self, number: u64) -> Option<Event> {
        event_in(&mut locked(&self.book), number)
    }

    /// Takes out the next event, the first that is still kept and was not taken out before. So each event is given at most once, whichever
    /// thread takes it, and in order, and a gap in the numbers tells how many were forgotten before they were taken.
    pub fn take_event(&self) -> Option<Taken> {
        let mut book = locked(&self.book);
        let answer = book.ask(Request { call: call::TAKE, ..Request::default() });
        let number = (answer.status == 0 && answer.what == 2).then_some(answer.number)?;
        event_in(&mut book, number).map(|event| Taken { number, event })
    }
}

/// The event of that number.
fn event_in(book: &mut Part, number: u64) -> Option<Event> {
    let asked = book.ask(Request { call: call::EVENT, number, ..Request::default() });
    let came = book.ask(Request { call: call::CAME, number, ..Request::default() });
    (asked.status == 0).then(|| asked_of(asked).map(|asked| Event { asked, came: came_of(came) })).flatten()
}

/// The names of the objects that the last collection freed.
fn freed_names(book: &mut Part) -> Vec<Name> {
    let count = book.ask(Request { call: call::FREED_COUNT, ..Request::default() }).number as u32;
    (0..count).map(|at| name(book.ask(Request { call: call::FREED_NAME, at, ..Request::default() }))).collect()
}
