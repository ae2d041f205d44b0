//! Heaps of guests with limits, for hosts in Rust: safe calls over the library `libk_c.a`.
//!
//! A [`Host`] is owned, so it is closed once; a call borrows it, so two calls never overlap; and it may move between threads. Nothing
//! here can make memory unsafe. `docs/EMBEDDING.md` says what each code means.
#[path = "kaffe_answers.rs"]
mod answers;

#[path = "kaffe_parts.rs"]
pub mod parts;

pub use answers::*;
use std::marker::PhantomData;
use std::ops::Range;

/// What C has of a host.
#[repr(C)]
struct Opaque {
    _unused: [u8; 0],
    _not_shared: PhantomData<*mut u8>,
}

/// What is asked of a host, as `kaffe_request` of `kaffe.h`.
#[repr(C)]
#[derive(Clone, Copy, Default)]
struct Request {
    call: u32,
    pid: u32,
    at: u32,
    to: u32,
    reg: u8,
    base: u8,
    unused0: u8,
    unused1: u8,
    unused2: u32,
    number: u64,
}

/// For how much a host has room, as `kaffe_rooms` of `kaffe.h`. The opening takes memory for all of it, and no call but [`Host::grow`] takes
/// any for a table after it.
#[repr(C)]
#[derive(Clone, Copy, Debug, PartialEq, Eq)]
pub struct Rooms {
    /// Events in the host's whole life: below 2^55, and at least three for each process, one for each shared heap and three.
    pub events: u64,
    /// The last of them, which can be read and taken out: at most `events`.
    pub kept: u32,
    /// Events inside its heap that a process has before they come to the others: at least 1.
    pub tail: u32,
    /// Objects that live at once in the heap of a process, in a shared heap, and in the kernel heap beside those that it took over: at least
    /// 1, which is its directory.
    pub objects: u32,
    /// References out of the heap of one process, or of one shared heap, each object that is referred to once.
    pub exits: u32,
    /// The same of the kernel heap. `exits` of it for each living process are kept back for its end, and the rest is for stores: at least
    /// `exits` for each process.
    pub kernel_exits: u32,
    /// Objects to which references of other heaps lead.
    pub entries: u32,
}

impl Rooms {
    /// Rooms for so many living objects in each heap of so many processes and shared heaps: 2^55 - 1 events, of which none is kept, and as
    /// many references as there can be objects.
    pub fn for_objects(objects: u32, processes: u32, heaps: u32) -> Rooms {
        // SAFETY: `kaffe_rooms_for` asks nothing.
        unsafe { kaffe_rooms_for(objects, processes, heaps) }
    }
}

unsafe extern "C" {
    fn kaffe_size() -> usize;
    fn kaffe_rooms_for(objects: u32, processes: u32, heaps: u32) -> Rooms;
    fn kaffe_open(text: *const u8, length: usize, ty: u32, bodies: u32, rooms: Rooms, at: *mut Opaque);
    fn kaffe_call(host: *mut Opaque, request: Request) -> Answer;
    fn kaffe_grow(host: *mut Opaque, rooms: Rooms) -> Answer;
    fn kaffe_read(host: *mut Opaque, text: u32, from: usize, into: *mut u8, length: usize) -> usize;
    fn kaffe_close(host: *mut Opaque);
}

/// The numbers of the calls.
mod call {
    pub const NEW: u32 = 0;
    pub const KNEW: u32 = 1;
    pub const SNEW: u32 = 2;
    pub const STORE: u32 = 3;
    pub const LOAD: u32 = 4;
    pub const MOVE: u32 = 5;
    pub const CLEAR: u32 = 6;
    pub const DIR: u32 = 7;
    pub const PUT: u32 = 8;
    pub const GET: u32 = 9;
    pub const SHARE: u32 = 10;
    pub const FREEZE: u32 = 11;
    pub const ATTACH: u32 = 12;
    pub const KILL_BY: u32 = 13;
    pub const RESIZE: u32 = 14;
    pub const COLLECT: u32 = 16;
    pub const KCOLLECT: u32 = 17;
    pub const KILL: u32 = 18;
    pub const ABSORB: u32 = 19;
    pub const TAKE: u32 = 20;
    pub const PUBLISH: u32 = 21;
    pub const PRINT: u32 = 24;
    pub const LIVES: u32 = 32;
    pub const BYTES: u32 = 33;
    pub const CHARGE: u32 = 34;
    pub const USE: u32 = 35;
    pub const MAX: u32 = 36;
    pub const REGISTER: u32 = 37;
    pub const DONE: u32 = 38;
    pub const EVENTS: u32 = 39;
    pub const BODIES: u32 = 40;
    pub const KERNEL_BYTES: u32 = 41;
    pub const ORPHAN: u32 = 42;
    pub const LEFT: u32 = 43;
    pub const FREED_COUNT: u32 = 44;
    pub const FREED_NAME: u32 = 45;
    pub const EVENT: u32 = 46;
    pub const CAME: u32 = 47;
}

/// The numbers of the texts.
mod text {
    pub const TRACE: u32 = 0;
    pub const REPORT: u32 = 1;
}

/// Processes with their heaps and limits. Dropping it gives all its memory back.
pub struct Host(Box<[u128]>);

/// How many lines of the text begin with the word and a space: of a good text as many as it declares so.
fn lines_of(text: &str, word: &str) -> u32 {
    text.split('\n').filter(|line| line.split(' ').next() == Some(word) && line.len() > word.len()).count() as u32
}

impl Host {
    /// A host of what the text declares, with rooms for so many living objects in each heap, by [`Rooms::for_objects`].
    pub fn open(text: &str, ty: TypeId, bodies: u32, objects: u32) -> Result<Host, OpenError> {
        let rooms = Rooms::for_objects(objects, lines_of(text, "proc"), lines_of(text, "shared"));
        Host::open_with(text, ty, bodies, rooms)
    }

    /// A host of what the text declares, with these rooms. Each process has a supply of `bodies` bodies of the type: as many allocations of
    /// it, refused ones too, take no memory, and no call but an allocation, [`Host::print`] and [`Host::grow`] takes any.
    pub fn open_with(text: &str, ty: TypeId, bodies: u32, rooms: Rooms) -> Result<Host, OpenError> {
        // SAFETY: `kaffe_size` asks nothing.
        let size = unsafe { kaffe_size() };
        let mut room = vec![0u128; size.div_ceil(16)].into_boxed_slice();
        let at = room.as_mut_ptr().cast();
        // SAFETY: the room is as large as `kaffe_size` says and aligned to 16; pointer and length are those of one text.
        unsafe { kaffe_open(text.as_ptr(), text.len(), ty.0, bodies, rooms, at) };
        let mut host = Host(room);
        let why = host.send(Request { call: call::EVENTS, ..Request::default() });
        match (why.status, why.seg, why.at) {
            (9, 0, 1) => Err(OpenError::NoMemory),
            (9, 0, _) => Err(OpenError::Terms),
            (9, line, reason) => Err(OpenError::Bad { line, reason }),
            _ => Ok(host),
        }
    }

    fn send(&mut self, request: Request) -> Answer {
        // SAFETY: in the room is what `kaffe_open` left, which `drop` alone closes; `&mut self` keeps calls apart.
        unsafe { kaffe_call(self.0.as_mut_ptr().cast(), request) }
    }

    /// Has these rooms from now on, and answers how many of the last events can be read: `kept`, while no event is forgotten. Else it answers
    /// how many are still there, and holds more of those to come, so that the same call later answers more. `Rooms` where a room is less
    /// than before, they are not fit for an opening, or `kernel_exits` is not more by as many as `exits` for each process, ended ones too;
    /// `NoMemory` where memory is wanting for the tables that grow beside the old ones. Then nothing has changed.
    pub fn grow(&mut self, rooms: Rooms) -> Result<u32, Lack> {
        // SAFETY: as of `send`.
        let answer = unsafe { kaffe_grow(self.0.as_mut_ptr().cast(), rooms) };
        if answer.status == 0 { Ok(answer.number as u32) } else { Err(lack_of(answer.status)) }
    }

    fn call(&mut self, request: Request) -> Result<Answer, Refusal> {
        let answer = self.send(request);
        match (answer.status, answer.fault) {
            (0, 0) => Ok(answer),
            (0, fault) => Err(refusal_of(fault, answer.at)),
            (status, _) => Err(Refusal::Lack(lack_of(status))),
        }
    }

    fn number(&mut self, call: u32, pid: u32, at: u32) -> Option<u64> {
        let answer = self.send(Request { call, pid, at, ..Request::default() });
        (answer.status == 0).then_some(answer.number)
    }

    /// An object in the heap of the process, to which the register refers.
    pub fn new(&mut self, Pid(pid): Pid, Reg(reg): Reg, TypeId(at): TypeId) -> Result<Name, Refusal> {
        self.call(Request { call: call::NEW, pid, at, reg, ..Request::default() }).map(name)
    }

    /// The same in the kernel heap.
    pub fn knew(&mut self, Pid(pid): Pid, Reg(reg): Reg, TypeId(at): TypeId) -> Result<Name, Refusal> {
        self.call(Request { call: call::KNEW, pid, at, reg, ..Request::default() }).map(name)
    }

    /// The same in a shared heap that the process populates.
    pub fn snew(&mut self, Pid(pid): Pid, Reg(reg): Reg, SharedId(at): SharedId, TypeId(to): TypeId) -> Result<Name, Refusal> {
        self.call(Request { call: call::SNEW, pid, at, to, reg, ..Request::default() }).map(name)
    }

    /// The field of the object in `base` refers to what `reg` holds.
    pub fn store(&mut self, Pid(pid): Pid, Reg(base): Reg, at: u32, Reg(reg): Reg) -> Result<(), Refusal> {
        self.call(Request { call: call::STORE, pid, at, reg, base, ..Request::default() }).map(|_| ())
    }

    /// `reg` holds what the field refers to.
    pub fn load(&mut self, Pid(pid): Pid, Reg(reg): Reg, Reg(base): Reg, at: u32) -> Result<Option<Name>, Refusal> {
        self.call(Request { call: call::LOAD, pid, at, reg, base, ..Request::default() }).map(target)
    }

    /// `reg` holds what `from` holds.
    pub fn copy(&mut self, Pid(pid): Pid, Reg(reg): Reg, Reg(base): Reg) -> Result<(), Refusal> {
        self.call(Request { call: call::MOVE, pid, reg, base, ..Request::default() }).map(|_| ())
    }

    /// `reg` is null.
    pub fn clear(&mut self, Pid(pid): Pid, Reg(reg): Reg) -> Result<(), Refusal> {
        self.call(Request { call: call::CLEAR, pid, reg, ..Request::default() }).map(|_| ())
    }

    /// `reg` refers to the directory of the kernel heap.
    pub fn dir(&mut self, Pid(pid): Pid, Reg(reg): Reg) -> Result<(), Refusal> {
        self.call(Request { call: call::DIR, pid, reg, ..Request::default() }).map(|_| ())
    }

    /// The integer field of the object in `base` becomes the number.
    pub fn put(&mut self, Pid(pid): Pid, Reg(base): Reg, at: u32, number: u64) -> Result<(), Refusal> {
        self.call(Request { call: call::PUT, pid, at, base, number, ..Request::default() }).map(|_| ())
    }

    /// The integer field of the object in `base`.
    pub fn get(&mut self, Pid(pid): Pid, Reg(base): Reg, at: u32) -> Result<u64, Refusal> {
        self.call(Request { call: call::GET, pid, at, base, ..Request::default() }).map(|a| a.number)
    }

    /// The process begins to populate the shared heap.
    pub fn share(&mut self, Pid(pid): Pid, SharedId(at): SharedId) -> Result<(), Refusal> {
        self.call(Request { call: call::SHARE, pid, at, ..Request::default() }).map(|_| ())
    }

    /// The shared heap is frozen, with the object in `root` as its root.
    pub fn freeze(&mut self, Pid(pid): Pid, SharedId(at): SharedId, Reg(reg): Reg) -> Result<(), Refusal> {
        self.call(Request { call: call::FREEZE, pid, at, reg, ..Request::default() }).map(|_| ())
    }

    /// The process shares the frozen heap, and `reg` refers to its root.
    pub fn attach(&mut self, Pid(pid): Pid, Reg(reg): Reg, SharedId(at): SharedId) -> Result<Option<Name>, Refusal> {
        self.call(Request { call: call::ATTACH, pid, at, reg, ..Request::default() }).map(target)
    }

    /// The process kills the target, whose limit must be strictly below its own. Nothing changes where the target has ended before.
    pub fn kill_by(&mut self, Pid(pid): Pid, Pid(at): Pid) -> Result<(), Refusal> {
        self.call(Request { call: call::KILL_BY, pid, at, ..Request::default() }).map(|_| ())
    }

    /// The process gives the limit, which must be strictly below its own, another maximum, which is below 2^40.
    pub fn resize(&mut self, Pid(pid): Pid, LimitId(at): LimitId, number: u64) -> Result<(), Refusal> {
        self.call(Request { call: call::RESIZE, pid, at, number, ..Request::default() }).map(|_| ())
    }

    /// Collects the heap of the process, whole.
    pub fn collect(&mut self, Pid(pid): Pid) -> Result<Freed, Refusal> {
        self.call(Request { call: call::COLLECT, pid, ..Request::default() }).map(freed)
    }

    /// The names of the objects that the last collection freed, `collect` or `kcollect` of any process: each once, in any order. They are
    /// the same until the next collection is done.
    pub fn freed(&mut self) -> FreedNames<'_> {
        let count = self.number(call::FREED_COUNT, 0, 0).unwrap_or(0) as u32;
        FreedNames { host: self, places: 0..count }
    }

    /// Absorbs every orphan, and collects the kernel heap whole, as the process.
    pub fn kcollect(&mut self, Pid(pid): Pid) -> Result<Freed, Refusal> {
        self.call(Request { call: call::KCOLLECT, pid, ..Request::default() }).map(freed)
    }

    /// Absorbs the shared heap, which must be the first orphan.
    pub fn absorb(&mut self, SharedId(at): SharedId) -> Result<(), Refusal> {
        self.call(Request { call: call::ABSORB, at, ..Request::default() }).map(|_| ())
    }

    /// The first shared heap that was made and that nobody shares any more.
    pub fn orphan(&mut self) -> Option<SharedId> {
        self.number(call::ORPHAN, 0, 0).map(|n| SharedId(n as u32))
    }

    /// Ends the process, whoever asks: from here on its charge is 0, and its heap is the kernel's. A process that lives can always be
    /// ended, however many events are left.
    pub fn kill(&mut self, Pid(pid): Pid) -> Result<(), Refusal> {
        self.call(Request { call: call::KILL, pid, ..Request::default() }).map(|_| ())
    }

    /// Whether the process lives; `None` where there is no such process. So with the questions below.
    pub fn lives(&mut self, Pid(pid): Pid) -> Option<bool> {
        self.number(call::LIVES, pid, 0).map(|n| n == 1)
    }

    /// The bytes of the process's own heap.
    pub fn heap_bytes(&mut self, Pid(pid): Pid) -> Option<u64> {
        self.number(call::BYTES, pid, 0)
    }

    /// The bytes that the process is charged: its heap, and each shared heap that it shares in full.
    pub fn charge(&mut self, Pid(pid): Pid) -> Option<u64> {
        self.number(call::CHARGE, pid, 0)
    }

    /// The bytes in use at the limit.
    pub fn used(&mut self, LimitId(at): LimitId) -> Option<u64> {
        self.number(call::USE, 0, at)
    }

    /// The most bytes that may be in use at the limit.
    pub fn most(&mut self, LimitId(at): LimitId) -> Option<u64> {
        self.number(call::MAX, 0, at)
    }

    /// What the register holds.
    pub fn register(&mut self, Pid(pid): Pid, Reg(reg): Reg) -> Result<Option<Name>, Refusal> {
        self.call(Request { call: call::REGISTER, pid, reg, ..Request::default() }).map(target)
    }

    /// How many operations the process has done.
    pub fn done(&mut self, Pid(pid): Pid) -> Option<u64> {
        self.number(call::DONE, pid, 0)
    }

    /// How many bodies the supply of the process has yet.
    pub fn bodies_left(&mut self, Pid(pid): Pid) -> Option<u64> {
        self.number(call::BODIES, pid, 0)
    }

    /// How many events are left for operations and collections: what the ends of all processes will add is kept beside them.
    pub fn left(&mut self) -> Option<u64> {
        self.number(call::LEFT, 0, 0)
    }

    /// How many events the journal has.
    pub fn events(&mut self) -> Option<u64> {
        self.number(call::EVENTS, 0, 0)
    }

    /// The event of that number, from 0. `None` where there is none yet, or where it is older than the last that are kept.
    pub fn event(&mut self, number: u64) -> Option<Event> {
        let asked = self.send(Request { call: call::EVENT, number, ..Request::default() });
        let came = self.send(Request { call: call::CAME, number, ..Request::default() });
        (asked.status == 0).then(|| asked_of(asked).map(|asked| Event { asked, came: came_of(came) })).flatten()
    }

    /// Takes out the next event, the first that is still kept and was not taken out before. So each event is given at most once, in order,
    /// and a gap in the numbers tells how many were forgotten before they were taken. What a process did inside its heap comes to the
    /// journal later, with its next event that does not stay there.
    pub fn take_event(&mut self) -> Option<Taken> {
        let answer = self.send(Request { call: call::TAKE, ..Request::default() });
        let number = (answer.status == 0 && answer.what == 2).then_some(answer.number)?;
        self.event(number).map(|event| Taken { number, event })
    }

    /// Publishes what each process did inside its heap: all that was done is in the journal then.
    pub fn publish(&mut self) -> Result<(), Refusal> {
        self.call(Request { call: call::PUBLISH, ..Request::default() }).map(|_| ())
    }

    /// Publishes, and prints the trace of all that the host has done and the report of it, which `kaffe check` accepts one after the other.
    /// The host has to keep all its events. It takes memory for both texts twice, and while it goes on for a copy of all events and for the
    /// machine after them; the library keeps its own texts until the next are made.
    pub fn print(&mut self) -> Result<Texts, Refusal> {
        self.publish()?;
        let made = self.call(Request { call: call::PRINT, ..Request::default() })?;
        Ok(Texts { trace: self.read(text::TRACE, made.seg as usize), report: self.read(text::REPORT, made.number as usize) })
    }

    /// The first bytes of the text, as many as there are and no more than `length`.
    fn read(&mut self, text: u32, length: usize) -> Vec<u8> {
        let mut bytes = vec![0u8; length];
        // SAFETY: in the room is what `kaffe_open` left; pointer and length are those of the bytes, which nobody else uses.
        let count = unsafe { kaffe_read(self.0.as_mut_ptr().cast(), text, 0, bytes.as_mut_ptr(), bytes.len()) };
        bytes.truncate(count);
        bytes
    }

    /// The bytes of the kernel heap.
    pub fn kernel_bytes(&mut self) -> Option<u64> {
        self.number(call::KERNEL_BYTES, 0, 0)
    }
}

/// The names of the objects that a collection freed.
pub struct FreedNames<'a> {
    host: &'a mut Host,
    places: Range<u32>,
}

impl Iterator for FreedNames<'_> {
    type Item = Name;

    fn next(&mut self) -> Option<Name> {
        let at = self.places.next()?;
        Some(name(self.host.send(Request { call: call::FREED_NAME, at, ..Request::default() })))
    }

    fn size_hint(&self) -> (usize, Option<usize>) {
        self.places.size_hint()
    }
}

impl ExactSizeIterator for FreedNames<'_> {}

impl Drop for Host {
    fn drop(&mut self) {
        // SAFETY: in the room is what `kaffe_open` left, and nobody uses it after.
        unsafe { kaffe_close(self.0.as_mut_ptr().cast()) }
    }
}
