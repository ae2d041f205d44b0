"""An independent model of a host, by the rules of docs/MACHINE.md and docs/FORMATS.md, for `model.py`.

It shares no code with the library. Everything is summed up afresh from the objects; nothing is counted as it changes. The journal is kept
whole, and what each process did inside its heap beside it until it is published.
"""
from dataclasses import astuple, dataclass, replace

from codes import (UNKNOWN, ENDED, ORPHAN, NO_CALL, RESERVED, OBJECTS, ITEMS, FORGOTTEN, OVER, LESS_ROOMS, NAME, NUMBER, FREED, TEXTS, FAULT, NEW, KNEW, SNEW, STORE, LOAD,
                   MOVE, CLEAR, DIR, PUT, GET, SHARE, FREEZE, ATTACH, KILL_BY, RESIZE, COLLECT, KCOLLECT, KILL, ABSORB, TAKE, PUBLISH, PRINT,
                   END_OF_A_COLLECTION, EVENT, CAME, REGISTERS_OF, REGISTERS, LIVES, BYTES, CHARGE, USE, MAX, REGISTER, DONE, EVENTS,
                   BODIES, KERNEL_BYTES, FIRST_ORPHAN, LEFT, FREED_COUNT, FREED_NAME, answer, asked)
from printing import texts

KERNEL = ("kernel", 0)
MAXIMUM_BELOW = 1 << 40
MOST_FIELDS = 16
EVENTS_BELOW, ROOMS_BELOW = 1 << 55, 1 << 30


class Refused(Exception):
    """The operation is refused by this fault."""


@dataclass
class Rooms:
    """For how much a host has room, as `kaffe_rooms`."""

    events: int
    kept: int
    tail: int
    objects: int
    exits: int
    kernel_exits: int
    entries: int


class Host:
    """The one-thread machine of one declaration, with a supply of bodies of one type for each process."""

    def __init__(self, declared, ceiling, directory, types, limits, procs, shared, of_type, bodies, rooms):
        self.declared = declared
        self.ceiling, self.types, self.limits, self.procs, self.of_type = ceiling, types, limits, procs, of_type
        self.shared_count = shared
        self.rooms = rooms
        # The journal's last events lie in a buffer for so many, and so many of the first ones are in it no more.
        self.buffer, self.gone = rooms.kept, 0
        self.left = rooms.events - len(procs)
        self.journal = []
        self.tails = [[] for _ in procs]
        self.taken = 0
        self.objects = {(0, 1): [None] * directory}
        self.kinds = {(0, 1): ["ref"] * directory}
        self.made = {0: 1}
        self.registers = [[None] * REGISTERS for _ in procs]
        self.done = [0] * len(procs)
        self.bodies = [bodies] * len(procs)
        self.ended = set()
        self.exits = set()
        self.shares = set()
        self.phases = [("unmade",)] * shared
        self.freed = []
        self.texts = b"", b""

    # Owners, bytes, charges and limits.
    def owner(self, name):
        seg = name[0]
        if seg == 0:
            return KERNEL
        if seg <= len(self.procs):
            return KERNEL if seg - 1 in self.ended else ("user", seg - 1)
        s = seg - 1 - len(self.procs)
        return KERNEL if self.phases[s] == ("absorbed",) else ("shared", s)

    def heap(self, h):
        return [name for name in self.objects if self.owner(name) == h]

    def bytes_of(self, h):
        return sum(16 + 8 * len(self.objects[name]) for name in self.heap(h))

    def charge(self, p):
        if p in self.ended:
            return 0
        return self.bytes_of(("user", p)) + sum(self.bytes_of(("shared", s)) for q, s in self.shares if q == p)

    def use(self, m):
        used = sum(self.charge(p) for p, at in enumerate(self.procs) if at == m)
        for child, (parent, hard, most) in enumerate(self.limits):
            if parent == m:
                used += most if hard else self.use(child)
        return used

    def path(self, m):
        while True:
            yield m
            parent, hard, _ = self.limits[m]
            if hard or parent is None:
                return
            m = parent

    def fits(self, p, size):
        self.fits_at(self.procs[p], size)

    def fits_at(self, m, size):
        for m in self.path(m):
            if self.use(m) + size > self.limits[m][2]:
                raise Refused("LimitFull", m)

    def is_below(self, m, top):
        m = self.limits[m][0]
        while m is not None and m != top:
            m = self.limits[m][0]
        return m == top

    # The parts of operations.
    def legal(self, source, target):
        return source == target or target == KERNEL or source == KERNEL or (target[0] == "shared" and source[0] != "shared")

    def access(self, p, base, field):
        name = self.registers[p][base]
        if name is None:
            raise Refused("Null", 0)
        owner = self.owner(name)
        if owner[0] == "user" and owner[1] != p:
            raise Refused("Foreign", 0)
        if owner[0] == "shared" and (p, owner[1]) not in self.shares:
            raise Refused("NotSharer", owner[1])
        if field >= len(self.objects[name]):
            raise Refused("NoField", 0)
        return name, owner

    def kind(self, name, field, kind):
        if self.kinds[name][field] != kind:
            raise Refused("WrongKind", 0)

    def make(self, p, reg, seg, ty):
        self.made[seg] = self.made.get(seg, 0) + 1
        name = (seg, self.made[seg])
        self.kinds[name] = self.types[ty]
        self.objects[name] = [None if kind == "ref" else 0 for kind in self.types[ty]]
        self.registers[p][reg] = name
        return answer(what=NAME, name=name)

    def entered(self, h):
        found = {name for heap, name in self.exits if heap != h and self.owner(name) == h}
        for p, held in enumerate(self.registers):
            found |= {name for name in held if name is not None and self.owner(name) == h and h != ("user", p)}
        return found

    def sweep(self, h):
        reached = self.entered(h)
        if h == KERNEL:
            reached.add((0, 1))
        else:
            reached |= {name for name in self.registers[h[1]] if name is not None and self.owner(name) == h}
        todo = list(reached)
        while todo:
            for kind, value in zip(self.kinds[todo[-1]], self.objects[todo.pop()]):
                if kind == "ref" and value is not None and self.owner(value) == h and value not in reached:
                    reached.add(value)
                    todo.append(value)
        gone = [name for name in self.heap(h) if name not in reached]
        freed = sum(16 + 8 * len(self.objects[name]) for name in gone)
        for name in gone:
            del self.objects[name], self.kinds[name]
        self.freed = sorted(gone)
        left = set()
        for name in reached:
            for kind, value in zip(self.kinds[name], self.objects[name]):
                if kind == "ref" and value is not None and self.owner(value) != h:
                    left.add((h, value))
        old = {item for item in self.exits if item[0] == h}
        self.exits = (self.exits - old) | left
        dropped = set()
        if h != KERNEL:
            p = h[1]
            for q, s in self.shares:
                if q == p and self.phases[s] != ("populating", p):
                    into = ("shared", s)
                    ways = [name for name in self.registers[p] if name is not None] + [name for _, name in left]
                    if all(self.owner(name) != into for name in ways):
                        dropped.add((q, s))
            self.shares -= dropped
        return answer(what=FREED, name=(len(gone), len(old) - len(left)), at=len(dropped), number=freed)

    def orphan(self):
        for s, phase in enumerate(self.phases):
            if phase[0] in ("populating", "frozen") and all(t != s for _, t in self.shares):
                return s
        return None

    # One operation, which counts as done whether or not it is refused.
    def operate(self, q):
        regs = self.registers[q.pid]
        if q.call in (NEW, KNEW, SNEW):
            size = 16 + 8 * len(self.types[q.to if q.call == SNEW else q.at])
        if q.call == NEW:
            self.fits(q.pid, size)
            return self.make(q.pid, q.reg, 1 + q.pid, q.at)
        if q.call == KNEW:
            if self.bytes_of(KERNEL) + size > self.ceiling:
                raise Refused("KernelFull", 0)
            return self.make(q.pid, q.reg, 0, q.at)
        if q.call == SNEW:
            if self.phases[q.at] != ("populating", q.pid):
                raise Refused("NotPopulating", q.at)
            self.fits(q.pid, size)
            return self.make(q.pid, q.reg, 1 + len(self.procs) + q.at, q.to)
        if q.call == STORE:
            return self.store(q)
        if q.call in (LOAD, PUT, GET):
            name, _ = self.access(q.pid, q.base, q.at)
            self.kind(name, q.at, "ref" if q.call == LOAD else "int")
            if q.call == LOAD:
                regs[q.reg] = self.objects[name][q.at]
                return answer(what=NAME, name=regs[q.reg] or (0, 0))
            if q.call == PUT:
                self.objects[name][q.at] = q.number
                return answer()
            return answer(what=NUMBER, number=self.objects[name][q.at])
        if q.call == MOVE:
            regs[q.reg] = regs[q.base]
            return answer()
        if q.call == CLEAR:
            regs[q.reg] = None
            return answer()
        if q.call == DIR:
            regs[q.reg] = (0, 1)
            return answer(what=NAME, name=(0, 1))
        if q.call == KILL_BY:
            if not self.is_below(self.procs[q.at], self.procs[q.pid]):
                raise Refused("ProcNotBelow", q.at)
            if q.at not in self.ended:
                self.kill(q.at)
            return answer()
        if q.call == RESIZE:
            return self.resize(q)
        return self.operate_shared(q, regs)

    def resize(self, q):
        parent, hard, most = self.limits[q.at]
        if not self.is_below(q.at, self.procs[q.pid]):
            raise Refused("LimitNotBelow", q.at)
        if hard and q.number > most:
            self.fits_at(parent, q.number - most)
        if self.use(q.at) > q.number:
            raise Refused("InUse", q.at)
        self.limits[q.at] = (parent, hard, q.number)
        return answer()

    def store(self, q):
        name, owner = self.access(q.pid, q.base, q.at)
        self.kind(name, q.at, "ref")
        if owner[0] == "shared" and self.phases[owner[1]][0] == "frozen":
            raise Refused("Frozen", 0)
        value = self.registers[q.pid][q.reg]
        if value is not None:
            if not self.legal(owner, self.owner(value)):
                raise Refused("Segv", 0)
            if owner != self.owner(value):
                self.exits.add((owner, value))
        self.objects[name][q.at] = value
        return answer()

    def operate_shared(self, q, regs):
        phase = self.phases[q.at]
        if q.call == SHARE:
            if phase != ("unmade",):
                raise Refused("Taken", q.at)
            self.phases[q.at] = ("populating", q.pid)
            self.shares.add((q.pid, q.at))
            return answer()
        if q.call == FREEZE:
            root = regs[q.reg]
            if root is None:
                raise Refused("Null", 0)
            if self.owner(root) != ("shared", q.at):
                raise Refused("Segv", 0)
            if phase != ("populating", q.pid):
                raise Refused("NotPopulating", q.at)
            self.phases[q.at] = ("frozen", root)
            return answer()
        if phase[0] != "frozen":
            raise Refused("NotFrozen", q.at)
        if (q.pid, q.at) not in self.shares:
            self.fits(q.pid, self.bytes_of(("shared", q.at)))
            self.shares.add((q.pid, q.at))
        regs[q.reg] = phase[1]
        return answer(what=NAME, name=phase[1])

    def kill(self, p):
        mine = ("user", p)
        items = {item for item in self.exits if item[0] == mine}
        self.exits -= items
        self.exits -= {item for item in self.exits if item[0] == KERNEL and self.owner(item[1]) == mine}
        self.exits |= {(KERNEL, name) for _, name in items if self.owner(name)[0] == "shared"}
        self.registers[p] = [None] * REGISTERS
        self.shares = {(q, s) for q, s in self.shares if q != p}
        self.ended.add(p)

    def absorb(self, s):
        mine = ("shared", s)
        self.exits -= {item for item in self.exits if item[0] == mine}
        self.exits -= {item for item in self.exits if item[0] == KERNEL and self.owner(item[1]) == mine}
        self.phases[s] = ("absorbed",)

    # What is published when, and which rooms an operation asks for.
    def is_inside(self, q):
        """Whether the operation reads and changes nothing outside its process's heap."""
        regs = self.registers[q.pid]
        reg, base = (regs[r] if used else None for used, r in zip(REGISTERS_OF[q.call], (q.reg, q.base)))

        def is_own(name):
            return name is None or name[0] == q.pid + 1

        if q.call in (MOVE, CLEAR, PUT, GET):
            return is_own(reg if q.call == CLEAR else base) and (q.call != MOVE or is_own(reg))
        if q.call not in (STORE, LOAD):
            return False
        if base is None:
            return True
        if not is_own(base):
            return False
        if q.at >= len(self.objects[base]) or self.kinds[base][q.at] != "ref":
            return True
        return is_own(reg) and (q.call == STORE or is_own(self.objects[base][q.at]))

    def lacks_room(self, q):
        """Which room is lacking for what an operation that goes outside its process's heap may add; 0 where none is."""
        if q.call in (NEW, KNEW, SNEW):
            seg, of = {NEW: (1 + q.pid, ("user", q.pid)), KNEW: (0, KERNEL), SNEW: (1 + len(self.procs) + q.at, ("shared", q.at))}[q.call]
            living = sum(name[0] == seg for name in self.objects)
            return OBJECTS if self.owner((seg, 0)) == of and living >= self.rooms.objects else 0
        if q.call != STORE:
            return 0
        owner = self.owner(self.registers[q.pid][q.base])
        if owner != KERNEL and not (owner[0] == "shared" and (q.pid, owner[1]) in self.shares):
            owner = ("user", q.pid)
        count = sum(heap == owner for heap, _ in self.exits)
        room = self.rooms.exits
        if owner == KERNEL:
            room = self.rooms.kernel_exits - room * (len(self.procs) - len(self.ended))
        return ITEMS if count >= room or len({name for _, name in self.exits}) >= self.rooms.entries else 0

    def publish(self, p):
        self.journal += self.tails[p]
        self.tails[p] = []

    def publish_all(self):
        for p in range(len(self.procs)):
            self.publish(p)
        return answer()

    def print(self):
        """Makes both texts, of a host that has published; those before stay where it can't be printed."""
        if len(self.journal) > self.rooms.kept:
            return answer(status=FORGOTTEN)
        if len(self.ended) == len(self.procs):
            return answer(status=OVER)
        self.texts = texts(self)
        trace, report = self.texts
        return answer(what=TEXTS, name=(len(trace), 0), number=len(report))

    def add(self, q, came):
        """The event of the process's call, after what it did inside its heap."""
        self.publish(q.pid)
        self.journal.append((asked(q.call, q.pid), came))

    def is_kept(self, number):
        return number < len(self.journal) <= number + self.rooms.kept

    def take(self):
        number = max(self.taken, len(self.journal) - self.rooms.kept)
        if number >= len(self.journal):
            return answer()
        self.taken = number + 1
        return answer(what=NUMBER, number=number)

    # A call of the library.
    def is_declared(self, q):
        if q.pid >= len(self.procs):
            return False
        reg, base = REGISTERS_OF[q.call]
        if (reg and q.reg >= REGISTERS) or (base and q.base >= REGISTERS):
            return False
        if q.call in (NEW, KNEW) and q.at >= len(self.types):
            return False
        if q.call == SNEW and q.to >= len(self.types):
            return False
        if q.call in (STORE, LOAD, PUT, GET):
            return q.at < MOST_FIELDS
        if q.call == KILL_BY:
            return q.at < len(self.procs)
        if q.call == RESIZE:
            return q.at < len(self.limits) and q.number < MAXIMUM_BELOW
        return q.call not in (SNEW, SHARE, FREEZE, ATTACH) or q.at < self.shared_count

    # How many events a collection of the kernel heap may add, and an operation leaves for a collection of each heap.
    def for_the_kernel(self):
        return self.shared_count + 2

    def for_all(self):
        return self.for_the_kernel() + 2 * len(self.procs)

    def serve_operation(self, q):
        if q.pid >= len(self.procs):
            return answer(status=UNKNOWN)
        if q.pid in self.ended:
            return answer(status=ENDED)
        if self.left - 1 < self.for_all():
            return answer(status=RESERVED)
        segments = 1 + len(self.procs) + self.shared_count
        if q.call in (NEW, KNEW, SNEW) and len(self.objects) >= segments * self.rooms.objects:
            return answer(status=OBJECTS)
        if not self.is_declared(q):
            return answer(status=UNKNOWN)
        inside = self.is_inside(q)
        lacking = 0 if inside else self.lacks_room(q)
        if lacking:
            return answer(status=lacking)
        if q.call in (NEW, KNEW, SNEW) and (q.to if q.call == SNEW else q.at) == self.of_type:
            self.bodies[q.pid] = max(0, self.bodies[q.pid] - 1)
        self.done[q.pid] += 1
        self.left -= 1
        ends = q.call == KILL_BY and q.at not in self.ended and self.is_below(self.procs[q.at], self.procs[q.pid])
        try:
            came = self.operate(q)
        except Refused as why:
            name, at = why.args
            came = answer(fault=FAULT[name], at=at)
        self.tails[q.pid] += [(q.asked(), came)] if inside else []
        if not inside or len(self.tails[q.pid]) >= self.rooms.tail:
            self.publish(q.pid)
        if ends:
            self.publish(q.at)
        self.journal += [] if inside else [(q.asked(), came)]
        return came

    def serve_whole(self, q):
        if q.call == ABSORB:
            if self.left - 1 < self.for_the_kernel():
                return answer(status=RESERVED)
            if q.at >= self.shared_count:
                return answer(status=UNKNOWN)
            if self.orphan() != q.at:
                return answer(status=ORPHAN)
            self.absorb(q.at)
            self.journal.append((asked(ABSORB, at=q.at), answer()))
            self.left -= 1
            return answer()
        if q.pid >= len(self.procs):
            return answer(status=UNKNOWN)
        if q.pid in self.ended:
            return answer(status=ENDED)
        if q.call == KILL:
            self.done[q.pid] += 1
            self.add(q, answer())
            self.kill(q.pid)
            return answer()
        if self.left - (2 if q.call == COLLECT else 0) < self.for_the_kernel():
            return answer(status=RESERVED)
        while q.call == KCOLLECT and self.orphan() is not None:
            self.journal.append((asked(ABSORB, at=self.orphan()), answer()))
            self.absorb(self.orphan())
            self.left -= 1
        self.left -= 2
        self.done[q.pid] += 1
        self.add(q, answer())
        came = self.sweep(KERNEL if q.call == KCOLLECT else ("user", q.pid))
        of = asked(END_OF_A_COLLECTION) if q.call == KCOLLECT else asked(END_OF_A_COLLECTION, q.pid, reg=1)
        self.journal.append((of, came))
        return came

    def ask(self, q):
        known = q.pid < len(self.procs)
        if q.call in (USE, MAX):
            if q.at >= len(self.limits):
                return answer(status=UNKNOWN)
            return answer(what=NUMBER, number=self.use(q.at) if q.call == USE else self.limits[q.at][2])
        if q.call == KERNEL_BYTES:
            return answer(what=NUMBER, number=self.bytes_of(KERNEL))
        if q.call == LEFT:
            return answer(what=NUMBER, number=self.left)
        if q.call == FREED_COUNT:
            return answer(what=NUMBER, number=len(self.freed))
        if q.call == FREED_NAME:
            return answer(status=UNKNOWN)
        if q.call == EVENTS:
            return answer(what=NUMBER, number=len(self.journal))
        if q.call in (EVENT, CAME):
            return self.journal[q.number][q.call == CAME] if self.is_kept(q.number) else answer(status=UNKNOWN)
        if q.call == FIRST_ORPHAN:
            s = self.orphan()
            return answer(status=UNKNOWN) if s is None else answer(what=NUMBER, number=s)
        if not known or (q.call == REGISTER and q.reg >= REGISTERS):
            return answer(status=UNKNOWN)
        if q.call == REGISTER:
            return answer(what=NAME, name=self.registers[q.pid][q.reg] or (0, 0))
        found = {LIVES: lambda: int(q.pid not in self.ended), CHARGE: lambda: self.charge(q.pid), DONE: lambda: self.done[q.pid],
                 BODIES: lambda: self.bodies[q.pid],
                 BYTES: lambda: 0 if q.pid in self.ended else self.bytes_of(("user", q.pid))}
        return answer(what=NUMBER, number=found[q.call]())

    # Larger rooms.
    def are_larger(self, new):
        old, procs = self.rooms, len(self.procs)
        if new.events >= EVENTS_BELOW or any(n >= ROOMS_BELOW for n in astuple(new)[1:]):
            return False
        if new.kept > new.events or new.tail < 1 or new.objects < 1 or new.exits * procs > new.kernel_exits:
            return False
        if any(n < o for o, n in zip(astuple(old), astuple(new))):
            return False
        return (new.exits - old.exits) * procs <= new.kernel_exits - old.kernel_exits

    def grow(self, new):
        if not self.are_larger(new):
            return answer(status=LESS_ROOMS)
        self.gone = max(self.gone, len(self.journal) - self.buffer)
        self.buffer = max(self.buffer, new.kept)
        held = len(self.journal) - self.gone
        self.left += new.events - self.rooms.events
        self.rooms = replace(new, kept=held if self.gone and held < new.kept else new.kept)
        return answer(what=NUMBER, number=self.rooms.kept)

    def serve(self, q):
        if q.call <= RESIZE:
            return self.serve_operation(q)
        if COLLECT <= q.call <= ABSORB:
            return self.serve_whole(q)
        if q.call == TAKE:
            return self.take()
        if q.call == PUBLISH:
            return self.publish_all()
        if q.call == PRINT:
            return self.print()
        if LIVES <= q.call <= CAME:
            return self.ask(q)
        return answer(status=NO_CALL)
