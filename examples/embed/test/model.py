"""Random calls of a host from a seed, with the answers due, which `machine.py` gives.

    model.py SEED CALLS > calls.bin

`replay.c` reads what this prints, does each call through the C functions, gives hosts larger rooms at times, and compares each answer, the names of what the last
collection freed, and both texts of a host that is printed.
"""
import random
import struct
import sys
from dataclasses import astuple, fields

sys.dont_write_bytecode = True

from codes import (ABSORB, ATTACH, CAME, CLEAR, COLLECT, DIR, EVENT, FORGOTTEN, FREED_NAME, FREEZE, GET, ITEMS, KCOLLECT, KILL, KILL_BY,  # noqa: E402
                   KNEW, LIVES, LOAD, MOVE, NEW, OBJECTS, PRINT, PUBLISH, PUT, RESERVED, RESIZE, SHARE, SNEW, STORE, TAKE, Request)
from machine import Host, Refused, Rooms  # noqa: E402

CALLS_OF_A_HOST = [200, 600, 2000]
AIMED = 0.6
NAMES_COMPARED, TEXTS_COMPARED = 0.1, 0.005
# How often a host gets larger rooms, by how often it lacks some, and the most events that are kept then.
GROWN, GROWN_WHERE_FULL, MOST_KEPT = 0.005, 0.1, 100_000


def reserves(limits, parent, most):
    """Whether a hard limit of that maximum fits under the parent, before anything is allocated."""
    try:
        Host([], 0, 0, [], limits, [], 0, 0, 0, Rooms(0, 0, 0, 0, 0, 0, 0)).fits_at(parent, most)
        return True
    except Refused:
        return False


def declaration(rng, events):
    """A random declaration: its text, and the model of it."""
    types = [["ref", "ref", "int"], ["int"], ["ref"] * 3 + ["int"]][: rng.randint(1, 3)]
    procs_count, shared, directory = rng.randint(1, 4), rng.choice([0, 1, 2, 3, 3]), rng.randint(0, 4)
    limits, lines = [(None, True, rng.choice([400, 1500, 4000]))], []
    for number in range(rng.randint(0, 4)):
        parent, hard, most = rng.randrange(len(limits)), rng.random() < 0.3, rng.choice([200, 600, 2000])
        limits.append((parent, hard and reserves(limits, parent, most), most))
    ceiling = 16 + 8 * directory + rng.choice([100, 600, 3000])
    lines += [f"kaffe {rng.choice([1, 2])}", f"kernel {ceiling} {directory}"]
    lines += [f"type T{n} " + " ".join(kinds) for n, kinds in enumerate(types)]
    lines += [f"limit m{n} {most}" if parent is None else f"limit m{n} m{parent} {'hard' if hard else 'soft'} {most}"
              for n, (parent, hard, most) in enumerate(limits)]
    procs = [rng.randrange(len(limits)) for _ in range(procs_count)]
    lines += [f"proc p{n} m{at}" for n, at in enumerate(procs)] + [f"shared s{n}" for n in range(shared)]
    of_type, bodies = rng.randrange(len(types)), rng.choice([0, events // 20, events])
    text = ("\n".join(lines) + "\n").encode()
    rooms = some_rooms(rng, events, 3 * len(procs) + shared + 3, len(procs))
    head = struct.pack("<3IQ6I", len(text), of_type, bodies, *astuple(rooms)) + text
    return head, Host(lines, ceiling, directory, types, limits, procs, shared, of_type, bodies, rooms)


def some_rooms(rng, events, fewest, procs):
    """Rooms for so many calls: mostly for all that these can add, and each of them small at times."""
    small = rng.random() < 0.5
    room = rng.choice([2 * events + 100, 2 * events + 100, fewest + events // 4, fewest])
    exits = rng.choice([0, 1, 3, 10]) if small and rng.random() < 0.6 else events
    return Rooms(
        events=room,
        kept=min(room, rng.choice([0, 1, 7, 50, room])),
        tail=rng.choice([1, 2, 5, 30, events]),
        objects=rng.choice([1, 3, 8, 20]) if small and rng.random() < 0.6 else events + 1,
        exits=exits,
        kernel_exits=procs * exits + (rng.choice([0, 1, 4]) if small and rng.random() < 0.6 else events),
        entries=rng.choice([0, 1, 5, 15]) if small and rng.random() < 0.4 else (procs + 1) * events,
    )


def larger_rooms(rng, host):
    """Rooms that are mostly larger than those of the host, and which it mostly can have."""
    old, procs = host.rooms, len(host.procs)
    more = [rng.choice([0, 0, 1, 3, 20]) for _ in range(7)]
    more[5] += procs * more[4] if rng.random() < 0.95 else 0
    events = min(old.events + 10 * more[0], (1 << 55) - 1)
    kept = min(events, old.kept + more[1] if rng.random() < 0.7 else events, MOST_KEPT)
    rooms = Rooms(events, max(kept, old.kept), *[n + m for n, m in zip(astuple(old)[2:], more[2:])])
    if rng.random() < 0.1:
        name = rng.choice(fields(Rooms)).name
        setattr(rooms, name, rng.choice([0, max(0, getattr(old, name) - 1), 1 << 30]))
    return rooms


def some_call(rng, host):
    """A random request, which mostly names what is declared."""
    odd = rng.random() < 0.02
    call = rng.choices(
        [NEW, KNEW, SNEW, STORE, LOAD, MOVE, CLEAR, DIR, PUT, GET, SHARE, FREEZE, ATTACH, KILL_BY, RESIZE, COLLECT, KCOLLECT, KILL, ABSORB, TAKE, PUBLISH, PRINT, None],
        [60, 12, 25, 110, 70, 20, 15, 15, 30, 30, 6, 6, 14, 1, 14, 6, 4, 0.5, 2, 40, 4, 2, 70])[0]
    if call is None:
        call = rng.choice(range(LIVES, CAME + 1))
    if odd and rng.random() < 0.2:
        call = rng.choice([15, 22, 23, 31, 48, 1 << 31])
    pid = rng.randrange(len(host.procs) + odd)
    at = rng.randrange(4) if rng.random() < 0.9 else rng.choice([0, 5, 16, (1 << 32) - 1])
    if call in (NEW, KNEW):
        at = rng.randrange(len(host.types)) if rng.random() < 0.97 else 3
    if call in (SNEW, SHARE, FREEZE, ATTACH, ABSORB) and host.shared_count and not odd:
        at = rng.randrange(host.shared_count)
    to = rng.randrange(len(host.types)) if rng.random() < 0.97 else 3
    reg, base = (rng.randrange(6) if not odd else rng.choice([15, 16, 255]) for _ in range(2))
    number = rng.getrandbits(64)
    # Names come in any order, so that one alone is asked for where there is none; all of them are compared otherwise.
    if call == FREED_NAME:
        at = len(host.freed) + rng.choice([0, 1, 1 << 31])
    if call in (EVENT, CAME):
        last = len(host.journal)
        number = rng.choice([last, max(0, last - 1), max(0, last - host.rooms.kept), max(0, last - host.rooms.kept - 1), rng.randrange(last + 1), 1 << 63])
    if call == KILL_BY and not odd:
        at = rng.randrange(len(host.procs))
    if call == RESIZE and not odd:
        at = rng.randrange(len(host.limits))
        number = rng.choice([0, host.use(at), max(0, host.use(at) - 1), host.limits[at][2] + rng.randrange(200), rng.randrange(4000)])
    return Request(call, pid, at, to, reg, base, number)


def aimed(rng, host, q):
    """The request, changed so that it is likelier to be done: by a living process, at an object that is there, in the right phase."""
    living = [p for p in range(len(host.procs)) if p not in host.ended]
    populated = [(phase[1], s) for s, phase in enumerate(host.phases) if phase[0] == "populating"]
    frozen = [s for s, phase in enumerate(host.phases) if phase[0] == "frozen"]
    if not living:
        return q
    q.pid = rng.choice(living)
    if q.call in (SNEW, FREEZE) and populated:
        q.pid, q.at = rng.choice(populated)
    if q.call == ATTACH and frozen:
        q.at = rng.choice(frozen)
    held = [(r, name) for r, name in enumerate(host.registers[q.pid]) if name is not None]
    if q.call == FREEZE:
        q.reg = rng.choice([r for r, name in held if host.owner(name) == ("shared", q.at)] or [q.reg])
    below = [p for p in living if host.is_below(host.procs[p], host.procs[q.pid])]
    if q.call == KILL_BY and below:
        q.at = rng.choice(below)
    if q.call in (STORE, LOAD, MOVE, PUT, GET) and held:
        q.base, name = rng.choice(held)
        kind = "int" if q.call in (PUT, GET) else "ref"
        q.at = rng.choice([f for f, k in enumerate(host.kinds[name]) if k == kind] or [q.at])
    return q


def lacks_room(due):
    """Whether the call lacks a room."""
    return struct.unpack_from("<I", due)[0] in (RESERVED, OBJECTS, ITEMS, FORGOTTEN)


def main():
    seed, calls = int(sys.argv[1]), int(sys.argv[2])
    rng, out = random.Random(seed), sys.stdout.buffer
    while calls > 0:
        each = min(rng.choice(CALLS_OF_A_HOST), calls)
        head, host = declaration(rng, each)
        out.write(b"O" + head)
        for _ in range(each):
            q = some_call(rng, host)
            if rng.random() < AIMED:
                q = aimed(rng, host, q)
            if q.call == PRINT:
                published = Request(PUBLISH)
                out.write(b"C" + published.packed() + host.serve(published))
            due = host.serve(q)
            out.write(b"C" + q.packed() + due)
            if rng.random() < (GROWN_WHERE_FULL if lacks_room(due) else GROWN):
                rooms = larger_rooms(rng, host)
                out.write(b"G" + struct.pack("<Q6I", *astuple(rooms)) + host.grow(rooms))
            if q.call == PRINT or rng.random() < TEXTS_COMPARED:
                out.write(b"T" + b"".join(struct.pack("<2I", len(text), rng.randrange(1, len(text) + 20)) + text for text in host.texts))
            if q.call in (COLLECT, KCOLLECT) or rng.random() < NAMES_COMPARED:
                out.write(b"F" + struct.pack("<I", len(host.freed)) + b"".join(struct.pack("<2I", *name) for name in host.freed))
        calls -= each
        out.write(b"E")


if __name__ == "__main__":
    main()
