"""The trace and the report of the model of a host, by the rules of docs/FORMATS.md, for `machine.py`. What `model.py` declares is named by a
letter and its number: types T, limits m, processes p and shared heaps s."""
import struct

from codes import (NEW, KNEW, SNEW, STORE, LOAD, MOVE, CLEAR, DIR, PUT, GET, SHARE, FREEZE, ATTACH, KILL_BY, RESIZE, COLLECT, KCOLLECT, KILL, ABSORB,
                   END_OF_A_COLLECTION, ASKED, NOTHING, NAME, FAULTS)

OF_A_SHARED_HEAP, OF_A_LIMIT = ("NotSharer", "NotPopulating", "NotFrozen", "Taken"), ("LimitFull", "LimitNotBelow", "InUse")


def owner_name(owner):
    kind, number = owner
    return "kernel" if kind == "kernel" else f"{kind == 'user' and 'p' or 's'}{number}"


def object_name(host, name):
    if name is None:
        return "null"
    seg, serial = name
    procs = len(host.procs)
    return f"{'kernel' if seg == 0 else f'p{seg - 1}' if seg <= procs else f's{seg - 1 - procs}'}.{serial}"


def operation(asked):
    """The line of an event's operation, or None where it is none."""
    _, _, pid, what, at, registers, number = struct.unpack("<6IQ", asked)
    reg, base = f"r{registers % 256}", f"r{registers // 256}"
    words = {NEW: f"new {reg} T{at}", KNEW: f"knew {reg} T{at}", SNEW: f"snew {reg} s{at} T{number}", STORE: f"store {base} {at} {reg}",
             LOAD: f"load {reg} {base} {at}", MOVE: f"move {reg} {base}", CLEAR: f"drop {reg}", DIR: f"dir {reg}", PUT: f"put {base} {at} {number}",
             GET: f"get {base} {at}", SHARE: f"share s{at}", FREEZE: f"freeze s{at} {reg}", ATTACH: f"attach {reg} s{at}", KILL_BY: f"kill p{at}",
             RESIZE: f"resize m{at} {number}", COLLECT: "collect", KCOLLECT: "kcollect", KILL: "exit"}.get(what - ASKED)
    return words and f"p{pid} {words}"


def reply(host, asked, came):
    call = struct.unpack("<6IQ", asked)[3] - ASKED
    _, fault, at, what, seg, serial, number = struct.unpack("<6IQ", came)
    if fault:
        name = FAULTS[fault]
        of = "s" if name in OF_A_SHARED_HEAP else "m" if name in OF_A_LIMIT else "p" if name == "ProcNotBelow" else None
        return f"fault {name}" + (f" {of}{at}" if of else "")
    if call == GET:
        return str(number)
    if what == NAME:
        return object_name(host, (seg, serial) if (seg, serial) != (0, 0) else None)
    assert what == NOTHING
    return "ok"


def event_line(host, asked, came):
    _, _, pid, what, at, registers, _ = struct.unpack("<6IQ", asked)
    if what - ASKED == ABSORB:
        return f"absorbed s{at}"
    if what - ASKED == END_OF_A_COLLECTION:
        _, _, shares, _, objects, exits, freed = struct.unpack("<6IQ", came)
        return f"ended {'kernel' if registers == 0 else f'p{pid}'} {objects} {freed} {exits} {shares}"
    return f"{operation(asked)} = {reply(host, asked, came)}"


def trace_lines(host):
    """The trace that declares the same and has the operations of the journal."""
    return ["kaffe 2", *host.declared[1:], *[line for line in (operation(asked) for asked, _ in host.journal) if line]]


def graph_lines(host):
    for name, fields in sorted(host.objects.items()):
        kinds = host.kinds[name]
        of_type = "directory" if name == (0, 1) else f"T{host.types.index(kinds)}"
        shown = [object_name(host, value) if kind == "ref" else str(value) for kind, value in zip(kinds, fields)]
        yield " ".join([object_name(host, name), owner_name(host.owner(name)), of_type, *shown])


def shared_line(host, s):
    phase = host.phases[s]
    state = {"populating": lambda: f"populating p{phase[1]}", "frozen": lambda: f"frozen {object_name(host, phase[1])}"}.get(phase[0], lambda: phase[0])()
    return f"shared s{s} {host.bytes_of(('shared', s))} {state}"


def report_lines(host):
    """The report of a host whose journal has all that was done."""
    refused = [sum(struct.unpack("<6IQ", came)[1] > 0 and struct.unpack("<6IQ", asked)[2] == p for asked, came in host.journal) for p in range(len(host.procs))]
    heaps = ["kernel", "user", "shared"]
    yield from ["report 1", *[event_line(host, *event) for event in host.journal], "graph", *graph_lines(host), "roots"]
    for p, held in enumerate(host.registers):
        yield from (f"p{p} r{r} {object_name(host, name)}" for r, name in enumerate(held) if name is not None)
    yield "exits"
    for owner, name in sorted(host.exits, key=lambda item: (heaps.index(item[0][0]), item[0][1], item[1])):
        yield f"{owner_name(owner)} {object_name(host, name)}"
    yield from ["shares", *[f"p{p} s{s}" for p, s in sorted(host.shares)], "faults", *[f"p{p} {n}" for p, n in enumerate(refused)], "charges"]
    yield f"kernel {host.bytes_of(('kernel', 0))} of {host.ceiling}"
    yield from (f"limit m{m} {host.use(m)} of {most}" for m, (_, _, most) in enumerate(host.limits))
    yield from (f"process p{p} {host.charge(p)}" for p in range(len(host.procs)))
    yield from (shared_line(host, s) for s in range(host.shared_count))
    yield "end"


def texts(host):
    """Both texts, as bytes."""
    return tuple("".join(f"{line}\n" for line in lines).encode() for lines in (trace_lines(host), report_lines(host)))
