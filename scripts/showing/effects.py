"""What each event does to a state."""
from __future__ import annotations

from typing import Iterable, List, NamedTuple

from . import replies, rules
from .rules import KERNEL
from .state import DIRECTORY, Phase, State, Value
from .trace import Operation
from .words import Name


class Freed(NamedTuple):
    """What the end of a collection frees and drops, as its line in the report has it."""

    objects: int = 0
    bytes: int = 0
    exits: int = 0
    shares: int = 0


def operate(state: State, operation: Operation, reply: str) -> None:
    """Does an operation that has this reply."""
    state.done[operation.process] += 1
    if reply.startswith("fault "):
        state.faults[operation.process] += 1
        return
    _EFFECTS[operation.verb](state, operation.process, operation)


def _allocate(state: State, process: int, operation: Operation) -> None:
    kind = operation.operands[-1]
    fields: List[Value] = [None if each == "ref" else 0 for each in state.setup.types[kind].kinds]
    name = state.create(replies.segment_made_in(state, operation), kind, fields)
    state.set_register(process, operation.operands[0], name)


def _held(state: State, process: int, register: int) -> Name:
    """What a register holds that no fault found null."""
    name = state.registers[process][register]
    assert name is not None
    return name


def _store(state: State, process: int, operation: Operation) -> None:
    base, at, value = operation.operands
    name, target = _held(state, process, base), state.registers[process][value]
    state.write(name, at, target)
    heap = rules.owner(state, name.segment)
    if target is not None and rules.owner(state, target.segment) != heap:
        state.add_exit(heap, target)


def _load(state: State, process: int, operation: Operation) -> None:
    into, base, at = operation.operands
    body = state.body(_held(state, process, base))
    value = None if body is None else body.fields[at]
    state.set_register(process, into, value if isinstance(value, Name) else None)


def _put(state: State, process: int, operation: Operation) -> None:
    base, at, value = operation.operands
    state.write(_held(state, process, base), at, value)


def _move(state: State, process: int, operation: Operation) -> None:
    state.set_register(process, operation.operands[0], state.registers[process][operation.operands[1]])


def _drop(state: State, process: int, operation: Operation) -> None:
    state.set_register(process, operation.operands[0], None)


def _dir(state: State, process: int, operation: Operation) -> None:
    state.set_register(process, operation.operands[0], DIRECTORY)


def _get(state: State, process: int, operation: Operation) -> None:
    """Reading an integer changes nothing."""


def _collect(state: State, process: int, operation: Operation) -> None:
    heap = state.setup.heap_of_process(process)
    state.open_scan(heap, rules.roots(state, heap))


def _kcollect(state: State, process: int, operation: Operation) -> None:
    state.open_scan(KERNEL, rules.roots(state, KERNEL))


def _share(state: State, process: int, operation: Operation) -> None:
    state.set_phase(operation.operands[0], Phase("populating", process))
    state.add_share(process, operation.operands[0])


def _freeze(state: State, process: int, operation: Operation) -> None:
    shared, root = operation.operands
    state.set_phase(shared, Phase("frozen", None, state.registers[process][root]))


def _attach(state: State, process: int, operation: Operation) -> None:
    register, shared = operation.operands
    state.add_share(process, shared)
    state.set_register(process, register, state.phases[shared].root)


def _exit(state: State, process: int, operation: Operation) -> None:
    end_process(state, process)


def _kill(state: State, process: int, operation: Operation) -> None:
    if not state.ended[operation.operands[0]]:
        end_process(state, operation.operands[0])


def _resize(state: State, process: int, operation: Operation) -> None:
    state.set_maximum(operation.operands[0], operation.operands[1])


_EFFECTS = {
    "new": _allocate, "knew": _allocate, "snew": _allocate, "store": _store, "load": _load, "move": _move, "drop": _drop,
    "dir": _dir, "put": _put, "get": _get, "collect": _collect, "kcollect": _kcollect, "share": _share, "freeze": _freeze,
    "attach": _attach, "exit": _exit, "kill": _kill, "resize": _resize,
}  # fmt: skip


def end_process(state: State, process: int) -> None:
    """Ends a process: its heap is the kernel's from then on, and its exit items into shared heaps are too."""
    heap = state.setup.heap_of_process(process)
    for register in range(len(state.registers[process])):
        state.set_register(process, register, None)
    for sharer, shared in list(state.shares):
        if sharer == process:
            state.drop_share(process, shared)
    for target in list(state.exits[heap]):
        state.drop_exit(heap, target)
        if state.setup.shared_of(rules.owner(state, target.segment)) is not None:
            state.add_exit(KERNEL, target)
    for target in [each for each in state.exits[KERNEL] if each.segment == heap]:
        state.drop_exit(KERNEL, target)
    state.set_ended(process)


class Sweep(NamedTuple):
    """What the end of an open collection takes away."""

    objects: List[Name]
    bytes: int
    exits: List[Name]
    shares: List[int]

    @property
    def freed(self) -> Freed:
        """The four numbers of the event."""
        return Freed(len(self.objects), self.bytes, len(self.exits), len(self.shares))


def sweep_of(state: State, heap: int) -> Sweep:
    """What the end of a heap's open collection would take away; the state stays."""
    kept = rules.reach_in(state, heap, state.scans[heap])
    owned = rules.segments_of(state, heap)
    gone = [Name(segment, serial) for segment in owned for serial in state.objects[segment] if (segment, serial) not in kept]
    outside = {each for name in kept for each in rules.references(state, name) if each.segment not in owned}
    stale = [target for target in state.exits[heap] if target not in outside]
    process = state.setup.process_of(heap)
    shares = [] if process is None else _unused_shares(state, process, outside)
    return Sweep(gone, sum(state.size_at(name) for name in gone), stale, shares)


def _unused_shares(state: State, process: int, exits: Iterable[Name]) -> List[int]:
    """The shares of heaps into which no register and none of these exit items lead, and which the process does not populate."""
    led = {name.segment for name in [*state.registers[process], *exits] if name is not None}
    mine = [shared for sharer, shared in state.shares if sharer == process]
    populated = [shared for shared in mine if state.phases[shared][:2] == ("populating", process)]
    return [shared for shared in mine if shared not in populated and state.setup.heap_of_shared(shared) not in led]


def end_collection(state: State, heap: int) -> Freed:
    """Ends the open collection of a heap, and says what it freed and dropped."""
    sweep = sweep_of(state, heap)
    state.close_scan(heap)
    for name in sweep.objects:
        state.free(name)
    for target in sweep.exits:
        state.drop_exit(heap, target)
    for shared in sweep.shares:
        state.drop_share(heap - 1, shared)
    return sweep.freed


def absorb(state: State, shared: int) -> None:
    """Gives a shared heap that nobody shares to the kernel."""
    heap = state.setup.heap_of_shared(shared)
    for target in list(state.exits[heap]):
        state.drop_exit(heap, target)
    for target in [each for each in state.exits[KERNEL] if each.segment == heap]:
        state.drop_exit(KERNEL, target)
    state.set_phase(shared, Phase("absorbed"))


def close(state: State) -> None:
    """Opens the last collection, that of the kernel."""
    state.closed = True
    state.open_scan(KERNEL, rules.roots(state, KERNEL))


def touched(state: State, operation: Operation) -> List[int]:
    """The heaps that an operation touches; the event is not possible while one of them is scanned."""
    process, verb, operands = operation.process, operation.verb, operation.operands
    own = state.setup.heap_of_process(process)
    if verb in ("knew", "kcollect", "exit"):
        return [own, KERNEL]
    if verb in ("snew", "share", "freeze", "attach"):
        return [own, state.setup.heap_of_shared(operands[1] if verb in ("snew", "attach") else operands[0])]
    if verb in ("store", "load", "put", "get"):
        name = state.registers[process][operands[1] if verb == "load" else operands[0]]
        heap = own if name is None else rules.owner(state, name.segment)
        return [own, heap] if state.setup.process_of(heap) in (None, process) else [own]
    if verb == "kill" and not state.ended[operands[0]] and replies.answer(state, operation) == "ok":
        return [own, state.setup.heap_of_process(operands[0]), KERNEL]
    return [own]
