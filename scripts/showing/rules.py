"""What the rules say of a state: owners, bytes, charges, uses, the write barrier, roots and what they reach."""
from __future__ import annotations

from typing import Dict, Iterable, Iterator, List, Optional, Set

from .state import DIRECTORY, State
from .words import Name

KERNEL = 0


def owner(state: State, segment: int) -> int:
    """The heap that owns a segment now."""
    process, shared = state.setup.process_of(segment), state.setup.shared_of(segment)
    gone = (process is not None and state.ended[process]) or (shared is not None and state.phases[shared].kind == "absorbed")
    return KERNEL if gone else segment


def segments_of(state: State, heap: int) -> List[int]:
    """The segments that a heap owns."""
    return [segment for segment in range(len(state.made)) if owner(state, segment) == heap]


def heap_bytes(state: State, heap: int) -> int:
    """The bytes of a heap's objects. Only the kernel can own a segment that is not its first."""
    if heap != KERNEL:
        return state.bytes[heap] if owner(state, heap) == heap else 0
    return sum(state.bytes[segment] for segment in segments_of(state, KERNEL))


def shared_bytes(state: State, shared: int) -> int:
    """The bytes of a shared heap's objects; 0 of an absorbed one."""
    return heap_bytes(state, state.setup.heap_of_shared(shared))


def charge(state: State, process: int) -> int:
    """What a process is charged: its own heap, and each shared heap that it shares in full."""
    if state.ended[process]:
        return 0
    shared = sum(shared_bytes(state, each) for sharer, each in state.shares if sharer == process)
    return heap_bytes(state, state.setup.heap_of_process(process)) + shared


def uses(state: State) -> List[int]:
    """The use of each limit."""
    setup = state.setup
    use = [0] * len(setup.limits)
    for number, process in enumerate(setup.processes):
        use[process.limit] += charge(state, number)
    for at in range(len(use) - 1, 0, -1):  # a parent is declared before its children
        use[setup.limits[at].parent or 0] += state.maxima[at] if setup.limits[at].hard else use[at]
    return use


def path(state: State, limit: Optional[int]) -> Iterator[int]:
    """The limit, and while they are soft those above it."""
    while limit is not None:
        yield limit
        limit = None if state.setup.limits[limit].hard else state.setup.limits[limit].parent


def full_limit(state: State, limit: Optional[int], size: int) -> Optional[int]:
    """The first limit on the path at which so many bytes do not fit."""
    use = uses(state)
    return next((at for at in path(state, limit) if use[at] + size > state.maxima[at]), None)


def is_below(state: State, lower: int, upper: int) -> bool:
    """Whether one limit is strictly below another."""
    at = state.setup.limits[lower].parent
    while at is not None and at != upper:
        at = state.setup.limits[at].parent
    return at is not None


def is_legal(state: State, source: int, target: int) -> bool:
    """The write barrier: whether an object of one heap may refer to an object of another, or of the same one."""
    both_shared = state.setup.shared_of(source) is not None and state.setup.shared_of(target) is not None
    into_a_process = state.setup.process_of(target) is not None
    return source == target or not (into_a_process or both_shared) or (source == KERNEL)


def entered(state: State) -> Set[Name]:
    """The objects to which another heap has an exit item, or which a process that does not own them holds in a register."""
    found = {name for heap, targets in enumerate(state.exits) for name in targets if owner(state, name.segment) != heap}
    for process, registers in enumerate(state.registers):
        heap = state.setup.heap_of_process(process)
        found.update(name for name in registers if name is not None and owner(state, name.segment) != heap)
    return found


def roots(state: State, heap: int) -> List[Name]:
    """The roots of a collection of a heap, in order of their names."""
    found = {name for name in entered(state) if owner(state, name.segment) == heap}
    process = state.setup.process_of(heap)
    held = [] if process is None else state.registers[process]
    found.update(name for name in held if name is not None and owner(state, name.segment) == heap)
    return sorted(found | {DIRECTORY} if heap == KERNEL else found)


def references(state: State, name: Name) -> List[Name]:
    """What an object's fields refer to."""
    body = state.body(name)
    return [] if body is None else [value for value in body.fields if isinstance(value, Name)]


def reach_in(state: State, heap: int, start: Iterable[Name]) -> Set[Name]:
    """The objects of a heap that are reached from some of them inside it."""
    owned = set(segments_of(state, heap))
    found: Set[Name] = set()
    waiting = [name for name in start if name.segment in owned]
    while waiting:
        name = waiting.pop()
        if name not in found:
            found.add(name)
            waiting.extend(each for each in references(state, name) if each.segment in owned)
    return found


def first_reasons(state: State) -> Dict[Name, str]:
    """The objects that are live by themselves, each with why: the directory, registers, and objects of shared heaps."""
    segments = state.setup.segments
    found = {DIRECTORY: "the directory is never freed"}
    for process, registers in enumerate(state.registers):
        for register, name in enumerate(registers):
            if name is not None:
                found.setdefault(name, f"register r{register} of {state.setup.processes[process].name}")
    for shared, phase in enumerate(state.phases):
        segment = state.setup.heap_of_shared(shared)
        if phase.kind in ("populating", "frozen"):
            sharers = [state.setup.processes[sharer].name for sharer, each in state.shares if each == shared]
            why = f"shared by {' and '.join(sharers)}" if sharers else "shared by nobody, and not absorbed yet"
            for serial in state.objects[segment]:
                found.setdefault(Name(segment, serial), f"shared heap {segments[segment]}, {why}")
    return found


def live(state: State) -> Set[Name]:
    """The objects that can still be used: what is live by itself, and all that it reaches, whatever the owners."""
    found: Set[Name] = set()
    waiting = list(first_reasons(state))
    while waiting:
        name = waiting.pop()
        if name not in found:
            found.add(name)
            waiting.extend(references(state, name))
    return found


def is_orphan(state: State, shared: int) -> bool:
    """Whether a shared heap was made, is not absorbed, and has no sharer."""
    made = state.phases[shared].kind in ("populating", "frozen")
    return made and all(each != shared for _, each in state.shares)


def orphans(state: State) -> List[int]:
    """The shared heaps that are orphans."""
    return [shared for shared in range(len(state.phases)) if is_orphan(state, shared)]
