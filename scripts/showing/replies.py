"""The answer to an operation: the first fault that applies, or what the operation replies."""
from __future__ import annotations

from typing import Iterator, NamedTuple, Optional

from . import rules
from .state import DIRECTORY, State
from .trace import Operation
from .words import Name, size_of

# In the order in which they are tested.
FAULTS = (
    "Null Foreign NotSharer NoField WrongKind Frozen Segv NotPopulating NotFrozen Taken LimitFull KernelFull "
    "ProcNotBelow LimitNotBelow InUse"
).split()


class Fault(NamedTuple):
    """A fault: its place in the order of faults, and what it names."""

    place: int
    text: str


def fault(kind: str, name: str = "") -> Fault:
    """The fault of a kind, with the name that stands after it."""
    return Fault(FAULTS.index(kind), f"{kind} {name}".strip())


def spell(state: State, name: Optional[Name]) -> str:
    """An object's name as the report has it."""
    return "null" if name is None else f"{state.setup.segments[name.segment]}.{name.serial}"


def answer(state: State, operation: Operation) -> str:
    """The reply of the machine, as the report has it."""
    applying = sorted(_faults(state, operation))
    if applying:
        return f"fault {applying[0].text}"
    return _reply(state, operation)


def _faults(state: State, operation: Operation) -> Iterator[Fault]:
    """All faults that apply, in any order."""
    verb, operands = operation.verb, operation.operands
    if verb in ("store", "put", "get", "load"):
        base, at = operands[1:] if verb == "load" else operands[:2]
        yield from _access(state, operation.process, base, at, "int" if verb in ("put", "get") else "ref")
        if verb == "store":
            yield from _store(state, operation.process, base, operands[2])
    elif verb in ("new", "knew", "snew", "attach"):
        yield from _room(state, operation)
    elif verb == "share" and state.phases[operands[0]].kind != "unmade":
        yield fault("Taken", state.setup.shared[operands[0]])
    elif verb == "freeze":
        yield from _freeze(state, operation.process, operands[0], operands[1])
    elif verb == "kill":
        target = state.setup.processes[operands[0]]
        if not rules.is_below(state, target.limit, state.setup.processes[operation.process].limit):
            yield fault("ProcNotBelow", target.name)
    elif verb == "resize":
        yield from _resize(state, operation.process, operands[0], operands[1])


def _access(state: State, process: int, base: int, at: int, kind: str) -> Iterator[Fault]:
    """The faults of an access to a field of the object in a register."""
    name = state.registers[process][base]
    body = None if name is None else state.body(name)
    if name is None or body is None:
        yield fault("Null")
        return
    heap = rules.owner(state, name.segment)
    shared = state.setup.shared_of(heap)
    if state.setup.process_of(heap) not in (None, process):
        yield fault("Foreign")
    if shared is not None and (process, shared) not in state.shares:
        yield fault("NotSharer", state.setup.shared[shared])
    if at >= len(body.fields):
        yield fault("NoField")
    elif kind != ("ref" if body.type is None else state.setup.types[body.type].kinds[at]):
        yield fault("WrongKind")


def _store(state: State, process: int, base: int, value: int) -> Iterator[Fault]:
    """The faults of a store that are not those of every access."""
    name, target = state.registers[process][base], state.registers[process][value]
    if name is None:
        return
    heap = rules.owner(state, name.segment)
    shared = state.setup.shared_of(heap)
    if shared is not None and state.phases[shared].kind == "frozen":
        yield fault("Frozen")
    if target is not None and not rules.is_legal(state, heap, rules.owner(state, target.segment)):
        yield fault("Segv")


def _room(state: State, operation: Operation) -> Iterator[Fault]:
    """The faults of what charges bytes: the three allocations and attach."""
    process, verb = operation.process, operation.verb
    if verb == "knew":
        size = _size(state, operation.operands[1])
        if rules.heap_bytes(state, rules.KERNEL) + size > state.setup.ceiling:
            yield fault("KernelFull")
        return
    shared = operation.operands[1] if verb in ("snew", "attach") else None
    size = rules.shared_bytes(state, shared or 0) if verb == "attach" else _size(state, operation.operands[-1])
    if shared is not None and verb == "snew" and state.phases[shared][:2] != ("populating", process):
        yield fault("NotPopulating", state.setup.shared[shared])
    if shared is not None and verb == "attach" and state.phases[shared].kind != "frozen":
        yield fault("NotFrozen", state.setup.shared[shared])
    full = rules.full_limit(state, state.setup.processes[process].limit, size)
    if full is not None and not (verb == "attach" and (process, shared) in state.shares):
        yield fault("LimitFull", state.setup.limits[full].name)


def _freeze(state: State, process: int, shared: int, root: int) -> Iterator[Fault]:
    name = state.registers[process][root]
    if name is None:
        yield fault("Null")
    elif rules.owner(state, name.segment) != state.setup.heap_of_shared(shared):
        yield fault("Segv")
    if state.phases[shared][:2] != ("populating", process):
        yield fault("NotPopulating", state.setup.shared[shared])


def _resize(state: State, process: int, limit: int, maximum: int) -> Iterator[Fault]:
    row = state.setup.limits[limit]
    if not rules.is_below(state, limit, state.setup.processes[process].limit):
        yield fault("LimitNotBelow", row.name)
        return
    if rules.uses(state)[limit] > maximum:
        yield fault("InUse", row.name)
    more = maximum - state.maxima[limit]
    full = rules.full_limit(state, row.parent, more) if row.hard and more > 0 else None
    if full is not None:
        yield fault("LimitFull", state.setup.limits[full].name)


def _size(state: State, kind: int) -> int:
    return size_of(len(state.setup.types[kind].kinds))


def _reply(state: State, operation: Operation) -> str:
    """The reply to an operation to which no fault applies."""
    verb, operands, registers = operation.verb, operation.operands, state.registers[operation.process]
    if verb in ("new", "knew", "snew"):
        segment = segment_made_in(state, operation)
        return spell(state, Name(segment, state.made[segment] + 1))
    if verb == "dir":
        return spell(state, DIRECTORY)
    if verb == "attach":
        return spell(state, state.phases[operands[1]].root)
    if verb in ("load", "get"):
        base, at = operands[-2:]
        body = state.body(registers[base] or DIRECTORY)
        value = None if body is None else body.fields[at]
        return spell(state, value) if value is None or isinstance(value, Name) else str(value)
    return "ok"


def segment_made_in(state: State, operation: Operation) -> int:
    """The segment in which an allocation makes its object."""
    if operation.verb == "snew":
        return state.setup.heap_of_shared(operation.operands[1])
    return rules.KERNEL if operation.verb == "knew" else state.setup.heap_of_process(operation.process)
