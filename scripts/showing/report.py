"""The lines of a report."""
from __future__ import annotations

from typing import Iterable, List

from . import rules
from .history import Event
from .replies import spell
from .state import DIRECTORY, Phase, State, Value
from .words import Name


def whole(events: Iterable[Event], state: State) -> List[str]:
    """The report of some events and the state that they leave."""
    return ["report 1", *(event.line(state.setup) for event in events), *ending(state)]


def ending(state: State) -> List[str]:
    """The lines of a report from 'graph' on."""
    return [*graph(state), *holders(state), *faults(state), *charges(state), "end"]


def value(state: State, each: Value) -> str:
    """A field as the report has it."""
    return spell(state, each) if each is None or isinstance(each, Name) else str(each)


def type_name(state: State, name: Name) -> str:
    """The name of an object's type."""
    body = state.body(name)
    return "directory" if name == DIRECTORY or body is None or body.type is None else state.setup.types[body.type].name


def graph(state: State) -> List[str]:
    lines = ["graph"]
    for name, body in state.all_objects():
        owner = state.setup.segments[rules.owner(state, name.segment)]
        fields = (value(state, each) for each in body.fields)
        lines.append(" ".join([spell(state, name), owner, type_name(state, name), *fields]))
    return lines


def holders(state: State) -> List[str]:
    """The sections of registers, exit items and shares."""
    setup = state.setup
    lines = ["roots"]
    for process, registers in enumerate(state.registers):
        held = ((at, name) for at, name in enumerate(registers) if name is not None)
        lines += [f"{setup.processes[process].name} r{at} {spell(state, name)}" for at, name in held]
    lines.append("exits")
    for heap, targets in enumerate(state.exits):
        lines += [f"{setup.segments[heap]} {spell(state, name)}" for name in sorted(targets)]
    shares = (f"{setup.processes[process].name} {setup.shared[shared]}" for process, shared in sorted(state.shares))
    return [*lines, "shares", *shares]


def faults(state: State) -> List[str]:
    return ["faults", *(f"{process.name} {count}" for process, count in zip(state.setup.processes, state.faults))]


def phase_text(state: State, phase: Phase) -> str:
    """A phase as the report has it."""
    if phase.kind == "populating":
        return f"populating {state.setup.processes[phase.process or 0].name}"
    return f"frozen {spell(state, phase.root)}" if phase.kind == "frozen" else phase.kind


def charges(state: State) -> List[str]:
    setup = state.setup
    lines = ["charges", f"kernel {rules.heap_bytes(state, rules.KERNEL)} of {setup.ceiling}"]
    for limit, use, maximum in zip(setup.limits, rules.uses(state), state.maxima):
        lines.append(f"limit {limit.name} {use} of {maximum}")
    for number, process in enumerate(setup.processes):
        lines.append(f"process {process.name} {rules.charge(state, number)}")
    for number, name in enumerate(setup.shared):
        lines.append(f"shared {name} {rules.shared_bytes(state, number)} {phase_text(state, state.phases[number])}")
    return lines
