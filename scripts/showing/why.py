"""Why an object is kept: a shortest path to it from a register, the directory or a shared heap, or the exit item that keeps it."""
from __future__ import annotations

from collections import deque
from typing import Dict, List, NamedTuple, Optional, Tuple

from . import effects, report, rules
from .reading import Run
from .replies import spell
from .rules import KERNEL
from .state import State
from .trace import NameTable
from .words import BadInput, Name


class Step(NamedTuple):
    """A reference from a field of an object to another."""

    source: Name
    at: int
    target: Name


def shortest(state: State, wanted: Name) -> Optional[Tuple[Name, List[Step]]]:
    """Where a shortest path to an object begins and its references; None where no path leads there."""
    came: Dict[Name, Optional[Step]] = {name: None for name in rules.first_reasons(state)}
    waiting = deque(came)
    while waiting and wanted not in came:
        name = waiting.popleft()
        body = state.body(name)
        for at, value in enumerate(body.fields if body is not None else []):
            if isinstance(value, Name) and value not in came:
                came[value] = Step(name, at, value)
                waiting.append(value)
    if wanted not in came:
        return None
    steps: List[Step] = []
    first, step = wanted, came[wanted]
    while step is not None:
        steps.append(step)
        first, step = step.source, came[step.source]
    return first, steps[::-1]


def _described(state: State, name: Name) -> str:
    owner = rules.owner(state, name.segment)
    whose = "the kernel's" if owner == KERNEL else f"in the heap {state.setup.segments[owner]}"
    return f"{spell(state, name)} ({report.type_name(state, name)}, {whose})"


def _path(state: State, first: Name, steps: List[Step]) -> List[str]:
    """A path in lines, with the exit item where it leaves a heap."""
    lines = [f"  {rules.first_reasons(state)[first]}", f"    -> {_described(state, first)}"]
    for step in steps:
        heap = rules.owner(state, step.source.segment)
        leaves = heap != rules.owner(state, step.target.segment)
        exit_item = f", by the exit item {state.setup.segments[heap]} {spell(state, step.target)}" if leaves else ""
        lines.append(f"    -> field {step.at}: {_described(state, step.target)}{exit_item}")
    return lines


def _not_there(run: Run, name: Name, word: str, state: State, count: int) -> str:
    """The answer for a name whose object is not there."""
    if name.serial > state.made[name.segment] or name.serial == 0:
        made = state.made[name.segment]
        return f"{word} was never made: {run.setup.segments[name.segment]} has given {made} serial{'' if made == 1 else 's'} by then.\n"
    if not run.is_whole:
        return f"{word} was made, and is freed by the end. By which event is known from the trace: give the trace and the report.\n"
    there = False
    for number, (_, at) in enumerate(run.states()):
        if there and at.body(name) is None and number <= count:
            return f"{word} was freed by event {number}, '{run.lines[number - 1]}'.\n"
        there = at.body(name) is not None
    return f"{word} is not there.\n"


def _held_by_exits(state: State, name: Name) -> List[str]:
    """The exit items that keep an object which nothing live refers to."""
    lines = []
    owner = rules.owner(state, name.segment)
    for heap, targets in enumerate(state.exits):
        if name in targets and heap != owner:
            referring = any(name in rules.references(state, each) for each, _ in state.all_objects() if rules.owner(state, each.segment) == heap)
            why = "an object there refers to it, and nothing live refers to that one" if referring else "no object there refers to it any more"
            lines.append(f"  the exit item {state.setup.segments[heap]} {spell(state, name)}: {why}")
    return lines


def _garbage(state: State, name: Name, word: str) -> str:
    """The answer for an object that nothing can use any more."""
    heap = rules.owner(state, name.segment)
    where = state.setup.segments[heap]
    entered = [each for each in rules.roots(state, heap)]
    kept = name in rules.reach_in(state, heap, entered)
    if not kept:
        return f"{word} is garbage: no register, directory, shared heap or exit item leads to it, and the next collection of {where} frees it.\n"
    lines = [f"Nothing can use {word} any more, and yet a collection of {where} keeps it, by"]
    holder = next(each for each in entered if name in rules.reach_in(state, heap, [each]) and _held_by_exits(state, each))
    lines += _held_by_exits(state, holder)
    if holder != name:
        lines.append(f"    -> and inside the heap {spell(state, holder)} leads to {word}")
    lines.append("A collection of the heap that has the exit item drops it where none of the objects left there refers to the object.")
    return "\n".join(lines) + "\n"


def _open_scan(state: State, name: Name, word: str) -> str:
    """What is to be said where the object's heap is being collected."""
    heap = rules.owner(state, name.segment)
    if heap not in state.scans:
        return ""
    kept = name not in effects.sweep_of(state, heap).objects
    return f"A collection of {state.setup.segments[heap]} is open, and its end {'keeps' if kept else 'frees'} {word}.\n"


def why(run: Run, count: Optional[int], word: str) -> str:
    """Why an object is kept at the end, or after so many events."""
    name = NameTable(run.setup).object_name(word)
    if name is None:
        raise BadInput(f"'{word}' is no name of an object, which is a segment's name, a dot and a serial, as in p1.3")
    state = run.after(count)
    number = len(run.lines) if count is None else count
    when = f"after {number} events" if count is not None else "at the end"
    if state.body(name) is None:
        return _not_there(run, name, word, state, number)
    found = shortest(state, name)
    if found is None:
        return _garbage(state, name, word) + _open_scan(state, name, word)
    return "\n".join([f"{word} is kept {when}:", *_path(state, *found)]) + "\n" + _open_scan(state, name, word)
