"""What makes up a process's charge: its own heap and the shared heaps that it shares, by type."""
from __future__ import annotations

from collections import Counter
from typing import List

from . import report, rules
from .reading import Run
from .state import State
from .words import BadInput, Name


def _by_type(state: State, heap: int) -> List[str]:
    """The objects of a heap, as lines by type."""
    count: Counter = Counter()
    size: Counter = Counter()
    for segment in rules.segments_of(state, heap):
        for serial in state.objects[segment]:
            kind = report.type_name(state, Name(segment, serial))
            count[kind] += 1
            size[kind] += state.size_at(Name(segment, serial))
    return [f"    {size[kind]:>12,}  {kind}, {_counted(count[kind], 'object')}" for kind in sorted(size, key=lambda each: -size[each])]


def _counted(count: int, what: str) -> str:
    return f"{count:,} {what}{'' if count == 1 else 's'}"


def _number(run: Run, name: str) -> int:
    for number, process in enumerate(run.setup.processes):
        if process.name == name:
            return number
    raise BadInput(f"there is no process {name}; the processes are {', '.join(each.name for each in run.setup.processes)}")


def _limits(run: Run, state: State, process: int) -> List[str]:
    """Where the charge counts."""
    at, use = run.setup.processes[process].limit, run.uses(state)
    if not run.is_whole:
        return ["At which limit it is charged is said by the trace alone."]
    lines = []
    for limit in rules.path(state, at):
        row = run.setup.limits[limit]
        kind = "root" if row.parent is None else "hard" if row.hard else "soft"
        lines.append(f"  counts at limit {row.name} ({kind}): {use[limit]:,} of {state.maxima[limit]:,}")
    return lines


def charges(run: Run, state: State, name: str) -> str:
    """The parts of a process's charge, as text."""
    process = _number(run, name)
    if state.ended[process]:
        return f"{name} has ended, and an ended process is charged nothing.\n"
    heap = run.setup.heap_of_process(process)
    lines = [f"{name} is charged {rules.charge(state, process):,} bytes:", f"  {rules.heap_bytes(state, heap):>12,}  its own heap"]
    lines += _by_type(state, heap)
    for shared in sorted(each for sharer, each in state.shares if sharer == process):
        others = [run.setup.processes[sharer].name for sharer, each in state.shares if each == shared and sharer != process]
        also = f"; {', '.join(others)} pay{'s' if len(others) == 1 else ''} as much again" if others else ""
        phase = report.phase_text(state, state.phases[shared])
        size = rules.shared_bytes(state, shared)
        lines.append(f"  {size:>12,}  the shared heap {run.setup.shared[shared]}, {phase}{also}")
        lines += _by_type(state, run.setup.heap_of_shared(shared))
    return "\n".join([*lines, *_limits(run, state, process)]) + "\n"
