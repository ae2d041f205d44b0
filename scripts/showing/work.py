"""The table that `work` writes after a report, worked out from the report's events alone."""
from __future__ import annotations

from typing import Dict, Iterable, List, Optional, Tuple

from . import rules
from .history import Event, step
from .rules import KERNEL
from .state import State
from .trace import Setup


def _work(state: State, heap: int) -> int:
    """The objects that a heap has, and their reference fields."""
    work = 0
    for name, body in state.all_objects():
        if rules.owner(state, name.segment) == heap:
            kinds = [True] * len(body.fields) if body.type is None else [kind == "ref" for kind in state.setup.types[body.type].kinds]
            work += 1 + sum(kinds)
    return work


def credited(setup: Setup, events: Iterable[Event]) -> Dict[Optional[int], Tuple[int, int]]:
    """For each process, and as None for the closing, how many ends of a collection are credited to it, and their work."""
    state = State(setup)
    began: Dict[int, Optional[int]] = {}  # who began the collection of a heap that is open
    rows: Dict[Optional[int], Tuple[int, int]] = {None: (0, 0), **{process: (0, 0) for process in range(len(setup.processes))}}
    for event in events:
        step(state, event)
        if event.operation is not None and event.operation.verb in ("collect", "kcollect"):
            process = event.operation.process
            began[KERNEL if event.operation.verb == "kcollect" else setup.heap_of_process(process)] = process
        elif event.kind == "closing":
            began[KERNEL] = None
        elif event.kind == "ended":
            who = began.pop(event.heap)
            rows[who] = (rows[who][0] + 1, rows[who][1] + _work(state, event.heap))
    return rows


def lines(setup: Setup, events: Iterable[Event]) -> List[str]:
    """The lines of the table."""
    rows = credited(setup, events)
    named = [(f"process {process.name}", rows[at]) for at, process in enumerate(setup.processes)]
    named += [("closing", rows[None]), ("total", (sum(row[0] for row in rows.values()), sum(row[1] for row in rows.values())))]
    return ["work", *(f"{name} {row[0]} {row[1]}" for name, row in named), "end"]
