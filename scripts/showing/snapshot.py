"""The lines of a snapshot: of a state, and of one that is as great as is wanted."""
from __future__ import annotations

from typing import List, Tuple

from . import report
from .state import State


def lines(state: State) -> List[str]:
    """The snapshot of a state: who has ended, the serials that were given, and the parts of a report that show the state."""
    setup = state.setup
    gone = (f"gone {process.name}" for process, ended in zip(setup.processes, state.ended) if ended)
    made = (f"{segment} {count}" for segment, count in zip(setup.segments, state.made))
    return ["snapshot 1", *gone, "made", *made, *report.graph(state), *report.holders(state), *report.charges(state), "end"]


def great(objects: int) -> Tuple[List[str], List[str]]:
    """A header, and over it the snapshot of so many objects of one process, each of which refers to the one before it and to the directory."""
    header = ["kaffe 1", "kernel 1000 2", "type Node ref ref int", f"limit root {40 * objects}", "proc p root", "proc q root", "shared s"]
    graph = ["kernel.1 kernel directory null null", "p.1 p Node null kernel.1 0"]
    graph += [f"p.{serial} p Node p.{serial - 1} kernel.1 {serial}" for serial in range(2, objects + 1)]
    holders = ["roots", f"p r0 p.{objects}", "exits", "p kernel.1", "shares"]
    used = ["charges", "kernel 32 of 1000", f"limit root {40 * objects} of {40 * objects}", f"process p {40 * objects}", "process q 0", "shared s 0 unmade"]
    return header, ["snapshot 1", "made", "kernel 1", f"p {objects}", "q 0", "s 0", "graph", *graph, *holders, *used, "end"]
