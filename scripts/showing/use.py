"""The bytes used at each limit and in each heap, and each process's charge, after each event."""
from __future__ import annotations

import csv
import io
from typing import List, NamedTuple, Optional

from . import rules
from .history import Event
from .reading import Run
from .state import State


class Row(NamedTuple):
    """What is used after an event."""

    number: int
    mark: str
    values: List[int]
    line: str


def columns(run: Run) -> List[str]:
    """The heads of the values: limits, then heaps, then charges of processes."""
    setup = run.setup
    limits = [f"limit {each.name}" for each in setup.limits]
    return [*limits, *(f"heap {name}" for name in setup.segments), *(f"charge {each.name}" for each in setup.processes)]


def values(run: Run, state: State) -> List[int]:
    """The value in each column."""
    setup = run.setup
    heaps = [rules.heap_bytes(state, heap) for heap in range(len(setup.segments))]
    return [*run.uses(state), *heaps, *(rules.charge(state, process) for process in range(len(setup.processes)))]


def greatest(run: Run, state: State) -> List[Optional[int]]:
    """The maximum of each column, where it has one."""
    limits: List[Optional[int]] = [*state.maxima, run.setup.ceiling]
    return limits + [None] * (len(columns(run)) - len(limits))


def mark(event: Optional[Event], ends: bool) -> str:
    """What is special about an event, as one word."""
    if event is None:
        return "opening"
    if event.refused:
        return "refused"
    if event.operation is None:
        return {"ended": "collected", "absorbed": "absorbed", "closing": "closing"}[event.kind]
    return "end" if ends else ""


def rows(run: Run) -> List[Row]:
    """The opening and each event; of a report without its trace the end alone."""
    if not run.is_whole:
        return [Row(len(run.lines), "the end", values(run, run.end), "")]
    found: List[Row] = []
    ended = 0
    for event, state in run.states():
        now = state.ended.count(True)
        line = event.line(run.setup) if event is not None else ""
        found.append(Row(len(found), mark(event, now > ended), values(run, state), line))
        ended = now
    return found


def as_csv(run: Run) -> str:
    """The rows as comma-separated values."""
    out = io.StringIO()
    writer = csv.writer(out, lineterminator="\n")
    writer.writerow(["event", "mark", *columns(run), "line"])
    for row in rows(run):
        writer.writerow([row.number, row.mark, *row.values, row.line])
    return out.getvalue()


def as_text(run: Run) -> str:
    """The rows as a table."""
    found = rows(run)
    heads = [name.split(" ") for name in columns(run)]
    most = ["" if each is None else str(each) for each in greatest(run, run.end)]
    table = [["", "", *(head[0] for head in heads), ""], ["event", "", *(head[1] for head in heads), ""], ["at most", "", *most, ""]]
    table += [[str(row.number), row.mark, *map(str, row.values), row.line] for row in found]
    widths = [max(len(row[at]) for row in table) for at in range(len(table[0]))]
    lines = []
    for row in table:
        cells = [row[0].rjust(widths[0]), row[1].ljust(widths[1])]
        cells += [cell.rjust(width) for cell, width in zip(row[2:-1], widths[2:-1])]
        lines.append("  ".join([*cells, row[-1]]).rstrip())
    if run.samples:
        lines += ["", "samples of the watcher: events, use of the root, living processes"]
        lines += [f"  {sample.events}  {sample.root}  {sample.living}" for sample in run.samples]
    return "\n".join(lines) + "\n"
