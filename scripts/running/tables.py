"""Judges the output of a run whose work is told, the report and the table after it, by the model of the machine."""
from __future__ import annotations

from typing import List, Tuple

from showing import judging, work
from showing.trace import Trace
from showing.words import BadInput, Text

from .program import Wrong


def parts(output: str) -> Tuple[List[str], List[str]]:
    """The lines of the report and those of the table; raises Wrong where the output is cut off."""
    lines = output.split("\n")
    if lines.pop() != "" or "end" not in lines:
        raise Wrong("the output is cut off")
    first = lines.index("end") + 1
    return lines[:first], lines[first:]


def judge(trace: Trace, output: str) -> Tuple[str, int]:
    """The report of a run, and how many collections ended in it; raises Wrong where the table is not that of its journal."""
    report, table = parts(output)
    try:
        events = [event for event, _ in judging.judged(trace, Text("the report", report))]
    except BadInput as bad:
        raise Wrong(f"by the model it is no report of the trace: {bad}") from None
    wanted = work.lines(trace.setup, events)
    for at, (line, right) in enumerate(zip(table, wanted), 1):
        if line != right:
            raise Wrong(f"line {at} of the table is '{line}'; it has to be '{right}'")
    if len(table) != len(wanted):
        raise Wrong(f"the table has {len(table)} lines, and not {len(wanted)}")
    return "\n".join(report) + "\n", sum(event.kind == "ended" for event in events)
