"""Alters a report or a snapshot in one place, at random; what comes of it is wrong as a rule, and now and then another good one."""
from __future__ import annotations

import random
import re
from typing import List

from .trace import Trace

FIRST_EVENT = 1  # the line after `report 1`, counted from 0


def _reply(rng: random.Random, trace: Trace) -> str:
    """Some reply, fitting or not."""
    limit, process = rng.choice(trace.setup.limits).name, rng.choice(trace.setup.processes).name
    faults = ("Null", "Foreign", f"LimitFull {limit}", f"InUse {limit}", f"LimitNotBelow {limit}", f"ProcNotBelow {process}")
    return rng.choice(("ok", "null", "7", f"{process}.1", f"fault {rng.choice(faults)}"))


def _place(rng: random.Random, lines: List[str], graph: int) -> int:
    """The place of an event line: as often as not of one that ends a process or sets a maximum, if there is one."""
    governing = [at for at in range(FIRST_EVENT, graph) if lines[at].split(" ")[1:2] in (["kill"], ["resize"], ["exit"])]
    return rng.choice(governing) if governing and rng.random() < 0.5 else rng.randrange(FIRST_EVENT, graph)


def altered(rng: random.Random, trace: Trace, report: List[str]) -> List[str]:
    """The lines of the report, of which one is left out, doubled, moved, changed or added."""
    lines, graph = list(report), report.index("graph")
    after_graph = rng.randrange(graph + 1, len(lines))
    if graph == FIRST_EVENT or rng.random() < 0.2:
        lines[after_graph] = re.sub(r"\d+", lambda found: str(int(found[0]) + 1), lines[after_graph], count=1)
        return lines
    at, how = _place(rng, lines, graph), rng.randrange(5)
    if how == 0:
        del lines[at]
    elif how == 1:
        lines.insert(at, lines[at])
    elif how == 2:
        lines.insert(rng.randrange(FIRST_EVENT, graph), lines.pop(at))
    elif how == 3 and " = " in lines[at]:
        lines[at] = f"{lines[at].partition(' = ')[0]} = {_reply(rng, trace)}"
    elif trace.operations:
        lines.insert(at, f"{rng.choice(trace.operations).text} = ok")
    return lines


def altered_snapshot(rng: random.Random, snapshot: List[str]) -> List[str]:
    """The lines of the snapshot, of which one is left out, doubled, moved or changed in one word."""
    lines, at, how = list(snapshot), rng.randrange(len(snapshot)), rng.randrange(6)
    if how == 0:
        del lines[at]
    elif how == 1:
        lines.insert(at, lines[at])
    elif how == 2:
        lines.insert(rng.randrange(len(lines)), lines.pop(at))
    elif how == 3:
        lines[at] = re.sub(r"\d+", lambda found: str(int(found[0]) + rng.choice((1, -1, 1 << 32, 1 << 40))), lines[at], count=1)
    else:
        words = lines[at].split(" ")
        words[rng.randrange(len(words))] = rng.choice(rng.choice(lines).split(" "))
        lines[at] = " ".join(words)
    return lines
