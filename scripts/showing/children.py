"""The trace that a script stands for, in which processes make and end children."""
from __future__ import annotations

from typing import Dict, Iterator, List

FIRST, TRANSLATED = "spawn 1", "kaffe 2"


def with_descendants(child: str, parents: Dict[str, str]) -> List[str]:
    """The list of a child: the lists of its own children, whole and in order of declaration, and then the child."""
    below = (with_descendants(other, parents) for other, parent in parents.items() if parent == child)
    return [*(name for names in below for name in names), child]


def _operation(line: str, parents: Dict[str, str]) -> Iterator[str]:
    """The lines that an operation line of a script stands for."""
    process, verb, *rest = line.split(" ")
    if verb == "spawn":
        yield f"{process} resize {' '.join(rest)}"
    elif verb == "reap":
        for name in with_descendants(rest[0], parents):
            yield f"{process} kill {name}"
            yield f"{process} resize {name} 0"
    else:
        yield line


def translated(lines: List[str]) -> List[str]:
    """The lines of the trace that a script without a bad line stands for. They may be more than a trace's text may have."""
    parts: Dict[str, List[str]] = {"kernel": [], "type": [], "limit": [], "proc": [], "child": [], "shared": []}
    at = 1
    while at < len(lines) and lines[at].split(" ")[0] in parts:
        parts[lines[at].split(" ")[0]].append(lines[at])
        at += 1
    parents = {name: parent for _, name, parent in (line.split(" ") for line in parts["child"])}
    limit_of = {name: limit for _, name, limit in (line.split(" ") for line in parts["proc"])}
    limits = [f"limit {name} {limit_of.get(parent, parent)} hard 0" for name, parent in parents.items()]
    processes = [f"proc {name} {name}" for name in parents]
    header = [*parts["kernel"], *parts["type"], *parts["limit"], *limits, *parts["proc"], *processes, *parts["shared"]]
    return [TRANSLATED, *header, *(told for line in lines[at:] for told in _operation(line, parents))]
