"""Makes good scripts at random, from random traces of the first version."""
from __future__ import annotations

import random
from typing import Dict, Iterator, List, Set, Tuple

from . import children, random_traces
from .trace import PARTS

MANY, SOON, LATE = 0.7, 0.1, 0.02  # how likely a process is a child, is spawned before a line, is reaped before a line
SIZES = (0, 40, 80, 120, 300, 1000, 20000)


def _script(rng: random.Random, trace: List[str]) -> List[str]:
    """A script of a trace: some of its processes are children, which are spawned and reaped at random."""
    header = [line for line in trace if line.split(" ")[0] in PARTS]
    names = [line.split(" ")[1] for line in header if line.startswith("proc ")]
    parents = {name: rng.choice(names[:at]) for at, name in enumerate(names) if at > 0 and rng.random() < MANY}
    before = [line for line in header[1:] if not line.startswith("shared ") and not (line.startswith("proc ") and line.split(" ")[1] in parents)]
    behind = [line for line in header if line.startswith("shared ")]
    lines = [f"child {name} {parent}" for name, parent in parents.items()]
    return [children.FIRST, *before, *lines, *behind, *_timely(rng, trace[len(header) :], parents)]


def _timely(rng: random.Random, operations: List[str], parents: Dict[str, str]) -> Iterator[str]:
    """The operations without those of children that are not there, and between them spawns and reapings."""
    there: Set[str] = set()
    spawned: Set[str] = set()
    left: Set[str] = set()

    def goes_on(process: str) -> bool:
        return process not in left and (process not in parents or process in there)

    for line in operations:
        for child, parent in parents.items():
            if goes_on(parent) and child not in spawned and rng.random() < SOON:
                yield f"{parent} spawn {child} {rng.choice(SIZES)}"
                spawned.add(child)
                there.add(child)
            elif goes_on(parent) and child in there and rng.random() < LATE:
                yield f"{parent} reap {child}"
                there.difference_update(children.with_descendants(child, parents))
        process, verb, *_ = line.split(" ")
        if goes_on(process):
            yield line
            left.update([process] if verb == "exit" else [])


def random_scripts(first: int, count: int) -> Iterator[Tuple[int, List[str]]]:
    """Scripts by rising seeds."""
    for seed, text in random_traces.random_traces(first, count, 1):
        yield seed, _script(random.Random(seed), text.splitlines())
