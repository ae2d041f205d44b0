"""The machine's state, and the small changes of which every event is made.

Each change is also noted in `changes`, as a short list that begins with one letter; the page takes these lists to go from
one event to the next.
"""
from __future__ import annotations

from dataclasses import dataclass
from typing import Dict, Iterator, List, NamedTuple, Optional, Tuple, Union

from .trace import Setup
from .words import REGISTERS, Name, size_of

DIRECTORY = Name(0, 1)
Value = Union[Name, int, None]


class Phase(NamedTuple):
    """The phase of a shared heap: 'unmade', 'populating' by a process, 'frozen' with a root, or 'absorbed'."""

    kind: str
    process: Optional[int] = None
    root: Optional[Name] = None


@dataclass
class Body:
    """An object's type, which the directory alone does not have, and its fields."""

    type: Optional[int]
    fields: List[Value]


class State:
    """What there is after some events."""

    def __init__(self, setup: Setup) -> None:
        segments = len(setup.segments)
        self.setup = setup
        self.objects: List[Dict[int, Body]] = [{} for _ in range(segments)]  # of each segment, by serial
        self.made = [0] * segments
        self.bytes = [0] * segments  # of the objects of each segment
        self.registers: List[List[Optional[Name]]] = [[None] * REGISTERS for _ in setup.processes]
        self.done = [0] * len(setup.processes)
        self.faults = [0] * len(setup.processes)
        self.exits: List[Dict[Name, None]] = [{} for _ in range(segments)]  # of each heap, its targets
        self.shares: Dict[Tuple[int, int], None] = {}  # pairs of a process and a shared heap
        self.phases = [Phase("unmade") for _ in setup.shared]
        self.ended = [False] * len(setup.processes)
        self.scans: Dict[int, List[Name]] = {}  # the roots recorded for each heap that is scanned
        self.closed = False
        self.maxima = [limit.maximum for limit in setup.limits]
        self.changes: List[list] = []
        self.create(0, None, [None] * setup.directory_fields)

    def all_objects(self) -> Iterator[Tuple[Name, Body]]:
        """Every object, by rising segment and serial."""
        for segment, there in enumerate(self.objects):
            for serial, body in there.items():
                yield Name(segment, serial), body

    def body(self, name: Name) -> Optional[Body]:
        """The object of that name, where there is one."""
        return self.objects[name.segment].get(name.serial)

    def create(self, segment: int, kind: Optional[int], fields: List[Value]) -> Name:
        """Makes an object with the segment's next serial."""
        self.made[segment] += 1
        name = Name(segment, self.made[segment])
        self.objects[segment][name.serial] = Body(kind, fields)
        self.bytes[segment] += size_of(len(fields))
        self.changes.append(["o", segment, name.serial, kind, list(fields)])
        return name

    def size_at(self, name: Name) -> int:
        """The bytes of an object."""
        return size_of(len(self.objects[name.segment][name.serial].fields))

    def free(self, name: Name) -> None:
        """Takes an object away."""
        self.bytes[name.segment] -= self.size_at(name)
        del self.objects[name.segment][name.serial]
        self.changes.append(["x", name.segment, name.serial])

    def write(self, name: Name, at: int, value: Value) -> None:
        """Writes a field."""
        self.objects[name.segment][name.serial].fields[at] = value
        self.changes.append(["f", name.segment, name.serial, at, value])

    def set_register(self, process: int, register: int, value: Optional[Name]) -> None:
        if self.registers[process][register] != value:
            self.registers[process][register] = value
            self.changes.append(["r", process, register, value])

    def add_exit(self, heap: int, target: Name) -> None:
        if target not in self.exits[heap]:
            self.exits[heap][target] = None
            self.changes.append(["e", heap, target.segment, target.serial])

    def drop_exit(self, heap: int, target: Name) -> None:
        del self.exits[heap][target]
        self.changes.append(["d", heap, target.segment, target.serial])

    def add_share(self, process: int, shared: int) -> None:
        if (process, shared) not in self.shares:
            self.shares[(process, shared)] = None
            self.changes.append(["s", process, shared])

    def drop_share(self, process: int, shared: int) -> None:
        del self.shares[(process, shared)]
        self.changes.append(["u", process, shared])

    def set_phase(self, shared: int, phase: Phase) -> None:
        self.phases[shared] = phase
        self.changes.append(["p", shared, *phase])

    def set_ended(self, process: int) -> None:
        self.ended[process] = True
        self.changes.append(["t", process])

    def open_scan(self, heap: int, roots: List[Name]) -> None:
        self.scans[heap] = roots
        self.changes.append(["c", heap])

    def close_scan(self, heap: int) -> None:
        del self.scans[heap]
        self.changes.append(["z", heap])

    def set_maximum(self, limit: int, maximum: int) -> None:
        self.maxima[limit] = maximum
        self.changes.append(["m", limit, maximum])
