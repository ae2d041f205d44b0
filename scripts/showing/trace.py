"""Reads a trace, and says in a sentence which line is none of a trace's."""
from __future__ import annotations

from dataclasses import dataclass, field
from typing import Dict, List, Optional, Tuple

from . import words
from .words import FIELDS, MAXIMA, OPERANDS, VERSION_2, BadInput, Name, Text

PARTS = ("kaffe", "kernel", "type", "limit", "proc", "shared")
MOST = {"type": 256, "limit": 128, "proc": 64, "shared": 64}
MOST_OPERATIONS = 200_000


@dataclass(frozen=True)
class ObjectType:
    """A type of objects: for each field whether it is a reference ('ref') or an integer ('int')."""

    name: str
    kinds: Tuple[str, ...]


@dataclass(frozen=True)
class Limit:
    """A limit as its line declares it; the root has no parent."""

    name: str
    parent: Optional[int]
    hard: bool
    maximum: int


@dataclass(frozen=True)
class Process:
    """A process and the number of the limit at which it is charged."""

    name: str
    limit: int


@dataclass(frozen=True)
class Operation:
    """One operation line: what its operands stand for, as numbers, and the line itself."""

    process: int
    verb: str
    operands: Tuple[int, ...]
    text: str


@dataclass
class Setup:
    """The header of a trace. A heap goes by the number of the segment with which it begins; the kernel's is 0."""

    version: int = 1
    ceiling: int = 0
    directory_fields: int = 0
    types: List[ObjectType] = field(default_factory=list)
    limits: List[Limit] = field(default_factory=list)
    processes: List[Process] = field(default_factory=list)
    shared: List[str] = field(default_factory=list)

    @property
    def segments(self) -> List[str]:
        """The name of each segment."""
        return ["kernel", *(process.name for process in self.processes), *self.shared]

    def heap_of_process(self, process: int) -> int:
        return 1 + process

    def heap_of_shared(self, shared: int) -> int:
        return 1 + len(self.processes) + shared

    def process_of(self, heap: int) -> Optional[int]:
        """The process whose heap this is, where it is one of a process."""
        return heap - 1 if 1 <= heap <= len(self.processes) else None

    def shared_of(self, heap: int) -> Optional[int]:
        """The number of the shared heap that this is, where it is one."""
        return heap - 1 - len(self.processes) if heap > len(self.processes) else None


@dataclass
class Trace:
    """A header and the operations in the order of the file."""

    setup: Setup
    operations: List[Operation]


class _Names:
    """The numbers of declared names."""

    def __init__(self) -> None:
        self.of: Dict[str, Dict[str, int]] = {"type": {}, "limit": {}, "process": {}, "shared heap": {}}

    def add(self, kind: str, name: str) -> Optional[str]:
        """Declares a name; says why not where it cannot be declared."""
        if not words.is_name(name):
            return f"'{name}' is no name that may be declared"
        rivals = ("process", "shared heap") if kind in ("process", "shared heap") else (kind,)
        for rival in rivals:
            if name in self.of[rival]:
                return f"the {rival} {name} was declared before"
        self.of[kind][name] = len(self.of[kind])
        return None


class NameTable:
    """Finds what words of a trace or a report stand for."""

    def __init__(self, setup: Setup) -> None:
        self.setup = setup
        self.of: Dict[str, Dict[str, int]] = {
            "type": {each.name: i for i, each in enumerate(setup.types)},
            "limit": {each.name: i for i, each in enumerate(setup.limits)},
            "process": {each.name: i for i, each in enumerate(setup.processes)},
            "shared heap": {each: i for i, each in enumerate(setup.shared)},
        }
        self.segments = {each: i for i, each in enumerate(setup.segments)}
        self.forms = {verb: kinds for verb, kinds in OPERANDS.items() if setup.version == 2 or verb not in VERSION_2}

    def object_name(self, word: str) -> Optional[Name]:
        """The object's name that a word spells, whether or not there is the object."""
        segment, dot, serial = word.partition(".")
        value = words.number(serial, words.SERIALS) if dot else None
        return Name(self.segments[segment], value) if segment in self.segments and value is not None else None

    def operation(self, line: str) -> Operation:
        """The operation that a line spells; raises BadInput with the reason alone."""
        parts = line.split(" ")
        if len(parts) < 2 or parts[1] not in self.forms:
            raise BadInput(f"'{line}' is no operation")
        kinds = self.forms[parts[1]]
        if len(parts) != 2 + len(kinds):
            raise BadInput(f"{parts[1]} takes {len(kinds)} operands and not {len(parts) - 2}")
        process = self.find("process", parts[0])
        return Operation(process, parts[1], tuple(map(self.find, kinds, parts[2:])), line)

    def find(self, kind: str, word: str) -> int:
        """What a word in the place of such an operand stands for."""
        if kind in self.of:
            if word not in self.of[kind]:
                raise BadInput(f"the {kind} {word} is not declared")
            return self.of[kind][word]
        value = words.operand(kind, word)
        if value is None:
            raise BadInput(f"'{word}' is no {kind}, or is out of range")
        return value


class _Reader:
    """Takes the lines of a header one after the other."""

    def __init__(self, text: Text) -> None:
        self.text = text
        self.setup = Setup()
        self.names = _Names()
        self.place = 0  # of the part to which the last line belonged, in PARTS

    def take(self, line: str) -> bool:
        """Takes a line of the header; False where the operations begin with it. Raises BadInput with the reason alone."""
        parts = line.split(" ")
        if parts[0] not in PARTS:
            if not self.setup.processes:
                raise BadInput(f"'{parts[0]}' begins no line that is allowed here")
            return False
        place = PARTS.index(parts[0])
        if place < self.place or (place == self.place and place < 2) or (place > 1 and self.place < 1):
            raise BadInput(f"a line '{parts[0]}' is out of its place")
        if (place > 3 and not self.setup.limits) or (place > 4 and not self.setup.processes):
            raise BadInput(f"a line '{parts[0]}' comes before what must come first")
        self.place = place
        getattr(self, "_" + parts[0])(parts[1:])
        return True

    def _count(self, part: str, there: int) -> None:
        if there >= MOST[part]:
            raise BadInput(f"a trace has at most {MOST[part]} lines '{part}'")

    def _declare(self, kind: str, name: str) -> None:
        why = self.names.add(kind, name)
        if why:
            raise BadInput(why)

    def _number(self, word: str, below: int) -> int:
        value = words.number(word, below)
        if value is None:
            raise BadInput(f"'{word}' is no number below {below}")
        return value

    def _known(self, kind: str, name: str) -> int:
        if name not in self.names.of[kind]:
            raise BadInput(f"the {kind} {name} is not declared")
        return self.names.of[kind][name]

    def _kernel(self, rest: List[str]) -> None:
        if len(rest) != 2:
            raise BadInput("the form is: kernel CEILING FIELDS")
        self.setup.ceiling = self._number(rest[0], MAXIMA)
        self.setup.directory_fields = self._number(rest[1], FIELDS + 1)
        if words.size_of(self.setup.directory_fields) > self.setup.ceiling:
            raise BadInput("the ceiling is below the size of the directory")

    def _type(self, rest: List[str]) -> None:
        if not rest or any(kind not in ("ref", "int") for kind in rest[1:]):
            raise BadInput("the form is: type NAME, then words 'ref' and 'int'")
        self._declare("type", rest[0])
        self._count("type", len(self.setup.types))
        if len(rest) > 1 + FIELDS:
            raise BadInput(f"a type has at most {FIELDS} fields")
        self.setup.types.append(ObjectType(rest[0], tuple(rest[1:])))

    def _limit(self, rest: List[str]) -> None:
        root = not self.setup.limits
        if len(rest) != (2 if root else 4) or (not root and rest[2] not in ("hard", "soft")):
            raise BadInput("the form is: limit NAME MAX for the root, else limit NAME PARENT hard MAX, or soft")
        maximum = self._number(rest[-1], MAXIMA)
        self._declare("limit", rest[0])
        self._count("limit", len(self.setup.limits))
        parent = None if root else self._known("limit", rest[1])
        hard = root or rest[2] == "hard"
        if parent is not None and hard and self._overfull(parent, maximum):
            raise BadInput(f"the maximum {maximum} does not fit at {rest[1]}, or above it")
        self.setup.limits.append(Limit(rest[0], parent, hard, maximum))

    def _overfull(self, at: Optional[int], size: int) -> bool:
        """Whether a reservation of this size passes a maximum on the path of the limit."""
        while at is not None:
            if reserved(self.setup.limits, at) + size > self.setup.limits[at].maximum:
                return True
            at = None if self.setup.limits[at].hard else self.setup.limits[at].parent
        return False

    def _proc(self, rest: List[str]) -> None:
        if len(rest) != 2:
            raise BadInput("the form is: proc NAME LIMIT")
        self._declare("process", rest[0])
        self._count("proc", len(self.setup.processes))
        self.setup.processes.append(Process(rest[0], self._known("limit", rest[1])))

    def _shared(self, rest: List[str]) -> None:
        if len(rest) != 1:
            raise BadInput("the form is: shared NAME")
        self._declare("shared heap", rest[0])
        self._count("shared", len(self.setup.shared))
        self.setup.shared.append(rest[0])


def reserved(limits: List[Limit], at: int) -> int:
    """What the children of a limit take of it before anything is charged."""
    children = ((i, each) for i, each in enumerate(limits) if each.parent == at)
    return sum(each.maximum if each.hard else reserved(limits, i) for i, each in children)


def check_bytes(text: Text, number: int, line: str) -> None:
    """Refuses a line that is too long or has other bytes than printable ones."""
    if len(line) > words.LINE_BYTES:
        raise text.bad(number, f"it has more than {words.LINE_BYTES} bytes")
    if not line.isascii() or (line and not line.isprintable()):
        raise text.bad(number, "it has a byte that is no printable ASCII character")
    if "" in line.split(" "):
        raise text.bad(number, "its words are not separated by single spaces, or it is empty")


def _read_header(text: Text) -> Tuple[Setup, int]:
    """The header, and how many lines it has."""
    if not text.lines or text.lines[0] not in ("kaffe 1", "kaffe 2"):
        raise text.bad(1, "a trace begins with the line 'kaffe 1'")
    reader = _Reader(text)
    reader.setup.version = int(text.lines[0][-1])
    count = 1
    for line in text.lines[1:]:
        check_bytes(text, count + 1, line)
        try:
            if not reader.take(line):
                break
        except BadInput as bad:
            raise text.bad(count + 1, str(bad)) from None
        count += 1
    if not reader.setup.processes:
        raise text.bad(count + 1, "the trace ends before its kernel line, a limit and a process were read")
    return reader.setup, count


def read_trace(text: Text) -> Trace:
    """The trace that a text spells; raises BadInput at its first bad line."""
    if sum(len(line) + 1 for line in text.lines) > TRACE_LIMIT:
        raise BadInput(f"{text.source}: a trace has at most {words.TRACE_BYTES} bytes")
    setup, header = _read_header(text)
    names = NameTable(setup)
    operations: List[Operation] = []
    over = set()
    for at, line in enumerate(text.lines[header:], header + 1):
        check_bytes(text, at, line)
        try:
            operation = names.operation(line)
        except BadInput as bad:
            raise text.bad(at, str(bad)) from None
        if operation.process in over:
            raise text.bad(at, f"{line.split(' ')[0]} has an exit before")
        if operation.verb == "exit":
            over.add(operation.process)
        if len(operations) == MOST_OPERATIONS:
            raise text.bad(at, f"a trace has at most {MOST_OPERATIONS} operations")
        operations.append(operation)
    return Trace(setup, operations)


TRACE_LIMIT = words.TRACE_BYTES + 1  # the last line feed may be missing, and was counted
