"""Makes valid traces at random, small to medium, which together reach every operation and every fault."""
from __future__ import annotations

import random
from dataclasses import dataclass, field
from typing import Callable, Iterator, List, Optional, Set, Tuple

from . import rules
from .history import Replay
from .trace import Limit, NameTable, Trace, read_trace, reserved
from .words import MAXIMA, Text

FEW_REGISTERS = 5  # so that operations meet what others left
FIELD_WEIGHTS = {"ref": (8, 5, 1, 1), "int": (1, 1, 8, 1)}  # most objects have the fields of a list's node: two references, a number
SIZES = (8, 20, 40, 80, 160, 320)


@dataclass
class _Header:
    """What the operations may name."""

    version: int
    lines: List[str] = field(default_factory=list)
    types: List[str] = field(default_factory=list)
    limits: List[Limit] = field(default_factory=list)
    processes: List[str] = field(default_factory=list)
    shared: List[str] = field(default_factory=list)


def _fits(limits: List[Limit], parent: int, maximum: int) -> bool:
    """Whether a hard limit of this maximum can be reserved from its parent."""
    at: Optional[int] = parent
    while at is not None:
        if reserved(limits, at) + maximum > limits[at].maximum:
            return False
        at = None if limits[at].hard else limits[at].parent
    return True


def _header(rng: random.Random, version: int) -> _Header:
    header = _Header(version)
    directory = rng.choice((0, 1, 2, 3, 4))
    ceiling = 16 + 8 * directory + rng.choice((0, 40, 160, 400, 2000))
    header.lines = [f"kaffe {version}", f"kernel {ceiling} {directory}"]
    for number in range(rng.randint(1, 4)):
        kinds = ["ref", "ref", "int"] if number == 0 else rng.choices(("ref", "int"), (2, 1), k=rng.choice((0, 1, 2, 3, 4)))
        header.types.append(f"T{number}")
        header.lines.append(" ".join(["type", f"T{number}", *kinds]))
    _limits(rng, header)
    for number in range(rng.randint(1, 5) if version == 1 else rng.randint(2, 7)):
        header.processes.append(f"p{number}")
        at_the_root = version == 2 and number == 0 and rng.random() < 0.8
        header.lines.append(f"proc p{number} {header.limits[0].name if at_the_root else rng.choice(header.limits).name}")
    for number in range(rng.choice((0, 1, 1, 2, 3))):
        header.shared.append(f"s{number}")
        header.lines.append(f"shared s{number}")
    return header


def _limits(rng: random.Random, header: _Header) -> None:
    """A tree of limits; some of them are tight."""
    root = rng.choice((200, 600, 2000, 20000))
    header.limits.append(Limit("root", None, True, root))
    header.lines.append(f"limit root {root}")
    chain = header.version == 2 and rng.random() < 0.4
    for number in range(rng.choice((0, 1, 2, 3, 4, 6)) if header.version == 1 else rng.randint(1, 6)):
        parent = len(header.limits) - 1 if chain else rng.randrange(len(header.limits))
        maximum = rng.choice((0, 40, 120, 300, root // 3, root))
        hard = rng.random() < 0.5 and _fits(header.limits, parent, maximum)
        header.limits.append(Limit(f"l{number}", parent, hard, maximum))
        header.lines.append(f"limit l{number} {header.limits[parent].name} {'hard' if hard else 'soft'} {maximum}")


class _Operations:
    """Writes operations, and remembers who has an `exit` already."""

    def __init__(self, rng: random.Random, header: _Header) -> None:
        self.rng, self.header = rng, header
        self.lines: List[str] = []
        self.over: Set[str] = set()

    def add(self, process: str, *words: object) -> None:
        """Writes an operation unless the process has an `exit` already."""
        if process not in self.over:
            self.lines.append(" ".join([process, *map(str, words)]))
        if words[0] == "exit":
            self.over.add(process)

    def reg(self) -> str:
        wide = self.rng.random() < 0.03
        return f"r{self.rng.randrange(16 if wide else FEW_REGISTERS)}"

    def at(self, kind: str = "ref") -> int:
        if self.rng.random() < 0.03:
            return self.rng.randrange(16)
        return self.rng.choices(range(4), FIELD_WEIGHTS[kind])[0]

    def kind(self) -> str:
        return self.header.types[0] if self.rng.random() < 0.5 else self.rng.choice(self.header.types)

    def process(self) -> str:
        return self.rng.choice(self.header.processes)

    def one(self) -> None:
        """Any one operation of any process."""
        rng, process = self.rng, self.process()
        verb = rng.choices(_VERBS, _WEIGHTS)[0]
        value = rng.choice((0, 1, 7, 2**64 - 1, rng.randrange(2**64)))
        forms: dict = {
            "new": lambda: (self.reg(), self.kind()), "knew": lambda: (self.reg(), self.kind()),
            "store": lambda: (self.reg(), self.at(), self.reg()), "load": lambda: (self.reg(), self.reg(), self.at()),
            "move": lambda: (self.reg(), self.reg()), "drop": lambda: (self.reg(),), "dir": lambda: (self.reg(),),
            "put": lambda: (self.reg(), self.at("int"), value), "get": lambda: (self.reg(), self.at("int")),
        }  # fmt: skip
        self.add(process, verb, *forms.get(verb, tuple)())

    def hand_over(self) -> None:
        """One process puts an object into the directory, and another takes it out."""
        giver, taker, at = self.process(), self.process(), self.at()
        held, found, root = self.reg(), self.reg(), self.reg()
        if self.header.shared and self.rng.random() < 0.4:
            shared = self.rng.choice(self.header.shared)
            self.add(giver, "share", shared)
            self.add(giver, "snew", held, shared, self.kind())
        elif self.rng.random() < 0.7:
            self.add(giver, self.rng.choice(("new", "knew")), held, self.kind())
        for process in (giver, taker):
            self.add(process, "dir", root)
            self.add(process, *(("store", root, at, held) if process == giver else ("load", found, root, at)))
        self.add(taker, *self.rng.choice((("get", found, 2), ("put", found, 2, 5), ("load", root, found, 0), ("store", found, 0, held))))

    def with_shared(self) -> None:
        """Some operation on a shared heap."""
        if self.header.shared:
            process, shared = self.process(), self.rng.choice(self.header.shared)
            verb = self.rng.choice(("share", "snew", "snew", "freeze", "attach", "attach"))
            forms = {"share": (shared,), "snew": (self.reg(), shared, self.kind()), "freeze": (shared, self.reg()), "attach": (self.reg(), shared)}
            self.add(process, verb, *forms[verb])

    def whole_shared(self) -> None:
        """A process populates a shared heap and freezes it, and others share it."""
        if self.header.shared:
            maker, shared, held = self.process(), self.rng.choice(self.header.shared), self.reg()
            self.add(maker, "share", shared)
            for _ in range(self.rng.randint(1, 4)):
                self.add(maker, "snew", held, shared, self.kind())
                self.add(maker, "store", held, self.at(), self.reg())
            self.add(maker, "freeze", shared, held)
            for _ in range(self.rng.randint(0, 2)):
                self.add(self.process(), "attach", self.reg(), shared)

    def finish(self) -> None:
        """Drops registers and collects, and now and then lets every process end."""
        for process in self.header.processes:
            if self.rng.random() < 0.5:
                self.add(process, "drop", self.reg())
                self.add(process, self.rng.choice(("collect", "kcollect")))
        if self.rng.random() < 0.4:
            for process in self.rng.sample(self.header.processes, len(self.header.processes)):
                self.add(process, "exit")


class _Governing(_Operations):
    """The same with the operations of version 2. A replay of what was written so far tells who lives and what is used at the limits."""

    def __init__(self, rng: random.Random, header: _Header) -> None:
        super().__init__(rng, header)
        setup = read_trace(Text("the header", header.lines)).setup
        self.names, self.replay = NameTable(setup), Replay(Trace(setup, []))
        self.state, self.setup = self.replay.state, setup

    def add(self, process: str, *words: object) -> None:
        """Writes an operation; after its process was killed only now and then, since such a line gives no event."""
        count = len(self.lines)
        if process in self.over or not self.state.ended[self.header.processes.index(process)] or self.rng.random() < 0.1:
            super().add(process, *words)
        for line in self.lines[count:]:
            self.replay.take(self.names.operation(line))

    def above(self, limit: int) -> List[int]:
        """The processes that live and may kill and resize at a limit."""
        rows = enumerate(self.setup.processes)
        return [each for each, row in rows if not self.state.ended[each] and rules.is_below(self.state, limit, row.limit)]

    def kill(self) -> None:
        """A process ends another one that lives, if there is one below; else, and now and then, any kill."""
        rows = self.setup.processes
        pairs = [(by, of) for of, row in enumerate(rows) if not self.state.ended[of] for by in self.above(row.limit)]
        again = [(by, of) for of, row in enumerate(rows) if self.state.ended[of] for by in self.above(row.limit)]
        chance = self.rng.random()
        chosen = pairs if chance < 0.5 else again if chance < 0.7 else []
        by, of = self.rng.choice(chosen) if chosen else (self.rng.randrange(len(rows)), self.rng.randrange(len(rows)))
        self.add(rows[by].name, "kill", rows[of].name)

    def room(self, limit: int) -> int:
        """By how much a limit can grow."""
        row, use = self.setup.limits[limit], rules.uses(self.state)
        path = rules.path(self.state, row.parent) if row.hard else ()
        return min((self.state.maxima[at] - use[at] for at in path), default=MAXIMA)

    def resize(self) -> None:
        """A limit gets another maximum: what is used there, all that its parent has, one byte less or more, or another number."""
        limit = self.rng.randrange(len(self.setup.limits))
        used, now, room = rules.uses(self.state)[limit], self.state.maxima[limit], self.room(limit)
        exact = (used, used - 1, used + 40, now, now + 40, now + room, now + room + 1, now + room // 2)
        maximum = self.rng.choice((0, 40, MAXIMA - 1, *exact))
        able = self.above(limit)
        by = self.rng.choice(able) if able and self.rng.random() < 0.8 else self.rng.randrange(len(self.setup.processes))
        self.add(self.header.processes[by], "resize", self.setup.limits[limit].name, min(max(maximum, 0), MAXIMA - 1))

    def until_it_fits(self) -> None:
        """What was refused for want of room, and what the limit gets more then."""
        by = self.rng.choice([each for each, ended in enumerate(self.state.ended) if not ended] or [0])
        name, limit = self.header.processes[by], self.setup.processes[by].limit
        for _ in range(self.rng.randint(1, 4)):
            self.add(name, "new", self.reg(), self.kind())
        for at in list(rules.path(self.state, limit)):
            for one in self.rng.sample(self.above(at), min(1, len(self.above(at)))):
                self.add(self.header.processes[one], "resize", self.setup.limits[at].name, min(self.state.maxima[at] + 40, MAXIMA - 1))
        self.add(name, "new", self.reg(), self.kind())

    def orphan(self) -> None:
        """A process ends that populates a shared heap, or that alone shares it; then the kernel takes the heap over."""
        self.whole_shared()
        sharers = [process for process, _ in self.state.shares if self.above(self.setup.processes[process].limit)]
        for process in sharers[: self.rng.randint(1, 2)]:
            able = self.above(self.setup.processes[process].limit)
            if able:
                self.add(self.header.processes[self.rng.choice(able)], "kill", self.header.processes[process])
        self.add(self.process(), "kcollect")

    def kill_all(self) -> None:
        """Whoever may ends all others, and then itself, so that the run is closed."""
        if self.rng.random() < 0.3:
            by = self.process()
            for process in self.rng.sample(self.header.processes, len(self.header.processes)):
                self.add(by, "kill", process)
            for process in self.header.processes:
                self.add(process, "exit")

    def govern(self) -> None:
        """Any act of version 2."""
        self.rng.choices((self.kill, self.resize, self.until_it_fits, self.orphan), (4, 8, 1, 1))[0]()


_VERBS = "new knew store load move drop dir put get collect kcollect exit".split()
_WEIGHTS = (22, 6, 22, 10, 5, 7, 5, 5, 5, 5, 4, 0.6)


def _nothing() -> None:
    """What traces of version 1 have in place of an act of version 2."""


def random_trace(seed: int, version: int = 1) -> str:
    """The trace of a seed, the same one each time."""
    rng = random.Random(seed)
    header = _header(rng, version)
    operations = _Operations(rng, header) if version == 1 else _Governing(rng, header)
    govern = operations.govern if isinstance(operations, _Governing) else _nothing
    acts: Tuple[Callable[[], None], ...] = (
        operations.one, operations.hand_over, operations.with_shared, operations.whole_shared, govern,
    )  # fmt: skip
    for _ in range(rng.choice(SIZES)):
        rng.choices(acts, (20, 1.5, 2, 0.7, 1.5 if version == 1 else 4))[0]()
    operations.finish()
    if isinstance(operations, _Governing):
        operations.kill_all()
    return "\n".join(header.lines + operations.lines) + "\n"


def random_traces(seed: int, count: int, version: int = 1) -> Iterator[Tuple[int, str]]:
    """So many traces, each with its seed."""
    for number in range(seed, seed + count):
        yield number, random_trace(number, version)
