"""Reads what a report or a snapshot shows by itself: the state at its end, as far as it can be known without the trace."""
from __future__ import annotations

from typing import Dict, List, NamedTuple, Optional, Tuple

from . import words
from .state import Body, Phase, State, Value
from .trace import Limit, NameTable, ObjectType, Process, Setup
from .words import BadInput, Name, Text

REPORT = ("graph", "roots", "exits", "shares", "faults", "charges", "end")
SNAPSHOT = ("made", "graph", "roots", "exits", "shares", "charges", "end")


class Ending(NamedTuple):
    """The state at the end, and the use of each limit as it is written there."""

    state: State
    uses: List[int]
    lines: List[str]  # of the events


class _Line(NamedTuple):
    """A line of a section, by its number, as words."""

    at: int
    words: List[str]


def _sections(text: Text, heads: Tuple[str, ...]) -> Tuple[List[_Line], Dict[str, List[_Line]]]:
    """The lines before the first section, and those of each section."""
    before: List[_Line] = []
    found: Dict[str, List[_Line]] = {}
    into, waiting = before, list(heads)
    for at, line in enumerate(text.lines[1:], 2):
        if waiting and line == waiting[0]:
            into = found[waiting.pop(0)] = []
        elif not waiting:
            raise text.bad(at, "there is a line after the end")
        else:
            into.append(_Line(at, line.split(" ")))
    if waiting:
        raise text.bad(len(text.lines) + 1, f"the text ends before its line '{waiting[0]}'; is it cut off?")
    return before, found


def _setup(text: Text, charges: List[_Line]) -> Tuple[Setup, List[int], List[_Line]]:
    """What the section of charges shows of the header; the uses; and the lines of shared heaps."""
    setup, use, shared = Setup(), [], []
    for line in charges:
        form = line.words[0] if len(line.words) > 1 else ""
        numbers = [words.number(word) for word in line.words[2 if form in ("limit", "process", "shared") else 1 :: 2]]
        wanted = {"kernel": 4, "limit": 5, "process": 3}.get(form, len(line.words))
        if form not in ("kernel", "limit", "process", "shared") or len(line.words) != wanted or numbers[:1] == [None]:
            raise text.bad(line.at, f"'{' '.join(line.words)}' is no line of charges")
        if form == "kernel":
            setup.ceiling = words.number(line.words[3]) or 0
        elif form == "limit":
            setup.limits.append(Limit(line.words[1], None, False, words.number(line.words[4]) or 0))
            use.append(numbers[0] or 0)
        elif form == "process":
            setup.processes.append(Process(line.words[1], -1))
        else:
            setup.shared.append(line.words[1])
            shared.append(line)
    if not setup.limits or not setup.processes:
        raise BadInput(f"{text.source}: its charges name no limit or no process")
    return setup, use, shared


class _Reader:
    """Fills a state from the sections of a text."""

    def __init__(self, text: Text, heads: Tuple[str, ...]) -> None:
        self.text = text
        self.before, self.sections = _sections(text, heads)
        self.setup, self.uses, self.shared = _setup(text, self.sections["charges"])
        self.state = State(self.setup)
        self.state.free(Name(0, 1))
        self.names = NameTable(self.setup)

    def name(self, line: _Line, word: str) -> Name:
        found = self.names.object_name(word)
        if found is None:
            raise self.text.bad(line.at, f"'{word}' is no name of an object")
        return found

    def find(self, line: _Line, kind: str, word: str) -> int:
        try:
            return self.names.find(kind, word)
        except BadInput as bad:
            raise self.text.bad(line.at, str(bad)) from None

    def expect(self, line: _Line, count: int) -> None:
        if len(line.words) != count:
            raise self.text.bad(line.at, f"'{' '.join(line.words)}' does not have {count} words")

    def graph(self) -> None:
        """The objects, whose fields show the kinds of their types, and the owners of segments."""
        numbers: Dict[str, int] = {}
        for line in self.sections["graph"]:
            if len(line.words) < 3:
                raise self.text.bad(line.at, f"'{' '.join(line.words)}' is no object")
            name, fields = self.name(line, line.words[0]), [self.field(line, word) for word in line.words[3:]]
            kind = line.words[2]
            if kind != "directory" and kind not in numbers:
                numbers[kind] = len(numbers)
                kinds = tuple("int" if isinstance(each, int) else "ref" for each in fields)
                self.setup.types.append(ObjectType(kind, kinds))
            self.state.objects[name.segment][name.serial] = Body(numbers.get(kind), fields)
            self.state.bytes[name.segment] += words.size_of(len(fields))
            self.state.made[name.segment] = max(self.state.made[name.segment], name.serial)
            process = self.setup.process_of(name.segment)
            if line.words[1] == "kernel" and process is not None:
                self.state.ended[process] = True

    def field(self, line: _Line, word: str) -> Value:
        value = words.number(word)
        return value if value is not None else None if word == "null" else self.name(line, word)

    def holders(self) -> None:
        """Registers, exit items and shares."""
        for line in self.sections["roots"]:
            self.expect(line, 3)
            register = self.find(line, "register", line.words[1])
            self.state.registers[self.find(line, "process", line.words[0])][register] = self.name(line, line.words[2])
        for line in self.sections["exits"]:
            self.expect(line, 2)
            if line.words[0] not in self.names.segments:
                raise self.text.bad(line.at, f"'{line.words[0]}' is no heap")
            self.state.exits[self.names.segments[line.words[0]]][self.name(line, line.words[1])] = None
        for line in self.sections["shares"]:
            self.expect(line, 2)
            share = (self.find(line, "process", line.words[0]), self.find(line, "shared heap", line.words[1]))
            self.state.shares[share] = None

    def phases(self) -> None:
        for number, line in enumerate(self.shared):
            kind, *rest = line.words[3:] or [""]
            if len(rest) != {"unmade": 0, "absorbed": 0, "populating": 1, "frozen": 1}.get(kind, -1):
                raise self.text.bad(line.at, f"'{' '.join(line.words)}' has no phase")
            process = self.find(line, "process", rest[0]) if kind == "populating" else None
            self.state.phases[number] = Phase(kind, process, self.name(line, rest[0]) if kind == "frozen" else None)

    def look_up(self) -> None:
        """Raises where something leads to no object: then a part of the text is missing."""
        state = self.state
        held = [name for registers in state.registers for name in registers]
        exits = [name for targets in state.exits for name in targets]
        fields = [value for _, body in state.all_objects() for value in body.fields]
        for name in [*held, *exits, *fields]:
            if isinstance(name, Name) and state.body(name) is None:
                missing = f"{self.setup.segments[name.segment]}.{name.serial}"
                raise BadInput(f"{self.text.source}: something leads to {missing}, which is not in the graph")


def _heard(reader: _Reader, line: _Line) -> None:
    """What an event line shows that the sections do not: who ended, refused operations, and the serials that were given."""
    parts, state, names = line.words, reader.state, reader.names
    verb = parts[1] if len(parts) > 1 else ""
    made = names.object_name(parts[-1]) if verb in ("new", "knew", "snew") else None
    if made is not None:
        state.made[made.segment] = max(state.made[made.segment], made.serial)
    ended: Optional[str] = parts[0] if parts[1:] == ["exit", "=", "ok"] else None
    if verb == "kill" and parts[-1] == "ok":
        ended = parts[2]
    if ended is not None and ended in names.of["process"]:
        state.ended[names.of["process"][ended]] = True


def read_report(text: Text) -> Ending:
    """What a report shows at its end."""
    reader = _Reader(text, REPORT)
    reader.graph()
    reader.holders()
    reader.phases()
    reader.look_up()
    for line in reader.before:
        _heard(reader, line)
    for number, line in enumerate(reader.sections["faults"]):
        reader.expect(line, 2)
        if number < len(reader.state.faults):
            reader.state.faults[number] = words.number(line.words[1]) or 0
    return Ending(reader.state, reader.uses, [" ".join(line.words) for line in reader.before])


def read_snapshot(text: Text) -> Ending:
    """What a snapshot shows."""
    reader = _Reader(text, SNAPSHOT)
    for line in reader.before:
        self_gone = line.words[0] == "gone" and len(line.words) == 2
        if not self_gone:
            raise text.bad(line.at, f"'{' '.join(line.words)}' is no line of a snapshot")
        reader.state.ended[reader.find(line, "process", line.words[1])] = True
    reader.graph()
    reader.holders()
    reader.phases()
    reader.look_up()
    for segment, line in enumerate(reader.sections["made"]):
        reader.expect(line, 2)
        if segment < len(reader.state.made):
            reader.state.made[segment] = words.number(line.words[1]) or 0
    return Ending(reader.state, reader.uses, [])
