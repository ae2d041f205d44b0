"""The verdict on a snapshot over a header, by the grammar and the points of docs/FORMATS.md: what `audit` has to answer."""
from __future__ import annotations

import re
from typing import List, Optional, Tuple

from . import rules, words
from .state import DIRECTORY, Body, Phase, State, Value
from .trace import Setup
from .words import Name

CLAIMS_BELOW = words.NUMBERS


class _Wrong(Exception):
    """The line of this number does not fit, or is missing."""


class _Reader:
    """Reads a snapshot line by line into a state, and keeps what the text claims beside it."""

    def __init__(self, setup: Setup, text: str) -> None:
        *self.lines, self.rest = text.split("\n")
        self.setup, self.state, self.at = setup, State(setup), 0
        self.state.free(DIRECTORY)
        self.owners: List[Tuple[Name, int]] = []
        self.numbers: List[int] = []  # of the charges, but for the maxima

    def wrong(self) -> _Wrong:
        return _Wrong(self.at)

    def next(self) -> str:
        self.at += 1
        if self.at > len(self.lines):
            raise self.wrong()
        return self.lines[self.at - 1]

    def until(self, heading: str) -> List[str]:
        """The words of the next line, or none where it is the heading."""
        line = self.next()
        return [] if line == heading else line.split(" ")

    def expect(self, line: str) -> None:
        if self.next() != line:
            raise self.wrong()

    def number(self, word: str, below: int) -> int:
        found = words.number(word)
        if found is None or found >= below:
            raise self.wrong()
        return found

    def among(self, names: List[str], word: str) -> int:
        if word not in names:
            raise self.wrong()
        return names.index(word)

    def name(self, word: str) -> Name:
        segment, dot, serial = word.partition(".")
        found = Name(self.among(self.setup.segments, segment), self.number(serial, words.SERIALS))
        if not dot or found.serial == 0:
            raise self.wrong()
        return found

    def parts(self, found: List[str], count: int) -> List[str]:
        if len(found) != count:
            raise self.wrong()
        return found

    def after(self, last: Optional[tuple], this: tuple) -> tuple:
        """The place of a line, which has to come after the last one's."""
        if last is not None and this <= last:
            raise self.wrong()
        return this

    # ---- the sections

    def gone(self) -> None:
        last = None
        while (found := self.until("made")):
            self.parts(found, 2)
            if found[0] != "gone":
                raise self.wrong()
            process = self.among([it.name for it in self.setup.processes], found[1])
            last = self.after(last, (process,))
            self.state.ended[process] = True

    def made(self) -> None:
        for segment, name in enumerate(self.setup.segments):
            word, count = self.parts(self.next().split(" "), 2)
            if word != name:
                raise self.wrong()
            self.state.made[segment] = self.number(count, words.SERIALS)

    def field(self, kind: str, word: str) -> Value:
        if kind == "int":
            return self.number(word, words.NUMBERS)
        return None if word == "null" else self.name(word)

    def graph(self) -> None:
        last = None
        while (found := self.until("roots")):
            if len(found) < 3:
                raise self.wrong()
            name = self.name(found[0])
            owner = self.among(self.setup.segments, found[1])
            kind = None
            kinds: List[str] = ["ref"] * self.setup.directory_fields
            if found[2] != "directory":
                kind = self.among([it.name for it in self.setup.types], found[2])
                kinds = list(self.setup.types[kind].kinds)
            if (kind is None) != (name == DIRECTORY) or len(found) != 3 + len(kinds):
                raise self.wrong()
            last = self.after(last, name)
            self.state.objects[name.segment][name.serial] = Body(kind, [self.field(*it) for it in zip(kinds, found[3:])])
            self.state.bytes[name.segment] += words.size_of(len(kinds))
            self.owners.append((name, owner))

    def roots(self) -> None:
        last = None
        while (found := self.until("exits")):
            holder, register, name = self.parts(found, 3)
            process = self.among([it.name for it in self.setup.processes], holder)
            number = self.among([f"r{it}" for it in range(words.REGISTERS)], register)
            last = self.after(last, (process, number))
            self.state.registers[process][number] = self.name(name)

    def exits(self) -> None:
        last = None
        while (found := self.until("shares")):
            heap, target = self.parts(found, 2)
            place = (self.among(self.setup.segments, heap), self.name(target))
            last = self.after(last, place)
            self.state.exits[place[0]][place[1]] = None

    def shares(self) -> None:
        last = None
        while (found := self.until("charges")):
            process, heap = self.parts(found, 2)
            share = (self.among([it.name for it in self.setup.processes], process), self.among(self.setup.shared, heap))
            last = self.after(last, share)
            self.state.shares[share] = None

    def claimed(self, form: str) -> List[str]:
        """The words of the next line in the places of the form's `_`; the others are as the form has them."""
        found, wanted = self.next().split(" "), form.split(" ")
        if len(found) != len(wanted) or any(it not in ("_", word) for it, word in zip(wanted, found)):
            raise self.wrong()
        return [word for it, word in zip(wanted, found) if it == "_"]

    def phase(self, found: List[str]) -> Phase:
        if found in (["unmade"], ["absorbed"]):
            return Phase(found[0])
        self.parts(found, 2)
        if found[0] == "populating":
            return Phase("populating", self.among([it.name for it in self.setup.processes], found[1]))
        if found[0] == "frozen":
            return Phase("frozen", None, self.name(found[1]))
        raise self.wrong()

    def charges(self) -> None:
        self.numbers += [self.number(word, CLAIMS_BELOW) for word in self.claimed("kernel _ of _")]
        for at, limit in enumerate(self.setup.limits):
            use, maximum = self.claimed(f"limit {limit.name} _ of _")
            self.numbers.append(self.number(use, CLAIMS_BELOW))
            self.state.maxima[at] = self.number(maximum, words.MAXIMA)
        for process in self.setup.processes:
            self.numbers += [self.number(word, CLAIMS_BELOW) for word in self.claimed(f"process {process.name} _")]
        for at, name in enumerate(self.setup.shared):
            found = self.next().split(" ")
            if found[:2] != ["shared", name] or len(found) < 4:
                raise self.wrong()
            self.numbers.append(self.number(found[2], CLAIMS_BELOW))
            self.state.phases[at] = self.phase(found[3:])

    def read(self) -> None:
        """Reads all sections in their order, to the end of the text."""
        self.expect("snapshot 1")
        for section in (self.gone, self.made, lambda: self.expect("graph"), self.graph, self.roots, self.exits, self.shares, self.charges):
            section()
        self.expect("end")
        if self.at < len(self.lines) or self.rest:
            raise _Wrong(self.at + 1)


def _references(state: State) -> List[Tuple[Name, Name]]:
    return [(name, value) for name, body in state.all_objects() for value in body.fields if isinstance(value, Name)]


def _named(state: State) -> bool:
    return all(name.serial <= state.made[name.segment] for name, _ in state.all_objects())


def _none_dangles(state: State) -> bool:
    held = [name for registers in state.registers for name in registers if name is not None]
    exits = [name for targets in state.exits for name in targets]
    roots = [phase.root for phase in state.phases if phase.root is not None]
    return all(state.body(name) is not None for name in [DIRECTORY, *held, *exits, *roots, *(to for _, to in _references(state))])


def _guarded(state: State) -> bool:
    for source, target in _references(state):
        heap, into = rules.owner(state, source.segment), rules.owner(state, target.segment)
        if not rules.is_legal(state, heap, into) or (heap != into and target not in state.exits[heap]):
            return False
    return True


def _exits_leave(state: State) -> bool:
    found = [(heap, rules.owner(state, name.segment)) for heap, targets in enumerate(state.exits) for name in targets]
    return all(heap != into and rules.is_legal(state, heap, into) for heap, into in found)


def _nothing_left(state: State) -> bool:
    for process, ended in enumerate(state.ended):
        shares = any(sharer == process for sharer, _ in state.shares)
        if ended and (shares or any(state.registers[process]) or state.exits[state.setup.heap_of_process(process)]):
            return False
    absorbed = [shared for shared, phase in enumerate(state.phases) if phase.kind == "absorbed"]
    return not any(state.exits[state.setup.heap_of_shared(it)] or any(each == it for _, each in state.shares) for it in absorbed)


def _phases_fit(state: State) -> bool:
    for shared, phase in enumerate(state.phases):
        heap = state.setup.heap_of_shared(shared)
        sharers = [sharer for sharer, each in state.shares if each == shared]
        if phase.kind == "unmade" and (sharers or state.objects[heap]):
            return False
        if phase.process is not None and (any(it != phase.process for it in sharers) or not (sharers or state.ended[phase.process])):
            return False
        if phase.root is not None and rules.owner(state, phase.root.segment) != heap:
            return False
    return True


def _uses_fit(state: State) -> bool:
    return all(use <= maximum for use, maximum in zip(rules.uses(state), state.maxima))


def _claims_are_so(reader: _Reader) -> bool:
    state, setup = reader.state, reader.setup
    numbers = [rules.heap_bytes(state, rules.KERNEL), setup.ceiling, *rules.uses(state)]
    numbers += [rules.charge(state, process) for process in range(len(setup.processes))]
    numbers += [rules.shared_bytes(state, shared) for shared in range(len(setup.shared))]
    return numbers == reader.numbers and all(rules.owner(state, name.segment) == owner for name, owner in reader.owners)


def verdict(setup: Setup, text: str) -> str:
    """The verdict that the text deserves over the header, as `audit` writes it."""
    reader = _Reader(setup, text)
    try:
        reader.read()
    except _Wrong as wrong:
        return f"refused {wrong}"
    points = (_named, _none_dangles, _guarded, _exits_leave, _nothing_left, _phases_fit, _uses_fit)
    for number, holds in enumerate(points, 1):
        if not holds(reader.state):
            return f"unsound {number}"
    return "sound" if _claims_are_so(reader) else "unsound 8"


def parts(text: str) -> Tuple[str, str]:
    """The trace part of an input, and the snapshot, which begins at the first line `snapshot 1`."""
    found = re.search(r"^snapshot 1$", text, re.M)
    return (text[: found.start()], text[found.start() :]) if found else (text, "")
