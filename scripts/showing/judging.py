"""Reads the report of a trace: each event is looked at in its place, and the rest is compared with what the events leave."""
from __future__ import annotations

from typing import Iterator, List, Optional, Tuple

from . import effects, replies, report, rules
from .effects import Freed
from .history import Event, step
from .rules import KERNEL
from .state import State
from .trace import NameTable, Operation, Trace
from .words import NUMBERS, SERIALS, BadInput, Text, number


def read_event(names: NameTable, line: str) -> Event:
    """The event that a line of a report spells; raises BadInput with the reason alone."""
    words = line.split(" ")
    if line == "closing":
        return Event("closing")
    if words[0] == "absorbed" and len(words) == 2:
        return Event("absorbed", heap=names.setup.heap_of_shared(names.find("shared heap", words[1])))
    if words[0] == "ended" and len(words) == 6:
        heap = names.segments.get(words[1])
        counts = [number(word, NUMBERS if at == 1 else SERIALS) for at, word in enumerate(words[2:])]
        known = [count for count in counts if count is not None]
        if heap is None or names.setup.shared_of(heap) is not None or len(known) < len(counts):
            raise BadInput("a line 'ended' names the kernel or a process and four numbers")
        return Event("ended", heap=heap, freed=Freed(*known))
    before, equals, reply = line.partition(" = ")
    if not equals:
        raise BadInput(f"'{line}' is no event of a report")
    return Event("done", names.operation(before), reply)


class Judge:
    """Takes the events of a report one after the other, and says where one is not what the machine does."""

    def __init__(self, trace: Trace) -> None:
        self.state = State(trace.setup)
        self.left: List[List[Operation]] = [[] for _ in trace.setup.processes]
        for operation in reversed(trace.operations):
            self.left[operation.process].append(operation)

    def why_not(self, event: Event) -> Optional[str]:
        """Why an event is not possible here, where it is not."""
        if event.operation is not None:
            return self._why_not_done(event.operation, event.reply)
        if event.kind == "ended":
            return self._why_not_ended(event)
        if KERNEL in self.state.scans:
            return "the kernel's heap is being collected"
        if event.kind == "absorbed":
            orphan = rules.is_orphan(self.state, self.state.setup.shared_of(event.heap) or 0)
            return None if orphan else "that shared heap is not one that was made and that nobody shares"
        if self.state.closed or not all(self.state.ended) or rules.orphans(self.state):
            return "the last collection opens once, when every process has ended and no shared heap waits for the kernel"
        return None

    def why_not_whole(self, events: List[Event]) -> Optional[str]:
        """Why a report cannot end after these events, where it cannot."""
        for process, left in enumerate(self.left):
            if left and not self.state.ended[process]:
                return f"the operation '{left[-1].text}' of the trace was not done"
        if self.state.scans:
            return f"the collection of {self.state.setup.segments[min(self.state.scans)]} has not ended"
        closed = [event.kind for event in events[-2:]] == ["closing", "ended"] and not rules.orphans(self.state)
        return "every process has ended, and the last collection is missing" if all(self.state.ended) and not closed else None

    def take(self, event: Event) -> None:
        """Does an event that is possible."""
        if event.operation is not None:
            self.left[event.operation.process].pop()
        step(self.state, event)

    def _why_not_done(self, operation: Operation, reply: str) -> Optional[str]:
        name, left = self.state.setup.processes[operation.process].name, self.left[operation.process]
        if self.state.ended[operation.process]:
            return f"the process {name} has ended before"
        if not left or left[-1].text != operation.text:
            return f"the trace's next operation of {name} is {_quoted(left[-1].text) if left else 'none'}"
        scanned = [heap for heap in effects.touched(self.state, operation) if heap in self.state.scans]
        if scanned:
            return f"the heap {self.state.setup.segments[scanned[0]]} is being collected"
        if operation.verb == "kcollect" and rules.orphans(self.state):
            return "a shared heap that nobody shares must be absorbed first"
        answer = replies.answer(self.state, operation)
        return None if answer == reply else f"the machine answers {_quoted(answer)}"

    def _why_not_ended(self, event: Event) -> Optional[str]:
        if event.heap not in self.state.scans:
            return "no collection of that heap is open"
        counts = effects.sweep_of(self.state, event.heap).freed
        return None if counts == event.freed else f"the machine frees {' '.join(map(str, counts))}"


def _quoted(text: str) -> str:
    return f"'{text}'"


def judged(trace: Trace, text: Text) -> Iterator[Tuple[Event, State]]:
    """Each event of a trace's report with the state after it, which is one object that goes on changing.

    Raises BadInput at the first line that is not as the machine leaves it.
    """
    if not text.lines or text.lines[0] != "report 1":
        raise text.bad(1, "a report begins with the line 'report 1'")
    judge, names, events = Judge(trace), NameTable(trace.setup), []
    for at, line in enumerate(text.lines[1:], 2):
        if line == "graph":
            why = judge.why_not_whole(events)
            if why:
                raise text.bad(at, why)
            _compare(text, at, report.ending(judge.state))
            return
        try:
            event = read_event(names, line)
        except BadInput as bad:
            raise text.bad(at, f"{bad}; is this the report of another trace, or cut off?") from None
        why = judge.why_not(event)
        if why:
            raise text.bad(at, f"'{line}' is not what happens there: {why}; is this the report of another trace?")
        judge.take(event)
        events.append(event)
        yield event, judge.state
    raise text.bad(len(text.lines) + 1, "the report ends before its line 'graph'")


def read_history(trace: Trace, text: Text) -> List[Event]:
    """The events of a trace's report; raises BadInput at the first line that is not as the machine leaves it."""
    return [event for event, _ in judged(trace, text)]


def _compare(text: Text, first: int, wanted: List[str]) -> None:
    """Raises BadInput where the lines from one on are not the wanted ones."""
    for at, want in enumerate(wanted, first):
        if at > len(text.lines):
            raise text.bad(at, f"the report ends here; '{want}' is missing")
        if text.lines[at - 1] != want:
            raise text.bad(at, f"'{text.lines[at - 1]}' is not what the events leave, which is '{want}'")
    if len(text.lines) >= first + len(wanted):
        raise text.bad(first + len(wanted), "there is a line after the report's end")
