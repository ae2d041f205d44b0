"""Events, the states between them, and the history of a trace in the order of its file."""
from __future__ import annotations

from dataclasses import dataclass
from typing import Iterable, Iterator, List, Optional, Tuple

from . import effects, replies, rules
from .effects import Freed
from .rules import KERNEL
from .state import State
from .trace import Operation, Setup, Trace


@dataclass(frozen=True)
class Event:
    """One event: 'done' with an operation and its reply, 'ended' with a heap, 'absorbed' with a shared heap, or 'closing'."""

    kind: str
    operation: Optional[Operation] = None
    reply: str = ""
    heap: int = KERNEL  # of 'ended' and 'absorbed'
    freed: Freed = Freed()

    def line(self, setup: Setup) -> str:
        """The event's line in the report."""
        if self.operation is not None:
            return f"{self.operation.text} = {self.reply}"
        if self.kind == "ended":
            return " ".join(["ended", setup.segments[self.heap], *map(str, self.freed)])
        return "closing" if self.kind == "closing" else f"absorbed {setup.segments[self.heap]}"

    @property
    def refused(self) -> bool:
        return self.reply.startswith("fault ")


def step(state: State, event: Event) -> None:
    """Does an event that is possible; the state notes the changes of this event alone."""
    state.changes.clear()
    if event.operation is not None:
        effects.operate(state, event.operation, event.reply)
    elif event.kind == "ended":
        effects.end_collection(state, event.heap)
    elif event.kind == "absorbed":
        effects.absorb(state, state.setup.shared_of(event.heap) or 0)
    else:
        effects.close(state)


class Replay:
    """Does a trace's operations in the order of the file, each with the events that belong to it."""

    def __init__(self, trace: Trace) -> None:
        self.trace = trace
        self.state = State(trace.setup)
        self.events: List[Event] = []
        for operation in trace.operations:
            self.take(operation)
        if all(self.state.ended):
            self._absorb_orphans()
            self._add(Event("closing"))
            self._end_collection(KERNEL)

    def take(self, operation: Operation) -> None:
        """Does one operation more, unless its process has ended."""
        if not self.state.ended[operation.process]:
            self._operate(operation)

    def _add(self, event: Event) -> None:
        step(self.state, event)
        self.events.append(event)

    def _operate(self, operation: Operation) -> None:
        if operation.verb == "kcollect":
            self._absorb_orphans()
        self._add(Event("done", operation, replies.answer(self.state, operation)))
        if operation.verb == "collect":
            self._end_collection(self.trace.setup.heap_of_process(operation.process))
        elif operation.verb == "kcollect":
            self._end_collection(KERNEL)

    def _absorb_orphans(self) -> None:
        for shared in rules.orphans(self.state):
            self._add(Event("absorbed", heap=self.trace.setup.heap_of_shared(shared)))

    def _end_collection(self, heap: int) -> None:
        self.events.append(Event("ended", heap=heap, freed=effects.end_collection(self.state, heap)))


def states(setup: Setup, events: Iterable[Event]) -> Iterator[Tuple[Event, State]]:
    """Each event, and the state after it; the state is one object that goes on changing."""
    state = State(setup)
    for event in events:
        step(state, event)
        yield event, state


def state_after(setup: Setup, events: Iterable[Event]) -> State:
    """The state after some events."""
    state = State(setup)
    for event in events:
        step(state, event)
    return state
