"""Reads what the commands are given: a trace, a report, both, or a snapshot, from files or from standard input."""
from __future__ import annotations

import sys
from dataclasses import dataclass, field
from typing import Dict, Iterator, List, NamedTuple, Optional, Sequence, Tuple

from . import ending, history, judging, rules, words
from .ending import Ending
from .history import Event
from .state import State
from .trace import Setup, Trace, read_trace
from .words import BadInput, Text

FIRST_LINES = {"kaffe 1": "trace", "kaffe 2": "trace", "report 1": "report", "snapshot 1": "snapshot"}
WHAT = {"trace": "the trace", "report": "the report", "snapshot": "the snapshot"}


class Sample(NamedTuple):
    """What a watcher saw: how many events there were, the use of the root, and how many processes lived."""

    events: int
    root: int
    living: int


@dataclass
class Run:
    """A run: its events and the states between them, or only what a report or snapshot shows at its end."""

    title: str
    setup: Setup
    events: List[Event]
    lines: List[str]
    end: State
    end_uses: List[int]
    is_whole: bool  # whether the state after each event is known
    samples: List[Sample] = field(default_factory=list)

    def after(self, count: Optional[int]) -> State:
        """The state after so many events; without a number that at the end."""
        if count is None or (count == len(self.lines) and self.lines):
            return self.end
        if not self.is_whole:
            raise BadInput("the state after an event other than the last is known from the trace alone: give the trace and the report")
        if not 0 <= count <= len(self.events):
            raise BadInput(f"there are {len(self.events)} events, and {count} is not a number of them")
        return history.state_after(self.setup, self.events[:count])

    def states(self) -> Iterator[Tuple[Optional[Event], State]]:
        """The opening state, and then each event with the state after it; one object that goes on changing."""
        if not self.is_whole:
            raise BadInput("the states between the events are known from the trace alone: give the trace and the report")
        state = State(self.setup)
        yield None, state
        for event in self.events:
            history.step(state, event)
            yield event, state

    def uses(self, state: State) -> List[int]:
        """The use of each limit in a state."""
        return self.end_uses if not self.is_whole else rules.uses(state)


def _read(path: str) -> str:
    try:
        if path == "-":
            return sys.stdin.buffer.read().decode("latin-1")
        with open(path, "rb") as file:
            return file.read().decode("latin-1")
    except OSError as error:
        raise BadInput(f"{path}: {error.strerror}") from None


def _parts(path: str, text: str) -> Iterator[Tuple[str, Text]]:
    """The trace, report or snapshot in a file, or a trace and what follows it there."""
    source = "standard input" if path == "-" else path
    lines = text.split("\n")
    if lines[-1] == "":
        lines.pop()
    elif not lines[0].startswith("kaffe") or any(line in ("report 1", "snapshot 1") for line in lines):
        raise BadInput(f"{source}, line {len(lines)}: the last line has no line feed; is the text cut off?")
    starts = [at for at, line in enumerate(lines) if FIRST_LINES.get(line) and (at == 0 or not line.startswith("kaffe"))]
    if starts[:1] != [0]:
        first = lines[0][:40] if lines else ""
        raise BadInput(f"{source}, line 1: '{first}' begins no trace (kaffe 1), report (report 1) or snapshot (snapshot 1)")
    for start, end in zip(starts, [*starts[1:], len(lines)]):
        kind = FIRST_LINES[lines[start]]
        named = source if len(starts) == 1 else f"{WHAT[kind]} in {source}"
        yield kind, Text(named, lines[start:end])


def _given(paths: Sequence[str]) -> Dict[str, Text]:
    """The texts that the files hold, by kind."""
    found: Dict[str, Text] = {}
    for path in paths or ["-"]:
        for kind, text in _parts(path, _read(path)):
            if kind in found:
                raise BadInput(f"{text.source} is the second {kind}; one {kind} is read")
            found[kind] = text
    if "snapshot" in found and "report" in found:
        raise BadInput("a report and a snapshot were given; one of them is read")
    return found


def _cut_samples(text: Text) -> Tuple[Text, List[Sample]]:
    """A report without the section of samples or of work that a run writes after it, and these samples."""
    if "end" not in text.lines or text.lines.index("end") + 1 == len(text.lines):
        return text, []
    first = text.lines.index("end") + 1
    rest = text.lines[first:]
    if rest[0] not in ("samples", "work") or rest[-1] != "end":
        raise text.bad(first + 1, "after the report's end only a section 'samples' or 'work' may come, with its own line 'end'")
    if rest[0] == "work":
        return Text(text.source, text.lines[:first]), []
    samples = []
    for at, line in enumerate(rest[1:-1], first + 2):
        parts = line.split(" ")
        numbers = [words.number(word) for word in parts[1:]]
        known = [each for each in numbers if each is not None]
        if parts[0] != "sample" or len(known) != 3 or len(numbers) != 3:
            raise text.bad(at, f"'{line}' is no sample")
        samples.append(Sample(*known))
    return Text(text.source, text.lines[:first]), samples


def _check_samples(run: Run, source: str) -> None:
    """Raises where a sample is not what the run had after its events."""
    wanted = {sample.events: sample for sample in run.samples}
    for at, (_, state) in enumerate(run.states() if run.is_whole and wanted else []):
        seen = Sample(at, rules.uses(state)[0], state.ended.count(False)) if at in wanted else None
        if seen is not None and seen != wanted[at]:
            raise BadInput(f"{source}: after {at} events the root has {seen.root} and {seen.living} processes live, and a sample says otherwise")
    if any(sample.events > len(run.lines) for sample in run.samples):
        raise BadInput(f"{source}: a sample has more events than the report")


def _shown(source: str, end: Ending) -> Run:
    """A run of which only the end is known."""
    return Run(source, end.state.setup, [], end.lines, end.state, end.uses, False)


def _replayed(source: str, trace: Trace, events: Optional[List[Event]]) -> Run:
    """A run of a trace: of these events, or in the order of its file."""
    replay = history.Replay(trace) if events is None else None
    done = replay.events if replay is not None else events or []
    end = replay.state if replay is not None else history.state_after(trace.setup, done)
    lines = [event.line(trace.setup) for event in done]
    return Run(source, trace.setup, done, lines, end, rules.uses(end), True)


def read_run(paths: Sequence[str], quiet: bool = False) -> Run:
    """The run that the files show; raises BadInput with one sentence where they show none."""
    found = _given(paths)
    text, samples = _cut_samples(found["report"]) if "report" in found else (None, [])
    if "trace" not in found or "snapshot" in found:
        end = ending.read_report(text) if text is not None else ending.read_snapshot(found["snapshot"])
        run = _shown((text or found["snapshot"]).source, end)
    else:
        trace = read_trace(found["trace"])
        if text is None and not quiet:
            sys.stderr.write("show: no report was given, so these are the events in the order of the trace's file\n")
        run = _replayed(found["trace"].source, trace, None if text is None else judging.read_history(trace, text))
    run.samples = samples
    _check_samples(run, text.source if text is not None else "")
    return run
