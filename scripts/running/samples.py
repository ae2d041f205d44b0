"""Judges the output of a watched run, the report and the samples after it, by the model of the machine."""
from __future__ import annotations

from typing import Dict, List, Set, Tuple

from showing import judging, rules, words
from showing.reading import Sample
from showing.state import State
from showing.trace import Trace
from showing.words import BadInput, Text

from .program import Wrong


def parts(output: str, count: int) -> Tuple[str, List[Sample]]:
    """The report and the samples of a run with so many samples, and one more; raises Wrong where they are not so many, or there are none."""
    lines = output.split("\n")
    if lines.pop() != "" or "end" not in lines:
        raise Wrong("the output is cut off")
    first = lines.index("end") + 1
    head, *rest = lines[first:] or [""]
    if head != "samples" or not rest or rest.pop() != "end":
        raise Wrong("after the report there is no whole section of samples")
    if len(rest) != count + 1:
        raise Wrong(f"there are {len(rest)} samples, and not {count + 1}")
    return "\n".join(lines[:first]) + "\n", [_sample(line) for line in rest]


def _sample(line: str) -> Sample:
    head, *rest = line.split(" ")
    numbers = [each for each in map(words.number, rest) if each is not None]
    if head != "sample" or len(rest) != 3 or len(numbers) != 3:
        raise Wrong(f"'{line}' is no sample")
    return Sample(*numbers)


def shown(events: int, state: State) -> Sample:
    """The sample of a state that comes after so many events."""
    return Sample(events, rules.uses(state)[0], state.ended.count(False))


def journal(trace: Trace, report: str, wanted: Set[int]) -> Tuple[int, Dict[int, Sample]]:
    """The number of events of a report, and the samples after the wanted numbers of them; raises Wrong where it is no report of the trace."""
    count, found = 0, {0: shown(0, State(trace.setup))}
    try:
        for count, (_, state) in enumerate(judging.judged(trace, Text("the report", report.splitlines())), 1):
            if count in wanted:
                found[count] = shown(count, state)
    except BadInput as bad:
        raise Wrong(f"by the model it is no report of the trace: {bad}") from None
    return count, found


def judge(trace: Trace, output: str, count: int) -> Tuple[str, int, List[Sample]]:
    """The report of a watched run, the number of its events, and its samples; raises Wrong where one of them is not on its journal."""
    report, samples = parts(output, count)
    events, true = journal(trace, report, {sample.events for sample in samples})
    before = 0
    for at, sample in enumerate(samples, 1):
        if sample.events > events:
            raise Wrong(f"sample {at} has {sample.events} events, and the journal {events}")
        if sample.events < before:
            raise Wrong(f"sample {at} goes back from {before} events to {sample.events}")
        if sample != true[sample.events]:
            _, root, living = true[sample.events]
            what = f"sample {at} has use {sample.root} and {sample.living} living processes after {sample.events} events"
            raise Wrong(f"{what}; there it is {root} and {living}")
        before = sample.events
    if before != events:
        raise Wrong(f"the last sample has {before} events, and the journal {events}")
    return report, events, samples
