"""What is run on one random trace, and what has to come of it."""
from __future__ import annotations

import tempfile
from collections import Counter
from typing import List, Tuple

from showing import history, report
from showing.random_traces import random_trace
from showing.trace import Trace, read_trace
from showing.words import Text

from . import samples, tables, waits
from .many import Case
from .program import Program, Wrong


def _trace(program: Program, case: Case, version: int) -> Tuple[str, Trace]:
    """The text and the trace of a case."""
    text = random_trace(case.seed, version)
    program.texts = {"kaffe": text}
    return text, read_trace(Text(f"the trace of seed {case.seed}", text.splitlines()))


def watched(program: Program, case: Case, version: int, count: int) -> Counter:
    """Watches one run of the case's trace. Each sample has to be on the journal, and the report to be good."""
    text, trace = _trace(program, case, version)
    output = program.done(["watch", str(count)], text)
    judged, events, seen = samples.judge(trace, output, count)
    program.check(text, judged)
    distinct = set(seen)
    between = sum(0 < sample.events < events for sample in distinct)
    return Counter(runs=1, events=events, samples=len(seen), distinct=len(distinct), between=between, caught=bool(between))


def unwatched(program: Program, case: Case, version: int) -> Counter:
    """Replays the case's trace, which has to give the model's report, and runs it so many times; each report has to be good."""
    text, trace = _trace(program, case, version)
    replay = history.Replay(trace)
    wanted = "\n".join(report.whole(replay.events, replay.state)) + "\n"
    output = program.done(["replay"], text)
    if output != wanted:
        program.texts["wanted"] = wanted
        raise Wrong("the report of replay is not the model's")
    reports = set()
    for _ in range(case.runs):
        output = program.done(["run"], text)
        if output not in reports:
            program.check(text, output)
            reports.add(output)
    return Counter(traces=1, runs=case.runs, events=case.runs * len(replay.events), reports=len(reports), others=len(reports - {wanted}))


def worked(program: Program, case: Case, version: int) -> Counter:
    """Runs the case's trace once. The table after the report has to be the model's for the run's own journal, and the report to be good."""
    text, trace = _trace(program, case, version)
    output = program.done(["work"], text)
    judged, collections = tables.judge(trace, output)
    program.check(text, judged)
    return Counter(runs=1, collections=collections, credited=bool(collections))


def _traced(program: Program, words: List[str], text: str) -> Tuple[str, waits.Run]:
    """What a run wrote, and its threads as strace saw them."""
    with tempfile.NamedTemporaryFile("r") as log:
        try:
            status, output = Program("strace").call(["-f", "-o", log.name, program.path, *words], text)
        except Wrong:
            raise Wrong(f"{words[0]} has not ended in time under strace") from None
        finally:
            program.texts["strace"] = log.read()
    program.texts[words[0]] = output
    if status != 0:
        raise Wrong(f"{words[0]} ended with status {status} under strace, and wrote '{output[:60].strip()}'")
    return output, waits.Run(program.texts["strace"].splitlines())


def waited(program: Program, case: Case, version: int, count: int, sanitized: bool) -> Counter:
    """Watches one run of the case's trace under strace. No worker may sleep for the watcher; and each sample has to be on the journal."""
    text, trace = _trace(program, case, version)
    _, unwatched = _traced(program, ["run"], text)
    output, watched = _traced(program, ["watch", str(count)], text)
    _, events, seen = samples.judge(trace, output, count)
    counted = waits.count(watched, len(trace.setup.processes), sanitized)
    if counted.for_watcher:
        raise Wrong(f"a worker slept {counted.for_watcher} times at an address that the watcher's thread touched")
    caught = any(0 < sample.events < events for sample in seen)
    return Counter(counted._asdict(), runs=1, caught=caught, unwatched=sum(thread.yields for thread in unwatched.threads.values()))
