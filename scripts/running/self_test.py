"""Plants wrong things in what the program writes and in the model, and sees whether the judgement finds each."""
from __future__ import annotations

import contextlib
import io
import itertools
import pathlib
import shutil
import sys
from collections import Counter
from typing import Callable, Dict, Iterable, Iterator, List, NamedTuple, Optional, Sequence, Tuple
from unittest import mock

from showing import judging, rules
from showing.reading import Sample
from showing.state import State
from showing.trace import Trace, read_trace
from showing.words import Text

from . import judges, many, planted_waits, samples, tables
from .many import TOP, Case
from .program import Program, Wrong

# For two examples, worked out by hand: the use of the root and the living processes after 0, 1, 2, .. events, and samples of a run.
NUMBERS = {
    "guests": [(100, 2)] * 5 + [(140, 2)] * 2 + [(140, 1)] * 3,
    "shared": [(120, 2)] * 6 + [(200, 2)] * 4,
}
SEEN = {"guests": [0, 0, 4, 5, 6, 7, 9], "shared": [0, 5, 6, 8, 9]}


class Stored(NamedTuple):
    """An example, and the output of a watched run of it that is right."""

    name: str
    trace: Trace
    report: List[str]
    samples: List[Sample]

    def why(self, report: Sequence[str], seen: Iterable[Sample], after: Sequence[str] = ()) -> Optional[str]:
        """Why the judgement refuses an output of such parts, where it does."""
        return self.why_text([*report, "samples", *(f"sample {each.events} {each.root} {each.living}" for each in seen), "end", *after])

    def why_text(self, lines: Sequence[str], last: str = "\n") -> Optional[str]:
        try:
            samples.judge(self.trace, "\n".join(lines) + last, len(self.samples) - 1)
        except Wrong as bad:
            return str(bad)
        return None


def stored() -> Iterator[Stored]:
    """The examples with their samples."""
    for name, numbers in NUMBERS.items():
        lines, report = ((TOP / f"examples/{name}.{kind}").read_text(encoding="ascii").splitlines() for kind in ("kaffe", "report"))
        yield Stored(name, read_trace(Text(name, lines)), report, [Sample(at, *numbers[at]) for at in SEEN[name]])


def seen_or_not(title: str, why: Optional[str], part: str) -> Iterator[str]:
    """A complaint where a planted thing was not refused for the reason that it has."""
    if why is None or part not in why:
        yield f"{title}: it is {'accepted' if why is None else 'refused because ' + why}, and not refused because '{part}'"


def planted_samples(case: Stored) -> Iterator[str]:
    """Complaints about samples that are moved, or that have another use or number of living processes."""
    for at, sample in enumerate(case.samples):
        for more, living in ((1, 0), (-1, 0), (0, 1), (0, -1)):
            wrong = sample._replace(root=sample.root + more, living=sample.living + living)
            changed = [*case.samples[:at], wrong, *case.samples[at + 1 :]]
            yield from seen_or_not(f"{case.name}, {wrong} for {sample}", case.why(case.report, changed), f"sample {at + 1} has use {wrong.root} and")
        for moved in (sample.events - 1, sample.events + 1):
            wrong = sample._replace(events=moved)
            changed = [*case.samples[:at], wrong, *case.samples[at + 1 :]]
            if 0 <= moved < len(NUMBERS[case.name]) and NUMBERS[case.name][moved] != (sample.root, sample.living):
                yield from seen_or_not(f"{case.name}, {wrong} for {sample}", case.why(case.report, changed), f"sample {at + 1} has use")
    numbers = NUMBERS[case.name]
    last = len(numbers) - 1
    back = [Sample(at, *numbers[at]) for at in (last - 1, last, last - 1)]
    yield from seen_or_not(f"{case.name}, a sample that goes back", case.why(case.report, [*case.samples[3:], *back]), "goes back")
    beyond = [*case.samples[:-1], case.samples[-1]._replace(events=last + 1)]
    yield from seen_or_not(f"{case.name}, a sample beyond the journal", case.why(case.report, beyond), f"has {last + 1} events, and the journal {last}")
    early = [*case.samples[:-1], case.samples[-2]]
    yield from seen_or_not(f"{case.name}, a last sample that is too early", case.why(case.report, early), "the last sample has")


def planted_texts(case: Stored) -> Iterator[str]:
    """Complaints about outputs that are cut, that have a line too many, or that have another line."""
    whole = [*case.report, "samples", *(f"sample {each.events} {each.root} {each.living}" for each in case.samples), "end"]
    for count in range(len(whole)):
        yield from seen_or_not(f"{case.name}, cut after {count} lines", case.why_text(whole[:count]), "")
        yield from seen_or_not(f"{case.name} without line {count + 1}", case.why_text(whole[:count] + whole[count + 1 :]), "")
    yield from seen_or_not(f"{case.name} without its last line feed", case.why_text(whole, ""), "cut off")
    yield from seen_or_not(f"{case.name} with a line after its end", case.why_text([*whole, "end"]), "there are")
    yield from seen_or_not(f"{case.name} with a word after its end", case.why_text([*whole, "more"]), "no whole section")
    yield from seen_or_not(f"{case.name} with a sample too many", case.why(case.report, [*case.samples, case.samples[-1]]), "there are")
    for word in ("sample 00 100 2", "sample 0 100", "sample 0 100 2 2", "sample -1 100 2", " sample 0 100 2", "sampel 0 100 2"):
        at = whole.index("samples") + 1
        yield from seen_or_not(f"{case.name} with '{word}'", case.why_text([*whole[:at], word, *whole[at + 1 :]]), "is no sample")
    for at, line in enumerate(case.report[:-1]):
        changed = [*whole[:at], f"{line}1", *whole[at + 1 :]]
        yield from seen_or_not(f"{case.name} with '{line}1'", case.why_text(changed), "by the model it is no report of the trace")


def planted_journals() -> Iterator[str]:
    """A complaint about samples that are right on another journal of the same trace."""
    case = next(each for each in stored() if each.name == "guests")
    first = case.report.index("quiet new r0 Node = quiet.1")
    other = [case.report[0], case.report[first], *case.report[1:first], *case.report[first + 1 :]]
    yield from seen_or_not("the samples of another journal", case.why(other, case.samples), "sample 3 has use 100 and 2 living processes after 4 events")
    moved = [Sample(each.events, 100 if each.events < 1 else 140, each.living) for each in case.samples]
    if case.why(other, moved) is not None:
        yield f"a journal in another order, with its own samples, is refused because {case.why(other, moved)}"


def planted_models(case: Stored) -> Iterator[str]:
    """Complaints about an output that is right, judged by wrong models."""
    uses, judged = rules.uses, judging.judged
    wrong: Dict[str, Tuple[object, str, Callable]] = {
        "one byte more is used at the root": (rules, "uses", lambda state: [uses(state)[0] + 1, *uses(state)[1:]]),
        "nothing is charged": (rules, "charge", lambda state, process: 0),
        "the first event is left out": (judging, "judged", lambda trace, text: itertools.islice(judged(trace, text), 1, None)),
        "an event is told twice": (judging, "judged", lambda trace, text: (each for it in judged(trace, text) for each in (it, it))),
    }
    if case.name == "guests":
        wrong["who ends lives on"] = (State, "set_ended", lambda state, process: None)
    for title, (where, name, model) in wrong.items():
        with mock.patch.object(where, name, model):
            yield from seen_or_not(f"{case.name}, where {title}", case.why(case.report, case.samples), "")


class Pretended(Program):
    """Answers in the place of the program: for each command a list of answers, of which the last is given again and again."""

    def __init__(self, answers: Dict[str, List[Tuple[int, str]]]) -> None:
        self.answers, self.texts = {word: list(each) for word, each in answers.items()}, {}

    def call(self, words: Sequence[str], given: str) -> Tuple[int, str]:
        left = self.answers[words[0]]
        return left.pop(0) if len(left) > 1 else left[0]


def true_report(case: Case) -> str:
    """The report that a replay of the case's trace has."""
    program = Pretended({"replay": [(0, "")]})
    with contextlib.suppress(Wrong):
        judges.unwatched(program, case, 1)
    return program.texts["wanted"]


def of_runs() -> Iterator[str]:
    """Complaints about runs whose status, report or check is not as it has to be."""
    case = Case(1, 3)
    right = true_report(case)
    at = right.index("limit root ") + len("limit root ")
    good, other = (0, right), right.replace("report 1\n", "report 1\nclosing\n")
    answers = {"replay": [good], "run": [good], "check": [(0, "good\n")]}
    wrong: List[Tuple[str, Dict[str, List[Tuple[int, str]]], str]] = [
        ("another number at the end of a replay", {"replay": [(0, f"{right[:at]}1{right[at:]}")]}, "the report of replay is not"),
        ("a replay without its end", {"replay": [(0, right[: -len("end\n")])]}, "the report of replay is not"),
        ("a replay without its last byte", {"replay": [(0, right[:-1])]}, "the report of replay is not"),
        ("a replay that ends with 3", {"replay": [(3, "")]}, "replay ended with status 3"),
        ("a run that ends with 3", {"run": [(3, "")]}, "run ended with status 3"),
        ("a third run that ends with 5", {"run": [good, good, (5, right)]}, "run ended with status 5"),
        ("a report that is refused", {"check": [(6, "refused 2\n")]}, "check ended with status 6, and wrote 'refused 2'"),
        ("a third report that is refused", {"run": [good, good, (0, other)], "check": [(0, "good\n"), (6, "refused 2\n")]}, "refused 2"),
        ("a check that says good, with status 6", {"check": [(6, "good\n")]}, "check ended with status 6"),
        ("a check that says nothing", {"check": [(0, "")]}, "check ended with status 0"),
    ]
    for title, changed, part in wrong:
        why = None
        try:
            judges.unwatched(Pretended({**answers, **changed}), case, 1)
        except Wrong as bad:
            why = str(bad)
        yield from seen_or_not(title, why, part)
    counts = judges.unwatched(Pretended({**answers, "run": [good, (0, other), good]}), case, 1)
    if counts["runs"] != 3 or counts["reports"] != 2 or counts["others"] != 1:
        yield f"three runs with two reports are counted as {counts}"


def of_watching() -> Iterator[str]:
    """Complaints about a watched run whose samples are wrong, or whose report is refused by the program's check alone."""
    case, living = Case(1, 1), 4
    report = true_report(case)
    events = report.splitlines().index("graph") - 1
    end = f"samples\nsample 0 0 {living}\nsample {events} 0 0\nend\n"
    for title, output, verdict, part in (
        ("a watched run that is right", report + end, (0, "good\n"), "nothing"),
        ("a use that is not so", report + end.replace(" 0 0\n", " 0 1\n"), (0, "good\n"), "living processes after"),
        ("a report that the check refuses", report + end, (6, "refused 9\n"), "refused 9"),
    ):
        why = "nothing"
        try:
            judges.watched(Pretended({"watch": [(0, output)], "check": [verdict]}), case, 1, 1)
        except Wrong as bad:
            why = str(bad)
        yield from seen_or_not(title, why, part)


def of_programs() -> Iterator[str]:
    """Complaints about how a program is started: what comes back, its status, and that it is ended where it hangs."""
    program, hasty = Program(sys.executable), Program(sys.executable, longest=1)
    echo = "import sys; sys.stdout.write(sys.stdin.read()); sys.exit(3)"
    for text in ("a long text\n" * 1000, "a short one\n", ""):
        if program.call(["-c", echo], text) != (3, text):
            yield "what a program writes does not come back as it is"
    try:
        hasty.call(["-c", "import time; time.sleep(60)"], "")
        yield "a program that hangs is waited for"
    except Wrong as bad:
        yield from seen_or_not("a program that hangs", str(bad), "has not ended after 1 s")


def _third_is_wrong(program: Program, case: Case) -> Counter:
    """A judgement that calls the third case wrong, and breaks at the fourth."""
    program.texts = {"kaffe": f"trace {case.seed}\n"}
    if case.seed == 3:
        raise Wrong("it is the third")
    return Counter(runs=case.runs, broken=1 // (case.seed - 4))


def of_failures() -> Iterator[str]:
    """Complaints about what is said and kept where a case is wrong, and where the script itself breaks."""
    for first, part in ((1, "seed 3: it is the third"), (4, "seed 4: the script itself fails with ZeroDivisionError")):
        work, said = many.Many("self-test", 9, None), io.StringIO()
        work.judge(pathlib.Path(sys.executable), _third_is_wrong, many.cases(first, 9, 1), 1)
        with contextlib.redirect_stdout(said):
            status = work.ended("{runs} runs")
        yield from seen_or_not("a case that is wrong", said.getvalue(), part)
        folder = said.getvalue().strip().rpartition(" ")[2]
        seed = work.wrong.case.seed if work.wrong else 0
        if status != 1 or pathlib.Path(folder, f"{seed}.kaffe").read_text(encoding="ascii") != f"trace {seed}\n":
            yield "a case that is wrong is not kept, or the status is not 1"
        shutil.rmtree(folder)
    work = many.Many("self-test", 2, None)
    work.judge(pathlib.Path(sys.executable), _third_is_wrong, many.cases(1, 2, 1), 1)
    with contextlib.redirect_stdout(io.StringIO()):
        if work.ended("{runs} runs") != 0 or work.counts["runs"] != 2:
            yield "two cases that are right have another status than 0"


def of_samples() -> Iterator[str]:
    """What scripts/watched-runs does not see of what is planted."""
    for case in stored():
        if case.why(case.report, case.samples) is not None:
            yield f"{case.name}: samples that are right are refused because {case.why(case.report, case.samples)}"
        yield from planted_samples(case)
        yield from planted_texts(case)
        yield from planted_models(case)
    yield from planted_journals()
    yield from of_watching()
    yield from of_failures()


def of_reports() -> Iterator[str]:
    """What scripts/random-runs does not see of what is planted."""
    yield from of_runs()
    yield from of_programs()
    yield from of_failures()


# The table of an example, worked out by hand, and what is planted there: the line, what it becomes, and why it is refused.
TABLE = ["work", "process p1 2 9", "process p2 1 3", "closing 0 0", "total 3 12", "end"]
PLANTED_ROWS = [
    (1, "process p1 1 3", "line 2 of the table"),
    (2, "process p2 1 9", "line 3 of the table"),
    (3, "closing 1 3", "line 4 of the table"),
    (4, "total 3 9", "line 5 of the table"),
    (5, "", "line 6 of the table"),
]


def of_tables() -> Iterator[str]:
    """What scripts/credited-runs does not see of what is planted."""
    lines, report = ((TOP / f"examples/cycle.{kind}").read_text(encoding="ascii").splitlines() for kind in ("kaffe", "report"))
    trace = read_trace(Text("cycle", lines))

    def why(table: Sequence[str], last: str = "\n") -> Optional[str]:
        try:
            tables.judge(trace, "\n".join([*report, *table]) + last)
        except Wrong as bad:
            return str(bad)
        return None

    if why(TABLE) is not None:
        yield f"a table that is right is refused because {why(TABLE)}"
    for at, line, part in PLANTED_ROWS:
        yield from seen_or_not(line, why([*TABLE[:at], line, *TABLE[at + 1 :]]), part)
    yield from seen_or_not("a table without its last line", why(TABLE[:-1]), "has 5 lines, and not 6")
    yield from seen_or_not("no table", why([]), "has 0 lines, and not 6")
    yield from seen_or_not("an output that is cut off", why(TABLE, ""), "cut off")
    yield from of_failures()


def of_waits() -> Iterator[str]:
    """What scripts/watched-waits does not see of what is planted."""
    yield from planted_waits.planted()


def ended(name: str, complaints: Iterable[str]) -> int:
    """Prints what was not seen, and gives the exit status."""
    count = 0
    for count, complaint in enumerate(complaints, 1):
        print(f"{name}: {complaint}", flush=True)
    return 1 if count else 0
