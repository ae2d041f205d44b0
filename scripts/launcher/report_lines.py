"""By which rule of docs/FORMATS.md a report is refused at a line, as far as its text and that of its trace show it."""
import re

from launcher.sentences import FAULTS, RULES, fault_word
from launcher.trace_lines import HEADER

SECTIONS = ["graph", "roots", "exits", "shares", "faults", "charges", "end"]
FORMS = {
    "graph": "an object: its name, its owner, its type and its fields",
    "roots": "a register that is not null: process, register and name",
    "exits": "an exit item: the heap's name and the target's",
    "shares": "a share: process and shared heap",
    "faults": "a process and the number of its refused operations",
    "charges": "bytes in use: of the kernel, a limit, a process or a shared heap",
    "end": "the end of the report",
}
REPLY = re.compile(r"ok|null|(0|[1-9][0-9]*)|[A-Za-z]\w*\.[1-9][0-9]*|fault (?:%s)(?: [A-Za-z]\w*)?" % "|".join(map(fault_word, FAULTS)))
EVENT = re.compile(r"closing|absorbed [A-Za-z]\w*|ended [A-Za-z]\w*(?: (?:0|[1-9][0-9]*)){4}")
SHOWN_MOST = 3


def operations_of(trace):
    """The operations of a trace by process, in order: the lines after its header."""
    found, is_header = {}, True
    for line in trace:
        is_header = is_header and line.split(" ")[0] in HEADER
        if not is_header:
            found.setdefault(line.split(" ")[0], []).append(line)
    return found


class Report:
    """The lines of a report, and whether its last one has its line feed."""

    def __init__(self, text):
        self.lines = text.split("\n")
        self.is_cut = self.lines[-1] != ""
        if not self.is_cut:
            self.lines.pop()
        self.graph = next((number for number, line in enumerate(self.lines, 1) if number > 1 and line == "graph"), None)

    def line(self, number):
        return self.lines[number - 1] if 1 <= number <= len(self.lines) else None

    def rule_at(self, number):
        """The rule by which the report is refused at this line."""
        if number == 1:
            return 1
        if self.graph is None:
            return 3 if number > len(self.lines) else 2
        return 2 if number < self.graph else 4 if number == self.graph else 5


def explained(report, number, trace):
    """The sentences on a report that is refused at this line; trace is the list of its trace's lines, or None."""
    rule, line = report.rule_at(number), report.line(number)
    shown = f"Line {number} of the report is `{line}`." if line is not None else f"The report has {len(report.lines)} lines, so line {number} is one past the last."
    found = [shown, f"Rule {rule} of docs/FORMATS.md: {RULES[rule]}"]
    operations = operations_of(trace) if trace is not None else None
    more = {2: event_detail, 4: history_detail, 5: section_detail}.get(rule)
    return found + (more(report, number, operations) if more else [])


def done_before(report, number):
    """How many operations of each process the event lines before this one have."""
    found = {}
    for line in report.lines[1 : number - 1]:
        if " = " in line:
            process = line.split(" ")[0]
            found[process] = found.get(process, 0) + 1
    return found


def ended_before(report, number):
    """The processes that the event lines before this one end, each with the number of the line that ends it first."""
    found = {}
    for at, line in enumerate(report.lines[1 : number - 1], 2):
        words = line.split(" ")
        if words[1:] == ["exit", "=", "ok"]:
            found.setdefault(words[0], at)
        elif words[1:2] == ["kill"] and words[3:] == ["=", "ok"]:
            found.setdefault(words[2], at)
    return found


def event_detail(report, number, operations):
    line = report.line(number)
    operation, equals, reply = line.partition(" = ")
    if not equals and not EVENT.fullmatch(line):
        return ["It is no event line: an operation with ` = ` and its reply, or a line that begins with `ended`, `absorbed` or `closing`."]
    if equals and not REPLY.fullmatch(reply):
        return [f"`{reply}` is no reply: `ok`, an object's name, `null`, a number, or `fault` with the fault's text."]
    if not equals:
        return ["The machine has no such event there, or with other numbers. `./kaffe replay TRACE` shows one history that is right."]
    process, ended = operation.split(" ")[0], ended_before(report, number)
    if process in ended:
        return [f"`{process}` does nothing more: it was ended by line {ended[process]}, `{report.line(ended[process])}`."]
    if operations is not None:
        done = done_before(report, number)
        mine = operations.get(process, [])
        if done.get(process, 0) >= len(mine):
            return [f"The trace has no further operation of `{process}`: it has {len(mine)}."]
        wanted = mine[done.get(process, 0)]
        if wanted != operation:
            return [f"The next operation of `{process}` in the trace is `{wanted}`."]
        return ["It is the next operation of its process, but the machine answers it otherwise there, or cannot do it yet. `./kaffe replay TRACE` shows one history that is right."]
    return ["Either it is not the next operation of its process, or the machine answers it otherwise there. With the trace this can be said: --trace FILE."]


def history_detail(report, number, operations):
    """What the history lacks at the line `graph`."""
    events, found = report.lines[1 : number - 1], []
    done, ended = done_before(report, number), ended_before(report, number)
    for process, mine in (operations or {}).items():
        if process not in ended and done.get(process, 0) < len(mine):
            found.append(f"`{process}` has done {done.get(process, 0)} of its {len(mine)} operations; the next one is `{mine[done.get(process, 0)]}`.")
    opened = {}
    for line in events:
        words = line.split(" ")
        if line.endswith("collect = ok") and len(words) == 4:
            opened["kernel" if words[1] == "kcollect" else words[0]] = True
        elif words[0] == "ended":
            opened.pop(words[1], None)
    found += [f"The collection of `{it}` is open: a line `ended {it} ..` is missing." for it in opened]
    if not found:
        found.append("If every process has ended, the last two events must be `closing` and `ended kernel ..`, with each orphan absorbed before.")
    return found[:SHOWN_MOST]


def section_detail(report, number, _operations):
    """In which section the line is, and what a line of that section is."""
    at = "graph"
    for line in report.lines[report.graph - 1 : number - 1]:
        at = line if line in SECTIONS else at
    if report.is_cut and number == len(report.lines):
        return ["The last line has no line feed, or differs from what this history leaves."]
    if number > len(report.lines):
        return [f"The report breaks off in the section `{at}`."]
    if at == "end":
        return ["Nothing may come after the line `end`."]
    return [f"It is in the section `{at}`, whose lines are each {FORMS[at]}. The history before `graph` leaves something else there, or has more or fewer such lines."]
