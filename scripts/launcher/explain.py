"""./kaffe explain: an answer of the program turned into sentences.

    ./kaffe explain [--trace FILE] [--report FILE] < ANSWER     what the answer means, and what would be right there
    ./kaffe explain reason 4                                    what a reason of a bad trace means, and what to do
    ./kaffe explain status 3                                    the same of an exit status
    ./kaffe explain fault LimitFull                             the same of a fault
    ./kaffe explain rule 2                                      by which rule `check` refuses a report
    ./kaffe explain point 3                                     what `audit` asks of a snapshot

The answer is a line that the program wrote, `bad trace: line L reason R`, `refused N` or `unsound N`, or a whole report, of which the
faults are explained. With the trace, and for `refused N` the report, their lines are shown. Exit status 2 where there is nothing to explain.
"""
import os
import re
import subprocess
import sys
from collections import Counter

from launcher import report_lines, trace_lines
from launcher.commands import fail, opened
from launcher.sentences import FAULTS, POINTS, REASONS, RULES, STATUSES, USAGE, fault_word

NOTHING = 2
# No answer but a report, a snapshot or a summary is longer, and of these only the faults are explained.
ANSWER_BYTES, PIECE_BYTES, LINE_SHOWN = 256, 1 << 16, 200
SILENT_STATUSES = (3, 4, 5)
SCRIPT = "spawn "  # begins a script, of whose lines no more is said than what their reasons mean
BAD_TRACE = re.compile(r"bad trace: line (\d+) reason (\d+)\n?")
REFUSED, UNSOUND = re.compile(r"refused (\d+)\n?"), re.compile(r"unsound ([1-8])\n?")
# The first line of what stands behind the trace, by the command.
BEHIND = {"check": "report 1", "audit": "snapshot 1"}


def main(words):
    """Prints what the words, or the answer on standard input, mean. Gives the exit status."""
    if words in (["--help"], ["-h"]):
        print(__doc__.partition("\n\n")[2], end="")
        return 0
    if len(words) == 2 and words[0] in TABLES:
        return said(TABLES[words[0]](words[1]), f"there is no {words[0]} {words[1]!r}: {' '.join(NAMES[words[0]])}")
    files = {}
    while len(words) >= 2 and words[0] in ("--trace", "--report"):
        files[words[0]] = read(words[1])
        words = words[2:]
    if words:
        print(__doc__.partition("\n\n")[2], end="", file=sys.stderr)
        return NOTHING
    answer = sys.stdin.buffer.read().decode("latin-1")
    return said(of_answer(answer, files.get("--trace"), files.get("--report")), "this is no answer of the program")


def said(sentences, otherwise):
    """Prints the sentences, or says why there are none."""
    if not sentences:
        fail(NOTHING, otherwise)
    print("\n".join(sentences))
    return 0


def read(name):
    with open(opened(name), "rb") as file:
        return file.read().decode("latin-1")


def meaning(head, it):
    return [f"{head}: {plain(it.means)}", plain(it.todo)]


def plain(text):
    """The sentence without the marks of Markdown, as a terminal shows it."""
    return text.replace("`", "'")


def of_number(table, word):
    def of(number):
        it = table.get(int(number)) if re.fullmatch(r"[0-9]{1,9}", number) else None
        return it and (meaning(f"{word} {number}", it) if hasattr(it, "means") else [f"{word} {number}: {plain(it)}"])

    return of


def of_fault(text):
    """The sentences on a fault, given by its word or with the name that follows it."""
    found = next((key for key in FAULTS if fault_word(key) == fault_word(text)), None)
    if found is None:
        return None
    sentences, place, name = meaning(f"fault {text}", FAULTS[found]), found.partition(" ")[2], text.partition(" ")[2]
    return [re.sub(rf"\b{place}\b", name, it) for it in sentences] if place and name else sentences


TABLES = {"reason": of_number(REASONS, "reason"), "status": of_number(STATUSES, "status"), "rule": of_number(RULES, "rule"), "point": of_number(POINTS, "point"), "fault": of_fault}
NAMES = {"reason": map(str, REASONS), "status": map(str, STATUSES), "rule": map(str, RULES), "point": map(str, POINTS), "fault": map(fault_word, FAULTS)}


def lines_of(text):
    lines = text.split("\n")
    return lines[:-1] if lines[-1] == "" else lines


def of_answer(answer, trace, report):
    """The sentences on an answer of the program, or None where it is none."""
    bad, refused, unsound = (it.fullmatch(answer) for it in (BAD_TRACE, REFUSED, UNSOUND))
    if bad:
        return of_bad_trace(int(bad[1]), int(bad[2]), trace)
    if refused:
        return of_refused(int(refused[1]), trace, report)
    if unsound:
        return [f"Point {unsound[1]} does not hold of the snapshot, and those before it do: {plain(POINTS[int(unsound[1])])}"]
    if answer.startswith("report 1\n"):
        return of_report(answer)
    if answer.rstrip("\n") == USAGE:
        return meaning("status 2", STATUSES[2])
    if answer == "good\n":
        return ["good: the report is that of a legal and complete run of its trace."]
    if answer == "sound\n":
        return ["sound: the snapshot is that of a sound state, and what it says beside the state is so."]
    if answer.startswith("snapshot 1\n"):
        return ["This is the snapshot of the state that a trace leaves; docs/FORMATS.md says what each line is."]
    if re.match(r"big \d+\noperations \d+\n", answer):
        return ["This is the summary of the workload; docs/BIG.md says what each line counts."]
    if not answer:
        return ["Nothing was written. The exit status says why: explain status 3, 4 or 5."]
    return None


def of_bad_trace(number, reason, trace):
    """The sentences on a bad line; trace is the text that holds it, or None."""
    if reason not in REASONS:
        return None
    found = []
    if trace is not None:
        lines = lines_of(trace)
        line = lines[number - 1] if 1 <= number <= len(lines) else ""
        if 1 <= number <= len(lines):
            found.append(f"Line {number} of the trace: {shown(line)}")
        before = trace_lines.Before(lines[: max(number - 1, 0)])
        found += meaning(f"reason {reason}", REASONS[reason])[:1]
        if not trace.startswith(SCRIPT):
            found += map(plain, trace_lines.detail(reason, line, before, len(trace)))
        return found + meaning("", REASONS[reason])[1:]
    return meaning(f"Line {number}, reason {reason}", REASONS[reason]) + ["With the trace its line can be shown: --trace FILE."]


def of_refused(number, trace, report):
    if trace is not None and report is None and "\nsnapshot 1\n" in trace:
        return of_refused_snapshot(number, lines_of("snapshot 1\n" + trace.partition("\nsnapshot 1\n")[2]))
    if trace is not None and report is None and "\nreport 1\n" in trace:
        trace, _, report = trace.partition("\nreport 1\n")
        report = "report 1\n" + report
    if report is None:
        return [f"Line {number} of the report, or of the snapshot, is the first wrong one, counted from its line 'report 1' or 'snapshot 1'."] + [
            f"Rule {it}: {plain(text)}" for it, text in RULES.items()
        ] + ["With the trace and the report more can be said: --trace FILE --report FILE."]
    sentences = report_lines.explained(report_lines.Report(report), number, lines_of(trace) if trace is not None else None)
    return [plain(it) for it in sentences]


def of_refused_snapshot(number, lines):
    """The sentences on a snapshot that is refused at this line."""
    if number > len(lines):
        return [f"The snapshot has {len(lines)} lines, so line {number} is missing."]
    return [f"Line {number} of the snapshot is `{shown(lines[number - 1])}`. It does not fit there, or ends without a line feed, or comes after the line `end`."]


def of_report(text):
    """The sentences on the faults of a report, each once with its first line."""
    events = text.partition("\ngraph\n")[0].split("\n")
    faults = [(number, line) for number, line in enumerate(events, 1) if " = fault " in line]
    counts = Counter(fault_word(line.partition(" = fault ")[2]) for _, line in faults)
    if not faults:
        return ["The report has no fault: each operation was done."]
    found = [f"{len(faults)} of {len(events) - 1} events are faults."]
    for word, count in counts.items():
        number, line = next(it for it in faults if fault_word(it[1].partition(" = fault ")[2]) == word)
        found += [f"Line {number}: {shown(line)}" + (f" ({count} such faults)" if count > 1 else "")]
        found += of_fault(line.partition(" = fault ")[2]) or []
    return found


def shown(line):
    """The line as a terminal can show it."""
    cut = line if len(line) <= LINE_SHOWN else f"{line[:LINE_SHOWN]}.."
    return "".join(it if 32 <= ord(it) <= 126 else f"\\x{ord(it):02x}" for it in cut)


def run_and_explain(words, call):
    """Runs the program with this standard input, hands on what it writes, and explains on standard error how it ended."""
    start = offset()
    head = b""
    with subprocess.Popen(words, stdout=subprocess.PIPE) as ran:
        for piece in iter(lambda: ran.stdout.read1(PIECE_BYTES), b""):
            if len(head) < ANSWER_BYTES:
                head += piece
            if not handed_on(piece):
                # (so that the program's own next write fails, as it would have failed without the launcher)
                ran.stdout.close()
                break
    status = ran.returncode if ran.returncode >= 0 else 128 - ran.returncode
    for sentence in of_ending(status, head.decode("latin-1"), given(start), call):
        print(f"kaffe: {sentence}", file=sys.stderr)
    return status


def handed_on(piece):
    """Writes the piece to standard output, and gives whether that could be done."""
    try:
        while piece:
            piece = piece[os.write(1, piece) :]
        return True
    except OSError:
        return False


def offset():
    """Where standard input stands, or None where it cannot be read again."""
    try:
        return os.lseek(0, 0, os.SEEK_CUR)
    except OSError:
        return None


def given(start):
    """What the program was given on standard input, read once more, or None where that cannot be done."""
    if start is None:
        return None
    with open(os.dup(0), "rb") as source:
        source.seek(start)
        return source.read().decode("latin-1")


def of_ending(status, head, text, call):
    """The sentences on how a run of the program ended."""
    if status == 0 or status not in STATUSES:
        return []
    if status in SILENT_STATUSES:
        return meaning(f"status {status}", STATUSES[status])
    behind = BEHIND.get(call.words[0])
    trace = text
    if behind and text is not None and status == 1:
        trace = text if text.startswith(f"{behind}\n") else text.partition(f"\n{behind}\n")[0]
    sentences = of_answer(head, trace, None) or meaning(f"status {status}", STATUSES[status])
    return [it for it in sentences if "--trace" not in it] if text is None else sentences
