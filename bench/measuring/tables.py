"""The tables of docs/PERFORMANCE.md: each function measures one and answers its lines in Markdown."""
import filecmp
import pathlib
import re
import statistics
import subprocess
import sys
from typing import NamedTuple

from measuring import traces
from measuring.programs import TABLES, TOP, Programs, last_watched, peer_run
from measuring.runs import ENDED_BY_TIME, Job, Runner, table

sys.path.append(str(TOP / "scripts"))
from showing import snapshot  # noqa: E402

FORMS = {"each": "the peer, book for each operation", "stretches": "the peer, book for stretches"}
WORKERS = 4
USED = ["elapsed, ms", "processor, ms", "peak, MB"]
SAMPLES = [0, 1, 1000]
CHECK_SECONDS = 120
CHECK_OBJECTS = [1250, 2500, 5000]
CHECK_TRACES = ["chain", "turns", "store", "collect_live"]
AUDIT_OBJECTS = [10_000, 100_000, 1_000_000]
GAP_COLLECTIONS = 20
GAP_OBJECTS = [10_000, 20_000, 40_000]
MOST_OPERATIONS = 200_000


class Given(NamedTuple):
    """What every table is given. `quick` makes it small: it then shows that the script works, and no figure."""

    programs: Programs
    runner: Runner
    folder: pathlib.Path
    runs: int
    quick: bool
    objects: list

    def file(self, name, text):
        """A file with a trace."""
        path = self.folder / name
        path.write_text(text, encoding="ascii")
        return path

    def big_trace(self, count):
        """The trace of `big N`, as the peer writes it."""
        path = self.folder / f"big{count}.kaffe"
        if not path.exists():
            self.runner.run(Job([self.programs.peer, "trace", count], sink=path))
        return path


def summary(count):
    """The summary of `big N`, by the formulas for N, which neither program knows."""
    blocks, rest = divmod(count, 10)
    operations = 8 * (1 + 4 * count + -(-count // 5) + 3 * blocks) + 4
    live = 160 * (6 * blocks + rest)
    numbers = {"big": count, "operations": operations, "events": operations + 8 * blocks, "faults": 0, "freed": 32 * blocks,
               "kernel": 80 + live, "live": live, "root": 320 * count}
    return "".join(f"{word} {number}\n" for word, number in numbers.items())


def big_jobs(given, count, workers=WORKERS, alone=False):
    """`big N` by the program and by both forms of the peer, whose summaries are compared first."""
    jobs = [Job([given.programs.kaffe, "big", count], alone=alone)]
    jobs += [Job([given.programs.peer, "big", count, workers, form], alone=alone) for form in FORMS]
    for job in jobs:
        sink = given.folder / "summary"
        given.runner.run(job._replace(sink=sink))
        if sink.read_text(encoding="ascii") != summary(count):
            sys.exit(f"bench/measure: {job.words[0]} big {count} writes another summary than the formulas for N")
    return jobs


def beside_peer(given, alone):
    """`big N` beside both forms of the peer."""
    count = 625 if given.quick else 5000
    jobs = big_jobs(given, count, 1 if alone else WORKERS, alone)
    ours, *peers = given.runner.series(jobs, given.runs)
    rows = []
    for name, series in zip([f"`kaffe big {count}`", *FORMS.values()], [ours, *peers]):
        rows.append([name, *(series.cell(field) for field in ("elapsed", "processor", "peak")), round(series.median("slept"))])
    for name, series in zip(FORMS.values(), peers):
        ratios = [ours.ratio(series, field) for field in ("elapsed", "processor", "peak")]
        rows.append([f"`kaffe` by {name}", *ratios, ""])
    return table(["program", *USED, "threads slept"], rows)


def workers(given):
    """`big 5000` with four workers."""
    return beside_peer(given, alone=False)


def one(given):
    """`big 5000` on one processor, where the peer has one worker."""
    return beside_peer(given, alone=True)


def grows(given):
    """`big N` with four workers for growing N."""
    rows = []
    for count in [625, 1250] if given.quick else [625, 1250, 2500, 5000]:
        ours, each, stretches = given.runner.series(big_jobs(given, count), given.runs)
        cells = [series.cell(field) for series in (ours, each, stretches) for field in ("elapsed", "processor", "peak")]
        rows.append([f"{count:,}", *cells, ours.ratio(each, "elapsed"), ours.ratio(stretches, "elapsed")])
    columns = [f"{name}: {used}" for name in ("`kaffe`", "peer, each", "peer, stretches") for used in USED]
    return table(["N", *columns, "elapsed by the peer, each", "by the peer, stretches"], rows)


def replay(given):
    """`replay` of the trace of `big 5000` to a file, on one processor; and `run` of it with four workers."""
    count = 625 if given.quick else 5000
    source = given.big_trace(count)
    ours, theirs = given.folder / "ours", given.folder / "theirs"
    jobs = [Job([given.programs.kaffe, "replay"], source, ours, alone=True), Job([given.programs.peer, "replay"], source, theirs, alone=True)]
    first, second = given.runner.series(jobs, given.runs)
    if not filecmp.cmp(ours, theirs, shallow=False):
        sys.exit("bench/measure: the reports of the program and of the peer differ")
    jobs = [Job([given.programs.kaffe, "run"], source, ours), Job([given.programs.peer, "run", WORKERS, "each"], source, theirs)]
    third, fourth = given.runner.series(jobs, given.runs)
    fields = ("elapsed", "processor", "peak")
    names = ["`kaffe replay`, one processor", "the peer", "`kaffe run`, four workers", "the peer, book for each operation"]
    rows = [[name, *(series.cell(field) for field in fields)] for name, series in zip(names, [first, second, third, fourth])]
    rows.insert(2, ["`kaffe replay` by the peer", *(first.ratio(second, field) for field in fields)])
    rows.append(["`kaffe run` by the peer", *(third.ratio(fourth, field) for field in fields)])
    return table([f"trace of `big {count}` to a file", *USED], rows)


def threads_alone(series):
    """The milliseconds of the threads of each run."""
    return [last_watched(run)[0] for run in series.runs]


def sampled_by(name, series, unwatched):
    """The row of a watched run by that of the unwatched one."""
    mine, theirs = threads_alone(series), threads_alone(unwatched)
    ratios = f"{min(mine) / min(theirs):.3f} ({statistics.median(one / other for one, other in zip(mine, theirs)):.3f})"
    return [f"{name} by `run`", ratios, *(series.ratio(unwatched, field) for field in ("elapsed", "processor", "peak"))]


def sampled(given):
    """`run` of the trace of `big 5000` with four workers, and `watch K` of it: with a cell that is written at each return of the book."""
    count = 625 if given.quick else 5000
    source = given.big_trace(count)
    words = [["run"], *(["watch", samples] for samples in SAMPLES)]
    environment = given.programs.watched()
    jobs = [Job([given.programs.kaffe, *each], source, given.folder / "sampled", environment=environment) for each in words]
    names = [f"`{' '.join(map(str, each))}`" for each in words]
    rows, all_series = [], given.runner.series(jobs, given.runs)
    for name, series in zip(names, all_series):
        times = threads_alone(series)
        threads = f"{min(times):,.1f} ({statistics.median(times):,.1f})"
        rows.append([name, threads, *(series.cell(field) for field in ("elapsed", "processor", "peak"))])
    rows += [sampled_by(name, series, all_series[0]) for name, series in zip(names[1:], all_series[1:])]
    return table([f"trace of `big {count}`, the report to a file", "the threads alone, ms", *USED], rows)


def scaling(given):
    """40,000 objects that are kept by nobody, by more and more processes."""
    objects = 4_000 if given.quick else 40_000
    rows = []
    for processes in [1, 4] if given.quick else [1, 2, 4, 8, 16, 32, 64]:
        source = given.file("scaling.kaffe", traces.keeping_nothing(objects, processes))
        jobs = [Job([given.programs.kaffe, "run"], source, environment=given.programs.watched())]
        jobs += [Job([given.programs.peer, "run", WORKERS, form], source) for form in FORMS]
        ours, *peers = given.runner.series(jobs, given.runs)
        alone = min(last_watched(run)[0] for run in ours.runs)
        theirs = [f"{min(peer_run(run) for run in series.runs):.1f}" for series in peers]
        rows.append([processes, f"{alone:.1f}", *theirs, *(ours.cell(field) for field in ("elapsed", "processor", "peak"))])
    columns = ["the threads of `kaffe run`, ms", "the peer's, each, ms", "the peer's, stretches, ms"]
    return table(["processes", *columns, *(f"`kaffe run`: {used}" for used in USED)], rows)


def inside(given):
    """Work inside heaps: integers written by one process and by four, each in a heap of its own."""
    rows, speeds = [], []
    count = 5_000 if given.quick else 49_000
    for processes in [1, WORKERS]:
        source = given.file("inside.kaffe", traces.inside(count, processes))
        jobs = [Job([given.programs.kaffe, "run"], source, environment=given.programs.watched()), Job([given.programs.peer, "run"], source)]
        ours, theirs = given.runner.series(jobs, given.runs)
        times = min(last_watched(run)[0] for run in ours.runs), min(peer_run(run) for run in theirs.runs)
        speeds.append([processes * count / time / 1e3 for time in times])
        rows.append([processes, *(f"{speed:.1f}" for speed in speeds[-1])])
    rows.append(["four by one", *(f"{four / single:.2f}" for single, four in zip(*speeds))])
    return table(["processes", "`kaffe run`, operations a µs", "the peer, operations a µs"], rows)


def collection_ms(given, operations, objects, collections):
    """The milliseconds of one collection of a list: the difference of two runs, with and without collections."""
    times = []
    for count in (0, collections):
        source = given.file("collected.kaffe", traces.trace([operations(objects, count)]))
        job = Job([given.programs.kaffe, "run"], source, environment=given.programs.watched())
        (series,) = given.runner.series([job], given.runs)
        times.append(min(last_watched(run)[0] for run in series.runs))
    return (times[1] - times[0]) / collections


def visits(given):
    """Collections of one heap whose objects all live, again and again."""
    rows = []
    for objects, collections in [(1_000, 600)] if given.quick else [(100, 60_000), (1_000, 6_000), (10_000, 600), (60_000, 100)]:
        took = collection_ms(given, traces.collected, objects, collections)
        rows.append([f"{objects:,}", f"{collections:,}", f"{took * collections:.1f}", f"{took * 1e6 / objects:.1f}"])
    return table(["live objects", "collections", "all of them, ms", "ns a live object"], rows)


def overlapped(report):
    """In how many collections of w0 an event of w1 came between the beginning and the end."""
    count, is_open, seen = 0, False, False
    with open(report, encoding="ascii") as lines:
        for line in lines:
            if line == "w0 collect = ok\n":
                is_open, seen = True, False
            elif line.startswith("ended w0 "):
                count, is_open = count + seen, False
            elif is_open and line.startswith(("w1 ", "ended w1 ")):
                seen = True
            elif line == "graph\n":
                break
    return count


def gap_rounds(objects):
    """How many rounds of three operations the sibling does: as many as a trace has room for beside so long a list."""
    left = MOST_OPERATIONS - len(traces.written_and_collected(objects, GAP_COLLECTIONS))
    # A list that no trace has room for is run by a build that allows more operations. The sibling has to go on until all is collected.
    return left // 3 if left > 0 else objects


def gaps(given):
    """The longest time that a sibling waits which needs the book, while its neighbour's heap is collected."""
    rows = []
    for objects in [2_000] if given.quick else given.objects:
        rounds = 2_000 if given.quick else gap_rounds(objects)
        source = given.file("gaps.kaffe", traces.beside(objects, GAP_COLLECTIONS, rounds))
        report = given.folder / "report"
        whole = []
        for _ in range(given.runs):
            run = given.runner.run(Job([given.programs.kaffe, "run"], source, report, environment=given.programs.watched(frees=True)))
            _, gap, freed = last_watched(run)
            if freed < rounds // 2:
                return [f"Not measured: of {rounds} objects of the sibling only {freed} were seen to be freed."]
            # Where the sibling has done all that it has to do, nobody waits: that is no gap.
            if overlapped(report) == GAP_COLLECTIONS + 2:
                whole.append(gap)
        neighbour = given.file("collected.kaffe", traces.trace([traces.written_and_collected(objects, GAP_COLLECTIONS)]))
        run = given.runner.run(Job([given.programs.kaffe, "run"], neighbour, environment=given.programs.watched(frees=True)))
        if last_watched(run)[2] > rounds // 100:
            return [f"Not measured: the neighbour alone calls `free` {last_watched(run)[2]} times, so that gaps are not the sibling's."]
        took = collection_ms(given, traces.written_and_collected, objects, GAP_COLLECTIONS)
        gap = [f"{min(whole):.3f}", f"{sorted(whole)[len(whole) // 2]:.3f}"] if whole else ["", ""]
        rows.append([f"`kaffe`, {objects:,}", f"{took:.2f}", *gap, f"{len(whole)} of {given.runs}"])
    for objects in [2_000] if given.quick else [60_000, 1_000_000]:
        for form in ("book", "inside"):
            rows.append(peer_gap(given, objects, form))
    columns = ["live objects of the neighbour", "its collection, ms", "longest gap, least of the runs, ms", "median, ms"]
    return table([*columns, "runs with the sibling at work in each collection"], rows)


def peer_gap(given, objects, form):
    """The row of the peer, which looks at its own gaps."""
    found = []
    for _ in range(min(given.runs, 5)):
        sink = given.folder / "gap"
        given.runner.run(Job([given.programs.peer, "gaps", objects, form], sink=sink))
        words = sink.read_text(encoding="ascii").split()
        found.append((float(words[3]), float(words[1])))
    least, median = min(found)[0], sorted(found)[len(found) // 2][0]
    what = "needs the book" if form == "book" else "works inside its heap"
    return [f"the peer, {objects:,}; the sibling {what}", f"{min(took for _, took in found):.2f}", f"{least:.3f}", f"{median:.3f}", ""]


def greatest(given):
    """The traces of `scripts/greatest`, by `replay` on one processor and by `run`."""
    names = subprocess.run([sys.executable, TOP / "scripts/greatest"], capture_output=True, text=True, check=True).stdout
    kinds = dict(line.split(": ", 1) for line in names.splitlines())
    rows = []
    for name, what in kinds.items():
        if given.quick and name not in ("move", "new"):
            continue
        subprocess.run([sys.executable, TOP / "scripts/greatest", given.folder, name], check=True)
        source, report = given.folder / f"{name}.kaffe", given.folder / "report"
        jobs = [Job([given.programs.kaffe, "replay"], source, report, alone=True), Job([given.programs.kaffe, "run"], source)]
        ours, threads = given.runner.series(jobs, min(given.runs, 3))
        size = report.stat().st_size / 1e6
        rows.append([f"`{name}`", what.rstrip("."), *(f"{ours.least(field) / 1e3:.2f}" for field in ("elapsed", "processor")),
                     f"{ours.least('peak'):.0f}", f"{size:.1f}", f"{threads.least('elapsed') / 1e3:.2f}"])
        source.unlink()
    columns = ["`replay`: elapsed, s", "processor, s", "peak, MB", "report, MB", "`run`: elapsed, s"]
    return table(["trace", "what", *columns], rows)


def checked(given, what, source, command):
    """The row of one `check`: of the report that the command writes of the trace."""
    report, both, answer = given.folder / "report", given.folder / "both", given.folder / "answer"
    given.runner.run(Job([given.programs.kaffe, command], source, report))
    both.write_bytes(source.read_bytes() + report.read_bytes())
    lines = report.read_bytes().count(b"\n")
    job = Job([given.programs.kaffe, "check"], both, answer, alone=True, seconds=CHECK_SECONDS)
    run = given.runner.run(job, may_fail=True)
    said = "not ended" if run.status == ENDED_BY_TIME else answer.read_text(encoding="ascii").strip()
    return [what, f"{lines:,}", said, f"{run.elapsed / 1e3:.2f}", f"{run.processor / 1e3:.2f}", f"{run.peak:.0f}"]


def check(given):
    """`check` of reports, in the order of the file and of runs on threads: `big N` for growing N, and some traces of `scripts/greatest`."""
    rows = []
    for count in [25] if given.quick else CHECK_OBJECTS:
        source = given.big_trace(count)
        rows += [checked(given, f"`{command}` of `big {count}`", source, command) for command in ("replay", "run")]
    for name in [] if given.quick else CHECK_TRACES:
        subprocess.run([sys.executable, TOP / "scripts/greatest", given.folder, name], check=True)
        rows.append(checked(given, f"`replay` of `{name}`", given.folder / f"{name}.kaffe", "replay"))
    return table(["report by", "its lines", "answer", "elapsed, s", "processor, s", "peak, MB"], rows)


def audit(given):
    """`audit` of snapshots of growing length: one object a line, each with two references, one of which leaves its heap."""
    rows = []
    for objects in AUDIT_OBJECTS[:1] if given.quick else AUDIT_OBJECTS:
        header, lines = snapshot.great(objects)
        source, answer = given.file("snapshot", "".join(f"{line}\n" for line in [*header, *lines])), given.folder / "answer"
        (series,) = given.runner.series([Job([given.programs.kaffe, "audit"], source, answer, alone=True)], given.runs)
        said = answer.read_text(encoding="ascii").strip()
        rows.append([f"{len(lines):,}", f"{source.stat().st_size / 1e6:.1f}", said, *(series.cell(field) for field in ("elapsed", "processor", "peak"))])
    return table(["lines", "MB", "answer", *USED], rows)


def reading(given):
    """Reading and writing alone beside `replay`, which also runs the machine; processor time on one processor."""
    rows = []
    for name in ["move"] if given.quick else ["directory", "move", "load", "put_get"]:
        subprocess.run([sys.executable, TOP / "scripts/greatest", given.folder, name], check=True)
        source = given.folder / f"{name}.kaffe"
        for output, sink in (("discarded", "/dev/null"), ("a file", given.folder / "report")):
            jobs = [Job([given.programs.reader], source, sink, alone=True), Job([given.programs.kaffe, "replay"], source, sink, alone=True)]
            plain, ours = given.runner.series(jobs, given.runs)
            rows.append([f"`{name}`", output, plain.cell("processor"), ours.cell("processor"), ours.ratio(plain, "processor")])
    return table(["trace", "output", "reader, ms", "`kaffe replay`, ms", "ratio"], rows)


def tables(given):
    """The running tables beside plain Rust: what `bench/run` prints."""
    if not TABLES.exists():
        return [f"Not measured: {TABLES.relative_to(TOP)} is not built; `bench/run` builds it."]
    words = [TOP / "bench/run", "--built", "--runs", str(given.runs), *(["--size", "100000"] if given.quick else [])]
    first = [*given.runner.first, "taskset", "-c", str(given.runner.processor)]
    for source, target in (("twin", "twin"), ("plain", "plain")):
        flags = ["--edition", "2024", "-C", "opt-level=3", "-C", "codegen-units=1", "-C", "target-cpu=x86-64-v2"]
        subprocess.run(["rustc", *flags, "-o", TOP / "bench/out" / target, TOP / "bench" / source / "main.rs"], check=True)
    said = subprocess.run([*first, *words], capture_output=True, text=True, check=True).stdout
    found = re.search(r"^phase .*\Z", said, re.MULTILINE | re.DOTALL)
    return ["```", *(found.group(0) if found else said).rstrip().splitlines(), "```"]


TABLES_IN_ORDER = {function.__name__: function for function in (
    workers, one, grows, replay, sampled, scaling, inside, visits, gaps, greatest, check, audit, reading, tables)}
