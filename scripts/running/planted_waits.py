"""Plants waits into what strace wrote of a run in which no worker waits for the watcher, and sees whether the count finds each."""
from __future__ import annotations

import pathlib
from typing import Iterator, List, Optional, Sequence, Tuple

from . import waits
from .program import Wrong

RECORDED = pathlib.Path(__file__).resolve().with_name("watched.strace")
PROCESSES = 5


def recorded() -> List[str]:
    """What strace wrote of a watched run of five processes by a build with the address sanitizer, without the calls that say nothing here."""
    return RECORDED.read_text(encoding="ascii").splitlines()


def why(lines: Sequence[str], processes: int = PROCESSES, sanitized: bool = True) -> Optional[str]:
    """Why the lines are refused, where they are: for the waits of a worker for the watcher, or before those are counted."""
    try:
        counted = waits.count(waits.Run(list(lines)), processes, sanitized)
    except Wrong as bad:
        return str(bad)
    return f"{counted.for_watcher} waits for the watcher" if counted.for_watcher else None


def of_run(run: waits.Run, thread: str) -> str:
    """The address at which the thread slept last, which is one of the run's."""
    return run.threads[thread].sleeps()[-1].addresses[0]


def planted_lines(run: waits.Run, worker: str) -> Iterator[Tuple[str, List[str], str]]:
    """Lines to plant before the first sleep of the worker, and what has to be said of them."""
    of_watcher, of_worker, main = of_run(run, run.main), of_run(run, worker), run.main
    yield "a worker that sleeps where the watcher does", [f"{worker} futex({of_watcher}, FUTEX_WAIT_PRIVATE, 2, NULL) = 0"], "1 waits"
    more = f"{worker} futex({of_watcher}, FUTEX_WAIT_BITSET|FUTEX_CLOCK_REALTIME, 2, NULL, 0xffffffff) = 0"
    yield "the same by another form of the call", [more], "1 waits"
    apart = [f"{worker} futex({of_watcher}, FUTEX_WAIT, 2, NULL <unfinished ...>", f"{main} sched_yield() = 0", f"{worker} <... futex resumed>) = 0"]
    yield "the same where another thread comes between", apart, "1 waits"
    yield "a lock of the system's", [f"{worker} futex({of_watcher}, FUTEX_LOCK_PI_PRIVATE, NULL) = 0"], "1 waits"
    yield "a watcher that wakes a worker", [f"{main} futex({of_worker}, FUTEX_WAKE_PRIVATE, 1) = 1"], "1 waits"
    moved = f"{main} futex(0x7be0bdfe0000, FUTEX_CMP_REQUEUE_PRIVATE, 1, 2147483647, {of_worker}, 3) = 1"
    yield "a watcher that has a worker sleep elsewhere", [moved], "1 waits"
    timed = f"{worker} clock_nanosleep(CLOCK_MONOTONIC, 0, {{tv_sec=0, tv_nsec=1}}, NULL) = 0"
    yield "a worker that sleeps for a time", [timed], "whether it waits"
    yield "a line that says nothing", ["what is this"], "does not read"
    yield "a call of futex of no known kind", [f"{worker} futex({of_worker}, 0x99 /* FUTEX_??? */, 1) = 0"], "does not read"


def planted() -> Iterator[str]:
    """Complaints about planted waits that are not found, and about other texts that are not refused."""
    lines = recorded()
    run = waits.Run(lines)
    if why(lines) is not None:
        yield f"a run in which nobody waits for the watcher is refused because {why(lines)}"
    if why(lines, sanitized=False) != "1 waits for the watcher":
        yield f"the sanitizer's lock is not counted where there is no sanitizer: {why(lines, sanitized=False)}"
    worker = next(number for number, thread in run.threads.items() if number != run.main and thread.sleeps())
    at = next(at for at, line in enumerate(lines) if line.startswith(f"{worker} futex("))
    for title, more, part in planted_lines(run, worker):
        found = why([*lines[:at], *more, *lines[at:]])
        if found is None or part not in found:
            yield f"{title}: {found}, and not '{part}'"
    for count in range(len(lines)):
        if why(lines[:count]) is None:
            yield f"cut after {count} lines it is accepted"
    for processes in (1, 2, 3):
        if "threads, and not" not in (why(lines, processes) or ""):
            yield f"it is accepted as a run of {processes} processes"
