"""Tells, from what strace wrote of a watched run, for whom its threads waited."""
from __future__ import annotations

import re
from typing import Dict, Iterator, List, NamedTuple, Set, Tuple

from .program import Wrong

MOST_WORKERS = 4
SANITIZED = b"__asan_init"  # a name that a build with the address sanitizer has
BREAK = re.compile(r"\d+ +brk\(NULL\) += (0x[0-9a-f]+)")
CALL = re.compile(r"(\d+) +(\w+)\((.*)")
RESUMED = re.compile(r"(\d+) +<\.\.\. (\w+) resumed>(.*)")
ENDED = re.compile(r"(\d+) +\+\+\+ (exited with \d+|killed by .*) \+\+\+")
SIGNAL = re.compile(r"\d+ +--- .* ---")
MADE = re.compile(r"= (\d+)$")
FUTEX = re.compile(r"(0x[0-9a-f]+), (FUTEX_[A-Z_]+)")
SECOND = re.compile(r"0x[0-9a-f]+")
THREADS = {"clone", "clone3"}
# Calls of a worker that wait for no other thread of the program, but for the kernel's own work.
AT_ONCE = {
    *("brk", "exit", "futex", "getpid", "gettid", "madvise", "mmap", "mprotect", "mremap", "munmap", "prctl", "rseq"),
    *("rt_sigaction", "rt_sigprocmask", "rt_sigreturn", "sched_getaffinity", "sched_yield", "set_robust_list", "sigaltstack"),
    *THREADS,
}


class Futex(NamedTuple):
    """A call of futex by a thread: whether it may sleep there, and the one or two addresses."""

    sleeps: bool
    addresses: Tuple[str, ...]


class Thread:
    """What a thread of the run called once there were two threads."""

    def __init__(self) -> None:
        self.futexes: List[Futex] = []
        self.yields = 0
        self.others: Set[str] = set()

    def addresses(self) -> Set[str]:
        return {address for futex in self.futexes for address in futex.addresses}

    def sleeps(self) -> List[Futex]:
        return [futex for futex in self.futexes if futex.sleeps]


class Run:
    """The threads of a run by their numbers, and the first of all, on which the watcher is."""

    def __init__(self, lines: List[str]) -> None:
        self.threads: Dict[str, Thread] = {}
        self.main = ""
        self.ended: Set[str] = set()
        self.image_end = 0
        for line in lines:
            self._read(line)
        if not self.main or not self.image_end or self.ended != set(self.threads):
            raise Wrong("what strace wrote is cut off")

    def _read(self, line: str) -> None:
        at_first = BREAK.fullmatch(line)
        if at_first and not self.image_end:
            self.image_end = int(at_first[1], 16)
        ended, resumed = ENDED.fullmatch(line), RESUMED.fullmatch(line)
        call = CALL.fullmatch(line) or resumed
        if ended:
            self.ended.add(ended[1])
        elif call:
            number, name, rest = call.groups()
            self._called(number, name, rest, resumed is not None)
        elif not SIGNAL.fullmatch(line):
            raise Wrong(f"strace wrote a line that this script does not read: {line}")

    def _called(self, number: str, name: str, rest: str, again: bool) -> None:
        """Notes a call, or the end of one that was noted when it began."""
        self.main = self.main or number
        thread = self.threads.setdefault(number, Thread())
        made = MADE.search(rest) if name in THREADS else None
        if made:
            self.threads.setdefault(made[1], Thread())
        if again or len(self.threads) == 1:
            return
        if name == "futex":
            thread.futexes.append(futex(rest))
        elif name == "sched_yield":
            thread.yields += 1
        else:
            thread.others.add(name)

    def workers(self) -> Iterator[Thread]:
        return (thread for number, thread in self.threads.items() if number != self.main)


def futex(rest: str) -> Futex:
    """A call of futex, from its arguments."""
    found = FUTEX.match(rest)
    if not found:
        raise Wrong(f"strace wrote a futex call that this script does not read: {rest}")
    address, kind = found.groups()
    second = SECOND.findall(rest[found.end() :].split(" = ")[0]) if "REQUEUE" in kind else []
    return Futex(not kind.startswith(("FUTEX_WAKE", "FUTEX_REQUEUE", "FUTEX_CMP_REQUEUE", "FUTEX_UNLOCK")), (address, *second[:1]))


class Waits(NamedTuple):
    """How often the threads of a run slept or gave their processor away, and how often a worker slept for the watcher."""

    sleeps: int
    yields: int
    watcher_calls: int
    watcher_sleeps: int
    for_watcher: int
    for_sanitizer: int


def count(run: Run, processes: int, sanitized: bool) -> Waits:
    """The waits of a watched run of so many processes; raises Wrong where the threads are not as this script takes them to be."""
    workers, watcher = list(run.workers()), run.threads[run.main]
    wanted = min(processes, MOST_WORKERS)
    if len(workers) != wanted:
        raise Wrong(f"the run made {len(workers)} threads, and not {wanted}, so that its first thread may be a worker")
    unknown = sorted({name for worker in workers for name in worker.others} - AT_ONCE)
    if unknown:
        raise Wrong(f"a worker calls {unknown[0]}, of which this script does not know whether it waits")
    sleeps = [each for worker in workers for each in worker.sleeps()]
    of_watcher = watcher.addresses()
    shared = [each for each in sleeps if not of_watcher.isdisjoint(each.addresses)]
    of_sanitizer = [each for each in shared if sanitized and all(int(address, 16) < run.image_end for address in each.addresses)]
    yields = sum(worker.yields for worker in workers)
    calls, sleeping = len(watcher.futexes), len(watcher.sleeps())
    return Waits(len(sleeps), yields, calls, sleeping, len(shared) - len(of_sanitizer), len(of_sanitizer))
