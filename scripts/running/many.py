"""Has many cases judged, on one processor or several, until all are done, the time is over, or one is wrong."""
from __future__ import annotations

import argparse
import os
import pathlib
import signal
import sys
import tempfile
import time
from collections import Counter
from concurrent.futures import FIRST_COMPLETED, Future, ProcessPoolExecutor, wait
from typing import Callable, Dict, Iterator, NamedTuple, Optional, Set

from .program import Program, Wrong

TOP = pathlib.Path(__file__).resolve().parent.parent.parent
PROGRAM = TOP / "crates/kaffe/out/kaffe"
WAITING = 2  # cases of each worker that are given out, so that none is idle
TELL = 10  # seconds between two lines of progress


class Case(NamedTuple):
    """The seed of a trace, and how often it is run."""

    seed: int
    runs: int


class Verdict(NamedTuple):
    """What was counted in a case; or why it is wrong, and the texts to look at."""

    case: Case
    counts: Counter
    why: str
    texts: Dict[str, str]


Judge = Callable[[Program, Case], Counter]


def parser(about: str, runs: int) -> argparse.ArgumentParser:
    """The options that the scripts have in common."""
    found = argparse.ArgumentParser(description=about, formatter_class=argparse.RawDescriptionHelpFormatter)
    found.add_argument("--program", type=pathlib.Path, default=PROGRAM, help="without the word that which the last build left")
    found.add_argument("--runs", type=int, default=runs, help="%(default)s without the word")
    found.add_argument("--seed", type=int, default=1, help="of the first trace; the next ones follow (%(default)s)")
    found.add_argument("--version", type=int, choices=(1, 2), default=1, help="of the traces (%(default)s)")
    found.add_argument("--seconds", type=float, help="when no further trace is taken; the status is 0 though fewer were run")
    found.add_argument("--jobs", type=int, default=1, help="runs at once (%(default)s)")
    found.add_argument("--self-test", action="store_true", help="plants wrong things, and says which of them were not seen; needs no program")
    return found


def given(options: argparse.ArgumentParser) -> argparse.Namespace:
    """The words of the command line; ends with status 2 where they cannot be used."""
    words = options.parse_args()
    if min(words.runs, words.jobs) < 1 or words.seconds is not None and words.seconds <= 0:
        options.error("--runs, --jobs and --seconds are numbers above 0")
    if not words.self_test and not os.access(words.program, os.X_OK):
        options.error(f"there is no program {words.program}")
    return words


def cases(seed: int, runs: int, each: int) -> Iterator[Case]:
    """The cases that together have so many runs, so many of each trace."""
    while runs > 0:
        yield Case(seed, min(each, runs))
        seed, runs = seed + 1, runs - each


class _Worker:
    """What each worker process has for itself."""

    program: Program
    judge: Judge


def begin(path: str, judge: Judge) -> None:
    """Makes this process a worker."""
    signal.signal(signal.SIGINT, signal.SIG_IGN)  # the process that gives out the cases ends them all
    _Worker.program, _Worker.judge = Program(path), judge


def judged(case: Case) -> Verdict:
    """The verdict on a case, by this worker."""
    try:
        return Verdict(case, _Worker.judge(_Worker.program, case), "", {})
    except Wrong as bad:
        return Verdict(case, Counter(), str(bad), _Worker.program.texts)
    except Exception as bad:  # (an output that breaks the model is to be looked at, too)
        return Verdict(case, Counter(), f"the script itself fails with {bad!r}", _Worker.program.texts)


class Many:
    """Many cases that are being judged."""

    def __init__(self, name: str, runs: int, seconds: Optional[float]) -> None:
        self.name, self.runs, self.seconds = name, runs, seconds
        self.counts: Counter = Counter()
        self.wrong: Optional[Verdict] = None
        self.began = self.told = time.monotonic()

    @property
    def elapsed(self) -> float:
        return time.monotonic() - self.began

    def judge(self, path: pathlib.Path, judge: Judge, all_cases: Iterator[Case], jobs: int) -> None:
        """Judges the cases, so many at once, up to the first that is wrong."""
        waiting: Set[Future] = set()
        with ProcessPoolExecutor(jobs, initializer=begin, initargs=(os.path.abspath(path), judge)) as workers:
            while True:
                over = self.wrong is not None or self.seconds is not None and self.elapsed >= self.seconds
                for case in () if over else all_cases:
                    waiting.add(workers.submit(judged, case))
                    if len(waiting) >= WAITING * jobs:
                        break
                if not waiting:
                    return
                done, waiting = wait(waiting, return_when=FIRST_COMPLETED)
                for each in done:
                    self._take(each.result())
                self._tell()

    def _take(self, verdict: Verdict) -> None:
        self.counts += verdict.counts
        if verdict.why and (self.wrong is None or verdict.case.seed < self.wrong.case.seed):
            self.wrong = verdict

    def _tell(self) -> None:
        """Writes a line of progress now and then."""
        if time.monotonic() - self.told >= TELL:
            self.told = time.monotonic()
            print(f"{self.name}: {self.counts['runs']} of {self.runs} runs after {self.elapsed:.0f} s", file=sys.stderr, flush=True)

    def ended(self, summary: str) -> int:
        """Prints what was seen, and gives the exit status."""
        print(f"{self.name}: {summary.format_map(Counter(self.counts, seconds=round(self.elapsed)))}", flush=True)
        if self.wrong is not None:
            folder = keep(self.name, self.wrong)
            print(f"{self.name}: seed {self.wrong.case.seed}: {self.wrong.why}; the trace and what was written are in {folder}", flush=True)
            return 1
        if not self.counts["runs"]:
            print(f"{self.name}: no run was done in time", flush=True)
            return 1
        return 0


def keep(name: str, verdict: Verdict) -> str:
    """Writes the texts of a verdict into a new folder, whose name it gives."""
    folder = tempfile.mkdtemp(prefix=f"{name}-")
    for kind, text in verdict.texts.items():
        pathlib.Path(folder, f"{verdict.case.seed}.{kind}").write_bytes(text.encode("latin-1"))
    return folder
