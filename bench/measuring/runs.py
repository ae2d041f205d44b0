"""Runs of programs: what one used, and series of several programs in turn."""
import os
import pathlib
import statistics
import subprocess
import sys
import tempfile
from typing import NamedTuple

ENDED_BY_TIME = 124


class Run(NamedTuple):
    """What one run used: milliseconds, MB, and how often a thread slept; and what it wrote to standard error."""

    elapsed: float
    processor: float
    peak: float
    slept: int
    status: int
    errors: str


class Job(NamedTuple):
    """A program with its words, and how it is to be run."""

    words: list
    source: str = os.devnull
    sink: str = os.devnull
    alone: bool = False
    environment: dict = {}
    seconds: int = 0


class Runner:
    """Runs jobs by the program that writes what they used."""

    def __init__(self, launcher, processor, priority):
        self.launcher = str(launcher)
        self.processor = processor
        self.first = ["chrt", "-f", str(priority)] if priority else []

    def words(self, job, file):
        """The whole command line of a job."""
        pinned = ["taskset", "-c", str(self.processor)] if job.alone else []
        ended = ["timeout", str(job.seconds)] if job.seconds else []
        return [*self.first, *pinned, self.launcher, file, *ended, *map(str, job.words)]

    def run(self, job, may_fail=False):
        """One run of a job. A status other than 0 ends the measurement, unless it may come."""
        with tempfile.NamedTemporaryFile() as used, open(job.source, "rb") as source, open(job.sink, "wb") as sink:
            environment = {**os.environ, **job.environment}
            words = self.words(job, used.name)
            done = subprocess.run(words, stdin=source, stdout=sink, stderr=subprocess.PIPE, env=environment, check=False)
            line = pathlib.Path(used.name).read_text(encoding="ascii").split()
        errors = done.stderr.decode(errors="replace")
        if done.returncode != 0 or len(line) != 6:
            sys.exit(f"bench/measure: {' '.join(words)}: status {done.returncode}\n{errors}")
        elapsed, user, system, peak, slept, status = map(int, line)
        if status != 0 and not may_fail:
            sys.exit(f"bench/measure: {' '.join(words)}: status {status}\n{errors}")
        return Run(elapsed / 1e3, (user + system) / 1e3, peak / 1e3, slept, status, errors)

    def series(self, jobs, count):
        """So many runs of each job, in turn."""
        runs = [[] for _ in jobs]
        for _ in range(count):
            for job, done in zip(jobs, runs):
                done.append(self.run(job))
        return [Series(done) for done in runs]


class Series:
    """The runs of one job, each beside one of every other job of the series."""

    def __init__(self, runs):
        self.runs = runs

    def values(self, field):
        """The field of each run."""
        return [getattr(run, field) for run in self.runs]

    def least(self, field):
        """The least of a field."""
        return min(self.values(field))

    def median(self, field):
        """The median of a field."""
        return statistics.median(self.values(field))

    def cell(self, field, digits=1):
        """The least, and in brackets the median."""
        return f"{self.least(field):,.{digits}f} ({self.median(field):,.{digits}f})"

    def ratio(self, other, field):
        """The least of a field by that of another series, and in brackets the median of the ratios of runs side by side."""
        ratios = [mine / max(theirs, 1e-9) for mine, theirs in zip(self.values(field), other.values(field))]
        return f"{self.least(field) / max(other.least(field), 1e-9):.2f} ({statistics.median(ratios):.2f})"


def table(columns, rows):
    """The lines of a table in Markdown."""
    return [f"| {' | '.join(columns)} |", "|" + len(columns) * "---|", *(f"| {' | '.join(map(str, row))} |" for row in rows)]
