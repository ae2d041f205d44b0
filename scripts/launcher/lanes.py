#!/usr/bin/env python3
"""Runs the kit's gate where it is called, with another way to share the processors between the proofs: lanes.py TIMES

By itself `rt ci` gives a proof at most half of the idle processors, and one where any other proof could begin. So the proof that most of the
others wait for has one, and where crates can only be proved one after another, half of the processors are idle. This script runs the kit's own
gate and replaces the one function that says when each of its tasks begins, and with how many processors: here the first proof of the longest
chain, by the times in the file, has two at least, and each has those that no other one could begin with. What is proved, and how, and what is
kept of it stay the kit's. A kit that has no such function, or that has other tasks than proofs for it, goes its own way.
"""
import importlib.machinery
import importlib.util
import os
import shutil
import sys
from concurrent.futures import FIRST_COMPLETED, ThreadPoolExecutor, wait

sys.dont_write_bytecode = True
if __name__ == "__main__":
    sys.path.insert(0, os.path.dirname(os.path.dirname(os.path.realpath(__file__))))
from launcher import progress  # noqa: E402

# The name of the kit's function, and the kinds of its tasks in a checkout that has neither edits nor tests.
SHARING, PROOF, TESTS = "in_lanes", "proof", "tests"
# How many processors the first proof of the longest chain has at least, and how many any has at most.
OF_CHAIN, AT_MOST = 2, 4


def are_proofs(tasks):
    """Whether these are the tasks of a gate that has proofs alone: each waits for others, is so many lines long, takes so much memory, and is
    a call that gets what was given and how many processors it may use."""
    return all(len(task) == 4 and (kind == PROOF or kind == TESTS and not task[1]) for (_, kind, *_), task in tasks.items())


class Lanes:
    """So many processors, which tasks share. For each there is memory enough, as whoever has them share has seen to."""

    def __init__(self, times, processors):
        self.times, self.processors = times, processors

    def ranks(self, tasks):
        """For each task the seconds of the longest chain that begins with it."""
        names = [name for name, kind in tasks if kind == PROOF]
        below = {name: [other for other, _ in tasks[name, PROOF][0]] for name in names}
        seconds = {name: self.times.get(name, progress.UNKNOWN_SECONDS) for name in names}
        rank = progress.chains(names, below, seconds)
        return {(name, kind): rank[name] if kind == PROOF else 0.0 for name, kind in tasks}

    def jobs_of(self, others, is_first, used):
        """How many processors a proof gets where so many proofs could begin, itself among them, and so many processors are used; 0 where it has
        to wait for one."""
        idle = self.processors - used
        return min(max(idle // others, OF_CHAIN if is_first else 1), AT_MOST) if idle > 0 else 0

    def share(self, tasks):
        """Does the tasks, each after those that it waits for and the longest chain first, and gives what each of them gave."""
        rank = self.ranks(tasks)
        left, running, given = sorted(tasks, key=lambda it: -rank[it]), {}, {}
        with ThreadPoolExecutor(max(len(tasks), 1)) as pool:
            while left or running:
                ready = [it for it in left if all(below in given for below in tasks[it][0])]
                first = max([*left, *(key for key, _ in running.values())], key=rank.get)
                for at, key in enumerate(ready):
                    has_work = key[1] == PROOF
                    others = sum(kind == PROOF for _, kind in ready[at:])
                    jobs = self.jobs_of(others, key == first, sum(jobs for _, jobs in running.values())) if has_work else 1
                    if jobs:
                        left.remove(key)
                        running[pool.submit(tasks[key][3], given, jobs)] = key, jobs if has_work else 0
                for it in wait(running, return_when=FIRST_COMPLETED).done:
                    given[running.pop(it)[0]] = it.result()
        return given


def gate_of(path):
    """The kit's gate, as a module; none where it is not one."""
    with open(path, "rb") as file:
        if b"python" not in file.readline():
            return None
    loader = importlib.machinery.SourceFileLoader("rt", path)
    gate = importlib.util.module_from_spec(importlib.util.spec_from_loader("rt", loader))
    loader.exec_module(gate)
    return gate if hasattr(gate, SHARING) and hasattr(gate, "main") else None


def main(times):
    """Runs the gate and gives its status."""
    path = os.path.realpath(shutil.which("rt"))
    gate = gate_of(path)
    if gate is None:
        os.execv(path, [path, "ci"])
    own, lanes = getattr(gate, SHARING), Lanes(progress.times_of(times), len(os.sched_getaffinity(0)))
    setattr(gate, SHARING, lambda tasks: lanes.share(tasks) if are_proofs(tasks) else own(tasks))
    return gate.main(["ci"])


if __name__ == "__main__":
    sys.exit(main(sys.argv[1]))
