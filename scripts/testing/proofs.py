"""Tests of how a build is proved: the time that is left of it, how many proofs run at once, and how they share the processors."""
import os
import subprocess
import sys
import tempfile
import time
import unittest
from unittest import mock

from launcher import lanes, progress, proving, sources
from testing.launched import TOP


class Time(unittest.TestCase):
    """How far a build is, by a made-up table of times."""

    BELOW = {"a": [], "b": ["a"], "c": ["a"], "d": ["b", "c"]}
    TIMES = {"a": 100.0, "b": 200.0, "c": 60.0, "d": 40.0}

    def test_the_time_left_is_that_of_the_longest_chain_or_of_all_work(self):
        need = list("abcd")
        self.assertEqual(progress.seconds_left(need, self.BELOW, self.TIMES, 1), 400)
        # a and d are alone, twice as fast where they get two processors; b and c are side by side.
        self.assertEqual(progress.seconds_left(need, self.BELOW, self.TIMES, 2, 2.0), 100 / 2 + 200 + 40 / 2)
        self.assertEqual(progress.seconds_left(need, self.BELOW, self.TIMES, 2), 100 + 200 + 40)

    def test_the_longest_chain_above_comes_first(self):
        self.assertEqual(progress.chains(list("abcd"), self.BELOW, self.TIMES), {"a": 340, "b": 240, "c": 100, "d": 40})

    def test_lines_tell_how_far_it_is(self):
        told = progress.Progress(list("abcd"), self.BELOW, self.TIMES, 1)
        self.assertEqual(told.after("a", 100, 100, {}), "1 of 4 crates proved, 100 s so far, about 5 min left (a)")
        # Twice as slow as the table says: what is left takes nearly twice as long, too, since the table still counts for 4 of 304 s.
        self.assertEqual(told.after("b", 600, 500, {}), "2 of 4 crates proved, 10 min so far, about 3 min left (b)")
        self.assertAlmostEqual(told.pace(), 604 / 304)
        told.after("c", 700, 120, {})
        self.assertEqual(told.after("d", 800, 80, {}), "4 of 4 crates proved, 13 min so far (d)")

    def test_what_is_being_proved_is_done_in_part(self):
        told = progress.Progress(list("abcd"), self.BELOW, self.TIMES, 2, 2.0)
        # At the pace of the table: b has 50 s left, and then d takes 40; each is alone, with two processors.
        told.after("a", 50, 100, {})
        self.assertEqual(told.after("c", 200, 60, {"b": 150.0}), "2 of 4 crates proved, 3 min so far, about 45 s left (c)")

    def test_the_table_of_times_has_each_crate(self):
        times = progress.times_of(f"{TOP}/docs/gate-times")
        self.assertEqual(set(sources.crates_below(TOP)[1]) - set(times), set())


class Processors(unittest.TestCase):
    """How the gate is called on four processors."""

    def call(self, gigabytes, **said):
        with mock.patch.dict(os.environ, said, clear=True), mock.patch("os.sched_getaffinity", return_value={0, 1, 2, 3}):
            with mock.patch("launcher.proving.free_memory", return_value=gigabytes * 1_000_000):
                return proving.call_of("top", proving.at_once(), proving.shares())

    def test_with_ample_memory_proofs_share_the_processors(self):
        for said in ({"HOME": "here"}, {"RT_JOBS": "many"}):
            words, env = self.call(20, **said)
            self.assertEqual((words[1:], env), (["top/scripts/launcher/lanes.py", "top/docs/gate-times"], {}))

    def test_with_less_memory_each_proof_has_one_processor(self):
        for gigabytes, jobs in [(19, "4"), (8, "3"), (1, "1")]:
            self.assertEqual(self.call(gigabytes), (["rt", "ci"], {"RT_JOBS": jobs}))

    def test_a_number_that_is_given_is_kept(self):
        self.assertEqual(self.call(64, RT_JOBS="2"), (["rt", "ci"], {"RT_JOBS": "2"}))

    def test_files_are_in_memory_where_each_proof_has_a_gigabyte_there(self):
        for gigabytes, has_room in [(4, True), (3.9, False)]:
            with mock.patch("os.statvfs", return_value=mock.Mock(f_bavail=gigabytes * 250_000, f_frsize=4096)), mock.patch("os.access", return_value=True):
                self.assertEqual(proving.has_room_in_memory(4), has_room)
        with mock.patch("os.statvfs", side_effect=FileNotFoundError):
            self.assertFalse(proving.has_room_in_memory(1))


# A kit's gate that has a crate, its tests and one above it proved, and says with how many processors; with a word it has an edit tried too.
GATE = """#!/usr/bin/env python3
import os, sys

def in_lanes(tasks):
    return {key: print(*key, "its own way") for key in tasks}

def main(words):
    call = lambda given, jobs: jobs
    tasks = {("low", "proof"): ([], 1, 1, call), ("low", "tests"): ([], 0, 1, call), ("high", "proof"): ([("low", "proof")], 1, 1, call)}
    if "EDITS" in os.environ:
        tasks["low", "edits", 0] = [], 1, 1, call
    print(*words, *in_lanes(tasks).items())
    return 3
"""


class Sharing(unittest.TestCase):
    """How proofs share four processors, by a made-up table of times."""

    TIMES = {"low": 10.0, "long": 30.0, "short": 5.0, "side": 8.0, "top": 20.0}
    BELOW = {"low": [], "side": [], "long": ["low"], "short": ["low"], "top": ["long", "short"]}

    def setUp(self):
        self.began, self.jobs = [], {}

    def tasks(self, slow):
        """The tasks of a gate for the made-up crates. Each proof notes when it begins and with how many processors, and the slow ones take a while."""
        def proof(name, given, jobs):
            self.assertLessEqual({(it, "proof") for it in self.BELOW[name]}, {*given})
            self.began.append(name)
            self.jobs[name] = jobs
            time.sleep(0.5 if name in slow else 0)
            return name

        found = {}
        for name, below in self.BELOW.items():
            waits = [(it, "proof") for it in below]
            found[name, "proof"] = (waits, 9, 1, lambda given, jobs, name=name: proof(name, given, jobs))
            found[name, "tests"] = (waits, 0, 1, lambda given, jobs: True)
        return found

    def test_the_longest_chain_comes_first_and_has_two_processors(self):
        tasks = self.tasks(slow=("side",))
        given = lanes.Lanes(self.TIMES, 4).share(tasks)
        self.assertEqual(given, {(name, kind): name if kind == "proof" else True for name, kind in tasks})
        self.assertEqual(self.began, ["low", "side", "long", "short", "top"])
        self.assertEqual(self.jobs, {"low": 2, "side": 2, "long": 2, "short": 2, "top": 2})

    def test_the_first_of_the_chain_has_two_also_where_three_others_could_begin(self):
        own = lanes.Lanes({}, 4)
        self.assertEqual([own.jobs_of(4, is_first, 0) for is_first in (True, False)], [2, 1])
        self.assertEqual([own.jobs_of(1, False, used) for used in (0, 1, 3, 4, 5)], [4, 3, 1, 0, 0])
        self.assertEqual([own.jobs_of(1, True, used) for used in (3, 4)], [2, 0])

    def gate(self, text, **env):
        with tempfile.TemporaryDirectory(prefix="test-launcher-") as room:
            with open(f"{room}/rt", "w", encoding="utf-8") as file:
                file.write(text)
            os.chmod(file.name, 0o755)
            words = [sys.executable, f"{TOP}/scripts/launcher/lanes.py", f"{TOP}/docs/gate-times"]
            ran = subprocess.run(words, env={"PATH": f"{room}:/usr/bin:/bin", **env}, stdout=subprocess.PIPE, text=True, check=False)
            return ran.returncode, ran.stdout

    def test_the_kits_gate_shares_so(self):
        status, said = self.gate(GATE)
        jobs = max(lanes.OF_CHAIN, min(lanes.AT_MOST, len(os.sched_getaffinity(0))))
        self.assertEqual((status, said[:3]), (3, "ci "))
        for key, given in [("low', 'proof", jobs), ("low', 'tests", 1), ("high', 'proof", jobs)]:
            self.assertIn(f"(('{key}'), {given})", said)

    def test_a_gate_with_other_tasks_goes_its_own_way(self):
        self.assertIn("low edits 0 its own way\n", self.gate(GATE, EDITS="yes")[1])

    def test_another_kit_goes_its_own_way(self):
        self.assertEqual(self.gate("#!/bin/sh\necho it is $*\n"), (0, "it is ci\n"))
        self.assertEqual(self.gate(GATE.replace("in_lanes", "side_by_side"))[0], 0)
