"""Tests of what ./kaffe builds, and when: by copies of it with made-up crates and a kit that proves nothing."""
import os
import re
import stat
import subprocess

from launcher import building
from testing.launched import KIT, TOP, Launched, text_of

TOLD_OF = re.compile(r"crates proved.*\((\w+)\)")


class Building(Launched):
    """The build of the whole program, proved or not, and when it is built again."""

    def setUp(self):
        super().setUp()
        self.give_kit()

    def test_the_proved_program_is_built_once_and_again_after_an_edit(self):
        status, said, told = self.kaffe("check")
        self.assertEqual((status, said), (0, "did check\n"), told)
        self.assertRegex(told, r"4 crates, 2 at once; about 4 min by docs/gate-times where none is kept")
        self.assertRegex(told, r"kaffe: 1 of 4 crates proved, \d s so far, about \d+ s left \(low\)\n")
        self.assertRegex(told, r"4 of 4 crates proved, \d s so far \(kaffe\)\n")
        calls = self.calls()
        self.assertEqual(calls.count("ci"), 1)
        self.assertEqual(self.kaffe("check")[2], "")
        self.assertEqual(self.calls(), calls)
        self.write("top/crates/right/proofs/Lib.antt", "-- another\n")
        # The others are kept by the kit.
        self.assertRegex(self.kaffe("check")[2], r"1 of [12] crates proved, \d s so far.* \(right\)\n")
        self.assertEqual(self.calls().count("ci"), 2)
        self.assertEqual(os.listdir(f"{self.top}/crates/kaffe/out").count("kaffe"), 1)

    def test_a_file_that_only_looks_newer_builds_nothing(self):
        self.kaffe("check")
        os.utime(f"{self.top}/crates/right/proofs/Lib.antt")
        self.kaffe("check")
        self.assertEqual(self.calls().count("ci"), 1)

    def test_another_kit_builds_again(self):
        self.kaffe("check")
        os.chmod(self.write("kit/rt", KIT.replace("kit-0", "kit-1")), 0o755)
        self.kaffe("check")
        self.assertEqual(self.calls().count("ci"), 2)

    def test_a_crate_that_is_not_proved_ends_the_build(self):
        status, said, told = self.kaffe("check", FAILS="right")
        self.assertEqual((status, said), (70, ""))
        self.assertIn("== right\nno goal is met\nrt: right NOT PROVED\nkaffe: right is not proved", told)
        self.assertFalse(self.is_built("kaffe"))
        self.assertEqual(self.kaffe("install", f"{self.room}/there", FAILS="right")[0], 70)
        self.assertFalse(os.path.exists(f"{self.room}/there"))

    def test_the_unproved_program_is_kept_until_a_source_changes(self):
        for _ in range(2):
            self.assertEqual(self.kaffe("--unproved", "run")[:2], (0, "did run\n"))
        self.assertEqual(self.calls().count("try -- big 100"), 1)
        self.write("top/crates/low/proofs/Lib.antt", "-- a proof\n")
        self.assertEqual(self.kaffe("run", KAFFE_UNPROVED="1")[2], "")
        self.write("top/crates/low/src/lib.rt", "//! Another crate.\n")
        self.assertEqual(self.kaffe("--unproved", "run")[0], 0)
        self.assertEqual(self.calls().count("try -- big 100"), 2)
        self.assertFalse(self.is_built("kaffe"))

    def test_install_puts_the_proved_program_and_its_page(self):
        self.make_program("kaffe", "kaffe-unproved")
        status, said, told = self.kaffe("install", f"{self.room}/there")
        self.assertEqual(status, 0, told)
        self.assertEqual(text_of(f"{self.room}/there/share/man/man1/kaffe.1"), text_of(f"{TOP}/docs/kaffe.1"))
        self.assertTrue(os.stat(f"{self.room}/there/bin/kaffe").st_mode & stat.S_IXOTH)
        self.assertIn(f"installed {self.room}/there/bin/kaffe\n", said)
        self.assertEqual(self.kaffe("install")[0], 2)
        self.assertEqual(self.kaffe("install", "/dev/null")[0], 73)

    def test_crates_are_proved_after_those_that_they_stand_on(self):
        ran = subprocess.run([f"{self.top}/scripts/side-by-side", "broken"], env=self.env, stderr=subprocess.PIPE, text=True, check=False)
        self.assertEqual(TOLD_OF.findall(ran.stderr), ["low", "broken"])
        self.assertEqual(os.listdir(f"{self.top}/crates/kaffe/out"), [])


class Programs(Launched):
    """Which program does a command, and which is built for it where none is fresh."""

    def setUp(self):
        super().setUp()
        self.give_kit()

    def first_build(self, crate, called):
        return f"kaffe: proving and building {called}, which a first time takes {building.FIRST_BUILD[crate]} (--unproved takes a minute)\n"

    def test_run_and_replay_have_the_smaller_program_built(self):
        status, said, told = self.kaffe("run")
        self.assertEqual((status, said), (0, "did run\n"), told)
        self.assertIn(self.first_build("kaffe_run", "the program that runs traces"), told)
        self.assertIn("3 crates, 2 at once; about 3 min by docs/gate-times where none is kept", told)
        self.assertEqual(TOLD_OF.findall(told), ["low", "left", "kaffe_run"])
        self.assertEqual(self.kaffe("replay"), (0, "did replay\n", ""))
        self.assertEqual((self.ran(), self.calls().count("ci")), (["kaffe_run"] * 2, 1))
        self.assertEqual(set(os.listdir(f"{self.top}/crates/kaffe_run/out")), {"kaffe_run", "kaffe_run.built"})
        self.assertFalse(os.path.exists(f"{self.top}/crates/kaffe/out/kaffe"))

    def test_replay_has_it_built_too(self):
        self.assertEqual(self.kaffe("replay")[:2], (0, "did replay\n"))
        self.assertEqual((self.ran(), self.is_built("kaffe")), (["kaffe_run"], False))

    def test_another_command_has_the_whole_program_built(self):
        for words in (["check"], ["big", "7"], ["watch", "0"]):
            told = self.kaffe(*words)[2]
            self.assertEqual(self.first_build("kaffe", "the whole program") in told, words == ["check"], told)
        self.assertEqual((self.ran(), self.calls().count("ci")), (["kaffe"] * 3, 1))
        self.assertFalse(os.path.exists(f"{self.top}/crates/kaffe_run/out"))

    def test_the_whole_program_after_the_smaller_one_has_the_rest_proved(self):
        self.kaffe("run")
        told = self.kaffe("check")[2]
        self.assertIn("building the whole program, of which most was proved for run and replay, and is not proved again where the kit has kept it", told)
        self.assertEqual(TOLD_OF.findall(told), ["right", "kaffe"])
        self.assertRegex(told, r"2 of 2 crates proved, \d s so far \(kaffe\)\n")
        self.assertEqual(self.kaffe("run")[2], "")
        self.assertEqual(self.ran(), ["kaffe_run", "kaffe", "kaffe"])

    def test_nothing_is_said_to_be_proved_where_the_smaller_program_is_stale(self):
        self.kaffe("run")
        self.write("top/crates/low/src/lib.rt", "//! Another crate.\n")
        self.assertIn(self.first_build("kaffe", "the whole program"), self.kaffe("check")[2])

    def test_a_fresh_whole_program_runs_traces_and_nothing_is_built(self):
        self.make_program()
        for word in ("run", "replay"):
            self.assertEqual(self.kaffe(word), (0, f"did {word}\n", ""))
        self.assertEqual((self.ran(), self.calls()), (["kaffe"] * 2, []))
        self.assertFalse(os.path.exists(f"{self.top}/crates/kaffe_run/out"))

    def test_a_fresh_smaller_program_runs_traces_where_the_whole_one_is_stale(self):
        self.make_program()
        self.make_program("kaffe_run")
        self.write("top/crates/right/proofs/Lib.antt", "-- another\n")
        self.assertEqual(self.kaffe("run"), (0, "did run\n", ""))
        self.assertEqual((self.ran(), self.calls()), (["kaffe_run"], []))

    def test_where_both_are_stale_the_smaller_one_is_built(self):
        self.kaffe("check")
        self.write("top/crates/right/proofs/Lib.antt", "-- another\n")
        self.assertEqual(TOLD_OF.findall(self.kaffe("run")[2]), ["kaffe_run"])
        self.assertEqual(self.kaffe("run")[2], "")
        self.write("top/crates/left/proofs/Lib.antt", "-- another\n")
        self.assertEqual(TOLD_OF.findall(self.kaffe("run")[2]), ["left"])
        self.assertEqual((self.ran(), self.calls().count("ci")), (["kaffe", *["kaffe_run"] * 3], 3))

    def test_the_smaller_program_needs_only_what_it_stands_on(self):
        self.assertEqual(self.kaffe("run", FAILS="right")[0], 0)
        self.write("top/crates/left/proofs/Lib.antt", "-- another\n")
        status, said, told = self.kaffe("run", FAILS="left")
        self.assertEqual((status, said), (70, ""))
        self.assertIn("kaffe: left is not proved", told)

    def test_the_smaller_program_is_given_files_and_explained_as_the_whole_one(self):
        self.make_program("kaffe_run")
        bad = self.write("bad.kaffe", "bad\nline\n")
        for words in (["run", bad], ["replay", bad], ["run", "-"], ["replay"]):
            status, said, told = self.kaffe(*words, given="bad\nline\n", KAFFE_EXPLAIN="1")
            self.assertEqual((status, said, text_of(self.env["GIVEN"])), (1, "bad trace: line 2 reason 4\n", "bad\nline\n"))
            self.assertIn("reason 4: The line has none of the forms", told)
        self.assertEqual(self.kaffe("run", bad, bad)[0], 2)
        self.assertEqual(self.ran(), ["kaffe_run"] * 4)

    def test_without_proofs_the_whole_program_does_each_command(self):
        self.make_program("kaffe_run")
        for word in ("run", "check"):
            self.assertEqual(self.kaffe("--unproved", word)[:2], (0, f"did {word}\n"))
        self.assertEqual((self.ran(), self.calls().count("try -- big 100")), (["kaffe-unproved"] * 2, 1))

    def test_the_whole_program_is_installed(self):
        self.make_program("kaffe_run")
        self.assertEqual(self.kaffe("install", f"{self.room}/there")[0], 0)
        self.assertTrue(self.is_built("kaffe"))

    def test_version_tells_of_the_smaller_program_where_it_is_there(self):
        self.assertNotIn("kaffe_run", self.kaffe("--version")[1])
        self.make_program("kaffe_run")
        line = "program for run and replay alone: crates/kaffe_run/out/kaffe_run, proved, "
        self.assertIn(f"program: not built\n{line}that of the sources as they are\n", self.kaffe("--version")[1])
        self.write("top/crates/right/proofs/Lib.antt", "-- another\n")
        self.assertIn(f"{line}that of the sources as they are\n", self.kaffe("--version")[1])
        self.write("top/crates/left/proofs/Lib.antt", "-- another\n")
        self.assertIn(f"{line}older than the sources", self.kaffe("--version")[1])
