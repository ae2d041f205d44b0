"""Tests what needs no prover: which function a body changes, what a check's lines say of it, and the table's dates."""
import pathlib
import re
import subprocess
import unittest
from types import SimpleNamespace
from unittest import mock

from . import places, quick, table

MOST_OUTSIDE = 5  # edits of what is no function, a constant, say
TOP = pathlib.Path(__file__).resolve().parent.parent.parent
TEXT = """//! A table, with { in a comment.
ghost use Rattle.std.specs.Prelude.{◌≡◌};

const MOST: u32 = 7;

/// Says "}" in a comment.
#[tactic(auto)]
pub fn first(rt: &impl Wait, list: [u8; 4]) -> u32
    ghost trace: { Trace }
    requires { 0 < length list }
    ensures named { result ≡ 1 }
{
    let text = "fn no() { '";
    one(|x| x + 1)
}

impl<'a, K: Sink, F: Fn(u8) -> u8> Sink for Gathering<'a, K, F>
where
    K: Clone,
{
    ghost taken = { λ s. s.taken };

    fn write(&mut self, piece: &[u8]) -> u32 {
        if piece.is_empty() {
            return 0;
        }
        two()
    }
}

impl TableRule<(), View, u32> for JournalRule {
    fn step(&self) -> u32 {
        three()
    }
}

mod inner {
    impl Row {
        pub(crate) const fn last(self) -> u32 {
            four()
        }
    }
}
"""
# A text of the file, and the first path by which the prover is asked for its function, with the function's lines.
STANDS_IN = {
    "x + 1": ("tables::first", range(6, 16)),
    "list: [u8; 4]": ("tables::first", range(6, 16)),
    "return 0;": ("tables::GatheringSink::write", range(23, 29)),
    "three()": ("tables::JournalRuleTableRuleUnitViewU32::step", range(32, 35)),
    "four()": ("tables::inner::Row::last", range(39, 42)),
    "MOST: u32 = 7": (None, range(0)),
}
EDIT = "file: src/tables.rt\nold: x + 1\nnew: x + 2\n"
FIRST = "note: src/tables.rt:7:1: it is not proved that what the function ensures holds\n"
LAST = "fn k_it::tables::first: not proved\nonly=1 proved=0\n"
# What a check says where this edit is planted, its status, and what that means.
SAID = [
    (FIRST + LAST, 1, (quick.REFUSED, "a check")),
    ("./proofs/tables/first/Answers.antt:3:1: error: `goal`: it does not hold\n" + LAST, 1, (quick.REFUSED, "a check")),
    ("./proofs/tables/first/Answers.antt:3:1: error: `taken` has no field `x`\n" + LAST, 1, (quick.REFUSED, quick.LITTLE)),
    (FIRST + "fn k_it::tables::second: not proved\nonly=2 proved=1\n", 1, None),
    ("fn k_it::tables::first: proved\nonly=1 proved=1\n", 0, None),
    ("src/tables.rt:14:9: error[mismatched-types]: expected `u8`\n", 1, (quick.BAD, quick.BY_COMPILER)),
    ("rattle: error: `k_it` has no function `tables::first`: help: write the name\n", 2, None),
    ("src/tables.rt:10:9: error: `x` is not in scope\n" + LAST, 1, (quick.BAD, "")),
    ("rattle: no verdict\n", 3, (quick.BAD, "")),
]
ROWS = """## Others

| `k_it` | `other` | refused, 2026-01-01 |

## Bodies that are planted once in a while

| crate | planted | result |
|---|---|---|
| `k_it` | `one`, `two`, `three` | refused, 2026-01-01 |
| `k_it` | `four` | refused, 2026-01-01, by the compiler: it does not compile |
| `k_it` | `six` | refused, 2026-01-01, by a check of the crate |
| `k_more` | `five` | not yet planted |
"""
LOG = """# planted on 2026-01-02
k_it/two: refused, by a check of the changed function alone: src/tables.rt:3:1: error: no
k_it/three: NOT REFUSED
k_it/six: refused, by a check of the changed function alone: note: no
k_it/four: refused, by the compiler: it does not compile: src/tables.rt:3:1: error[borrow]: no
k_more/five: refused, by one check with other bodies, each at its own function: note: no
k_it/one: refused, by a proof file alone, which names what the edit took away: no
# k_it: 4 bodies, 9 s
"""
DATED = """| `k_it` | `one`, `three` | refused, 2026-01-01 |
| `k_it` | `two`, `six` | refused, 2026-01-02, by a check of the changed function alone |
| `k_it` | `four` | refused, 2026-01-02, by the compiler: it does not compile |
| `k_more` | `five` | refused, 2026-01-02, by one check with other bodies, each at its own function |
"""


def unread(line, _):
    """In the place of the kit's own, which looks for more."""
    return bool(re.match(r"src/\S+: error: `", line))


RT = SimpleNamespace(unread=unread, rtlib=SimpleNamespace(STALE=re.compile("Run the lower steps again")))


def body(old):
    return quick.Body("it", pathlib.Path("it.edit"), EDIT, [places.place_of("src/tables.rt", TEXT, old)])


class Tests(unittest.TestCase):
    def test_the_function_is_found(self):
        for old, (path, lines) in STANDS_IN.items():
            place = places.place_of("src/tables.rt", TEXT, old)
            self.assertEqual((place.paths()[0] if place.name else None, place.lines), (path, lines), old)

    def test_edits_of_the_crates_are_of_functions(self):
        edits = [*TOP.glob("crates/*/planted/*.edit"), *TOP.glob("crates/*/must-fail/*.edit")]
        asked = [list(places.asked(list(places.changed(it.read_text(encoding="utf-8"), it.parent.parent)))) for it in edits]
        self.assertLessEqual(sum(not it for it in asked), MOST_OUTSIDE)

    def test_lines_are_judged(self):
        for said, status, wanted in SAID:
            ran = subprocess.CompletedProcess([], status, said)
            told = quick.judged(RT, ran, {"src/tables.rt": ""}, body("x + 1"), "a check")
            self.assertEqual(told and (told.kind, told.by), wanted, said)

    def test_a_complaint_of_another_function_is_not_its_own(self):
        ran = subprocess.CompletedProcess([], 1, FIRST + LAST)
        self.assertIsNone(quick.judged(RT, ran, {}, body("three()"), quick.BY_ROUND))

    def test_bodies_of_one_function_are_planted_apart(self):
        groups = quick.rounds([body("x + 1"), body("list: [u8; 4]"), body("three()")])
        self.assertEqual([len(it) for it in groups], [2, 1])

    def test_the_table_gets_dates(self):
        page = mock.Mock(**{"read_text.return_value": ROWS})
        top = mock.MagicMock(**{"__truediv__.return_value": page})
        self.assertEqual(table.left_to_the_compiler(top), {("k_it", "four")})
        with mock.patch("builtins.open", mock.mock_open(read_data=LOG)), mock.patch("builtins.print"):
            self.assertEqual(table.put_dates(top, ["log"]), 0)
        self.assertEqual(page.write_text.call_args[0][0], ROWS[: ROWS.index("| `k_it` | `one`")] + DATED)


def failed():
    """Runs the tests, and gives whether one failed."""
    tests = unittest.defaultTestLoader.loadTestsFromTestCase(Tests)
    return not unittest.TextTestRunner(verbosity=0).run(tests).wasSuccessful()
