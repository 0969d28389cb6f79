"""tools/mutants.py and .ci/judge, with commands of these tests instead of the toolchain's."""
import os
import pathlib
import shutil
import subprocess
import sys
import tempfile
import unittest

from program import TOP

sys.path.insert(0, str(TOP / "tools"))
from functions import Function, owner_in, owner_of
from rejections import is_judged, is_other, is_whole, rejection

SOURCE = """pub fn one() -> u8
    ensures { result == 1 }
{
    1
}

impl<T: Fn(u8) -> u8> Twice for Pair<T> {
    fn two(&self) -> u8 {
        one() + 1
    }

    fn three(&self) -> u8 {
        self.two() + 1
    }
}

const LIMIT: u8 = 4;

pub struct Pair<T> {
    of: T,
}

pub trait Twice {
    fn two(&self) -> u8;
}

impl<T: Fn(u8) -> u8> Pair<T> {
    fn none(&self) -> u8 {
        if true { 0 } else { self.none() }
    }
}
"""

# What is implemented for a type outside of its module.
ELSEWHERE = """impl<T: Fn(u8) -> u8> Pair<T> {
    /// As `one`.
    fn four(&self) -> u8 {
        one()
    }
}
"""

# One that is computed as the crate is read, one that is proved together with others, and one of many lines, of which one
# before its body ends as a body's does.
MORE = """pub const fn first() -> u8 {
    4
}

#[cycle(parity)]
#[inline]
fn even(of: u8) -> bool {
    of == 0 || odd(of - 1)
}

fn more(
    of: &[u8],
) -> u8
    requires of {
        0 < length of }
{
    for it in of {
        let _ = it;
    }
    2
}
"""

# Refuses a function in whose lines there is a 9, or LIMIT where that is 9, and says of those that call it that it isn't
# proved. At a 7 a search gives up. It knows a function by its name alone. It notes of which functions each check is, over which
# files of proofs, each hole with a question mark, and keeps the sources that it saw last.
RATTLE = r"""#!/usr/bin/env python3
import pathlib, re, sys
text = pathlib.Path("src/lib.rt").read_text()
bodies = dict(zip(("one", "two", "three"), re.split(r"fn \w+\(", text.partition("const")[0])[1:]))
bad = {name for name, body in bodies.items() if "9" in body or "7" in body} | ({"three"} if "LIMIT: u8 = 9" in text else set())
only = [it.split("::")[-1] for at, it in enumerate(sys.argv) if sys.argv[at - 1] == "--only"] or list(bodies)
with open(pathlib.Path(sys.argv[0]).parent / "checks", "a") as it:
    it.write(" ".join(sorted(only)) + "\n")
proofs = [f"{it.parent.relative_to('proofs')}/{it.stem}" + "?" * it.read_text().endswith("_spec = ?\n") for it in pathlib.Path("proofs").glob("**/*.antt")]
with open(pathlib.Path(sys.argv[0]).parent / "proofs", "a") as it:
    it.write(" ".join(sorted(proofs)) + (" --allow-holes" if "--allow-holes" in sys.argv else "") + "\n")
for it in pathlib.Path("src").iterdir():
    (pathlib.Path(sys.argv[0]).parent / it.name).write_text(it.read_text())
names = {"one": "low::one", "two": "low::PairTwice::two", "three": "low::PairTwice::three"}
for name in only:
    if name in bad:
        limit = "; `search` gave up at one of its limits" * ("7" in bodies[name])
        print(f"note: src/lib.rt:1:1: it is not proved that {name} ensures what it says (`returns`){limit}")
        print(f"fn {names[name]}: no proof: expected answers in ./proofs/{name}/Answers.antt")
    elif name == "two" and "one" in bad:
        print(f"fn {names[name]}: no proof: it calls `low::one`, which is not proved")
    else:
        print(f"fn {names[name]}: proved")
print("only=1 proved=1" if "--only" in sys.argv else f"logic={'not-proved' if bad else 'proved'}")
"""

# What the prover says of a function `low::two` that isn't proved, behind these lines; and the lines: of a goal without an answer, which
# may be false for what is known, or at which a search ended at a limit; of an answer that doesn't prove its goal; of one that has none.
NOT_PROVED = "fn low::two: not proved\nonly=1 holes=0"
OPEN = "note: src/lib.rt:1:1: it is not proved that what the function ensures holds when it returns (`returns-then-a-eq2`)"
FALSE, GAVE_UP = (f"{OPEN}; {it}" for it in ("the facts known there allow values at which this goal is false", "`search` gave up at one of its limits"))
ANSWER = "./proofs/low/two/Answers.antt:9:2: error: `returns`: the two types differ"
GONE = "./proofs/low/two/Answers.antt:9:2: error: `returns-then-a-eq1`: `goal.returns-then-a-eq1`: module `Rattle.low.proofs.two.Goals` has no `returns-then-a-eq1` that can be named from here"
GONE_SUM, GONE_SHORT = GONE.replace("returns-then-a-eq1", "overflow_add-a"), GONE.partition(" has no ")[0]

# What of these counts as a rejection, if an edit changes what its text names, and if it changes the form alone.
COUNTS = [
    ([FALSE], FALSE, FALSE),
    ([FALSE, GONE], FALSE, FALSE),
    ([OPEN], OPEN, None),
    ([OPEN, GONE_SUM], OPEN, None),
    ([OPEN, GONE], None, None),
    ([OPEN, GONE_SHORT], None, None),
    ([GAVE_UP], None, None),
    ([GONE], None, None),
    ([ANSWER], ANSWER, None),
    ([ANSWER, GONE], ANSWER, None),
    ([OPEN, ANSWER], ANSWER, None),
    ([OPEN, FALSE], FALSE, FALSE),
    (["fn low::one: not proved", OPEN], OPEN, None),
    ([OPEN, "fn low::one: not proved"], None, None),
    ([FALSE, "fn low::one: no proof: expected answers"], None, None),
    ([ANSWER.replace("two", "one")], None, None),
]

# Texts that say the same in another form, and texts that don't.
SAME = [
    ("if a < 16 {", "if a <= 15 {"),
    ("if a < 16 {", "if 16 > a {"),
    ("if 0x1_0 <= a {", "if a > 15 {"),
    ("1..=9", "1..10"),
    ("a != b", "!(a == b)"),
    ("at: a.at + n,", "at: n + a.at,"),
    ("left -= n;", "let rest = left - n; left = rest;"),
    ("u64::from(a)", "a as u64"),
    ("if c { a } else { b }", "if !c { b } else { a }"),
    ("return Some(a); // here", "return Some(a);"),
    ("if x == b'0' {", "if x <= b'0' && x >= b'0' {"),
]
OTHER = [
    ("if a < 16 {", "if a < 15 {"),
    ("if a < 16 {", "if a <= 16 {"),
    ("if 2 > a {", "if 2 < a {"),
    ("f(a)", "f(b)"),
    ("f(a)", "0"),
    ("a.f", "a.g"),
    ("a", "a & 0"),
    ("x == b'\\t'", "x == b'\\n'"),
    ('"a"', '"b"'),
    ("true", "false"),
    ("if a != b {", "let a = a.max(b); if a != b {"),
    ("&line[from..]", "&line[0..]"),
]

RT = """#!/bin/bash
case "$1" in
  doc) echo "$(dirname "$0")/kit/START-HERE.md" ;;
  ci) printf '== low\\nlogic=proved functions=3\\nrt: low proved\\n== gate, its tests\\nlogic=proved tests=1\\nrt: the tests of gate are proved\\nrt: gate is kept: an earlier run\\n'; mkdir -p crates/gate/out; echo built > crates/gate/out/gate; echo "${SAYS:-2 passed, 0 failed}"; exit "${STATUS:-0}" ;;
esac
"""


class Refusals(unittest.TestCase):
    def test_what_counts_as_a_rejection(self):
        for lines, other, same in COUNTS:
            for is_changed, wanted in (True, other), (False, same):
                with self.subTest(lines, other=is_changed):
                    why = rejection("\n".join([*lines, NOT_PROVED]), {Function("two", "low")}, is_changed)
                    self.assertEqual(why, wanted and f"low::two: {wanted.partition('error: ')[2] or wanted[6:]}"[:200])

    def test_if_only_a_proof_names_what_is_gone_the_contract_rejects_nothing(self):
        for words in "has no field `max`", "(nearest: .min)", "is not in scope", "expected type `After-min`, but", "2 declarations that depend on `kept`, which was rejected, were not checked":
            said = f"./proofs/low/two/Answers.antt:9:2: error: `kept`: record `After-max` {words}\n{NOT_PROVED}"
            self.assertIsNone(rejection(said, {Function("two", "low")}), words)
        for place in "low/two", "low/+two":
            said = f"./proofs/{place}/Answers.antt:9:2: error: `kept`: the two types differ\n{NOT_PROVED}"
            self.assertEqual(rejection(said, {Function("two", "low")}), "low::two: `kept`: the two types differ")

    def test_a_function_is_judged_where_the_prover_says_what_comes_of_it(self):
        for verdict, wanted in ("no holes", True), ("proved", True), ("not proved; it calls", True), ("no proof: expected", True), ("could not tell", False):
            for name in "two", "one":
                self.assertEqual(is_judged(f"fn low::{name}: {verdict}\nonly=1", {Function("two", "low")}), wanted and name == "two", verdict)
        self.assertFalse(is_judged("error[type-mismatch]: src/lib.rt", {Function("two", "low")}))

    def test_beside_a_control_a_search_that_gave_up_counts_as_one_that_ended(self):
        for lines, other, wanted in ([GAVE_UP], True, GAVE_UP), ([GAVE_UP], False, None), ([GAVE_UP, GONE], True, None), ([GAVE_UP, GONE_SUM], True, GAVE_UP):
            with self.subTest(lines, other=other):
                why = rejection("\n".join([*lines, NOT_PROVED]), {Function("two", "low")}, other, limits=True)
                self.assertEqual(why, wanted and f"low::two: {wanted[6:]}"[:200])

    def test_a_function_is_whole_where_each_of_its_goals_is_proved(self):
        for lines, wanted in ([], True), ([OPEN], False), ([GAVE_UP], False), ([ANSWER], False), ([GONE], False), ([OPEN, "fn low::one: not proved"], True):
            self.assertEqual(is_whole("\n".join([*lines, NOT_PROVED]), {Function("two", "low")}), wanted, lines)
        self.assertFalse(is_whole("fn low::two: could not tell", {Function("two", "low")}))

    def test_what_texts_name_beside_their_form(self):
        for texts, wanted in (SAME, False), (OTHER, True):
            for old, new in texts:
                self.assertEqual((is_other(old, new), is_other(new, old)), (wanted, wanted), (old, new))


class Bodies(unittest.TestCase):
    def setUp(self):
        kept = tempfile.TemporaryDirectory()
        self.addCleanup(kept.cleanup)
        self.top = pathlib.Path(kept.name)
        for name in "tools", ".ci":
            shutil.copytree(TOP / name, self.top / name, ignore=shutil.ignore_patterns("__pycache__"))
        for name in "crates/low/src", "crates/low/must-fail", "crates/gate/src", "kit/bin":
            (self.top / name).mkdir(parents=True)
        (self.top / "crates.txt").write_text("low:\ngate: low\n")
        (self.top / "HANDLES").touch()
        (self.top / "crates/low/src/lib.rt").write_text(SOURCE)
        (self.top / "crates/low/src/elsewhere.rt").write_text(ELSEWHERE)
        (self.top / "crates/low/src/more.rt").write_text(MORE)
        for path, text in ("rt", RT), ("kit/bin/rattle", RATTLE):
            (self.top / path).write_text(text)
            (self.top / path).chmod(0o755)

    def judge_edits(self, status, crate="low", says="2 passed, 0 failed", rt_status=0, controls=(), **edits):
        """What the judge says with these edits, each an old text and a new one and maybe a line more, and which functions
        each check was of; those named in `controls` are controls."""
        for name, (old, new, *more) in edits.items():
            path = self.top / "crates" / crate / ("controls" if name in controls else "must-fail") / f"{name}.edit"
            path.parent.mkdir(exist_ok=True)
            path.write_text("".join(f"{it}\n" for it in [*more, "file: src/lib.rt", f"old: {old}", f"new: {new}"]))
        environment = {**os.environ, "PATH": f"{self.top}:{os.environ['PATH']}", "SAYS": says, "STATUS": str(rt_status)}
        ran = subprocess.run([self.top / ".ci" / "judge"], env=environment, stdout=subprocess.PIPE, stderr=subprocess.PIPE)
        self.assertEqual((ran.returncode, ran.stderr), (status, b""), ran.stdout)
        checks = self.top / "kit" / "bin" / "checks"
        return ran.stdout.decode(), checks.read_text().splitlines() if checks.exists() else []

    def test_those_of_functions_of_their_own_are_tried_together(self):
        said, checks = self.judge_edits(0, a=("    1", "    9"), b=("self.two() + 1", "self.two() + 9"))
        self.assertEqual(checks, ["one three"])
        self.assertIn("mutant low/a.edit: rejected: low::one: src/lib.rt:1:1: it is not proved that one", said)
        self.assertTrue(said.endswith("\n4 passed, 0 failed\n"), said)

    def test_two_of_one_function_take_a_check_each(self):
        said, checks = self.judge_edits(0, a=("one() + 1", "one() + 9"), b=("        one()", "        9 + one()"))
        self.assertEqual(checks, ["two", "two"])
        self.assertTrue(said.endswith("\n4 passed, 0 failed\n"), said)

    def test_a_mutant_rejected_for_a_function_that_it_calls_is_tried_alone(self):
        said, checks = self.judge_edits(1, a=("    1", "    9"), b=("one() + 1", "one() + 1 + 0"))
        self.assertEqual(checks, ["one two", "two"])
        self.assertIn("mutant low/b.edit: NOT REJECTED: two: no goal of its own still exists and isn't proved; a line 'in: FUNCTION' can name another function\n", said)
        self.assertTrue(said.endswith("\n3 passed, 1 failed\n"), said)

    def test_in_a_check_of_functions_all_others_have_a_hole_for_a_proof(self):
        for it in "one", "PairTwice/two", "PairTwice/three", "Pair/+none":
            (self.top / "crates/low/proofs" / it).mkdir(parents=True)
            (self.top / "crates/low/proofs" / it / "Answers.antt").touch()
        self.judge_edits(1, a=("one() + 1", "one() + 1 + 0"))
        rests = "Pair/four/Proof? Pair/none/Proof? PairTwice/three/Proof? PairTwice/two/Answers more/first/Proof? more/more/Proof? one/Proof? --allow-holes"
        self.assertEqual((self.top / "kit/bin/proofs").read_text().splitlines(), [rests, rests])

    def test_in_a_check_of_functions_no_other_has_a_body_and_no_line_moves(self):
        self.judge_edits(0, a=("one() + 1", "one() + 9"))
        cut = [("{\n    1\n", "{\nunreachable!()\n"), ("        self.two() + 1", "unreachable!()")]
        cut += [("        if true { 0 } else { self.none() }", "unreachable!()"), ("one() + 1", "one() + 9")]
        cut += [("    for it in of {\n        let _ = it;\n    }\n    2\n", "unreachable!()\n\n\n\n")]
        for file, text in ("lib", SOURCE), ("more", MORE):
            for old, new in cut:
                text = text.replace(old, new)
            self.assertEqual((self.top / f"kit/bin/{file}.rt").read_text(), text)

    def test_one_that_is_named_with_the_arguments_of_its_trait_keeps_its_body(self):
        self.judge_edits(1, a=("u8 = 4", "u8 = 9", "in: PairTwiceOf::three"))
        text = (self.top / "kit/bin/lib.rt").read_text()
        self.assertIn("self.two() + 1", text)
        self.assertNotIn("one() + 1", text)

    def test_what_functions_stand_in(self):
        rows = [
            ("pub trait Summary: Sized + Copy {", ("Summary", "", True), "Summary"),
            ("impl<'a, T: Fn(u8) -> u8> Twice<T> for &Pair<T> {", ("Pair", "Twice", False), "PairTwice"),
            ("unsafe impl fmt::Debug for Pair {", ("Pair", "Debug", False), "PairDebug"),
            ("impl Desk<'_> {", ("Desk", "", False), "Desk"),
        ]
        for head, owner, name in rows:
            self.assertEqual((owner_in(head), owner_of(head)), (owner, name), head)

    def test_one_outside_of_functions_takes_a_check_of_the_crate_or_names_one(self):
        said, checks = self.judge_edits(0, a=("= 4", "= 9"), b=("u8 = 4", "u8 = 9", "in: PairTwice::three"))
        self.assertEqual(checks, ["one three two", "three"])
        self.assertIn("mutant low/a.edit: rejected: by a check of the whole crate, since no line 'in: FUNCTION' names a function: ", said)
        self.assertIn("mutant low/b.edit: rejected: low::PairTwice::three: ", said)

    def test_one_that_cannot_be_made_fails(self):
        said, _ = self.judge_edits(1, a=("nothing", "9"))
        self.assertIn("mutant low/a.edit: NOT REJECTED: it can't be made: the text that it replaces isn't in the file exactly once: nothing", said)

    def test_controls_are_tried_with_the_others_and_accepted(self):
        said, checks = self.judge_edits(0, controls=["b"], a=("    1", "    9"), b=("self.two() + 1", "1 + self.two()"))
        self.assertEqual(checks, ["one three"])
        self.assertIn("control low/b.edit: accepted: no goal that still exists rejects it\n", said)
        self.assertTrue(said.endswith("\n4 passed, 0 failed\n"), said)

    def test_a_control_that_is_rejected_fails(self):
        said, _ = self.judge_edits(1, controls=["a"], a=("    1", "    9"))
        self.assertIn("control low/a.edit: REJECTED: low::one: src/lib.rt:1:1: it is not proved that one", said)
        self.assertTrue(said.endswith("\n2 passed, 1 failed\n"), said)

    def test_a_control_without_a_verdict_fails(self):
        for old, new, words in ("nothing", "9", "it can't be made"), ("= 4", "= 5", "there is no verdict"):
            said, _ = self.judge_edits(1, controls=["a"], a=(old, new))
            self.assertIn(f"control low/a.edit: REJECTED: {words}", said)

    def test_a_search_that_gave_up_rejects_beside_a_control_that_is_proved(self):
        wrong, beside = ("one() + 1", "one() + 7", "control: b"), "rejected: beside b, which is proved: low::PairTwice::two: "
        rows = [
            (wrong, ("one() + 1", "1 + one()"), beside),
            (wrong, ("one() + 1", "7 + one()"), "NOT REJECTED"),
            (wrong, ("self.two() + 1", "1 + self.two()"), "NOT REJECTED"),
            (wrong, ("nothing", "1"), "NOT REJECTED"),
            (("one() + 1", "7 + one() + 1", "control: c"), ("one() + 1", "1 + one()"), "NOT REJECTED"),
            (("one() + 1", "one() + 7"), ("one() + 1", "1 + one()"), "NOT REJECTED"),
        ]
        for edit, control, words in rows:
            with self.subTest(edit=edit, control=control):
                said, _ = self.judge_edits(int(words == "NOT REJECTED"), controls=["b"], a=edit, b=control)
                self.assertIn(f"mutant low/a.edit: {words}", said)

    def test_the_program_is_put_where_it_is_looked_for(self):
        self.judge_edits(0)
        self.assertEqual((self.top / "crates/gate/out/gate").read_text(), "built\n")

    def test_the_line_of_a_proof_is_kept_with_the_sources_that_it_is_of(self):
        """None of a crate that an earlier run proved, and none once a source is another."""
        self.judge_edits(0)
        script = "import sys, verdicts; print([verdicts.line_of(it) for it in sys.argv[1:]])"
        ask = lambda: subprocess.run([sys.executable, "-c", script, "low", "gate"], cwd=self.top / "tools", stdout=subprocess.PIPE, check=True).stdout.decode()
        self.assertEqual(ask(), "['logic=proved functions=3', None]\n")
        (self.top / "crates/low/src/lib.rt").write_text(SOURCE + "\n")
        self.assertEqual(ask(), "[None, None]\n")

    def test_a_crate_that_is_not_proved_fails_and_so_do_the_bodies_above_it(self):
        said, _ = self.judge_edits(1, crate="gate", says="1 passed, 1 failed", rt_status=1, a=("x", "y"))
        self.assertTrue(said.endswith("\n1 passed, 2 failed\n"), said)


if __name__ == "__main__":
    unittest.main()
