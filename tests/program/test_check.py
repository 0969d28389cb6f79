"""tools/check, with commands of these tests in the place of the toolchain's: what it asks of the prover, over which libraries,
and what of the prover's words it prints."""
import subprocess
import sys
import unittest

from toolchain import Repository

# What the prover says of a function that isn't proved, among all else that it says, and what of that is printed of `high`.
OPEN = """by-macro: a::b blocks=1
so far: 1 of 2 functions checked
so far: ./proofs/f/Answers.antt:1:2: error: it differs
./proofs/f/Answers.antt:1:2: error: it differs
note: src/lib.rt:20:5: it is not proved that it ends (`returns`)
note: a goal may be false
note: a goal may be false
struct high::S: proved
fn high::f: no proof: expected answers in ./proofs/f/Answers.antt; `search` did not prove `returns`
help: write ./proofs/f/Answers.antt with these lines
    use Rattle.high.proofs.f.Goals as goal
fn high::g: proved
logic /kit/logic/antt-project.json: libraries=16
statements core: modules loaded=257 checked=0
crate high: modules loaded=0 checked=64
only=2 proved=1"""
SHOWN = """crates/high/proofs/f/Answers.antt:1:2: error: it differs
note: crates/high/src/lib.rt:20:5: it is not proved that it ends (`returns`)
note: a goal may be false
fn high::f: no proof: expected answers in crates/high/proofs/f/Answers.antt; `search` did not prove `returns`
help: write crates/high/proofs/f/Answers.antt with these lines
    use Rattle.high.proofs.f.Goals as goal
"""


class Check(Repository):
    def check(self, *words, status=0, **variables):
        """Runs it, and returns what it prints and says, and which crates were proved before."""
        self.words.write_text("")
        how = {"stdout": subprocess.PIPE, "stderr": subprocess.PIPE, "env": self.environment(STATUS=str(status), **variables)}
        ran = subprocess.run([self.top / "tools" / "check", *words], **how)
        self.assertEqual(ran.returncode, status, ran.stderr.decode())
        return ran.stdout.decode(), ran.stderr.decode(), [it.split()[0] for it in self.words.read_text().splitlines()]

    def asked(self):
        """The words of the last check."""
        return (self.top / "words.check").read_text().split("\n")

    def test_what_is_below_is_proved_once(self):
        self.assertEqual(self.check("high")[2], ["low"])
        self.assertEqual(self.check("high")[2], [])
        self.source("high").write_text("other")
        self.assertEqual(self.check("high")[2], [])
        self.source("low").write_text("other")
        self.assertEqual(self.check("high")[2], ["low"])
        self.assertEqual(self.check("other")[2], ["high"])
        for it in f"dependency={self.top}/crates/low/out/proved", f"high={self.top}/crates/high/out/proved/high.rlib":
            self.assertIn(it, self.asked())

    def test_what_is_below_and_not_proved_is_named(self):
        printed, said, _ = self.check("other", status=2, BAD="low")
        self.assertIn("gate: low is not proved: the prover refuses it\n", printed)
        self.assertEqual(said.splitlines()[-1], "check: other stands on what isn't proved: low high")

    def test_open_goals_are_printed_with_the_files_to_write(self):
        printed, said, _ = self.check("high", "--only", "f", status=1, SAYS=OPEN)
        shown, last = printed[: len(SHOWN)], printed[len(SHOWN) :]
        self.assertEqual(shown, SHOWN)
        self.assertRegex(last, r"\Acheck: high: 1 open of 2 functions, after 0:0\d: high::f\n\Z")
        self.assertIn("check: high: 1 of 2 functions\n", said)

    def test_what_is_proved_takes_one_line(self):
        printed, _, _ = self.check("high", SAYS="fn high::f: proved\nlogic=proved functions=1")
        self.assertRegex(printed, r"\Acheck: high: 1 functions, nothing is open, after 0:0\d\n\Z")

    def test_no_verdict_is_said(self):
        printed, _, _ = self.check("high", status=3, SAYS="fn high::f: could not tell\nrattle: no verdict: memory")
        self.assertRegex(printed, r"(?s)could not tell\nrattle: no verdict: memory\ncheck: high: the prover gave no verdict, after 0:0\d\n\Z")
        printed, _, _ = self.check("high", status=1, SAYS="error: a file that nobody reads\nlogic=not-proved")
        self.assertRegex(printed, r"\Aerror: .*\ncheck: high: 0 functions, no function is open, but what is said above is, ")

    def test_the_words_of_the_prover(self):
        rows = [
            (["--only", "f", "--only", "g"], "--only f --only g", "--jobs 1", "out/checked", "--test"),
            (["--start", "f"], "--start f --allow-holes", "--jobs 1", "out/checked", "--test"),
            (["--tests"], "--test", "--jobs 4", "out/checked_tests", "--only"),
            ([], "--links high=", "--jobs 4", "out/checked", "--test"),
        ]
        for words, wanted, jobs, kept, missing in rows:
            self.check("high", *words)
            asked = self.asked()
            for it in wanted, jobs, f"--incremental {self.top}/crates/high/{kept}":
                self.assertIn(f" {it} ", " ".join(asked) + " ")
            self.assertNotIn(missing, asked)

    def test_a_crate_of_tests_has_no_other(self):
        with open(self.top / "crates.txt", "a", encoding="utf-8") as it:
            it.write("low_tests: low\n")
        for part in "src", "must-fail":
            (self.top / "crates" / "low_tests" / part).mkdir(parents=True)
        self.source("low_tests").write_text("")
        self.check("low_tests")
        self.assertIn("--test", self.asked())

    def test_mutants(self):
        self.source("high").write_text("pub fn f() -> u8 {\n    1\n}\n")
        (self.top / "mutants" / "high").mkdir(parents=True)
        for folder, name in ("crates/high/must-fail", "one"), ("mutants/high", "two"):
            (self.top / folder / f"{name}.edit").write_text("file: src/lib.rt\nold:     1\nnew:     2\n")
        said = (
            "note: src/lib.rt:1:1: it is not proved that what the function ensures holds when it returns (`returns`)\n"
            "fn high::f: no proof: expected answers in ./proofs/f/Answers.antt; `search` did not prove `returns`\nonly=1 proved=0")
        for names in ["one"], ["two.edit", "high/one"]:
            printed, _, _ = self.check("high", *(word for it in names for word in ("--mutant", it)), SAYS=said)
            self.assertEqual(printed.count(": rejected: high::f: src/lib.rt:1:1: it is not proved that"), len(names))
        printed, _, _ = self.check("high", "--mutant", "two", status=1, SAYS="fn high::f: proved\nonly=1 proved=1")
        self.assertIn("mutant two: NOT REJECTED: ", printed)
        self.assertEqual(self.check("high", "--mutant", "three", status=2)[1], "check: high has no mutant three\n")

    def test_what_there_is_nothing_to_check_of(self):
        self.assertIn("invalid choice: 'none'", self.check("none", status=2)[1])
        (self.top / "alone").mkdir()
        (self.top / "alone" / "python3").symlink_to(sys.executable)
        said = self.check("high", status=2, PATH=str(self.top / "alone"))[1]
        self.assertEqual(said, "check: the Rattle toolchain's command rt isn't on PATH\n")


if __name__ == "__main__":
    unittest.main()
