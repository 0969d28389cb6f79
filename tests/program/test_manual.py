"""The manual page docs/gate.1 and the messages in docs/OPERATING.md, compared with the program: its help and the source of its ends."""
import os
import pathlib
import re
import shutil
import subprocess
import sys
import tempfile
import unittest

from program import PROGRAM, TOP, built

PAGE = TOP / "docs" / "gate.1"
SOURCE = "crates/gate/src/failure.rt"
# What tools/manual reads and writes, without the parser of `legacy`, which test_legacy.py compares.
READ = ("tools", "docs", "clients", "crates/gate/src", "crates/index_files/src")


def help_of(*words):
    return subprocess.run([PROGRAM, *words, "--help"], stdout=subprocess.PIPE, check=True).stdout.decode()


def check(top, program):
    """The status of `tools/manual --check`, and what it prints."""
    ran = subprocess.run([sys.executable, top / "tools" / "manual", "--check"], env={**os.environ, "GATE": program},
                         stdout=subprocess.PIPE, stderr=subprocess.STDOUT)
    return ran.returncode, ran.stdout.decode()


@unittest.skipUnless(shutil.which("mandoc"), "there is no mandoc, which sets manual pages")
class Manual(unittest.TestCase):
    def setUp(self):
        ran = subprocess.run(["mandoc", "-T", "ascii", "-O", "width=300", PAGE], stdout=subprocess.PIPE, check=True)
        text = re.sub(r".\x08", "", ran.stdout.decode())
        self.sections = dict(re.findall(r"^([A-Z][A-Z ]+)\n((?:[ \t].*\n|\n)+)", text, re.MULTILINE))

    def test_it_has_no_fault_of_form(self):
        ran = subprocess.run(["mandoc", "-T", "lint", "-W", "style", PAGE], stdout=subprocess.PIPE, stderr=subprocess.STDOUT)
        self.assertEqual((ran.returncode, ran.stdout.decode()), (0, ""))

    @built
    def test_each_command_and_option_of_the_help_is_in_it(self):
        names = re.findall(r"^  (\w+) +\S", help_of().partition("Commands:\n")[2].partition("\n\n")[0], re.MULTILINE)
        lines = {line.split()[1] if " " in line else "": line for line in map(str.strip, self.sections["SYNOPSIS"].splitlines())}
        self.assertIn("serve", names)
        for name in set(names) - {"help"}:
            options = set(re.findall(r"(--[\w-]+)", help_of(name).partition("Options:")[2].partition("\nExample")[0]))
            with self.subTest(name):
                self.assertEqual(set(re.findall(r"--[\w-]+", lines[name])), options - {"--help"})
                for option in options:
                    self.assertRegex(self.sections["DESCRIPTION"], rf"(?m)^ {{5}}{option}\b")
                self.assertRegex(self.sections["DESCRIPTION"], rf"(?m)^ {{5}}{name} +\S")

    def test_each_message_of_the_source_is_in_it(self):
        arms = (TOP / SOURCE).read_text(encoding="utf-8").partition("impl fmt::Display for Failure")[2]
        texts = {re.sub(r"\{.*|\\n", "", it) for it in re.findall(r'"(gate: [^"]*)"', arms)}
        self.assertGreater(len(texts), 10)
        for text in texts:
            with self.subTest(text):
                self.assertRegex(self.sections["DIAGNOSTICS"], rf"(?m)^ {{5}}{re.escape(text)}")
                self.assertIn(f"| `{text}", (TOP / "docs" / "OPERATING.md").read_text(encoding="utf-8"))


class Written(unittest.TestCase):
    @built
    def test_the_pages_are_those_of_the_program(self):
        self.assertEqual(check(TOP, PROGRAM), (0, ""))

    def test_a_message_of_the_source_that_is_another_is_seen(self):
        changes = (
            ("gate: read fault", "gate: reading failed"),
            ("    Read,\n", "    /// Another cause.\n    Read,\n"),
            ("            | Failure::OutOfMemory => 1", "            | Failure::OutOfMemory => 2"))
        with tempfile.TemporaryDirectory() as folder:
            top = pathlib.Path(folder)
            for name in READ:
                shutil.copytree(TOP / name, top / name, ignore=shutil.ignore_patterns("__pycache__"))
            (top / "crates.txt").write_bytes((TOP / "crates.txt").read_bytes())
            self.assertEqual(check(top, "/nobody/has/it"), (0, ""))
            written = (top / SOURCE).read_text(encoding="utf-8")
            for old, new in changes:
                with self.subTest(new):
                    self.assertIn(old, written)
                    (top / SOURCE).write_text(written.replace(old, new), encoding="utf-8")
                    self.assertEqual(check(top, "/nobody/has/it")[0], 1)


if __name__ == "__main__":
    unittest.main()
