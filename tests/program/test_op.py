"""The op of docs/OP.md: the lines of the page are a patch of this tree, with which the scripts of CI find nothing missing, and the
program, compiled without a proof, replies as the page's session says."""
import pathlib
import re
import shutil
import subprocess
import tempfile
import unittest

from program import TOP
from test_sessions import sessions

PAGE = TOP / "docs" / "OP.md"
SESSION = "tests/program/sessions/ends.jsonl"
PASSED_OVER = (".git", "out", "standard", "__pycache__", ".mypy_cache")
LONGEST = 160


def patch():
    """The lines of the page that are a patch."""
    return "".join(block[1] for block in re.finditer(r"^```diff\n(.*?)^```$", PAGE.read_text(encoding="utf-8"), re.MULTILINE | re.DOTALL))


class Op(unittest.TestCase):
    @classmethod
    def setUpClass(cls):
        kept = tempfile.TemporaryDirectory()
        cls.addClassCleanup(kept.cleanup)
        cls.top = pathlib.Path(kept.name, "copy")
        shutil.copytree(TOP, cls.top, symlinks=True, ignore=shutil.ignore_patterns(*PASSED_OVER))
        cls.applied = subprocess.run(["git", "apply"], input=patch().encode(), cwd=cls.top, stdout=subprocess.PIPE, stderr=subprocess.STDOUT)

    def setUp(self):
        self.assertEqual((self.applied.returncode, self.applied.stdout), (0, b""))

    def test_the_scripts_of_ci_find_nothing(self):
        for words in [".ci/reach", "--write"], ["tools/clauses"], [".ci/layers"], [".ci/reach"], [".ci/edits"], ["tools/ops", "--check"]:
            ran = subprocess.run(words, cwd=self.top, stdout=subprocess.PIPE, stderr=subprocess.STDOUT)
            self.assertEqual(ran.returncode, 0, f"{words}: {ran.stdout.decode()}")

    def test_no_line_is_too_long(self):
        long = [line for line in patch().splitlines() if line.startswith("+") and len(line) > LONGEST + 1 and '"' not in line]
        self.assertEqual(long, [])

    @unittest.skipUnless(shutil.which("rt"), "there is no command rt, the Rattle toolchain's")
    def test_the_program_with_it_plays_its_session(self):
        for heading, rows in sessions(self.top / SESSION):
            lines = "".join(f"{command}\n" for command, _ in rows)
            ran = subprocess.run([self.top / "try"], input=lines.encode(), stdout=subprocess.PIPE, stderr=subprocess.PIPE)
            self.assertEqual(ran.stdout.decode().splitlines(), [reply for _, reply in rows], f"{heading}: {ran.stderr.decode()}")
        words = ["env", "GATE_UNPROVED=1", "python3", "-m", "unittest", "discover", "-s", "tests/clients", "-p", "test_gate.py", "-k", "positions"]
        ran = subprocess.run(words, cwd=self.top, stdout=subprocess.PIPE, stderr=subprocess.STDOUT)
        self.assertRegex(ran.stdout.decode(), r"(?s)Ran \d+ tests.*\nOK\n\Z")


if __name__ == "__main__":
    unittest.main()
