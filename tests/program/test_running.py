"""tests/running.py, by modules of these tests' own: what it counts, in which order it has them run, and that it ends what hangs."""
import os
import pathlib
import shutil
import subprocess
import sys
import tempfile
import time
import unittest

from program import TOP

SOUND = """import unittest
class A(unittest.TestCase):
    def test_a(self): pass
    def test_b(self): pass
"""
SKIPPED = """import unittest
@unittest.skip("there is no nvim")
class A(unittest.TestCase):
    def test_a(self): self.fail()
class B(unittest.TestCase):
    def test_a(self): self.skipTest("no room")
    def test_b(self): pass
"""
FAILED = """import unittest
class A(unittest.TestCase):
    def test_a(self):
        for it in range(3):
            with self.subTest(it): self.fail()
    def test_b(self): raise OSError
    @unittest.expectedFailure
    def test_c(self): pass
    def test_d(self): pass
"""
ENDED = "import os\nos._exit(7)\n"
UNREADABLE = "import nothing_of_this_name\n"
# Its tests pass, and its process waits for a thread.
LEFT = SOUND + "import threading, time\nthreading.Thread(target=time.sleep, args=(100,)).start()\n"
# It hangs, and what it started writes a file if it isn't ended.
HANGS = """import subprocess, time, pathlib
child = subprocess.Popen(["sleep", "100"])
pathlib.Path(__file__).with_suffix(".pid").write_text(str(child.pid))
time.sleep(100)
"""

# Runs the modules of the folder `tests/a` by so many processes, and prints each line as it comes, and the last one.
RUN = """import sys
import running
running.ALONE, running.DEAR, running.LIMIT, running.ENDING = {"tests/a/test_alone"}, {"tests/a/test_dear": 9}, float(sys.argv[2]), 2
outcomes = running.Lanes(int(sys.argv[1]), running.tell, WORD="given").run(running.modules(sys.argv[3]))
for outcome in outcomes:
    print(*outcome.failed, *outcome.skipped, sep="\\n")
print(running.count_of(outcomes))
"""


class Running(unittest.TestCase):
    def setUp(self):
        kept = tempfile.TemporaryDirectory()
        self.addCleanup(kept.cleanup)
        self.top = pathlib.Path(kept.name)
        self.folder = self.top / "tests" / "a"
        self.folder.mkdir(parents=True)
        shutil.copy(TOP / "tests" / "running.py", self.top / "tests")

    def runs(self, lanes=2, limit=100, what="tests/a", **modules):
        """What is printed for these modules, or this command."""
        for name, text in modules.items():
            (self.folder / f"test_{name}.py").write_text(text)
        words = [sys.executable, "-c", RUN, str(lanes), str(limit), what]
        ran = subprocess.run(words, cwd=self.top / "tests", stdin=subprocess.DEVNULL, stdout=subprocess.PIPE, check=True)
        return ran.stdout.decode()

    def test_what_is_counted(self):
        rows = [
            (SOUND, r"tests/a/test_x: 2 tests, ok, \d+\.\d s, \d+\.\d of processors\n", "", "2 passed, 0 failed"),
            (SKIPPED, r"tests/a/test_x: 3 tests, ok, 2 skipped, ",
             "tests/a/test_x.A.test_a: there is no nvim\ntests/a/test_x.B.test_a: no room\n", "1 passed, 0 failed"),
            (FAILED, r"(?s)Traceback.*tests/a/test_x: 4 tests, 3 FAILED, ", "test_x.A.test_a\ntest_x.A.test_b\ntest_x.A.test_c\n", "1 passed, 3 failed"),
            (ENDED, r"tests/a/test_x: 1 tests, 1 FAILED, ", "tests/a/test_x ended with 7\n", "0 passed, 1 failed"),
            (LEFT, r"tests/a/test_x: 3 tests, 1 FAILED, ", "tests/a/test_x ended with -14\n", "2 passed, 1 failed"),
            (UNREADABLE, r"(?s)nothing_of_this_name.*tests/a/test_x: 1 tests, 1 FAILED", "test_x\n", "0 passed, 1 failed"),
        ]
        for text, line, listed, last in rows:
            printed = self.runs(x=text)
            self.assertRegex(printed, line)
            self.assertIn(listed, printed)
            self.assertEqual(printed.splitlines()[-1], last)

    def test_commands_are_run_among_them(self):
        rows = [
            ("echo 'ok  a'; echo '3 passed, 0 failed'", "tests/a/run: 3 tests, ok, ", "3 passed, 0 failed"),
            ("echo 'FAILED  b: c'; echo '3 passed, 2 failed'; exit 1", "FAILED  b: c\n3 passed, 2 failed\ntests/a/run: 5 tests, 2 FAILED, ", "3 passed, 2 failed"),
            ("echo 'tests/a: skipped, there is no d'", "tests/a/run: tests/a: skipped, there is no d\n", "1 passed, 0 failed"),
            ("exit 7", "tests/a/run ended with 7\n", "0 passed, 1 failed"),
        ]
        for script, line, last in rows:
            (self.folder / "run").write_text(f"#!/bin/sh\n{script}\n")
            (self.folder / "run").chmod(0o755)
            printed = self.runs(what="tests/a/run")
            self.assertIn(line, printed)
            self.assertEqual(printed.splitlines()[-1], last)
        (self.folder / "__main__.py").write_text("print('4 passed, 0 failed')\n")
        self.assertTrue(self.runs(what="tests/a").endswith("\n4 passed, 0 failed\n"))

    def test_the_dear_one_is_first_and_what_is_to_be_alone_is_last(self):
        printed = self.runs(lanes=1, alone=SOUND, b=SOUND, dear=SOUND, c=SOUND)
        names = [line.partition(":")[0].rpartition("_")[2] for line in printed.splitlines() if ": " in line]
        self.assertEqual(names, ["dear", "b", "c", "alone"])
        self.assertTrue(printed.endswith("\n8 passed, 0 failed\n"))

    def test_several_run_side_by_side(self):
        waits = "import time, unittest\nclass A(unittest.TestCase):\n    def test_a(self): time.sleep(2)\n"
        began = time.monotonic()
        self.runs(lanes=4, **dict.fromkeys("abcd", waits))
        self.assertLess(time.monotonic() - began, 7.5)

    def test_one_that_hangs_is_ended_with_what_it_started(self):
        printed = self.runs(limit=3, x=HANGS, y=SOUND)
        self.assertIn("tests/a/test_x ended with -9\n", printed)
        self.assertTrue(printed.endswith("\n2 passed, 1 failed\n"))
        child = pathlib.Path("/proc") / (self.folder / "test_x.pid").read_text() / "stat"
        end = time.monotonic() + 30
        while child.exists() and child.read_text().rpartition(")")[2].split()[0] != "Z" and time.monotonic() < end:
            time.sleep(0.05)
        self.assertLess(time.monotonic(), end)

    def test_variables_are_passed_on(self):
        given = "import os, unittest\nclass A(unittest.TestCase):\n    def test_a(self): self.assertEqual(os.environ['WORD'], 'given')\n"
        self.assertNotIn("WORD", os.environ)
        self.assertTrue(self.runs(x=given).endswith("1 passed, 0 failed\n"))


if __name__ == "__main__":
    unittest.main()
