"""The program as it was built, its memory bounded in each way in which this repository starts it (tests/hostile/budget.py; the
plugin has a test of its own): what would need more is refused, and no document is lost."""
import os
import pathlib
import resource
import signal
import subprocess
import sys
import tempfile
import unittest
from unittest import mock

from program import PROGRAM, TOP, built
from base import EXACT

sys.path.append(str(TOP / "tests" / "hostile"))
import budget

# What the program may have, in MiB, and the documents that want more: their bytes, and how many there are.
MEMORY, SIZE, DOCUMENTS = 40, 1 << 17, 64

WRONG = ["x", "0", "-1", "+1", "1.5", "1e3", "0x10", " 1", "1 ", "1G", "007", "1234567890", "1\n2", "*", "$(true)"]
REPLY = b'{"fault":"NoDocument","id":1}\n'


def with_less():
    """What a process does before it becomes what starts the program, so that it has a bound already."""
    resource.setrlimit(resource.RLIMIT_AS, (MEMORY << 20, MEMORY << 20))


@EXACT
@built
class Budget(unittest.TestCase):
    def test_documents_that_want_more(self):
        for way in budget.WAYS:
            with self.subTest(way):
                budget.play(way, pathlib.Path(PROGRAM), MEMORY, SIZE, DOCUMENTS)

    def test_a_client_takes_no_other_numbers(self):
        for wrong in 0, -1:
            self.assertRaises(ValueError, budget.Gate.start, PROGRAM, memory=wrong)


@EXACT
@built
class Started(unittest.TestCase):
    """`./gate`, and what tools/install puts into bin: by GATE_MEMORY they bound what they become."""

    @classmethod
    def setUpClass(cls):
        kept = tempfile.TemporaryDirectory(prefix="it's a ")
        cls.addClassCleanup(kept.cleanup)
        cls.folder, program = pathlib.Path(kept.name), pathlib.Path(os.path.abspath(PROGRAM))
        installed = budget.install_launcher(program, cls.folder)
        cls.starters = {cls.folder / "installed" / "libexec" / "gate": installed, program: budget.checkout(program, cls.folder)}

    def both(self):
        """Each of the two, with the program that it becomes."""
        for program, starter in self.starters.items():
            with self.subTest(starter):
                yield program.resolve(), starter

    def ran(self, *words, memory=None, **how):
        """The status and the texts of a run over one command."""
        others = {name: it for name, it in os.environ.items() if name != "GATE_MEMORY"}
        env = {**others, **({} if memory is None else {"GATE_MEMORY": memory}), **how.pop("env", {})}
        pipes = {"input": b'{"id":1,"op":"stat","doc":"d"}\n', "stdout": subprocess.PIPE, "stderr": subprocess.PIPE}
        ran = subprocess.run([str(it) for it in words], env=env, **pipes, **how)
        return ran.returncode, ran.stdout, ran.stderr.decode()

    def test_what_is_no_number_is_refused(self):
        for _, starter in self.both():
            for wrong in WRONG:
                text = f"gate: GATE_MEMORY is '{wrong}'; it takes MiB, a number from 1 to 999999999\n"
                self.assertEqual(self.ran(starter, memory=wrong), (2, b"", text))

    def test_without_a_number_nothing_is_bounded(self):
        for _, starter in self.both():
            for memory in None, "", "999999999":
                self.assertEqual(self.ran(starter, memory=memory), (0, REPLY, ""))

    def test_words_arrive_as_they_are(self):
        for _, starter in self.both():
            for word in "a  b", "*", "$HOME", "it's", '"', "\\", "a\nb":
                words = "stdio", "--indexes", self.folder, "--labels", word
                self.assertEqual(self.ran(starter, *words, memory="999", cwd=self.folder), self.ran(PROGRAM, *words, cwd=self.folder))

    def test_it_is_found_on_path_and_by_a_link(self):
        for number, (_, starter) in enumerate(self.both()):
            path = self.folder / str(number)
            path.mkdir()
            (path / "gate").symlink_to(starter)
            self.assertEqual(self.ran("sh", "-c", "exec gate", memory="999", cwd="/", env={"PATH": f"{path}:{os.environ['PATH']}"}), (0, REPLY, ""))

    def test_it_becomes_the_program_with_its_bound(self):
        for program, starter in self.both():
            for how, most in ({}, MEMORY + 20), ({"preexec_fn": with_less}, MEMORY):
                with mock.patch.dict(os.environ, GATE_MEMORY=str(MEMORY + 20)):
                    started = subprocess.Popen([str(starter)], stdin=subprocess.PIPE, stdout=subprocess.PIPE, **how)
                with started:
                    started.stdin.write(b'{"id":1,"op":"stat","doc":"d"}\n')
                    started.stdin.flush()
                    self.assertEqual(started.stdout.readline(), REPLY)
                    self.assertEqual(os.readlink(f"/proc/{started.pid}/exe"), str(program))
                    self.assertEqual(resource.prlimit(started.pid, resource.RLIMIT_AS), (most << 20, most << 20))
                    started.send_signal(signal.SIGTERM)
                self.assertEqual(started.returncode, -signal.SIGTERM)


if __name__ == "__main__":
    unittest.main()
