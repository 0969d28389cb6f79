"""tools/build, in which order it has crates proved and what it says of that, with commands of these tests in the place of the
toolchain's."""
import json
import os
import pathlib
import signal
import subprocess
import sys
import tempfile
import time
import unittest
from unittest import mock

from program import TOP
from toolchain import RT, Repository

sys.path.insert(0, str(TOP / "tools"))
import progress
from schedule import FIRST, FURTHER, Schedule, Turn, seconds


def is_running(process):
    """Whether a process, by its folder in /proc, has not ended."""
    try:
        return (process / "stat").read_text().rpartition(")")[2].split()[0] != "Z"
    except (FileNotFoundError, ProcessLookupError):
        return False


class Build(Repository):
    def starts(self, **variables):
        # A shell has what it runs in the background ignore SIGINT, which would pass on to the build.
        ends = lambda: signal.signal(signal.SIGINT, signal.SIG_DFL)
        pipes = {"stdout": subprocess.PIPE, "stderr": subprocess.PIPE}
        return subprocess.Popen([self.top / "tools" / "build"], env=self.environment(**variables), preexec_fn=ends, **pipes)

    def builds(self, status=0, **variables):
        """Runs it, and returns what it says, and which crates were proved by how many processors."""
        self.words.write_text("")
        ran = self.starts(**variables)
        printed, said = ran.communicate()
        self.assertEqual((ran.returncode, printed), (status, b""), said)
        return said.decode(), self.words.read_text().splitlines()

    def test_each_crate_is_named_with_its_time(self):
        said, proved = self.builds()
        self.assertRegex(said, r"\Agate: proving 4 crates; about \d+ min\n")
        for name in "low", "side", "high":
            self.assertRegex(said, rf"(?m)^gate: {name} is proved, in 0:0\d; [123] of 4, about \d+ min for the rest$")
        self.assertRegex(said, r"gate: gate is proved, in 0:0\d; 4 of 4, all are\n\Z")
        self.assertEqual({it.split()[0] for it in proved}, {"low", "side", "high", "gate"})
        self.assertLess({"low 4", "gate 4"}, set(proved))
        self.assertTrue(os.access(self.out / "gate", os.X_OK))
        self.assertEqual(sorted(json.loads((self.out / "seconds.json").read_text())), ["gate", "high", "low", "side"])

    def test_what_has_not_changed_is_not_proved_again(self):
        self.builds()
        self.assertEqual(self.builds(), ("", []))
        self.source("high").write_text("other")
        said, proved = self.builds()
        self.assertEqual(proved, ["high 4", "gate 4"])
        self.assertRegex(said, r"\Agate: proving 2 of 4 crates, as the others were proved before; about \d+ min\n")
        for path in self.top / "crates.txt", self.source("other"):
            path.write_text(path.read_text() + "\n")
            self.assertEqual(self.builds(), ("", []))
        (self.out / "gate").unlink()
        self.assertEqual(self.builds()[1], ["gate 4"])
        (self.top / "rt").write_text(RT.replace("echo kit", "echo another"))
        self.assertEqual(len(self.builds()[1]), 4)

    def test_last_time_is_said(self):
        kept = self.out / "seconds.json"
        for before in {"low": 100, "side": 7, "high": 161.4, "gate": 300}, [1]:
            self.out.mkdir(exist_ok=True)
            kept.write_text(json.dumps(before))
            self.source("low").write_text(str(before))
            said, _ = self.builds()
            if before != [1]:
                self.assertRegex(said, r"\Agate: proving 4 crates; about 9 min\n")
                self.assertRegex(said, r"gate: gate is proved, in 0:0\d, 5:00 last time; 4 of 4, all are\n\Z")

    def test_what_fails_is_shown_and_no_program_is_put_in_place(self):
        self.out.mkdir()
        (self.out / "gate").write_text("older")
        said, _ = self.builds(status=1, BAD="high")
        self.assertIn("error: high\n", said)
        self.assertIn("gate: high is not proved: the prover refuses it\n", said)
        self.assertIn("gate: high is not proved: it takes handles that HANDLES doesn't allow: Threads\n", self.builds(status=1, HANDLES="high")[0])
        (self.top / "crates/gate/stdout").write_text("another\n")
        said, proved = self.builds(status=1)
        self.assertIn("high 4", proved)
        self.assertIn("gate: gate is proved, but as it was compiled it replies otherwise than its session says\n", said)
        self.assertEqual((self.out / "gate").read_text(), "older")
        self.assertFalse((self.out / "gate.ready").exists())

    def test_a_check_that_was_killed_is_made_once_more_by_itself(self):
        said, proved = self.builds(KILLED="low")
        self.assertEqual([it for it in proved if it.startswith("low")], ["low 4", "low 1"])
        self.assertIn("the check of low was ended, most likely for want of memory", said)
        self.assertIn("; 4 of 4, all are\n", said)

    def test_nothing_is_left_running_where_it_is_stopped(self):
        for number in signal.SIGTERM, signal.SIGINT, signal.SIGKILL:
            with self.subTest(number):
                long = pathlib.Path(f"{self.words}.long")
                long.unlink(missing_ok=True)
                ran = self.starts(LONG="low")
                while not long.exists() or not long.read_text():
                    time.sleep(0.05)
                checks = pathlib.Path(f"/proc/{long.read_text()}")
                ran.send_signal(number)
                ran.communicate()
                self.assertEqual(ran.returncode, {signal.SIGTERM: 143, signal.SIGINT: 130}.get(number, -9))
                # (by itself it would end after a minute)
                end = time.monotonic() + 40
                while is_running(checks):
                    self.assertLess(time.monotonic(), end, "its check is running still")
                    time.sleep(0.05)


class Order(unittest.TestCase):
    """The schedule of crates of which `a`, `b` and `c` wait for one another in a row, and `d` and `e` for none."""

    def turns(self, lanes, memory, left="abcde", running=(), lone=()):
        libraries = {"a": [], "b": ["a"], "c": ["b"], "d": [], "e": []}
        schedule = Schedule(libraries, {"a": 100.0, "b": 100.0, "c": 100.0, "d": 90.0, "e": 30.0}, lanes, memory)
        left, running = list(left), list(running)
        while True:
            turn = schedule.next(left, running, lone)
            if not turn:
                return [(it.crate, it.jobs) for it in running]
            left.remove(turn.crate)
            running.append(turn)

    def test_the_row_comes_first_and_another_beside_it(self):
        self.assertEqual(self.turns(8, 1e12), [("a", 4), ("d", 4)])
        self.assertEqual(self.turns(4, 1e12), [("a", 4), ("d", 3)])
        self.assertEqual(self.turns(3, 1e12), [("a", 3), ("d", 2)])
        self.assertEqual(self.turns(2, 1e12), [("a", 2), ("d", 1)])
        self.assertEqual(self.turns(1, 1e12), [("a", 1)])

    def test_of_two_processors_none_is_for_what_the_row_waits_for(self):
        self.assertEqual(self.turns(2, 1e12, "d", [Turn("c", 2)]), [("c", 2)])
        self.assertEqual(self.turns(2, 1e12, "e", [Turn("b", 2)]), [("b", 2), ("e", 1)])
        self.assertEqual(self.turns(4, 1e12, "d", [Turn("c", 4)]), [("c", 4), ("d", 3)])

    def test_one_that_the_row_soon_waits_for_does_not_stand_back(self):
        work = {"a": 100.0, "b": 100.0, "c": 100.0, "d": 40.0, "e": 5.0}
        schedule = Schedule({"a": [], "b": ["a"], "d": [], "c": ["b", "d"], "e": []}, work, 4, 1e12)
        self.assertEqual(schedule.next("bcde", [Turn("a", 4)]), Turn("d", 3, True))
        self.assertEqual(schedule.next("bce", [Turn("a", 4)]), Turn("e", 3, True, 19))

    def test_memory_bounds_them_but_one_always_begins(self):
        self.assertEqual(self.turns(4, FIRST + 3 * FURTHER), [("a", 4)])
        self.assertEqual(self.turns(4, FIRST + FURTHER), [("a", 2)])
        self.assertEqual(self.turns(4, 0.0), [("a", 1)])
        self.assertEqual(self.turns(4, 2 * FIRST + 3 * FURTHER), [("a", 4), ("d", 1)])
        self.assertEqual(self.turns(4, 2 * FIRST + 4 * FURTHER), [("a", 4), ("d", 2)])

    def test_one_that_was_killed_is_alone(self):
        self.assertEqual(self.turns(4, 1e12, lone="a"), [("a", 1)])
        self.assertEqual(self.turns(4, 1e12, "acde", [Turn("b", 4)], lone="a"), [("b", 4)])


class Estimate(unittest.TestCase):
    """How long the rest may take, once crates are proved."""

    WORK = {"a": 100.0, "b": 200.0, "c": 200.0, "d": 200.0}

    def setUp(self):
        kept = tempfile.TemporaryDirectory()
        self.addCleanup(kept.cleanup)
        for name, value in ("KEPT", pathlib.Path(kept.name, "out", "seconds.json")), ("WORK", self.WORK), ("say", lambda text: None):
            patched = mock.patch.object(progress, name, value)
            patched.start()
            self.addCleanup(patched.stop)
        row = {"a": [], "b": ["a"], "c": ["b"], "d": []}
        self.progress = progress.Progress([*row], [*row], lambda work: Schedule(row, work, 4, 1e12))

    def prove(self, turn, pace):
        """A crate is proved, in so many times the seconds that it was thought to take."""
        self.progress.begin(turn)
        self.progress.began[turn.crate] -= pace * self.progress.estimate(turn)
        self.progress.end(turn.crate)

    def test_it_goes_by_the_pace_of_the_row(self):
        rest = 2 * seconds(200.0, 4) / 60
        self.assertEqual(self.progress.minutes(), f"{round(rest * 1.25)} min")
        self.prove(Turn("a", 4), 2.0)
        self.assertEqual(self.progress.minutes(), f"{round(2 * rest)} min")

    def test_one_that_waited_beside_says_nothing_of_the_pace(self):
        self.prove(Turn("a", 4), 2.0)
        self.prove(Turn("d", 3, True, 19), 20.0)
        self.assertEqual(self.progress.minutes(), f"{round(4 * seconds(200.0, 4) / 60)} min")


if __name__ == "__main__":
    unittest.main()
