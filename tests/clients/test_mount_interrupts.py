"""Programs that wait for a mount whose processes are gone or stopped: they can be ended at once, and wait for 20 seconds at most."""
import contextlib
import errno
import os
import pathlib
import shutil
import signal
import subprocess
import sys
import tempfile
import time
import unittest
from unittest import mock

from checkout import BUILT, PROGRAM
from legacy.saving import Refused
from mounts import BYTES, EDITED, PATIENCE, RULES, TEXT, WHY, Mount, edited, until
from plays import CONTEXT, HAS_PYFUSE3, Played

if HAS_PYFUSE3:
    from legacy.mount.tree import ROOT
    from pyfuse3 import FUSEError

# The seconds in which a program ends by a signal, and those for which it waits for a process that is gone, on a machine that has
# much else to do.
AT_ONCE, LATE = 15.0, 30.0
# What is done in programs of their own, each with a path.
OPENS = "import os, sys; os.open(sys.argv[1], os.O_RDONLY)"
CLOSES = "import os, sys; file = os.open(sys.argv[1], os.O_WRONLY | os.O_TRUNC); os.write(file, 'abcd \u3042'.encode()); print(flush=True); os.close(file)"
SYNCS = CLOSES.replace("close(file)", "fsync(file)")
RENAMES = "import os, sys; open(sys.argv[1] + '~', 'w').write('abcd \u3042'); print(flush=True); os.replace(sys.argv[1] + '~', sys.argv[1])"
WRITES = CLOSES, SYNCS, RENAMES
CUTS = "import os, sys; os.truncate(sys.argv[1], 4)"
LOOKS = "import os, sys; os.stat(sys.argv[1])"
# A gate that takes no command as long as a file is there.
HANGING = """#!{python}
import os, subprocess, sys, time
program = subprocess.Popen([{program!r}, *sys.argv[1:]], stdin=subprocess.PIPE)
for line in sys.stdin.buffer:
    while os.path.exists({flag!r}):
        time.sleep(0.05)
    program.stdin.write(line)
    program.stdin.flush()
program.kill()
"""


@unittest.skipIf(WHY, WHY)
class Interrupted(unittest.TestCase):
    """Processes of a mount that are stopped."""

    def setUp(self):
        self.folder = pathlib.Path(tempfile.mkdtemp())
        self.addCleanup(shutil.rmtree, self.folder)
        program, self.flag = self.folder / "gate", self.folder / "hangs"
        program.write_text(HANGING.format(python=sys.executable, program=PROGRAM, flag=str(self.flag)))
        program.chmod(0o755)
        self.mount = Mount(*RULES, program=str(program))
        self.addCleanup(self.mount.clear)
        (self.mount.source / "f.sj").write_bytes(BYTES)
        self.path = self.mount.point / "f.sj"
        self.path.write_bytes(TEXT.encode() * 2)  # (behind which all processes are there)
        self.path.write_bytes(TEXT.encode())
        self.assertTrue(until(lambda: len(self.below()) >= 4), self.below())

    def below(self):
        """The processes of the mount, with those that they started."""
        found, todo = [], [self.mount.process.pid]
        while todo:
            ran = subprocess.run(["ps", "-o", "pid=,args=", "--ppid", str(todo.pop())], stdout=subprocess.PIPE, text=True)
            for pid, args in (line.split(None, 1) for line in ran.stdout.splitlines()):
                found.append((int(pid), args))
                todo.append(int(pid))
        return found

    def stop(self, *pids):
        """Stops processes of the mount."""
        for pid in pids:
            os.kill(pid, signal.SIGSTOP)
            self.addCleanup(self.resume, pid)

    def resume(self, pid):
        """Has a process continue, so that it ends where the mount is gone."""
        with contextlib.suppress(ProcessLookupError):
            os.kill(pid, signal.SIGCONT)

    def workers(self):
        return [pid for pid, args in self.below() if "legacy.mount.worker" in args]

    def gates(self, of):
        """The gates of some processes."""
        ran = subprocess.run(["ps", "-o", "pid=,args=", "--ppid", ",".join(map(str, of))], stdout=subprocess.PIPE, text=True)
        return [int(line.split()[0]) for line in ran.stdout.splitlines() if "legacy.mount.worker" not in line]

    def program(self, script, path):
        """A program that has come so far that it waits for the mount."""
        program = subprocess.Popen([sys.executable, "-c", script, path], stdout=subprocess.PIPE, stderr=subprocess.DEVNULL)
        self.addCleanup(program.stdout.close)
        self.addCleanup(program.wait)
        self.addCleanup(self.mount.kill)
        if "print" in script:
            program.stdout.readline()
        time.sleep(0.5)
        self.assertIsNone(program.poll())
        return program

    def ends(self, program, number):
        """A program ends by a signal."""
        program.send_signal(number)
        try:
            self.assertNotEqual(program.wait(AT_ONCE), 0)
        except subprocess.TimeoutExpired:
            self.mount.kill()
            raise

    def test_a_signal_ends_a_program_that_waits(self):
        self.flag.touch()
        for script in CLOSES, SYNCS, RENAMES, CUTS, OPENS, LOOKS:
            for number in signal.SIGKILL, signal.SIGINT, signal.SIGTERM:
                with self.subTest(script=script, signal=number):
                    name = f"{len(os.listdir(self.mount.source))}.sj"
                    (self.mount.source / name).write_bytes(b"ABCD\n" * number if script in WRITES else BYTES)
                    self.ends(self.program(script, self.mount.point / name), number)

    def saves(self, *stopped):
        """A save while some processes are stopped, and how many seconds it takes."""
        self.assertTrue(stopped)
        self.stop(*stopped)
        began = time.monotonic()
        script = f"import sys; open({str(self.path)!r}, 'wb').write({edited(TEXT).encode()!r})"
        try:
            subprocess.run([sys.executable, "-c", script], timeout=PATIENCE, check=True)
        except subprocess.TimeoutExpired:
            self.mount.kill()
            raise
        self.assertEqual((self.mount.source / "f.sj").read_bytes(), EDITED)
        return time.monotonic() - began

    def test_a_save_waits_for_a_process_that_is_stopped_for_20_seconds(self):
        self.assertLess(self.saves(*self.workers()), LATE)

    def test_a_save_waits_for_its_gate_that_is_stopped_for_20_seconds(self):
        self.assertLess(self.saves(*self.gates(self.workers())), LATE)

    def test_a_save_waits_for_the_gates_of_short_questions_that_are_stopped_for_20_seconds(self):
        self.assertLess(self.saves(*self.gates([self.mount.process.pid])), LATE)

    def test_what_a_killed_program_has_written_is_saved(self):
        self.stop(*self.workers())
        self.ends(self.program(CLOSES, self.path), signal.SIGKILL)
        self.assertTrue(until(lambda: (self.mount.source / "f.sj").read_bytes() == b"abcd \x82\xa0"), self.mount.log())
        self.assertEqual(os.listdir(self.mount.source), ["f.sj"])


@BUILT
class Tried(Played):
    """Saves that are tried in a second way."""

    CONTENT = b"one \xff\n"

    def test_a_save_that_is_interrupted_then_is_no_refusal(self):
        async def play(path, answers, ino):
            reader = (await answers.open(ino, os.O_RDONLY, CONTEXT)).fh
            info, entry = await answers.create(ROOT, b"new", 0o600, os.O_WRONLY, CONTEXT)
            await answers.write(info.fh, 0, "two \ufffd\n".encode())
            refused = mock.AsyncMock(side_effect=Refused(errno.EILSEQ, "for the test"))
            ended = mock.AsyncMock(side_effect=InterruptedError(errno.EINTR, ""))
            with mock.patch.object(answers.saves, "_make", refused), mock.patch.object(answers.saves, "_by_worker", ended):
                with self.assertRaises(FUSEError) as caught:
                    await answers.flush(info.fh)
            self.assertEqual((caught.exception.errno, ended.await_count, answers.tree.nodes[entry.st_ino].session.refused), (errno.EINTR, 1, -1))
            await answers.release(info.fh)
            self.assertEqual(path.with_name("new").read_bytes(), b"two \xff\n")
            await answers.release(reader)

        self.played(play)


if __name__ == "__main__":
    unittest.main()
