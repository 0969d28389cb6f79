"""A mount whose source has another file system in it that doesn't answer."""
import contextlib
import errno
import os
import pathlib
import signal
import subprocess
import sys
import time
import unittest
from unittest import mock

from checkout import BUILT
from mounts import BYTES, PYTHON, RULES, TEXT, WHY, Mount, mounted, until
from plays import CONTEXT, HAS_PYFUSE3, Played

if HAS_PYFUSE3:
    from pyfuse3 import FUSEError

# The seconds in which others are answered, and those after which whoever waits for the part is told, on a machine that has much
# else to do.
AT_ONCE, LATE = 10.0, 40.0


@unittest.skipIf(WHY, WHY)
class Hanging(unittest.TestCase):
    def setUp(self):
        self.mount = Mount(*RULES)
        self.addCleanup(self.mount.clear)
        for name in "part", "other":
            (self.mount.source / name).mkdir()
        (self.mount.source / "other" / "f.sj").write_bytes(BYTES)
        self.part = Mount(*RULES, point=self.mount.source / "part")
        self.addCleanup(self.part.clear)
        for name in "f.sj", "f.bin", "seen.bin":
            (self.part.source / name).write_bytes(b"x" * 100_000)
        self.addCleanup(self.goes_on)
        (self.mount.point / "part" / "seen.bin").stat()

    def goes_on(self):
        if self.part.process.poll() is None:
            self.part.process.send_signal(signal.SIGCONT)

    def waits(self, script, *words):
        """A program that waits for the part."""
        program = subprocess.Popen([sys.executable, "-c", f"import os, sys; {script}", self.mount.point / "part", *words], stderr=subprocess.PIPE)
        self.addCleanup(program.stderr.close)
        self.addCleanup(program.wait)
        self.addCleanup(program.kill)
        time.sleep(0.3)
        return program

    def answers(self):
        """Others are answered meanwhile."""
        for line in ["cat", "other/f.sj"], ["ls", "-l", "other"], ["ls", "."], ["cp", "other/f.sj", "other/g.sj"], ["rm", "other/g.sj"], ["df", "."]:
            try:
                ran = subprocess.run(line, cwd=self.mount.point, stdout=subprocess.PIPE, timeout=AT_ONCE)
            except subprocess.TimeoutExpired:
                self.goes_on()
                raise
            self.assertEqual((line, ran.returncode), (line, 0))
            if line[0] == "cat":
                self.assertEqual(ran.stdout.decode(), TEXT)

    def test_what_is_asked_of_it_holds_up_nobody(self):
        file = os.open(self.mount.point / "part" / "f.bin", os.O_RDWR)
        self.addCleanup(os.close, file)
        self.part.process.send_signal(signal.SIGSTOP)
        scripts = ["os.stat(sys.argv[1] + '/z')", "os.listdir(sys.argv[1])", "open(sys.argv[1] + '/seen.bin').read()", "os.stat(sys.argv[1] + '/f.sj')",
                   "os.mkdir(sys.argv[1] + '/new')", "os.unlink(sys.argv[1] + '/seen.bin')", "os.chmod(sys.argv[1] + '/seen.bin', 0o600)"]
        for script in scripts:
            with self.subTest(script):
                program = self.waits(script)
                self.answers()
                self.assertIsNone(program.poll())
                program.kill()
                program.wait(AT_ONCE)
        for script in "os.pread(0, 10, 5000)", "os.pwrite(0, b'x', 9)":
            with self.subTest(script):
                program = subprocess.Popen([sys.executable, "-c", f"import os; {script}"], stdin=file, stderr=subprocess.DEVNULL)
                self.addCleanup(program.wait)
                self.answers()
        self.goes_on()
        self.assertTrue(until(lambda: (self.mount.point / "part" / "f.sj").read_bytes() == b"x" * 100_000))

    def test_who_asks_for_it_is_told_after_some_time(self):
        self.part.process.send_signal(signal.SIGSTOP)
        began, script = time.monotonic(), "os.lstat(sys.argv[1] + '/z')"
        program = self.waits(f"\ntry: {script}\nexcept OSError as fault: sys.exit(fault.errno)")
        try:
            self.assertEqual(program.wait(LATE), errno.ETIMEDOUT)
        finally:
            self.goes_on()
        self.assertGreater(time.monotonic() - began, 10)

    def test_who_lists_it_can_be_ended(self):
        program = subprocess.Popen(
            [sys.executable, "-c", "import os, sys; entries = os.scandir(sys.argv[1]); print(flush=True); input(); list(entries)", self.mount.point / "part"],
            stdin=subprocess.PIPE, stdout=subprocess.PIPE, stderr=subprocess.DEVNULL)
        for end in program.stdin.close, program.stdout.close, program.wait, program.kill:
            self.addCleanup(end)
        program.stdout.readline()
        self.part.process.send_signal(signal.SIGSTOP)
        program.stdin.write(b"\n")
        program.stdin.flush()
        time.sleep(0.5)
        self.assertIsNone(program.poll())
        program.kill()
        self.assertEqual(program.wait(AT_ONCE), -signal.SIGKILL)

    def test_one_that_is_gone_is_listed_with_the_others(self):
        self.part.process.kill()
        self.part.process.wait()
        time.sleep(1.1)  # (behind which the kernel asks anew)
        self.assertEqual(sorted(os.listdir(self.mount.point)), ["other", "part"])
        with self.assertRaises(OSError) as caught:
            os.stat(self.mount.point / "part")
        self.assertEqual(caught.exception.errno, errno.ENOTCONN)


# The changes that one part takes in that test.
FEW = 4
STUCK = pathlib.Path(__file__).resolve().parent / "stuck.py"
# Changes of what is in a part, of which the first word is the part.
CHANGES = (
    "os.mkdir(p + '/new')", "os.rmdir(p + '/d')", "os.unlink(p + '/f.bin')", "os.unlink(p + '/f.sj')", "os.rename(p + '/f.bin', p + '/g.bin')",
    "os.rename(p + '/f.sj', p + '/g.sj')", "os.rename(p + '/d', p + '/e')", "os.link(p + '/f.bin', p + '/g.bin')", "os.symlink('x', p + '/x')",
    "os.mkfifo(p + '/x')", "os.chmod(p + '/f.sj', 0o600)", "os.utime(p + '/f.bin')", "os.truncate(p + '/f.bin', 3)", "os.truncate(p + '/f.sj', 3)",
    "os.setxattr(p + '/f.bin', 'user.x', b'1')", "os.removexattr(p + '/f.sj', 'user.x')", "open(p + '/new.bin', 'w')", "open(p + '/new.sj', 'w')",
    "open(p + '/f.bin', 'r+').write('x')", "open(p + '/f.bin', 'w')", "open(p + '/f.sj', 'a').write('x')", "open(p + '/f.sj', 'w').write('x')",
    "os.rename(p + '/../other/t.sj', p + '/f.sj')", "os.fsync(os.open(p + '/d', os.O_RDONLY))")


@unittest.skipIf(WHY, WHY)
class Stuck(unittest.TestCase):
    """A part that answers whoever looks, and hangs once it is to be changed: whether it is alive doesn't say so."""

    def setUp(self):
        self.mount = Mount(*RULES)
        self.addCleanup(self.mount.clear)
        (self.mount.source / "other").mkdir()
        (self.mount.source / "other" / "f.sj").write_bytes(BYTES)

    def start(self, *names):
        """Has parts of these names, and returns their processes."""
        found = []
        for name in names:
            part = self.mount.source / name
            part.mkdir()
            found.append(subprocess.Popen([PYTHON, STUCK, part]))
            self.addCleanup(self.ends, part, found[-1])
        for name in names:
            self.assertTrue(until(lambda: mounted(self.mount.source / name)))
            # (the mount learns of a part once the kernel says so)
            self.assertTrue(until(lambda: (self.mount.point / name / "f.bin").exists()))
        return found

    def ends(self, part, process):
        process.kill()
        process.wait()
        subprocess.run(["fusermount3", "-uzq", part])

    def program(self, script, part):
        """A program that changes a part."""
        (self.mount.source / "other" / "t.sj").write_bytes(b"t")
        program = subprocess.Popen([sys.executable, "-c", f"import os, sys; p = sys.argv[1]; {script}", self.mount.point / part], stderr=subprocess.DEVNULL)
        self.addCleanup(program.wait, AT_ONCE)
        self.addCleanup(program.kill)
        return program

    def test_a_change_that_hangs_holds_up_nobody_else_and_can_be_ended(self):
        # (the mount has some threads for each part; and who waits for one of these doesn't wait for the part)
        groups = [CHANGES[at : at + FEW] for at in range(0, len(CHANGES), FEW)]
        self.start(*(f"part{number}" for number in range(len(groups))))
        for number, scripts in enumerate(groups):
            for script in scripts:
                with self.subTest(script):
                    program = self.program(script, f"part{number}")
                    self.others_go_on(0.7)
                    self.assertIsNone(program.poll())
                    program.kill()
                    self.assertEqual(program.wait(AT_ONCE), -signal.SIGKILL)

    def others_go_on(self, seconds):
        """Programs read files of other folders."""
        end = time.monotonic() + seconds
        while time.monotonic() < end:
            ran = subprocess.run(["cat", self.mount.point / "other" / "f.sj"], stdout=subprocess.PIPE, timeout=AT_ONCE)
            self.assertEqual(ran.stdout.decode(), TEXT)
            time.sleep(0.1)


@BUILT
class Late(Played):
    """What programs write for long into files of such a part."""

    def test_what_is_written_for_long_there_holds_up_no_save_of_others(self):
        async def play(path, answers, ino):
            file = (await answers.open(ino, os.O_WRONLY | os.O_TRUNC, CONTEXT)).fh
            await answers.write(file, 0, b"a")
            node = answers.tree.nodes[ino]
            for alive, saved in (False, b"\xff"), (True, b"a"):
                node.session.due = node.session.patient = 0.0
                with contextlib.nullcontext() if alive else mock.patch.object(answers.parts, "look_alive", side_effect=TimeoutError):
                    await answers.saves.save_late([node])
                self.assertEqual(path.read_bytes(), saved)
            await answers.release(file)

        self.played(play)

    def test_what_is_written_there_is_saved_once_it_answers(self):
        async def play(path, answers, ino):
            file = (await answers.open(ino, os.O_WRONLY | os.O_TRUNC, CONTEXT)).fh
            await answers.write(file, 0, b"a")
            with mock.patch.object(answers.parts, "look_alive", side_effect=TimeoutError):
                with self.assertRaises(FUSEError):
                    await answers.flush(file)
                await answers.release(file)
            self.assertEqual(path.read_bytes(), b"a")

        self.played(play)


if __name__ == "__main__":
    unittest.main()
