"""What the tests of `legacy mount` mount, over the small index files of examples/indexes. In these 82 A0 is U+3042 and 88 9F
U+4E9C in Shift_JIS, where FF is an error; ISO-2022-JP writes them as 24 22 and 30 21."""
import contextlib
import errno
import os
import pathlib
import re
import shutil
import signal
import subprocess
import sys
import tempfile
import time
import unittest
from typing import Sequence

from checkout import CLIENTS, INDEXES, PROGRAM

RULES = ["-e", "*.sj=shift_jis", "-e", "*.jis=iso-2022-jp", "-e", "*.w=windows-1252", "-e", "*.u8=utf-8"]
# A text with damage, and its bytes.
TEXT, BYTES = "ABCD あ\ufffd\r\nmore\ufffd 亜\n", b"ABCD \x82\xa0\xff\r\nmore\xff \x88\x9f\n"
# The seconds that something is waited for, on a machine that has much else to do.
PATIENCE = 60.0


def has_pyfuse3(python):
    """Whether an interpreter has what the mount needs."""
    with contextlib.suppress(OSError):
        return subprocess.run([python, "-c", "import pyfuse3, trio"], stderr=subprocess.DEVNULL).returncode == 0


def reason():
    """Why nothing can be mounted here, or nothing."""
    if not os.access(PROGRAM, os.X_OK):
        return f"there is no program {PROGRAM}; rt ci builds it"
    if not os.access("/dev/fuse", os.R_OK | os.W_OK):
        return "/dev/fuse isn't there, or isn't for this user"
    return None if shutil.which("fusermount3") else "there is no fusermount3 (Debian's fuse3)"


FOR_ALL = os.path.exists("/dev/fuse") and os.stat("/dev/fuse").st_mode & 0o006 == 0o006
PYTHON = next(filter(has_pyfuse3, [sys.executable, "/usr/bin/python3"]), None)
WHY = reason() or ("" if PYTHON else "no Python has pyfuse3 (Debian's python3-pyfuse3)")


def until(holds, seconds=PATIENCE):
    """Waits until something holds, and says whether it does."""
    end = time.monotonic() + seconds
    while not holds() and time.monotonic() < end:
        time.sleep(0.02)
    return holds()


def mounted(point):
    """Whether something is mounted there, which isn't to be looked at by everyone."""
    escaped = re.sub(rb"[ \t\n\\#]", lambda found: b"\\%03o" % ord(found[0]), os.fsencode(point))
    return escaped in (line.split()[4] for line in pathlib.Path("/proc/self/mountinfo").read_bytes().splitlines())


class Mount:
    """A mount of a source, with the log that it writes."""

    def __init__(self, *words, source=None, point=None, program=PROGRAM, before=(), variables=()):
        self.kept = pathlib.Path(tempfile.mkdtemp(prefix="mount-"))
        self.source = source or self.kept / "source"
        self.point = point or self.kept / "point"
        for folder in self.source, self.point:
            folder.mkdir(exist_ok=True)
        self.kept.chmod(0o755)
        self.output = open(self.kept / "log", "wb")
        line = [*before, PYTHON, "-m", "legacy", "mount", "--foreground", "--gate", program, "--indexes", INDEXES, *words]
        environment = {**os.environ, "PYTHONPATH": str(CLIENTS), **dict(variables)}
        self.process = subprocess.Popen([*line, self.source, self.point], env=environment, stderr=self.output, stdout=self.output)
        if not until(lambda: mounted(self.point) or self.process.poll() is not None) or self.process.poll() is not None:
            self.kill()
            raise AssertionError(self.log())

    def log(self):
        """What it has said so far."""
        return (self.kept / "log").read_text()

    def end(self, number=signal.SIGTERM):
        """Ends it by a signal, and returns its status."""
        if self.process.poll() is None:
            self.process.send_signal(number)
        try:
            return self.process.wait(PATIENCE)
        finally:
            self.kill()

    def kill(self):
        """Leaves neither a process nor a mount, in which whoever looks at it would wait for ever."""
        if self.process.poll() is None:
            self.process.kill()
            self.process.wait()
        subprocess.run(["fusermount3", "-uzq", self.point])
        self.output.close()

    def unmount(self):
        """Unmounts it, and returns its status."""
        subprocess.run(["fusermount3", "-u", self.point], check=True)
        return self.process.wait(PATIENCE)

    def clear(self):
        """Removes all that there was of it."""
        self.end()
        shutil.rmtree(self.kept)

    def children(self):
        """The processes that it started."""
        found = subprocess.run(["ps", "-o", "pid=,args=", "--ppid", str(self.process.pid)], stdout=subprocess.PIPE, text=True)
        return [(int(pid), args) for pid, args in (line.split(None, 1) for line in found.stdout.splitlines())]

    def spent(self):
        """The processor time that its processes have had, in seconds, ended ones included."""
        found = [self.process.pid]
        ticks = 0
        for it in found:
            with contextlib.suppress(OSError):
                found += map(int, pathlib.Path(f"/proc/{it}/task/{it}/children").read_text().split())
                ticks += sum(map(int, pathlib.Path(f"/proc/{it}/stat").read_text().rpartition(")")[2].split()[11:15]))
        return ticks / os.sysconf("SC_CLK_TCK")

    def heard(self):
        """Waits until it has done what the system has said to it, as that files were closed. (Between these requests lies more
        than the time for which it takes one after the other, so whatever it is at has a turn at each.)"""
        for _ in range(5):
            os.statvfs(self.point)
            time.sleep(0.01)


@unittest.skipIf(WHY, WHY)
class Ruled(unittest.TestCase):
    """Tests over one mount."""

    WORDS: Sequence[str] = ()

    @classmethod
    def setUpClass(cls):
        cls.mount = Mount(*RULES, *cls.WORDS)
        cls.addClassCleanup(cls.mount.clear)

    def setUp(self):
        name = self.id().rpartition(".")[2]
        self.below, self.shown = self.mount.source / name, self.mount.point / name
        self.below.mkdir()

    def file(self, name="f.sj", content=BYTES):
        """A file below, and what it is in the mount."""
        (self.below / name).write_bytes(content)
        return self.shown / name

    def holds(self, content, name="f.sj"):
        """A file below has just these bytes, and the mount shows just their text."""
        self.assertEqual((self.below / name).read_bytes(), content)

    def kept(self, moment):
        """A time of a last change, in nanoseconds, as the file system below keeps it. (Some keep whole seconds.)"""
        probe = self.mount.source / ".probe"
        probe.touch()
        os.utime(probe, ns=(moment, moment))
        found = probe.stat().st_mtime_ns
        probe.unlink()
        return found

    def refuses(self, number, call, *words):
        """A call fails with this errno."""
        with self.assertRaises(OSError) as caught:
            call(*words)
        self.assertEqual(errno.errorcode[caught.exception.errno], errno.errorcode[number])

    def shows(self, text, name="f.sj"):
        """The mount shows this text, and its length is exact."""
        self.assertEqual((self.shown / name).read_bytes().decode(), text)
        self.assertEqual((self.shown / name).stat().st_size, len(text.encode()))


def edited(text):
    """The text behind the edit that most scenarios make."""
    return text.replace("ABCD", "AxCD")


EDITED = BYTES.replace(b"ABCD", b"AxCD")
