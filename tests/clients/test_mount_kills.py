"""A mount that is killed at any time leaves the old bytes of a file or the new ones, in place too, once the next one has begun."""
import fcntl
import os
import pathlib
import shutil
import signal
import subprocess
import tempfile
import threading
import unittest
from unittest import mock

from checkout import BUILT
from legacy.mount import below, copies
from legacy.mount.below import Place, Source
from legacy.mount.copies import state_folder, leftovers
from legacy.mount.storing import Store
from mounts import BYTES, RULES, TEXT, WHY, Mount, edited, until

NOBODY = 65534
OLD, NEW = b"the old bytes, of some length\n" * 300, b"new ones\n" * 700
LONGER = OLD + NEW


def killed_at(number, part):
    """Has this process killed at one of its writes, of which it has then done a part."""
    write, counts = below.write, iter(range(1000))

    def once(file, content):
        ends = next(counts) == number
        write(file, content[: int(len(content) * part)] if ends else content)
        if ends:
            os.kill(os.getpid(), signal.SIGKILL)

    return mock.patch.object(below, "write", once), mock.patch.object(copies, "write", once), mock.patch("legacy.mount.storing.write", once)


class Killed(unittest.TestCase):
    """Saves that end at each of their writes."""

    def setUp(self):
        top = tempfile.TemporaryDirectory()
        self.addCleanup(top.cleanup)
        self.top = pathlib.Path(top.name)
        self.top.chmod(0o755)
        self.folder, self.state = self.top / "source", self.top / "state"
        self.folder.mkdir()
        self.state.mkdir()
        self.path = self.folder / "f"

    def become_nobody(self):
        """Makes this process an ordinary user's, if it is root."""
        if os.geteuid() == 0:
            os.setresuid(NOBODY, NOBODY, NOBODY)

    def saved(self, content, number, part, before=b""):
        """Saves in another process, which is killed at a write, and returns whether it was."""
        child = os.fork()
        if child == 0:
            status = 1
            try:
                self.become_nobody()
                source, state = Source(os.fsencode(self.folder)), os.open(self.state, os.O_RDONLY)
                first, second, third = killed_at(number, part)
                with first, second, third:
                    Store(lambda: None, None, False, None, before, state).put(Place(source.descriptor, b"f"), content)
                status = 0
            finally:
                os._exit(status)
        status = os.waitpid(child, 0)[1]
        self.assertIn(status, (0, signal.SIGKILL))
        return status == signal.SIGKILL

    def clear(self):
        """Does what the next start of a mount does, as the same user."""
        child = os.fork()
        if child == 0:
            self.become_nobody()
            list(leftovers(Source(os.fsencode(self.folder)), os.open(self.state, os.O_RDONLY)))
            os._exit(0)
        self.assertEqual(os.waitpid(child, 0)[1], 0)

    def leaves(self, content, links=1, readable=False, before=b"", most=4):
        """Tries each write of a save, at its begin, in its middle and at its end."""
        tried = 0
        for number in range(most):
            for part in 0, 0.4, 1:
                with self.subTest(number=number, part=part):
                    shutil.rmtree(self.folder)
                    self.folder.mkdir()
                    self.path.write_bytes(OLD)
                    for link in range(1, links):
                        os.link(self.path, self.folder / str(link))
                    os.chown(self.path, NOBODY, NOBODY) if os.geteuid() == 0 else None
                    for it in self.state, self.folder:
                        os.chown(it, NOBODY, NOBODY) if os.geteuid() == 0 else None
                        it.chmod(0o700)
                    if readable:
                        self.folder.chmod(0o555)
                    names = sorted(os.listdir(self.folder))
                    inode = self.path.stat().st_ino
                    tried += self.saved(content, number, part, before)
                    self.clear()
                    self.folder.chmod(0o755)
                    self.assertIn(self.path.read_bytes(), (OLD, content))
                    self.assertEqual((sorted(os.listdir(self.folder)), os.listdir(self.state)), (names, []))
                    if links > 1 or readable or before:
                        self.assertEqual(self.path.stat().st_ino, inode)
        self.assertGreaterEqual(tried, 3)

    def test_beside(self):
        self.leaves(NEW)

    def test_with_other_names(self):
        for content in NEW, OLD[:100], LONGER:
            self.leaves(content, links=2)

    def test_in_a_folder_that_may_not_be_written(self):
        for content in NEW, OLD[:100], LONGER:
            self.leaves(content, readable=True)

    def test_what_a_process_that_it_was_about_to_start_has_locked_for_a_moment(self):
        gone = subprocess.Popen(["true"])
        gone.wait()
        for process, is_waited_for in (gone.pid, True), (os.getpid(), False):
            with self.subTest(process=process):
                self.path.write_bytes(b"")
                copy = self.folder / f".legacy-old-{process}-0-f"
                copy.write_bytes(OLD)
                held = os.open(copy, os.O_RDONLY)
                fcntl.flock(held, fcntl.LOCK_EX)
                ends = threading.Timer(1.0, os.close, [held])
                ends.start()
                found = list(leftovers(Source(os.fsencode(self.folder))))
                self.assertEqual((len(found), self.path.read_bytes()), (1, OLD) if is_waited_for else (0, b""))
                ends.join()
                copy.unlink(missing_ok=True)

    def test_what_is_appended(self):
        self.leaves(LONGER, before=OLD)

    def test_what_somebody_has_written_since_stays(self):
        self.path.write_bytes(OLD)
        os.link(self.path, self.folder / "g")
        for it in self.path, self.folder, self.state:
            os.chown(it, NOBODY, NOBODY) if os.geteuid() == 0 else None
        self.assertTrue(self.saved(NEW, 2, 0.4))
        self.path.write_bytes(b"by hand")
        self.clear()
        self.assertEqual((self.path.read_bytes(), (self.folder / "f.before").read_bytes()), (b"by hand", OLD))
        self.assertEqual(sorted(os.listdir(self.folder)), ["f", "f.before", "g"])

    @unittest.skipUnless(os.geteuid() == 0, "needs root, to be another user")
    def test_a_copy_that_another_user_planted_changes_nothing(self):
        self.path.write_bytes(b"root's\n")
        for name, content in (".legacy-old-1-1-f", b"root"), (".legacy-new-1-1", b"root's\n and more"), (".legacy-end-1-2-4-f", b"'s\npwned"):
            (self.folder / name).write_bytes(content)
            os.chown(self.folder / name, NOBODY, NOBODY)
        list(leftovers(Source(os.fsencode(self.folder)), os.open(self.state, os.O_RDONLY)))
        self.assertEqual(self.path.read_bytes(), b"root's\n")

    def test_the_user_s_folder_is_the_user_s_alone(self):
        for mode, is_taken in (0o700, True), (0o755, True), (0o775, False), (0o777, False):
            folder = self.state / "legacy" / "mount"
            folder.mkdir(parents=True, exist_ok=True)
            folder.chmod(mode)
            with mock.patch.dict(os.environ, XDG_STATE_HOME=str(self.state)):
                found = state_folder()
            self.assertEqual(found is not None, is_taken, oct(mode))


@BUILT
@unittest.skipIf(WHY, WHY)
class Anew(unittest.TestCase):
    """A file that a program deletes and makes anew."""

    def test_a_mount_that_is_killed_before_it_is_saved(self):
        mount = Mount(*RULES)
        self.addCleanup(mount.clear)
        (mount.source / "f.sj").write_bytes(BYTES)
        self.assertEqual((mount.point / "f.sj").read_bytes().decode(), TEXT)
        (mount.point / "f.sj").unlink()
        file = os.open(mount.point / "f.sj", os.O_WRONLY | os.O_CREAT | os.O_EXCL)
        os.write(file, edited(TEXT).encode())
        mount.process.kill()
        mount.process.wait()
        threading.Thread(target=self.closed, args=[file], daemon=True).start()
        subprocess.run(["fusermount3", "-uzq", mount.point])
        self.assertEqual((mount.source / "f.sj").read_bytes(), b"")
        another = Mount(*RULES, source=mount.source)
        self.addCleanup(another.clear)
        self.assertTrue(until(lambda: (mount.source / "f.sj").read_bytes() == BYTES), another.log())
        self.assertTrue(until(lambda: os.listdir(mount.source) == ["f.sj"]))
        self.assertTrue(until(lambda: "f.sj has its old bytes again" in another.log()), another.log())

    def closed(self, file):
        """Closes a file of a mount that has gone."""
        try:
            os.close(file)
        except OSError:
            pass

    def test_nothing_is_left_of_one_that_is_saved_or_not(self):
        for text, left in (edited(TEXT), ["f.sj"]), ("", ["f.sj"]), ("é", ["f.sj", "f.sj.rejected"]):
            mount = Mount(*RULES)
            self.addCleanup(mount.clear)
            (mount.source / "f.sj").write_bytes(BYTES)
            (mount.point / "f.sj").unlink()
            try:
                (mount.point / "f.sj").write_bytes(text.encode())
            except OSError:
                pass
            self.assertTrue(until(lambda: sorted(os.listdir(mount.source)) == left), sorted(os.listdir(mount.source)))
            self.assertEqual(mount.end(), 0)
            self.assertEqual(sorted(os.listdir(mount.source)), left)


if __name__ == "__main__":
    unittest.main()
