"""Files without a rule are locked below while programs of a mount have them open for writing, as databases are."""
import contextlib
import errno
import fcntl
import os
import sqlite3
import subprocess
import sys
import unittest
from unittest import mock

from checkout import BUILT
from legacy.mount import locks
from mounts import PATIENCE, Ruled, until

INSERTS = """
import sqlite3, sys
done, base = 0, sqlite3.connect(sys.argv[1], timeout=0.2)
for number in range(150):
    try:
        with base:
            base.execute("insert into t values (?)", (sys.argv[2] + str(number),))
        done += 1
    except sqlite3.Error:
        pass
print(done)
"""
WAYS = (lambda file: fcntl.flock(file, fcntl.LOCK_EX | fcntl.LOCK_NB), lambda file: fcntl.lockf(file, fcntl.LOCK_EX | fcntl.LOCK_NB),
        lambda file: fcntl.lockf(file, fcntl.LOCK_EX | fcntl.LOCK_NB, 1, 1 << 30))


@BUILT
class Locked(Ruled):
    def test_what_is_locked_below_is_not_opened_for_writing(self):
        for way in WAYS:
            path = self.file("f.bin")
            with open(self.below / "f.bin", "r+b") as file:
                way(file)
                before = path.read_bytes()
                for mode in "r+b", "ab", "wb":
                    self.refuses(errno.EBUSY, open, path, mode)
                self.refuses(errno.EBUSY, os.truncate, path, 0)
                self.assertEqual(path.read_bytes(), before)
            with open(path, "r+b") as file:
                file.write(b"x")
            self.holds(b"x" + before[1:], "f.bin")
            self.mount.heard()

    def test_what_is_open_for_writing_is_locked_below_until_the_last_has_closed_it(self):
        path = self.file("f.bin")
        os.link(self.below / "f.bin", self.below / "g.bin")
        for way in WAYS:
            with open(self.below / "f.bin", "r+b") as other:
                with open(path, "r+b") as first:
                    with open(self.shown / "g.bin", "ab"):
                        self.refuses(errno.EAGAIN, way, other)
                    self.refuses(errno.EAGAIN, way, other)
                    # (programs of the mount lock it among themselves as ever)
                    way(first)
                self.assertTrue(until(lambda: self.can(way, other)))

    def can(self, way, file):
        """Whether a file can be locked."""
        try:
            way(file)
        except OSError:
            return False
        return True

    def test_what_is_only_read_is_not(self):
        with open(self.file("f.bin"), "rb"), open(self.below / "f.bin", "r+b") as other:
            WAYS[0](other)

    def test_a_file_system_that_asks_others_is_asked_for_no_lock(self):
        here = os.stat(self.file("f.bin")).st_dev
        device = os.stat(self.below / "f.bin").st_dev
        self.assertEqual((locks.is_far(here), locks.is_far(device)), (True, False))
        for far in False, True:
            with mock.patch.object(locks, "is_far", lambda it: far and it == device), open(self.below / "f.bin", "r+b") as file:
                held = locks.Locks()
                key = held.take(file.fileno(), os.fstat(file.fileno()))
                self.assertEqual(key, None if far else (device, os.stat(self.below / "f.bin").st_ino))
                held.leave(key)

    def test_a_database_that_is_open_below_and_in_the_mount(self):
        sqlite3.connect(self.below / "t.db").execute("create table t (a)").connection.close()
        words = [[sys.executable, "-c", INSERTS, folder / "t.db", name] for folder, name in ((self.below, "b"), (self.shown, "a"))]
        ran = [subprocess.Popen(it, stdout=subprocess.PIPE) for it in words]
        done = [int(it.communicate(timeout=PATIENCE)[0]) for it in ran]
        base = sqlite3.connect(self.below / "t.db")
        self.assertEqual(base.execute("pragma integrity_check").fetchall(), [("ok",)])
        rows = [it for it, in base.execute("select a from t")]
        self.assertEqual((len(rows), len(set(rows))), (sum(done), sum(done)))
        self.assertGreater(max(done), 0)

    def test_a_database_that_is_read_in_the_mount_while_it_is_written_below(self):
        # (who only reads sees no lock of SOURCE, so may see half of a change; what is in SOURCE stays whole)
        sqlite3.connect(self.below / "t.db").execute("create table t (a)").connection.close()
        writes = subprocess.Popen([sys.executable, "-c", INSERTS, self.below / "t.db", "b"], stdout=subprocess.PIPE)
        reads = 0
        while writes.poll() is None:
            reads += 1
            # (it is refused while a change is half done)
            with contextlib.suppress(sqlite3.Error), contextlib.closing(sqlite3.connect(f"file:{self.shown}/t.db?mode=ro", uri=True)) as base:
                base.execute("select count(*) from t").fetchall()
        done = int(writes.communicate(timeout=PATIENCE)[0])
        base = sqlite3.connect(self.below / "t.db")
        self.assertEqual(base.execute("pragma integrity_check").fetchall(), [("ok",)])
        self.assertEqual((base.execute("select count(*) from t").fetchall(), done), ([(done,)], 150))
        self.assertGreater(reads, 0)


if __name__ == "__main__":
    unittest.main()
