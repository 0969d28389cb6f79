"""Nobody's rights are lent by a mount of root's into which other users are let: they read and change what they could below."""
import contextlib
import errno
import os
import pathlib
import random
import shutil
import subprocess
import sys
import tempfile
import time
import unittest
from unittest import mock

from checkout import BUILT
from legacy.mount import asker, below, beneath, repositories, rights
from mounts import BYTES, PATIENCE, RULES, WHY, Mount
from plays import CONTEXT, HAS_PYFUSE3, Played

if HAS_PYFUSE3:
    from legacy.mount import answers as answers_of
    from pyfuse3 import FUSEError

# An ordinary user, and the command that becomes it.
NOBODY = 65534
AS_NOBODY = ["setpriv", f"--reuid={NOBODY}", f"--regid={NOBODY}", "--clear-groups"]
ROOT = unittest.skipUnless(os.geteuid() == 0 and shutil.which("setpriv"), "needs root, to be another user")
LISTS = unittest.skipUnless(shutil.which("setfacl"), "there is no setfacl (Debian's acl)")
SECRET = b"secret \x82\xa0\n"


class Beneath(unittest.TestCase):
    """What is opened beneath a folder, by the system's own call and without it."""

    def setUp(self):
        folder = tempfile.TemporaryDirectory()
        self.addCleanup(folder.cleanup)
        self.folder = pathlib.Path(folder.name)
        (self.folder / "source" / "d").mkdir(parents=True)
        for path in "secret", "source/d/f":
            (self.folder / path).write_bytes(b"a")
        for link, target in (("source/link", "d/f"), ("source/out", ".."), ("source/d/up", "../../secret"), ("source/folder", "d")):
            (self.folder / link).symlink_to(target)
        os.mkfifo(self.folder / "source" / "fifo")
        self.held = os.open(self.folder / "source", os.O_PATH | os.O_DIRECTORY)
        self.addCleanup(os.close, self.held)

    def opened(self, path):
        """What comes of opening a path: the name of a fault, or nothing."""
        try:
            os.close(beneath.opened_beneath(self.held, path, os.O_RDONLY))
        except OSError as fault:
            return errno.errorcode[fault.errno]
        return None

    def test_no_link_is_followed(self):
        for number in beneath.OPENAT2, 9999:
            with mock.patch.object(beneath, "OPENAT2", number):
                plain, linked = (b"d/f", b"", b"fifo"), (b"link", b"out/secret", b"d/up", b"folder/f")
                for path, links in [*((it, False) for it in plain), *((it, True) for it in linked)]:
                    with self.subTest(path=path, number=number):
                        self.assertIn(self.opened(path), ("ELOOP", "ENOTDIR") if links else (None,))


    def test_no_index_is_stripped_by_a_link(self):
        raw = b"DIRC" + (2).to_bytes(4, "big") + bytes(4) + bytes(20)
        (self.folder / "index").write_bytes(raw)
        (self.folder / "source" / "new").symlink_to("../index")
        source = below.Source(os.fsencode(self.folder / "source"))
        self.addCleanup(os.close, source.descriptor)
        for path, fault in ((b"new", errno.ELOOP), (b"out/index", errno.ELOOP), (b"fifo", errno.ESTALE)):
            with self.subTest(path=path), self.assertRaises(OSError) as caught:
                repositories.Kept(source, lambda _: True).strip(path, b".git/index")
            self.assertIn(caught.exception.errno, (fault, errno.ENXIO))


@ROOT
@BUILT
@unittest.skipIf(WHY, WHY)
class Others(unittest.TestCase):
    """A mount of root's, over a tree that an ordinary user can write in."""

    @classmethod
    def setUpClass(cls):
        source = pathlib.Path(tempfile.mkdtemp())
        cls.addClassCleanup(shutil.rmtree, source)
        for path in source, source / "d":
            path.mkdir(exist_ok=True)
            os.chown(path, NOBODY, NOBODY)
        source.chmod(0o755)
        cls.mount = Mount(*RULES, "--allow-other", "--others-may-write", source=source)
        cls.addClassCleanup(cls.mount.clear)
        cls.secret = cls.mount.kept / "secret"
        cls.source, cls.point = source, cls.mount.point

    def setUp(self):
        self.secret.write_bytes(SECRET)
        self.secret.chmod(0o600)

    def file(self, name, content=BYTES, owner=NOBODY, mode=0o644):
        """A file below, as this user's or another's."""
        path = self.source / name
        path.write_bytes(content)
        path.chmod(mode)
        os.chown(path, owner, owner)
        return path

    def runs(self, script, name=""):
        """The status and the output of a shell's script as that user, in the mount; $F is a file."""
        words = [*AS_NOBODY, "sh", "-c", script]
        ran = subprocess.run(words, env={**os.environ, "F": str(self.point / name)}, stdout=subprocess.PIPE, stderr=subprocess.PIPE, timeout=PATIENCE)
        return ran.returncode, ran.stdout

    def test_a_link_in_the_place_of_a_file(self):
        for name in "f.dat", "f.sj", "d/f.dat", "d/f.sj":
            for script in ('cat "$F"', 'chmod 666 "$F"', 'echo pwned > "$F"', 'echo pwned >> "$F"', 'truncate -s 0 "$F"', 'touch -d 2001-01-01 "$F"',
                           'setfattr -n user.a -v b "$F"', 'ln "$F" "$F.2"'):
                with self.subTest(name=name, script=script):
                    path, before = self.file(name), self.secret.stat()
                    self.runs('stat "$F"', name)
                    path.unlink()
                    path.symlink_to(self.secret)
                    status, output = self.runs(script, name)
                    self.assertNotIn(b"secret", output)
                    now = self.secret.stat()
                    self.assertEqual((self.secret.read_bytes(), now.st_mode, now.st_mtime_ns, now.st_nlink, os.listxattr(self.secret)),
                                     (SECRET, before.st_mode, before.st_mtime_ns, 1, []))
                    path.unlink()
                    path.with_name(path.name + ".2").exists() and path.with_name(path.name + ".2").unlink()

    def test_a_link_in_the_place_of_a_folder(self):
        outside = self.mount.kept / "outside"
        for script in ('cat "$F"', 'chmod 666 "$F"', 'echo pwned > "$F"', 'echo pwned > "$F.new"', 'rm -f "$F"', 'mv "$F" "$F.2"'):
            for name in "f.dat", "f.sj":
                with self.subTest(script=script, name=name):
                    (self.source / "e").mkdir()
                    os.chown(self.source / "e", NOBODY, NOBODY)
                    self.file(f"e/{name}")
                    outside.mkdir()
                    (outside / name).write_bytes(SECRET)
                    (outside / name).chmod(0o600)
                    self.runs('stat "$F"', f"e/{name}")
                    shutil.rmtree(self.source / "e")
                    (self.source / "e").symlink_to(outside)
                    self.assertNotIn(b"secret", self.runs(script, f"e/{name}")[1])
                    self.assertEqual((os.listdir(outside), (outside / name).read_bytes(), (outside / name).stat().st_mode & 0o777), ([name], SECRET, 0o600))
                    (self.source / "e").unlink()
                    shutil.rmtree(outside)

    def test_a_file_of_root_s_in_the_place_of_one_s_own(self):
        # (whoever may write in a folder may rename what others have in it)
        for name in "g.dat", "g.sj":
            for script in 'cat "$F"', 'chmod 666 "$F"', 'echo pwned > "$F"', 'echo pwned >> "$F"', 'truncate -s 0 "$F"':
                with self.subTest(name=name, script=script):
                    self.file(name)
                    secret = self.file("s" + name, SECRET, owner=0, mode=0o600)
                    self.runs('stat "$F"', name)
                    secret.rename(self.source / name)
                    # (asked again and again, until the kernel knows what is there)
                    for _ in range(3):
                        status, output = self.runs(script, name)
                        self.assertNotIn(b"secret", output)
                    self.assertNotEqual(status, 0)
                    self.assertEqual((self.source / name).read_bytes(), SECRET)
                    self.assertEqual((self.source / name).stat().st_mode & 0o777, 0o600)

    def test_a_file_of_root_s_in_the_place_of_one_that_is_open(self):
        # (with the bytes that it was opened with, and a mode that makes it a program of root's)
        own, other = self.file("o.sj", b"same\n"), self.file("r.sj", b"same\n", owner=0, mode=0o4755)
        child = os.fork()
        if child == 0:
            os.setgroups([])
            os.setresgid(NOBODY, NOBODY, NOBODY)
            os.setresuid(NOBODY, NOBODY, NOBODY)
            with contextlib.suppress(OSError):
                file = os.open(self.point / "o.sj", os.O_RDWR)
                os.write(file, b"mine")
                os.rename(other, own)
                os.close(file)
            os._exit(0)
        os.waitpid(child, 0)
        self.mount.heard()
        self.assertEqual((own.read_bytes(), own.stat().st_uid), (b"same\n", 0))

    def test_a_fifo_in_the_place_of_a_file_holds_up_nobody(self):
        for name in "h.dat", "h.sj":
            path = self.file(name)
            self.runs('stat "$F"', name)
            path.unlink()
            os.mkfifo(path)
            with contextlib.suppress(subprocess.TimeoutExpired):
                subprocess.run([*AS_NOBODY, "cat", self.point / name], stderr=subprocess.DEVNULL, timeout=3)
            self.assertEqual(self.runs('ls "$F" && echo there', "")[1][-6:], b"there\n")
            path.unlink()

    @LISTS
    def test_access_lists_decide(self):
        # A file, a folder with one, and what may be done: nothing by a list, and by the mode alone; and the other way round.
        for name in "l.dat", "l.sj":
            for mode, listed, may in (0o644, f"u:{NOBODY}:---", False), (0o600, f"u:{NOBODY}:rw", True):
                path = self.file(name, owner=0, mode=mode)
                if subprocess.run(["setfacl", "-m", listed, path]).returncode:
                    self.skipTest("the file system has no access lists")
                for script in 'cat "$F"', 'echo more >> "$F"':
                    with self.subTest(name=name, listed=listed, script=script):
                        self.assertEqual(self.runs(script, name)[0] == 0, may)
                path.unlink()
        (self.source / "closed").mkdir()
        subprocess.run(["setfacl", "-m", f"u:{NOBODY}:---", self.source / "closed"], check=True)
        self.file("closed/f.sj")
        for script in 'cat "$F"', 'ls "$(dirname "$F")"':
            self.assertNotEqual(self.runs(script, "closed/f.sj")[0], 0)
        shutil.rmtree(self.source / "closed")

    @LISTS
    def test_what_is_made_in_a_folder_has_its_list(self):
        folder = self.source / "listed"
        folder.mkdir()
        os.chown(folder, NOBODY, NOBODY)
        subprocess.run(["setfacl", "-d", "-m", "u::rwx,g::rwx,o::---,u:1234:rw", folder], check=True)
        for name in "below", "shown":
            top = self.source if name == "below" else self.point
            subprocess.run([*AS_NOBODY, "sh", "-c", 'umask 0; echo a > "$0.dat"; mkdir "$0"', top / "listed" / name], check=True)
        lists = [subprocess.check_output(["getfacl", "-cnp", folder / it]) for it in ("below.dat", "shown.dat", "below", "shown")]
        self.assertEqual(lists[::2], lists[1::2])
        self.assertEqual({(folder / it).stat().st_uid for it in ("below.dat", "shown.dat", "shown")}, {NOBODY})
        shutil.rmtree(folder)

    def test_one_s_own_files_are_as_below(self):
        for script, name in ('echo あ > "$F"', "own.sj"), ('echo あ > "$F"', "own.dat"):
            self.assertEqual(self.runs(script, name)[0], 0)
        self.assertEqual(((self.source / "own.sj").read_bytes(), (self.source / "own.sj").stat().st_uid), (b"\x82\xa0\n", NOBODY))
        self.assertEqual(self.runs('sed -i s/あ/亜/ "$F" && chmod 640 "$F" && cat "$F"', "own.sj"), (0, "亜\n".encode()))
        found = (self.source / "own.sj").stat()
        self.assertEqual(((self.source / "own.sj").read_bytes(), found.st_uid, found.st_mode & 0o777), (b"\x88\x9f\n", NOBODY, 0o640))
        self.assertEqual(self.runs('mv "$F" "$F.2" && mkdir "$F" && rmdir "$F" && rm "$F.2"', "own.sj")[0], 0)
        self.assertEqual((self.point / "own.dat").read_text(), "あ\n")


@ROOT
@BUILT
class Replaced(Played):
    """Files that were replaced while programs had them open."""

    def test_what_replaced_it_is_opened_by_those_alone_who_may(self):
        async def play(path, answers, ino):
            os.chown(path, NOBODY, NOBODY)
            await answers.lookup(1, b"f")
            context = mock.Mock(pid=os.getpid(), uid=NOBODY, gid=NOBODY, umask=0)
            file = (await answers.open(ino, os.O_RDONLY, context)).fh
            path.with_name("new").write_bytes(SECRET)
            path.with_name("new").chmod(0o600)
            path.with_name("new").replace(path)
            for wait in True, False:
                # (the first one finds that another file is there, the second that nobody has the old one open)
                with self.assertRaises(FUSEError):
                    await answers.open(ino, os.O_RDONLY, context)
                if wait:
                    await answers.release(file)

        self.played(play, others=True)


@ROOT
@LISTS
class Decided(unittest.TestCase):
    """What the mount decides for a user whose rights it can't take on is what the system decides."""

    MAY = "import os, sys\nfor it in sys.argv[1:]: print(*[int(os.access(it, way)) for way in (4, 2, 6)])"

    def test_as_the_system_does(self):
        draw, kept = random.Random(90), pathlib.Path(tempfile.mkdtemp())
        self.addCleanup(shutil.rmtree, kept)
        kept.chmod(0o755)
        users = NOBODY, 1234, 1235
        files = []
        for number in range(120):
            path = kept / str(number)
            path.touch()
            os.chown(path, draw.choice(users), draw.choice(users))
            path.chmod(draw.randrange(0o1000))
            if number % 4:
                given = [f"{kind}:{of}:{draw.choice(['---', 'r--', '-w-', 'rw-'])}" for kind in "ug" for of in (*users, "")
                         if draw.random() < 0.6 and (of or kind == "g")]
                subprocess.run(["setfacl", "-m", ",".join([*given, f"m::{draw.choice(['r--', 'rw-', '-w-'])}"]), path], check=True)
            files.append(path)
        for groups in [NOBODY], [NOBODY, 1234], [NOBODY, 1234, 1235]:
            line = ["setpriv", f"--reuid={NOBODY}", f"--regid={groups[0]}", f"--groups={','.join(map(str, groups))}", sys.executable, "-S", "-c"]
            said = subprocess.run([*line, self.MAY, *files], stdout=subprocess.PIPE, text=True, check=True).stdout.splitlines()
            for path, by_system in zip(files, said):
                found, listed = path.stat(), rights.access_list(os.fsencode(path))
                own = [int(rights.allows(found, listed, NOBODY, groups, way)) for way in (4, 2, 6)]
                listing = subprocess.run(["getfacl", "-np", path], stdout=subprocess.PIPE, text=True).stdout
                self.assertEqual(" ".join(map(str, own)), by_system, (groups, listing))


@BUILT
class Lagging(Played):
    """An ordinary user's mount that lets others in: the kernel decided by what it was told before."""

    def test_a_file_that_is_no_longer_theirs_is_not_opened(self):
        async def play(path, answers, ino):
            other = mock.Mock(pid=os.getpid(), uid=NOBODY + 1, gid=NOBODY + 1, umask=0)
            path.chmod(0o644)
            for rule in answers.tree.nodes[ino].rule, None:
                answers.tree.nodes[ino].rule = rule
                path.chmod(0o644)
                await answers.getattr(ino)
                await answers.release((await answers.open(ino, os.O_RDONLY, other)).fh)
                # (another program's question tells the kernel of the new mode while this one's request is on its way)
                path.chmod(0o600)
                await answers.getattr(ino)
                with self.assertRaises(FUSEError) as caught:
                    await answers.open(ino, os.O_RDONLY, other)
                self.assertEqual(caught.exception.errno, errno.EACCES)
            path.parent.chmod(0o755)
            answers.tree.nodes[ino].rule = self.RULE
            for change in (answers.mkdir(1, b"d", 0o755, other), answers.unlink(1, b"f", other), answers.rename(1, b"f", 1, b"g", 0, other),
                           answers.create(1, b"g", 0o644, os.O_WRONLY, other), answers.symlink(1, b"g", b"f", other), answers.link(ino, 1, b"g", other)):
                with self.assertRaises(FUSEError) as caught:
                    await change
                self.assertEqual(caught.exception.errno, errno.EACCES)
            self.assertEqual(os.listdir(path.parent), ["f"])

        with mock.patch.object(asker, "is_possible", lambda: False), mock.patch.object(rights, "is_possible", lambda: False), \
                mock.patch.object(answers_of, "is_possible", lambda: False):
            self.played(play, others=True)


class Bounded(unittest.TestCase):
    def test_whether_others_can_write_is_looked_for_some_seconds_alone(self):
        with tempfile.TemporaryDirectory() as folder, mock.patch.object(os, "lstat", lambda _: time.sleep(30)):
            began = time.monotonic()
            self.assertRaises(TimeoutError, asker.open_folder, folder, 0.2)
            self.assertLess(time.monotonic() - began, 10)


@BUILT
class Unread(Played):
    """Files that a mount may not read, and appends to."""

    def test_a_link_in_the_place_of_one_is_not_followed(self):
        async def play(path, answers, ino):
            secret = path.with_name("secret")
            secret.write_bytes(SECRET)

            async def snapshot(*_):
                path.unlink()
                path.symlink_to(secret)
                raise PermissionError(errno.EACCES, "")

            with mock.patch.object(answers.reader, "snapshot", snapshot), self.assertRaises(FUSEError) as caught:
                await answers.open(ino, os.O_WRONLY | os.O_APPEND, CONTEXT)
            self.assertEqual((caught.exception.errno, secret.read_bytes()), (errno.ESTALE, SECRET))

        self.played(play)


@ROOT
@BUILT
@unittest.skipIf(WHY, WHY)
class Allowed(unittest.TestCase):
    """Whether root may let others into a tree."""

    def status(self, source, *words):
        """The status of a mount that lets others in, and what it says."""
        point = pathlib.Path(tempfile.mkdtemp())
        self.addCleanup(shutil.rmtree, point)
        try:
            mount = Mount(*RULES, "--allow-other", *words, source=source, point=point)
        except AssertionError as fault:
            return str(fault)
        self.addCleanup(mount.clear)
        return None

    def test_a_tree_that_others_can_write_in_needs_a_word(self):
        for owner, mode in (NOBODY, 0o755), (0, 0o775), (0, 0o1777):
            source = pathlib.Path(tempfile.mkdtemp())
            self.addCleanup(shutil.rmtree, source)
            source.chmod(0o755)
            (source / "a" / "b").mkdir(parents=True)
            (source / "a" / "b").chmod(mode)
            os.chown(source / "a" / "b", owner, owner)
            self.assertIn(f"users other than root can write in {source}/a/b", self.status(source))
            self.assertIsNone(self.status(source, "--others-may-write"))

    def test_a_tree_of_root_s_alone_needs_none(self):
        source = pathlib.Path(tempfile.mkdtemp())
        self.addCleanup(shutil.rmtree, source)
        self.assertIsNone(self.status(source))


if __name__ == "__main__":
    unittest.main()
