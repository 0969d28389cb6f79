"""Parts of `legacy mount` that no program sees alone. They need no mount, but some need pyfuse3 and trio."""
import contextlib
import errno
import io
import logging
import os
import pathlib
import random
import re
import resource
import shutil
import signal
import subprocess
import sys
import tempfile
import threading
import time
import traceback
import unittest
from unittest import mock

from checkout import BUILT, INDEXES, PROGRAM
from gate import Gate
from legacy.documents import LARGE
from legacy.mount import below, command, copies, letters, starting, storing
from legacy.mount.below import Place, read_at
from legacy.mount.copies import leftovers
from legacy.mount.refusals import Refusals
from legacy.mount.sending import Content, Kept, Receiver, Sender
from legacy.mount.snapshots import PART, SOME_LINES, Snapshot, Text, lines_of, own_text
from legacy.mount.storing import Store
from legacy.rules import Rule
from legacy.saving import Known, Refused
from legacy.work.writing import create, replace
from mounts import PATIENCE, PYTHON, until
from plays import HAS_PYFUSE3, Everywhere, Played, asked

# More descriptors than select(2) knows.
MANY = 1100
if HAS_PYFUSE3:
    import trio
    import trio.testing
    from pyfuse3 import FUSEError
    from legacy.mount import ahead, questions, tree, waiting, worker, workers
    from legacy.mount.ahead import FILES, ROOM, SMALL, Listing, Wanted
    from legacy.mount.operations import Operations
    from legacy.mount.reading import Reader
    from legacy.mount.saves import Saves
    from legacy.mount.tree import ROOT, TRIES, Session
    from legacy.mount.view import Options, View
    from legacy.mount.waiting import Requests
    from legacy.mount.written import LONG, Written


@unittest.skipIf(HAS_PYFUSE3 or not PYTHON, "this interpreter has pyfuse3, or none has")
class Elsewhere(unittest.TestCase):
    def test_the_other_tests_of_this_file(self):
        ran = subprocess.run([PYTHON, "-m", "unittest", "test_mount_parts"], cwd=pathlib.Path(__file__).parent, stderr=subprocess.PIPE)
        self.assertEqual(ran.returncode, 0, ran.stderr.decode())


class Below(unittest.TestCase):
    """How files below are read and written."""

    def setUp(self):
        folder = tempfile.TemporaryDirectory()
        self.addCleanup(folder.cleanup)
        self.folder = pathlib.Path(folder.name)
        descriptor = os.open(folder.name, os.O_PATH | os.O_DIRECTORY)
        self.addCleanup(os.close, descriptor)
        self.place = Place(descriptor, b"f")

    def test_a_read_that_has_only_a_part_is_gone_on_with(self):
        (self.folder / "f").write_bytes(bytes(range(100)))
        file = self.place.open(os.O_RDONLY)
        self.addCleanup(os.close, file)
        pread = os.pread
        with mock.patch("os.pread", lambda file, size, at: pread(file, min(size, 7), at)):
            self.assertEqual(read_at(file, 50, 10), bytes(range(10, 60)))
            self.assertEqual(read_at(file, 50, 90), bytes(range(90, 100)))

    def synced(self, sync, links=1):
        """What of a save waits for the disk: files, and folders."""
        (self.folder / "f").write_bytes(b"before")
        for number in range(1, links):
            os.link(self.folder / "f", self.folder / str(number))
        found, fsync = [], os.fsync

        def noted(file):
            found.append("folder" if os.path.isdir(f"/proc/self/fd/{file}") else "file")
            fsync(file)

        with mock.patch("os.fsync", noted):
            Store(lambda: None, None, sync).put(self.place, b"after")
        self.assertEqual((self.folder / "f").read_bytes(), b"after")
        return found

    def test_a_save_waits_for_the_file_and_then_for_its_name(self):
        self.assertEqual(self.synced(True), ["file", "folder"])

    def test_a_save_in_place_waits_for_the_old_bytes_beside_it_first(self):
        self.assertEqual(self.synced(True, links=2), ["file", "file", "folder", "file"])

    def test_a_save_that_needn_t_wait_for_the_disk(self):
        self.assertEqual(self.synced(False) + self.synced(False, links=2), [])

    def test_the_old_bytes_stay_where_a_file_can_neither_be_written_in_place_nor_put_back(self):
        names, overwrite, rename = {"g", "f.before"}, storing.overwrite, os.rename
        (self.folder / "f").write_bytes(b"before")
        for it in names:
            os.link(self.folder / "f", self.folder / it)

        def half(file, content):
            overwrite(file, content[:2])
            raise OSError(errno.ENOSPC, "")

        def once(old, new, **folders):
            if not new.startswith(b".legacy-old-"):
                raise OSError(errno.EIO, "")
            rename(old, new, **folders)

        for call, kept in (rename, r"f\.before\.2"), (once, r"\.legacy-old-\d+-\d+-f"):
            with mock.patch.object(storing, "overwrite", half), mock.patch("os.rename", call), self.assertRaises(Refused) as caught:
                Store(lambda: None, None, True).put(self.place, b"after")
            self.assertEqual(caught.exception.errno, errno.ENOSPC)
            said = re.fullmatch(rf"No space left on device; its old bytes couldn't be put back, and are in ({kept}) beside it", str(caught.exception))
            place = self.folder / said[1]
            self.assertEqual((place.read_bytes(), (self.folder / "f").read_bytes()), (b"before", b"be"))
            place.unlink()
            self.assertEqual({it.name for it in self.folder.iterdir()}, {"f"} | names)
            (self.folder / "f").write_bytes(b"before")

    def test_a_file_that_can_t_be_written_in_place_is_put_back(self):
        (self.folder / "f").write_bytes(b"before")
        os.link(self.folder / "f", self.folder / "g")
        overwrite, tries = storing.overwrite, [b"af"]

        def once(file, content):
            overwrite(file, tries[0] if tries else content)
            if tries:
                tries.clear()
                raise OSError(errno.ENOSPC, "")

        with mock.patch.object(storing, "overwrite", once), self.assertRaises(OSError) as caught:
            Store(lambda: None, None, False).put(self.place, b"after")
        self.assertEqual((caught.exception.errno, type(caught.exception)), (errno.ENOSPC, OSError))
        self.assertEqual({it.name: it.read_bytes() for it in self.folder.iterdir()}, {"f": b"before", "g": b"before"})

    def test_a_disk_that_fails_in_place_leaves_the_old_bytes(self):
        fsync = os.fsync
        for named, before, content in (True, b"", b"after"), (False, b"before", b"before and after"):
            (self.folder / "f").write_bytes(b"before")
            if named:
                os.link(self.folder / "f", self.folder / "g")

            def fails(file):
                if os.fstat(file).st_ino == (self.folder / "f").stat().st_ino:
                    raise OSError(errno.EIO, "")
                fsync(file)

            with mock.patch("os.fsync", fails), self.assertRaises(OSError) as caught:
                Store(lambda: None, None, True, before=before).put(self.place, content)
            self.assertEqual((caught.exception.errno, (self.folder / "f").read_bytes()), (errno.EIO, b"before"))
            self.assertEqual(sorted(os.listdir(self.folder)), ["f", "g"])

    def test_the_bytes_of_what_is_replaced_are_freed_behind_the_renaming(self):
        # The system would free them within, and meanwhile let nobody list the folder.
        (self.folder / "f").write_bytes(b"before")
        old, rename, held = (self.folder / "f").stat().st_ino, os.rename, []

        def noted(*words, **named):
            held.append(is_held(old))
            rename(*words, **named)

        with mock.patch("os.rename", noted):
            Store(lambda: None, None, False).put(self.place, b"after")
        self.assertEqual((held, is_held(old)), ([True], False))

    def test_a_content_is_read_with_the_signature_that_it_had_throughout(self):
        (self.folder / "f").write_bytes(b"one")
        changes, signature = [b"two", b"three"], below.signature

        def changed(found):
            if changes:
                (self.folder / "f").write_bytes(changes.pop())
            return signature(found)

        with mock.patch.object(below, "signature", changed):
            found, content, _ = below.steady_beneath(self.place.folder, b"f")
        self.assertEqual((content, found), (b"two", signature((self.folder / "f").stat())))


@unittest.skipUnless(shutil.which("setfacl"), "there is no setfacl (Debian's acl)")
class Lists(unittest.TestCase):
    """Files in a folder whose list opens new files to others keep what they had, whichever way they are replaced."""

    WAYS = (lambda path: Store(lambda: None, None, False).put(path, b"after"),
            lambda path: replace(f"/proc/self/fd/{path.folder}/f", b"after", path.stat()))

    def setUp(self):
        folder = tempfile.TemporaryDirectory()
        self.addCleanup(folder.cleanup)
        self.path = pathlib.Path(folder.name, "f")
        if subprocess.run(["setfacl", "-d", "-m", "u:65534:rwx,g::rwx,o::rx", folder.name], stderr=subprocess.DEVNULL).returncode:
            self.skipTest(f"files in {folder.name} can have no access lists")
        descriptor = os.open(folder.name, os.O_PATH | os.O_DIRECTORY)
        self.addCleanup(os.close, descriptor)
        self.place = Place(descriptor, b"f")

    def access(self, path=None):
        """The access list of the file, or of another one, and its mode."""
        path = path or self.path
        listed = subprocess.run(["getfacl", "-cnp", path], stdout=subprocess.PIPE, text=True, check=True).stdout.split()
        return listed, oct(path.stat().st_mode & 0o7777)

    def replaced(self, mode, words):
        """The access to the file before and behind each way."""
        for way in self.WAYS:
            self.path.write_bytes(b"before")
            subprocess.run(["setfacl", "-b", self.path], check=True)
            self.path.chmod(mode)
            if words:
                subprocess.run(["setfacl", "-m", words, self.path], check=True)
            before, inode = self.access(), self.path.stat().st_ino
            way(self.place)
            self.assertEqual((self.path.read_bytes(), self.path.stat().st_ino == inode), (b"after", False))
            yield before, self.access()

    def test_a_file_without_a_list_has_none(self):
        for mode in 0o600, 0o640, 0o664:
            for before, behind in self.replaced(mode, ""):
                self.assertEqual(behind, before)
                self.assertEqual(len(behind[0]), 3)

    def test_a_file_with_a_list_has_its_own(self):
        for before, behind in self.replaced(0o640, "u:12:r,g::-"):
            self.assertEqual(behind, before)
            self.assertIn("user:12:r--", behind[0])

    def test_a_file_that_is_made_like_another_has_that_one_s(self):
        self.path.write_bytes(b"before")
        for number, words in enumerate((["-b"], ["-m", "u:12:r,g::-"])):
            subprocess.run(["setfacl", *words, self.path], check=True)
            made = self.path.parent / f"made{number}"
            create(str(made), b"after", str(self.path))
            self.assertEqual(self.access(made), self.access())


class Left(unittest.TestCase):
    """What mounts that were killed have left, beside files of a user's."""

    def setUp(self):
        folder = tempfile.TemporaryDirectory()
        self.addCleanup(folder.cleanup)
        self.folder = pathlib.Path(folder.name)
        self.source = below.Source(os.fsencode(folder.name))
        self.addCleanup(os.close, self.source.descriptor)

    def files(self, **contents):
        """Has files of these contents; names are their paths without what begins all of them."""
        for name, content in contents.items():
            (self.folder / name).write_bytes(content)

    def found(self):
        """The files that there are, with their contents."""
        return {it.name: it.read_bytes() for it in self.folder.iterdir() if it.is_file() and not it.is_symlink()}

    def test_what_is_unfinished_is_removed_and_old_bytes_are_named(self):
        self.files(**{"f": b"half of n", ".legacy-old-1-2-f": b"before", ".legacy-new-1-3": b"half", ".legacy-old-1-4-f.before": b"taken"})
        self.files(**{"g": b"whole", ".legacy-old-7-1-g": b"whole", ".legacy-old-7-2-gone": b"", ".legacy-old-1-5-a\nb": b"lines"})
        self.assertEqual(dict(leftovers(self.source)), {
            b".legacy-old-1-2-f": b"f.before", b".legacy-new-1-3": b"", b".legacy-old-1-4-f.before": b"f.before.before",
            b".legacy-old-7-1-g": b"", b".legacy-old-7-2-gone": b"gone.before", b".legacy-old-1-5-a\nb": b"a\nb.before"})
        self.assertEqual(self.found(), {
            "f": b"half of n", "f.before": b"before", "f.before.before": b"taken", "g": b"whole", "gone.before": b"", "a\nb.before": b"lines"})

    def test_a_name_before_that_is_taken(self):
        self.files(**{"f": b"half", "f.before": b"a user's", ".legacy-old-1-1-f": b"old"})
        self.assertEqual(dict(leftovers(self.source)), {b".legacy-old-1-1-f": b"f.before.2"})
        self.assertEqual(self.found(), {"f": b"half", "f.before": b"a user's", "f.before.2": b"old"})

    def test_files_of_a_user_s_and_of_the_plugin_s_stay(self):
        names = [".legacy-notes", ".legacy-new-plan", ".legacy-new-1", ".legacy-new-1-2.txt", ".legacy-old-plan.txt", ".legacy-old-1-2", ".legacy-4-2"]
        self.files(**{"plan.txt": b"another", **{it: b"mine" for it in names}})
        before = self.found()
        (self.folder / ".legacy-new-1-1").symlink_to("plan.txt")
        os.mkfifo(self.folder / ".legacy-new-1-2")
        # (whoever opens it needn't wait)
        self.addCleanup(os.close, os.open(self.folder / ".legacy-new-1-2", os.O_RDWR))
        self.assertEqual((list(leftovers(self.source)), self.found()), ([], before))
        self.assertEqual(sorted(it.name for it in self.folder.iterdir()), sorted([*before, ".legacy-new-1-1", ".legacy-new-1-2"]))

    def test_what_a_mount_that_still_runs_is_writing_stays(self):
        place, found = Place(self.source.descriptor, b"f"), []

        def noted():
            found.append((list(leftovers(self.source)), sorted(self.found())))

        for links in range(2):
            self.files(f=b"before")
            if links:
                os.link(self.folder / "f", self.folder / "g")
            rename, overwrite = os.rename, storing.overwrite
            with mock.patch("os.rename", lambda *words, **named: (noted(), rename(*words, **named))), \
                    mock.patch.object(storing, "overwrite", lambda *words: (noted(), overwrite(*words))):
                Store(lambda: None, None, False).put(place, b"after")
        names = [" ".join(it) for _, it in found]
        self.assertEqual(([it for it, _ in found], self.found()), ([[], [], []], {"f": b"after", "g": b"after"}))
        for name, wanted in zip(names, (r"\.legacy-new-\d+-\d+ f", r"\.legacy-new-\d+-\d+ f g", r"\.legacy-new-\d+-\d+ \.legacy-old-\d+-\d+-f f g")):
            self.assertRegex(name, f"^{wanted}$")

    def test_old_bytes_that_were_being_copied_are_cleared_away(self):
        # The mount ends in the middle of their copy, or of the file behind it.
        self.files(f=b"before")
        os.link(self.folder / "f", self.folder / "g")
        for module in copies, below:
            child = os.fork()
            if child == 0:
                write = module.write
                with mock.patch.object(module, "write", lambda file, content: (write(file, content[:2]), os.kill(os.getpid(), signal.SIGKILL))):
                    Store(lambda: None, None, False).put(Place(self.source.descriptor, b"f"), b"after")
            self.assertEqual(os.WTERMSIG(os.waitpid(child, 0)[1]), signal.SIGKILL)
            self.assertEqual(len(list(leftovers(self.source))), 1)
            self.assertEqual(self.found(), {"f": b"before", "g": b"before"})

    def test_a_mount_that_changes_nothing_clears_nothing(self):
        for read_only, left in (True, {".legacy-new-1-1": b"half"}), (False, {}):
            self.files(**{".legacy-new-1-1": b"half"})
            self.source.state = None
            view = mock.Mock(source=self.source, options=mock.Mock(read_only=read_only))
            with contextlib.nullcontext() if read_only else self.assertLogs("legacy.mount"):
                starting.clear(view)
            self.assertEqual(self.found(), left)


class Background(unittest.TestCase):
    def test_the_status_of_a_job_that_mounted_nothing(self):
        def killed(_):
            os.kill(os.getpid(), signal.SIGKILL)

        for job, status in (lambda _: command.DONE, 0), (lambda _: command.FAILED, 1), (killed, 1), (lambda mounted: mounted() or 0, 0):
            self.assertEqual(self.printed(job)[0], status)

    def printed(self, job):
        """The status of a job in the background, and what is printed meanwhile."""
        with tempfile.TemporaryFile() as output:
            kept = os.dup(2)
            os.dup2(output.fileno(), 2)
            try:
                status = command.in_the_background(job)
            finally:
                os.dup2(kept, 2)
                os.close(kept)
            output.seek(0)
            return status, output.read().decode()

    def test_a_job_that_fails_before_it_mounts_says_why(self):
        def fails(fault):
            def job(_):
                raise fault
            return job

        def killed(_):
            os.kill(os.getpid(), signal.SIGKILL)

        for job, status, said in (
            (fails(FileNotFoundError(errno.ENOENT, "No such file", "/a/log")), 1, "legacy mount: /a/log: No such file\n"),
            (fails(OSError("no number")), 1, "legacy mount: no number\n"),
            (fails(command.Missing("no gate")), 2, "legacy mount: no gate\n"),
            (killed, 1, "legacy mount: its process was ended by signal 9\n"),
        ):
            self.assertEqual(self.printed(job), (status, said))
        status, said = self.printed(fails(KeyError("a fault")))
        self.assertEqual((status, said.count("KeyError: 'a fault'"), said.startswith("Traceback (most recent call last):\n")), (1, 1, True))

    def test_what_ends_a_mount_is_in_its_log(self):
        with tempfile.TemporaryDirectory() as folder:
            for number, (fault, status) in enumerate([(KeyError("a fault"), 1), (KeyError("a fault"), 0), (OSError(errno.EIO, "why"), 0)]):
                path = pathlib.Path(folder, str(number))

                def job(mounted):
                    logging.getLogger().addHandler(logging.FileHandler(path))
                    if not status:
                        mounted()
                    raise fault

                found, said = self.printed(job)
                self.assertEqual((found, said.count(repr(fault.args[0]))), (status, status))
                # (the last line of what is written at once)
                line = "".join(traceback.format_exception_only(type(fault), fault))
                self.assertTrue(until(lambda: path.exists() and path.read_text().endswith(line)), path.exists() and path.read_text())


class Parts(unittest.TestCase):
    """What is found out of a text part by part."""

    def test_whether_bytes_are_their_own_text(self):
        text = "あé\n".encode() * (PART // 3)
        for raw, wanted in (text, True), (text + b"\xe3", False), (b"\xef\xbb\xbf" + text, False), (b"\xff" + text, False), (b"", True):
            self.assertEqual(own_text(raw, "UTF-8"), wanted)

    def test_the_lines_of_a_text(self):
        few = [b"%d " % number + b"a" * (number % 1000) for number in range(SOME_LINES // 2)]
        self.assertGreater(len(b"\n".join(few)), 3 * PART)
        for it in b"\n".join(few), b"\n \n".join(few[1:] + few[:1]), b"\n" + b"\n".join(few) + b"\n":
            self.assertTrue(lines_of(it) == set(few))
        self.assertEqual((lines_of(b""), lines_of(b"\n\n")), (set(), set()))


@unittest.skipUnless(HAS_PYFUSE3, "this interpreter has no pyfuse3 (Debian's python3-pyfuse3)")
class Loop(unittest.TestCase):
    """The loop that serves the kernel."""

    # Whether a task may wait for the next request within its turn.
    FREE = False

    def requests(self):
        made = Requests()
        made.is_free = lambda: self.FREE
        return made

    def test_whoever_waits_for_a_request_has_one(self):
        # Tasks that take bytes from a pipe, which none could read without: one that waits in between holds up no other.
        count, tasks = 500, 5
        come, to = os.pipe()
        self.addCleanup(os.close, come)
        self.addCleanup(os.close, to)
        os.set_blocking(come, False)
        taken = []

        async def serve(requests, nursery):
            while len(taken) < count:
                await requests.wait_readable(come)
                taken.append(os.read(come, 1))
                if taken[-1] == b"s":
                    await trio.sleep(0.01)
            nursery.cancel_scope.cancel()

        async def ask():
            for number in range(count):
                os.write(to, b"s" if number % 10 == 9 else b"q")
                if number % 7 == 0:
                    await trio.sleep(0)

        async def main():
            requests = self.requests()
            async with trio.open_nursery() as nursery:
                for _ in range(tasks):
                    nursery.start_soon(serve, requests, nursery)
                nursery.start_soon(ask)

        trio.run(main)
        self.assertEqual((len(taken), taken.count(b"s")), (count, count // 10))

    def test_as_many_are_at_work_as_there_are_requests(self):
        # Each request is answered only once all have been taken.
        come, to = os.pipe()
        self.addCleanup(os.close, come)
        self.addCleanup(os.close, to)
        taken = []

        async def serve(requests, all_taken):
            await requests.wait_readable(come)
            taken.append(os.read(come, 1))
            if len(taken) == 5:
                all_taken.set()
            await all_taken.wait()

        async def main():
            requests, all_taken = self.requests(), trio.Event()
            with trio.move_on_after(PATIENCE):
                async with trio.open_nursery() as nursery:
                    for _ in range(5):
                        nursery.start_soon(serve, requests, all_taken)
                    await trio.testing.wait_all_tasks_blocked()
                    os.write(to, b"12345")

        trio.run(main)
        self.assertEqual(len(taken), 5)

    def test_other_tasks_have_their_turn_between_requests_that_never_end(self):
        come, to = os.pipe()
        self.addCleanup(os.close, come)
        self.addCleanup(os.close, to)
        os.write(to, b"q")
        turns = []

        async def serve(requests):
            while True:
                await requests.wait_readable(come)

        async def main():
            async with trio.open_nursery() as nursery:
                nursery.start_soon(serve, self.requests())
                for _ in range(10):
                    await trio.sleep(0)
                    turns.append(1)
                nursery.cancel_scope.cancel()

        trio.run(main)
        self.assertEqual(len(turns), 10)

    def test_the_end_of_the_mount_wakes_all(self):
        come, to = os.pipe()
        self.addCleanup(os.close, come)
        self.addCleanup(os.close, to)
        ended = []

        async def serve(requests):
            with self.assertRaises(trio.ClosedResourceError):
                await requests.wait_readable(come)
            ended.append(1)

        async def main(turns):
            requests = self.requests()
            with trio.move_on_after(PATIENCE):
                async with trio.open_nursery() as nursery:
                    for _ in range(3):
                        nursery.start_soon(serve, requests)
                    for _ in range(turns):
                        await trio.sleep(0)
                    if not turns:
                        await trio.testing.wait_all_tasks_blocked()
                    requests.notify_closing(come)

        # (in the first turns tasks have not yet come to wait, and nobody else would say it to them)
        for turns in range(4):
            ended.clear()
            trio.run(main, turns)
            self.assertEqual(len(ended), 3, turns)


class Free(Loop):
    """The same where nothing else has to be done."""

    FREE = True

    def test_a_request_that_comes_soon_is_taken_within_a_turn(self):
        come, to = os.pipe()
        self.addCleanup(os.close, come)
        self.addCleanup(os.close, to)

        async def main():
            requests, turns = self.requests(), []
            with mock.patch.object(waiting, "TURN", PATIENCE):
                os.write(to, b"q")
                await requests.wait_readable(come)
                os.read(come, 1)
                timer = threading.Timer(0.1, os.write, (to, b"q"))
                timer.start()
                with mock.patch.object(trio.lowlevel, "wait_readable", turns.append):
                    await requests.wait_readable(come)
                timer.join()
            return turns, os.read(come, 1)

        self.assertEqual(trio.run(main), ([], b"q"))


@unittest.skipUnless(HAS_PYFUSE3, "this interpreter has no pyfuse3 (Debian's python3-pyfuse3)")
class Texts(unittest.TestCase):
    """What programs make of a text."""

    def session(self, size=1):
        return Session(Snapshot(below.Signature(1, 2, 3, 4, 5), b"", "shift_jis", Text(b"a" * size, "Shift_JIS", 0)))

    def test_it_is_written_cut_and_filled_as_a_file(self):
        draw, text, wanted = random.Random(59), Written(b"begun"), bytearray(b"begun")
        for _ in range(500):
            at, part = draw.randrange(len(wanted) + 9), bytes(draw.choices(b"abc", k=draw.randrange(1, 30)))
            if draw.randrange(5):
                text.write(at, part)
                wanted.extend(bytes(max(0, at - len(wanted))))
                wanted[at : at + len(part)] = part
            else:
                text.truncate(at)
                wanted = wanted[:at] + bytes(max(0, at - len(wanted)))
            self.assertEqual((text.copy(), text.size, text.read(7, at)), (wanted, len(wanted), wanted[at : at + 7]))
        text.close()
        self.assertRaises(OSError, text.copy)

    def test_what_is_written_while_a_long_one_is_made_is_in_it(self):
        session = self.session(LONG + 1)

        async def write(at):
            await session.prepare()
            session.write(at, b"b")

        async def all_at_once():
            async with trio.open_nursery() as nursery:
                for at in range(3):
                    nursery.start_soon(write, 2 * at)

        trio.run(all_at_once)
        self.assertEqual(session.text().copy(), b"bababa" + b"a" * (LONG - 5))

    def test_it_is_read_again_where_it_is_written_meanwhile_but_not_for_ever(self):
        for writes, wanted in (0, 1), (1, 2), (TRIES + 9, TRIES + 1):
            session, copy, read = self.session(LONG + 1), Written.copy, []

            def meanwhile(text):
                read.append(text)
                found = copy(text)
                if len(read) <= min(writes, TRIES):
                    session.write(len(read), b"b")
                return found

            with mock.patch.object(Written, "copy", meanwhile):
                version, content = trio.run(session.copy)
            self.assertEqual((len(read), version, content), (wanted, session.version, session.text().copy()))


@unittest.skipUnless(HAS_PYFUSE3, "this interpreter has no pyfuse3 (Debian's python3-pyfuse3)")
class Ahead(unittest.TestCase):
    """Which files are decoded ahead of need."""

    def listing(self, count, size=100):
        found = Listing()
        for number in range(count):
            found.add(Wanted(b"d/%d" % number, "shift_jis"), size)
        return found

    def begun(self, listing, number):
        """The first and the last of each part that is begun."""
        return [tuple(int(part[at].path[2:]) for at in (0, -1)) for part in listing.parts(b"d/%d" % number)]

    def test_nothing_for_one_file(self):
        listing = self.listing(100)
        self.assertEqual([self.begun(listing, 5), self.begun(listing, 5), self.begun(listing, 200)], [[], [], []])

    def test_from_the_second_file_on_what_is_beside_it_each_once(self):
        listing = self.listing(4 * FILES + 1)
        self.begun(listing, 0)
        parts = [(at * FILES, (at + 1) * FILES - 1) for at in range(4)] + [(4 * FILES, 4 * FILES)]
        self.assertEqual(self.begun(listing, 1), [parts[0], parts[1]])
        self.assertEqual(self.begun(listing, 2), [])
        self.assertEqual(self.begun(listing, 4 * FILES), [parts[4], parts[3]])
        self.assertEqual(self.begun(listing, 4 * FILES - 1), [parts[2]])

    def test_whoever_waits_goes_on_whatever_becomes_of_it(self):
        for fault in Refused(errno.EIO, "gate ended"), OSError(errno.ENOMEM, "no process"), KeyError("a fault"):
            with mock.patch("legacy.mount.ahead.log") as log:
                self.assertEqual(trio.run(self.wait_for_a_fault, fault), [True])
            self.assertEqual(log.exception.called, isinstance(fault, KeyError))

    async def wait_for_a_fault(self, fault):
        of = ahead.Ahead(mock.Mock(), mock.Mock(do=mock.Mock(side_effect=fault)), mock.Mock())
        listing, waited = of.listing(b"d"), []
        for number in range(4):
            listing.add(Wanted(b"d/%d" % number, "shift_jis"), 1)
        async with trio.open_nursery() as nursery:
            nursery.start_soon(of.serve)
            with trio.move_on_after(PATIENCE):
                for number in range(4):
                    coming = of.read(b"d/%d" % number)
                    if coming:
                        await coming.wait()
                        waited.append(coming.is_set())
            nursery.cancel_scope.cancel()
        return waited

    def test_large_ones_are_fewer(self):
        listing = self.listing(4, ROOM // 2)
        self.begun(listing, 0)
        self.assertEqual(self.begun(listing, 1), [(0, 1), (2, 3)])


class Encodable(unittest.TestCase):
    """The characters that an encoding is known to have."""

    def test_those_of_a_text_that_are_not_known(self):
        draw, every = random.Random(7), [chr(it) for it in (*range(0x80, 0x800), *range(0x3000, 0x3100), 0xE000, 0xFFFD, 0x1F600, 0x2A6D6)]
        with mock.patch.object(letters, "WORTH", 2000):
            found = letters.Letters()
            for _ in range(200):
                text = "".join(draw.choices(every[: draw.randrange(1, len(every) + 1)], k=200)) + "ASCII\n"
                unknown = found.unknown(text.encode())
                self.assertEqual(unknown, set(text) - found.known - set(map(chr, range(128))))
                found.known.update(draw.sample(sorted(unknown), len(unknown) // 2))
        self.assertIsNotNone(found._passed)
        self.assertEqual((found.unknown(b"ASCII"), found.unknown(b"\xe3\x81A")), (set(), set()))


class Sent(unittest.TestCase):
    """What a process that saves is sent."""

    def test_a_large_content_that_it_keeps_once_more_as_a_number(self):
        kept, known = Kept(), Known(b"a" * LARGE, "a" * LARGE, "Shift_JIS", 0)
        kept.keep(7, known)
        sent = io.BytesIO()
        Sender(sent, set(kept.of)).dump(("save", [Content(7, known.raw, None), Content(8, b"b", None)]))
        self.assertLess(len(sent.getvalue()), 1000)
        sent.seek(0)
        name, (one, other) = Receiver(sent, kept).load()
        self.assertIs(one, known)
        self.assertEqual((name, other), ("save", Content(8, b"b", None)))

    def test_it_keeps_the_last_two_that_are_large(self):
        kept = Kept()
        for number, size in (1, LARGE), (2, LARGE), (3, 1), (1, LARGE), (4, LARGE):
            kept.keep(number, Known(b"a" * size, "a" * size, "Shift_JIS", 0))
        self.assertEqual(list(kept.of), [1, 4])

    @unittest.skipUnless(HAS_PYFUSE3, "this interpreter has no pyfuse3 (Debian's python3-pyfuse3)")
    @BUILT
    def test_saves_one_after_the_other_with_what_it_keeps(self):
        found = workers.Workers([PROGRAM, "stdio", "--indexes", str(INDEXES)])
        self.addCleanup(found.close)
        raw = b"".join(b"%06d \x82\xa0\xff\r\n" % number for number in range(LARGE // 12 + 1))
        contents = [Content(0, raw, found.do("text", raw, "shift_jis", 0))]
        # (a line is edited, and taken back by what it was before)
        edits = [(b"000007 \x82\xa0\xff", b"000007 \x82\xa0"), (b"000009", b"edited"), (b"000007 \x82\xa0", b"000007 \x82\xa0\xff")]
        for number, (old, new) in enumerate(edits, 1):
            old_text, new_text = (it.replace(b"\x82\xa0", "あ".encode()).replace(b"\xff", "\ufffd".encode()) for it in (old, new))
            before, utf8 = contents[-1], contents[-1].text.utf8.replace(old_text, new_text, 1)
            made, how = found.do("save", "shift_jis", before, utf8, contents[:-1], number)
            self.assertTrue(made == before.raw.replace(old, new, 1), number)
            self.assertEqual(how, "the difference")
            contents.append(Content(number, made, before.text._replace(utf8=utf8)))


    @unittest.skipUnless(HAS_PYFUSE3, "this interpreter has no pyfuse3 (Debian's python3-pyfuse3)")
    @BUILT
    def test_a_large_text_that_is_measured_and_then_read_is_opened_once(self):
        jobs, send, found = worker.Jobs([PROGRAM, "stdio", "--indexes", str(INDEXES)]), Gate.send_open, []
        self.addCleanup(jobs._gate.close)

        def noted(gate, name, label, content, *words):
            found.append(len(content))
            return send(gate, name, label, content, *words)

        with mock.patch.object(Gate, "send_open", noted):
            for size in 1, LARGE:
                raw = b"\xff" * size
                self.assertEqual(tuple(jobs.lengths(raw, "shift_jis")), (3 * size, size))
                self.assertEqual(jobs.text(raw, "shift_jis", 1).utf8.decode(), "\ufffd" * size)
        self.assertEqual(found, [1, 1, LARGE])


@unittest.skipUnless(HAS_PYFUSE3, "this interpreter has no pyfuse3 (Debian's python3-pyfuse3)")
class Nodes(unittest.TestCase):
    def test_a_file_is_a_temporary_one_for_a_while_behind_its_last_writing(self):
        for anew, temporary in (False, [True, True, False]), (True, [False, False, False]):
            node, found = tree.Node(2, b"f", None), []
            with mock.patch.object(tree, "time") as clock:
                clock.monotonic.return_value = 1.0
                node.mark_made(anew)
                found.append(node.is_temporary)
                clock.monotonic.return_value += 0.5 * tree.TEMPORARY
                node.mark_closed()
                for part in 0.75, 0.5:
                    clock.monotonic.return_value += part * tree.TEMPORARY
                    found.append(node.is_temporary)
            self.assertEqual((found, node.born), (temporary, False))


@unittest.skipUnless(HAS_PYFUSE3, "this interpreter has no pyfuse3 (Debian's python3-pyfuse3)")
class Names(unittest.TestCase):
    def test_those_of_files_that_are_being_written_are_hidden_and_a_user_s_are_not(self):
        view = View(mock.Mock(), mock.Mock(), mock.Mock(), Options())
        for name in b".legacy-new-1-2", b".legacy-old-1-2-f", b".legacy-old-1-2-a\nb", b".legacy-12-3", b".git":
            self.assertTrue(view.is_hidden(name), name)
        for name in b".legacy-notes", b".legacy-old-plan.txt", b".legacy-new-1-2.txt", b".legacy-", b"legacy-new-1-2", b".gitattributes":
            self.assertFalse(view.is_hidden(name), name)


class Rejected(unittest.TestCase):
    """Whose the texts are that can't be saved."""

    def modes(self, folder):
        """The modes of what a folder has, by path."""
        return {str(it.relative_to(folder)): oct(it.stat().st_mode & 0o7777) for it in sorted(folder.rglob("*"))}

    def rejected(self, elsewhere, mode=0o644, default=None):
        """The folders and files that come of a text that is refused."""
        folder = tempfile.TemporaryDirectory()
        self.addCleanup(folder.cleanup)
        source, refused, temporary = (pathlib.Path(folder.name, it) for it in ("source", "refused", "temporary"))
        for it in source / "a" / "b", temporary:
            it.mkdir(parents=True)
        (source / "a" / "b" / "f").write_bytes(b"before")
        (source / "a" / "b" / "f").chmod(mode)
        if default and subprocess.run(["setfacl", "-d", "-m", default, source / "a" / "b"], stderr=subprocess.DEVNULL).returncode:
            self.skipTest("there is no setfacl (Debian's acl), or files can have no access lists")
        held = below.Source(os.fsencode(source))
        self.addCleanup(os.close, held.descriptor)
        before = os.umask(0)
        try:
            with mock.patch("tempfile.gettempdir", lambda: str(temporary)):
                of = Refusals(held, os.fsencode(refused) if elsewhere else None)
            with self.assertLogs("legacy.mount"):
                of.reject(b"a/b/f", b"after", "a reason", 1)
        finally:
            os.umask(before)
        return source, refused

    def test_elsewhere_they_are_their_owner_s_alone(self):
        source, refused = self.rejected(elsewhere=True)
        self.assertEqual(oct(refused.stat().st_mode & 0o7777), oct(0o700))
        self.assertEqual(self.modes(refused), {"a": oct(0o700), "a/b": oct(0o700), "a/b/f.rejected": oct(0o600)})

    def test_beside_a_file_they_are_for_whom_the_file_is(self):
        for mode in 0o600, 0o640, 0o755:
            source, _ = self.rejected(elsewhere=False, mode=mode)
            self.assertEqual(self.modes(source / "a" / "b"), {"f": oct(mode), "f.rejected": oct(mode & 0o666)})

    @unittest.skipUnless(shutil.which("setfacl"), "there is no setfacl (Debian's acl)")
    def test_whom_new_files_of_the_folder_are_open_to(self):
        source, _ = self.rejected(elsewhere=False, mode=0o640, default="u:65534:rwx,g::rwx,o::rx")
        listed = [subprocess.run(["getfacl", "-cnp", source / "a" / "b" / it], stdout=subprocess.PIPE, check=True).stdout for it in ("f", "f.rejected")]
        self.assertEqual(*listed)


@unittest.skipUnless(HAS_PYFUSE3, "this interpreter has no pyfuse3 (Debian's python3-pyfuse3)")
class InPlace(unittest.TestCase):
    """Saves into a file with another name, in a mount over a gate that has their bytes at hand."""

    def saved(self, content, **faults):
        """Has a program save a content while calls of the system fail, and returns the folder, and what is logged."""
        folder = tempfile.TemporaryDirectory()
        self.addCleanup(folder.cleanup)
        path = pathlib.Path(folder.name, "f")
        path.write_bytes(b"before\n")
        os.link(path, path.with_name("g"))
        with self.assertLogs("legacy.mount") as logged:
            trio.run(self.save, path.parent, content, faults)
        return path.parent, [it.getMessage() for it in logged.records]

    async def save(self, folder, content, faults):
        async def encoding(_):
            return "UTF-8"

        async def forget_pages(_):
            pass

        source = below.Source(os.fsencode(folder))
        self.addCleanup(os.close, source.descriptor)
        gate = mock.Mock(do=lambda *_: (content, "the difference"))
        reader = Reader(source, mock.Mock(encoding=encoding, longest=1000), gate, gate)
        view = View(source, Everywhere(Rule("utf-8", "this test")), reader, Options())
        operations = Operations(view, Saves(reader, gate, Refusals(source, None), False, forget_pages))
        found = await operations.lookup(ROOT, b"f")
        file = (await operations.open(found.st_ino, os.O_WRONLY | os.O_TRUNC, mock.Mock(pid=1))).fh
        await operations.write(file, 0, content)
        with contextlib.ExitStack() as held:
            for name, fault in faults.items():
                held.enter_context(mock.patch.object(storing if name == "overwrite" else os, name, side_effect=fault))
            with contextlib.suppress(FUSEError):
                await operations.flush(file)
            with contextlib.suppress(FUSEError):
                await operations.release(file)

    def test_the_log_says_where_the_old_bytes_are_that_can_t_be_put_back(self):
        folder, logged = self.saved(b"after\n", overwrite=OSError(errno.EIO, ""))
        self.assertEqual((folder / "f.before").read_bytes(), b"before\n")
        said = "its old bytes couldn't be put back, and are in f.before beside it; the text is in f.rejected"
        self.assertEqual(logged, [f"f: NOT SAVED: Input/output error; {said}"])

    def test_a_file_of_another_user_s_that_may_be_written_is_saved(self):
        # (its times may not be set)
        for content, how in (b"after\n", "the difference"), (b"before\n", "unchanged"):
            folder, logged = self.saved(content, utime=PermissionError(errno.EPERM, ""))
            self.assertRegex(" ".join(logged), rf"^f: saved \({how}\), [0-9.]+ ms$")
            self.assertEqual((folder / "g").read_bytes(), content)
            self.assertEqual(sorted(os.listdir(folder)), ["f", "g"])


def is_held(inode):
    """Whether a descriptor of this process leads to a file."""
    found = []
    for it in os.listdir("/proc/self/fd"):
        with contextlib.suppress(OSError):
            found.append(os.stat(f"/proc/self/fd/{it}").st_ino)
    return inode in found


def settle():
    """Waits until another change of a file would give it another time."""
    time.sleep(3 * below.TICK / 1e9)


@BUILT
class InOrder(Played):
    """Requests in an order in which they seldom come."""

    def test_a_file_that_is_cut_while_the_end_of_another_program_is_seen_to(self):
        async def play(path, operations, ino):
            how, rejected, lock = os.O_WRONLY | os.O_TRUNC, path.with_name("f.rejected"), operations.tree.nodes[ino].lock
            one = (await operations.open(ino, how, mock.Mock(pid=1))).fh
            for call, words in (operations.write, (one, 0, "é".encode())), (operations.flush, (one,)):
                with self.assertRaises(FUSEError), self.assertLogs("legacy.mount"):
                    await call(*words)
            self.assertEqual((path.read_bytes(), rejected.read_bytes()), (b"\xff", "é".encode()))
            async with trio.open_nursery() as nursery:
                await lock.acquire()
                nursery.start_soon(operations.release, one)
                await trio.testing.wait_all_tasks_blocked()
                other = (await operations.open(ino, how, mock.Mock(pid=os.getpid()))).fh
                lock.release()
            # What the other program has written by now is nobody's text yet.
            self.assertEqual((path.read_bytes(), rejected.exists()), (b"\xff", True))
            await operations.write(other, 0, "\ufffda".encode())
            await operations.flush(other)
            await operations.release(other)
            self.assertEqual((path.read_bytes(), rejected.exists()), (b"\xffa", True))

        self.played(play)

    def test_a_file_that_is_cut_by_its_name_while_what_its_last_writer_left_is_saved(self):
        async def play(path, operations, ino):
            context = mock.Mock(pid=1)
            handle = (await operations.open(ino, os.O_WRONLY | os.O_TRUNC, context)).fh
            async with trio.open_nursery() as nursery:
                nursery.start_soon(operations.release, handle)
                await trio.testing.wait_all_tasks_blocked()
                await operations.setattr(ino, *asked(st_size=3), None, context)
            self.assertEqual(path.read_bytes(), bytes(3))

        self.played(play)

    def test_what_a_file_is_changes_behind_a_save_that_is_under_way(self):
        # (which here is another file that gets its name)
        async def play(path, operations, ino):
            lock, context, new = operations.tree.nodes[ino].lock, mock.Mock(pid=1), path.with_name("new")
            new.write_bytes(b"\xff")
            for it in path, new:
                os.setxattr(it, "user.a", b"")
            async with trio.open_nursery() as nursery:
                await lock.acquire()
                nursery.start_soon(operations.setattr, ino, *asked(st_mode=0o100600), None, context)
                nursery.start_soon(operations.setxattr, ino, b"user.b", b"", context)
                nursery.start_soon(operations.removexattr, ino, b"user.a", context)
                await trio.testing.wait_all_tasks_blocked()
                new.replace(path)
                lock.release()
            self.assertEqual((path.stat().st_mode & 0o777, os.listxattr(path)), (0o600, ["user.b"]))

        self.played(play)

    def test_what_a_program_closed_right_before_the_end(self):
        # (the kernel says that afterwards, if the mount still hears it: here it doesn't)
        async def play(path, operations, ino):
            saves, nodes, how, context = operations.saves, operations.tree.nodes, os.O_WRONLY | os.O_TRUNC, mock.Mock(pid=1)
            handle = (await operations.open(ino, how, context)).fh
            await operations.flush(handle)
            # It may be a copy of a handle that was closed. Whoever unmounts has closed all, and what was written since by none.
            await saves.close(nodes.values(), by_signal=True)
            self.assertEqual(path.read_bytes(), b"\xff")
            await operations.write(handle, 0, b"a")
            await saves.close(nodes.values(), by_signal=False)
            self.assertEqual(path.read_bytes(), b"\xff")
            await operations.setattr(ino, *asked(st_size=0), handle, context)
            await operations.flush(handle)
            await saves.close(nodes.values(), by_signal=False)
            saves.reject_unsaved(nodes.values())
            self.assertEqual((path.read_bytes(), os.listdir(path.parent)), (b"", ["f"]))

        self.played(play)

    def test_what_was_deleted_for_a_text_that_was_refused_right_before_the_end_is_put_back(self):
        async def play(path, operations, ino):
            await operations.unlink(ROOT, b"f", mock.Mock(pid=1))
            context = mock.Mock(pid=1, umask=0, uid=os.getuid(), gid=os.getgid())
            info, _ = await operations.create(ROOT, b"f", 0o600, os.O_WRONLY, context)
            for call, words in (operations.write, (info.fh, 0, "é".encode())), (operations.flush, (info.fh,)):
                with self.assertRaises(FUSEError), self.assertLogs("legacy.mount"):
                    await call(*words)
            self.assertEqual(path.read_bytes(), b"")
            with self.assertLogs("legacy.mount"):
                await operations.saves.close(operations.tree.nodes.values(), by_signal=True)
            operations.saves.reject_unsaved(operations.tree.nodes.values())
            self.assertEqual((path.read_bytes(), path.with_name("f.rejected").read_bytes()), (b"\xff", "é".encode()))

        self.played(play)

    def test_many_bytes_are_freed_by_a_thread_once_they_have_no_name(self):
        async def play(path, operations, _):
            held, closed, close = [], [], os.close
            large, other, context = path.with_name("large"), path.with_name("other"), mock.Mock(pid=1)

            def noted(call):
                return lambda *words, **named: (held.append(is_held(inode)), call(*words, **named))[1]

            def ends(file):
                if not os.fstat(file).st_nlink:
                    closed.append(threading.current_thread() is threading.main_thread())
                close(file)

            for call, words in (operations.unlink, (b"large",)), (operations.rename, (b"other", ROOT, b"large", 0)):
                large.write_bytes(b"a" * (SMALL + 1))
                other.write_bytes(b"\xff")
                inode = large.stat().st_ino
                with mock.patch("os.unlink", noted(os.unlink)), mock.patch("os.rename", noted(os.rename)), mock.patch("os.close", ends):
                    await call(ROOT, *words, context)
                self.assertFalse(is_held(inode))
            self.assertEqual((held, closed, large.read_bytes()), ([True, True], [False, False], b"\xff"))

        self.played(play)

    def test_a_file_whose_text_can_t_be_held_is_not_open(self):
        async def play(path, operations, ino):
            context, cut = mock.Mock(pid=1), mock.Mock(st_size=0)
            sizes = mock.Mock(update_size=True)
            failing = OSError(errno.EMFILE, "")
            for call, words in (operations.open, (ino, os.O_WRONLY | os.O_TRUNC, context)), (operations.setattr, (ino, cut, sizes, None, context)):
                with mock.patch("os.memfd_create", side_effect=failing), self.assertRaises(FUSEError) as caught:
                    await call(*words)
                self.assertEqual(caught.exception.errno, errno.EMFILE)
            # Whoever comes later saves over what is there by then.
            path.write_bytes(b"a\xff")
            handle = (await operations.open(ino, os.O_WRONLY | os.O_TRUNC, context)).fh
            await operations.write(handle, 0, "b\ufffd".encode())
            await operations.flush(handle)
            await operations.release(handle)
            self.assertEqual((path.read_bytes(), operations.tree.nodes[ino].session), (b"b\xff", None))

        self.played(play)

    def test_a_long_text_is_measured_once_its_size_is_asked_for_and_not_as_its_name_is_looked_up(self):
        async def play(path, operations, _):
            path.with_name("long").write_bytes(b"\xff" * (LONG + 1))
            settle()
            with mock.patch.object(operations.reader, "size", side_effect=AssertionError):
                found = await operations.lookup(ROOT, b"long")
            # (which the kernel doesn't keep)
            self.assertEqual(found.attr_timeout, 0)
            found = await operations.getattr(found.st_ino)
            self.assertEqual((found.st_size, found.attr_timeout), (3 * (LONG + 1), tree.EXACT))
            found = await operations.lookup(ROOT, b"long")
            self.assertEqual((found.st_size, found.attr_timeout), (3 * (LONG + 1), tree.EXACT))

        self.played(play)

    def test_a_long_text_is_made_read_and_freed_by_threads(self):
        async def play(path, operations, ino):
            found, read, write, close = [], os.pread, os.pwrite, Written.close

            def noted(what, size):
                if size > LONG:
                    found.append((what, threading.current_thread() is threading.main_thread()))

            def pread(file, size, at):
                noted("read", size)
                return read(file, size, at)

            def pwrite(file, content, at):
                noted("made", len(content))
                return write(file, content, at)

            def ends(text):
                noted("freed", text.size)
                close(text)

            path.write_bytes(b"a\n" * LONG)
            settle()
            handle = (await operations.open(ino, os.O_RDWR, mock.Mock(pid=1))).fh
            with mock.patch("os.pread", pread), mock.patch("os.pwrite", pwrite), mock.patch.object(Written, "close", ends):
                await operations.write(handle, 2, b"b")
                await operations.flush(handle)
                await operations.release(handle)
            self.assertEqual(path.read_bytes(), b"a\nb\n" + b"a\n" * (LONG - 2))
            self.assertEqual(found, [("made", False), ("read", False), ("freed", False)])

        self.played(play)

    def test_pages_are_kept_only_once_those_of_another_content_are_known_to_be_dropped(self):
        # Of two openings that are answered the second may be through first.
        async def play(path, operations, ino):
            found = []

            async def opened():
                it = await operations.open(ino, os.O_RDONLY, mock.Mock(pid=1))
                found.append(it.keep_cache)
                return it.fh

            with mock.patch("pyfuse3.invalidate_inode"):
                for content in b"\xff", b"\xfe\xfe":
                    path.write_bytes(content)
                    settle()
                    handles = [await opened(), await opened()]
                    self.assertEqual(await operations.read(handles[0], 0, 100), "\ufffd".encode() * len(content))
                    handles.append(await opened())
                    for it in handles:
                        await operations.release(it)
                    handle = await opened()
                    await operations.release(handle)
            self.assertEqual(found, 2 * [False, False, True, True])

        self.played(play)


@unittest.skipUnless(HAS_PYFUSE3, "this interpreter has no pyfuse3 (Debian's python3-pyfuse3)")
@BUILT
class Ended(unittest.TestCase):
    """Processes that end, or are ended, while nobody waits for them, or just as somebody does."""

    WORDS = [PROGRAM, "stdio", "--indexes", str(INDEXES)]

    def test_a_job_is_done_where_all_that_waited_for_one_have_ended(self):
        found = workers.Workers(self.WORDS)
        self.addCleanup(found.close)
        for _ in range(workers.MOST):
            found.start()
        for it in found._idle:
            it.kill()
            it._process.wait()
        self.assertEqual(tuple(found.do("lengths", b"a\xff", "shift_jis")), (4, 1))

    def test_a_question_is_answered_where_all_that_answer_have_ended(self):
        async def ask():
            asked = questions.Questions(self.WORDS)
            try:
                await asked.start()
                # (a signal to the programs of a terminal isn't theirs)
                self.assertNotIn(os.getpgid(0), [os.getpgid(it._process.pid) for it in asked._answering])
                for it in asked._answering:
                    it.end()
                    os.waitid(os.P_PID, it._process.pid, os.WEXITED | os.WNOWAIT)
                self.assertEqual(tuple(await asked.lengths(b"a\xff", "shift_jis")), (4, 1))
            finally:
                asked.close()

        trio.run(ask)

    def test_questions_that_come_at_once_start_no_more_processes_than_there_are(self):
        async def ask():
            asked = questions.Questions(self.WORDS)
            try:
                async with trio.open_nursery() as nursery:
                    for _ in range(9):
                        nursery.start_soon(asked.lengths, b"a\xff", "shift_jis")
                self.assertEqual(len(asked._answering), questions.PROCESSES)
            finally:
                asked.close()

        trio.run(ask)

    def test_two_threads_take_the_last_process_that_waits(self):
        class Emptied(list):
            """A list that another thread empties once it is looked at."""

            def __bool__(self):
                return True

        found = workers.Workers(self.WORDS)
        found._idle = Emptied()
        self.assertEqual(tuple(found.do("lengths", b"a\xff", "shift_jis")), (4, 1))
        found._idle = [*found._idle]
        found.close()

    def test_a_job_that_begins_as_all_are_stopped_is_refused(self):
        found = workers.Workers(self.WORDS)

        class Begun:
            """What stands for a process that is started just as all are stopped, and replies only once it is killed."""

            def __init__(self, _):
                self.kill, self.close = mock.Mock(), mock.Mock()
                found.stop()

            def do(self, *_):
                self.kill.assert_called_once()
                raise workers.Gone()

        with mock.patch.object(workers, "Worker", Begun), self.assertRaises(Refused):
            found.do("lengths", b"a\xff", "shift_jis")


@unittest.skipUnless(HAS_PYFUSE3, "this interpreter has no pyfuse3 (Debian's python3-pyfuse3)")
@BUILT
class Idle(unittest.TestCase):
    def test_a_process_that_has_had_nothing_to_do_is_ended_and_one_that_never_had_is_kept(self):
        found = workers.Workers([PROGRAM, "stdio", "--indexes", str(INDEXES)])
        self.addCleanup(found.close)
        found.start()
        with mock.patch.object(workers, "IDLE", 0.0):
            self.assertFalse(found.look_after())
            for _ in range(2):
                self.assertEqual(tuple(found.do("lengths", b"a\xff", "shift_jis")), (4, 1))
                self.assertTrue(found.look_after())
                self.assertFalse(found.look_after())

    def test_one_is_asked_where_many_descriptors_are_open(self):
        before = resource.getrlimit(resource.RLIMIT_NOFILE)
        if before[1] < MANY + 100:
            self.skipTest("this user can't open so many")
        self.addCleanup(resource.setrlimit, resource.RLIMIT_NOFILE, before)
        resource.setrlimit(resource.RLIMIT_NOFILE, (before[1], before[1]))
        with contextlib.ExitStack() as held:
            for _ in range(MANY):
                held.enter_context(open(os.devnull, "rb"))
            found = workers.Workers([PROGRAM, "stdio", "--indexes", str(INDEXES)])
            held.callback(found.close)
            self.assertEqual(tuple(found.do("lengths", b"a\xff", "shift_jis")), (4, 1))


STAND_IN = """#!{python}
import os, sys, time
runs = {folder!r} + "/runs"
with open(runs, "a") as file:
    file.write("r")
number = os.path.getsize(runs)
for line in sys.stdin.buffer:
    if b"stat" in line:
        open({folder!r} + "/asked", "w").close()
        time.sleep(60 if number <= {late} else 0.1)
    print('{{"encoding":"Shift_JIS","utf8":4,"errors":1,"id":0}}', flush=True)
"""


@unittest.skipUnless(HAS_PYFUSE3, "this interpreter has no pyfuse3 (Debian's python3-pyfuse3)")
class Slow(unittest.TestCase):
    """A gate that doesn't reply, the first times that it is started, and then a little late."""

    def asked(self, late):
        """What a short question is answered where `late` of them don't reply, and how many were asked."""
        with tempfile.TemporaryDirectory() as folder:
            program = pathlib.Path(folder, "gate")
            program.write_text(STAND_IN.format(python=sys.executable, folder=folder, late=late))
            program.chmod(0o755)
            try:
                found = trio.run(self.ask, [str(program)], pathlib.Path(folder, "asked"), late)
            except Refused as refused:
                found = errno.errorcode[refused.errno]
            return found, pathlib.Path(folder, "runs").stat().st_size

    async def ask(self, words, flag, late):
        asked = questions.Questions(words)

        async def look_after():
            # (time passes for those alone that don't reply)
            left = late
            while True:
                asked.look_after()
                await trio.sleep(0.02)
                if left and flag.exists():
                    flag.unlink()
                    left -= 1
                    with mock.patch.object(questions, "PATIENCE", 0.0):
                        asked.look_after()

        async with trio.open_nursery() as nursery:
            nursery.start_soon(look_after)
            try:
                return tuple(await asked.lengths(b"a\xff", "shift_jis"))
            finally:
                nursery.cancel_scope.cancel()
                asked.close()

    def test_within_the_time_it_has(self):
        self.assertEqual(self.asked(0), ((4, 1), 1))

    def test_one_that_is_too_late_is_ended_and_another_is_asked(self):
        self.assertEqual(self.asked(1), ((4, 1), 2))

    def test_after_two_the_program_is_told(self):
        self.assertEqual(self.asked(2), ("EIO", 2))


if __name__ == "__main__":
    unittest.main()
