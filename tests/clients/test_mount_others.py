"""Nobody else's bytes are lost in a mount: those of who answers a save at once, of who holds a file open below, and of a program
that writes for hours."""
import os
import pathlib
import shutil
import signal
import subprocess
import tempfile
import threading
import unittest
from unittest import mock

from checkout import BUILT
from legacy.mount import below
from legacy.mount.below import Place
from legacy.mount.storing import Store
from mounts import BYTES, EDITED, RULES, TEXT, WHY, Mount, Ruled, edited, until
from plays import CONTEXT, HAS_PYFUSE3, Played, whole_seconds

if HAS_PYFUSE3:
    from pyfuse3 import FUSEError

# The seconds behind which a job's output is below, on a machine that has much else to do.
SOON = 40


def answered(name, answer):
    """Has somebody answer a save right behind a call of the system."""
    call = getattr(os, name)

    def behind(*words, **named):
        found = call(*words, **named)
        answer()
        return found

    return mock.patch(f"os.{name}", behind)


def in_place(path, content):
    """Writes over a file's first bytes."""
    with open(path, "r+b") as file:
        file.write(content)


def by_renaming(path, content):
    """Replaces a file."""
    path.with_name("new").write_bytes(content)
    os.rename(path.with_name("new"), path)


class Answers(unittest.TestCase):
    """A save takes the signature of the file that it wrote, whatever has its name by then."""

    def setUp(self):
        folder = tempfile.TemporaryDirectory()
        self.addCleanup(folder.cleanup)
        self.path = pathlib.Path(folder.name, "f")
        self.place = Place(os.open(folder.name, os.O_PATH | os.O_DIRECTORY), b"f")
        self.addCleanup(os.close, self.place.folder)

    def stored(self, call, answer, links=1, before=b"", content=b"after"):
        """The signature of a save that is answered behind a call of the system, and that of the file by then."""
        self.path.write_bytes(b"before")
        for number in range(1, links):
            os.link(self.path, self.path.with_name(str(number)))
        answers = [answer]
        with answered(call, lambda: answers and answers.pop()(self.path, b"FORMATTED")):
            found = Store(lambda: None, 1_000_000_001, False, before=before).put(self.place, content)
        self.assertEqual(answers, [])
        return found, below.signature(self.path.stat())

    def test_it_is_never_that_of_another_s_bytes(self):
        for answer in in_place, by_renaming:
            for call, words in (("rename", {}), ("ftruncate", {"links": 2}), ("write", {"before": b"before", "content": b"before and more"})):
                with self.subTest(answer=answer.__name__, call=call):
                    if call == "rename" and answer is by_renaming:
                        # (which would call itself)
                        continue
                    stored, now = self.stored(call, answer, **words)
                    self.assertNotEqual(stored, now)
                for it in self.path.parent.iterdir():
                    it.unlink()

    def test_it_is_the_file_s_where_nobody_answers(self):
        for words in {}, {"links": 2}, {"before": b"before", "content": b"before and more"}:
            self.assertEqual(*self.stored("utime", lambda *_: None, **words))
            for it in self.path.parent.iterdir():
                it.unlink()


@BUILT
class Seen(Played):
    """What others write right behind a save, or in the same second, is seen, and not overwritten."""

    CONTENT = b"one 1111\n"

    def test_who_answers_a_save_at_once(self):
        async def play(path, answers, ino):
            with answered("rename", lambda: in_place(path, b"FORMATTED")):
                await self.save(answers, "two 2222\n")
            self.assertEqual(await self.text(answers), "FORMATTED")
            await self.save(answers, "FORMATTED, and more")
            self.assertEqual(path.read_bytes(), b"FORMATTED, and more")

        self.played(play)

    def test_who_answers_a_save_of_a_program_that_goes_on(self):
        async def play(path, answers, ino):
            file = (await answers.open(ino, os.O_WRONLY | os.O_TRUNC, CONTEXT)).fh
            await answers.write(file, 0, b"two 2222\n")
            with answered("rename", lambda: in_place(path, b"FORMATTED")):
                await answers.flush(file)
            await answers.write(file, 0, b"six")
            with self.assertRaises(FUSEError), self.assertLogs("legacy.mount"):
                await answers.flush(file)
            await answers.release(file)
            self.assertEqual(path.read_bytes(), b"FORMATTED")

        self.played(play)

    def test_two_changes_of_which_the_file_system_keeps_one_time(self):
        async def play(path, answers, ino):
            for seconds in 1, 2:
                path.write_bytes(b"one 1111\n")
                with whole_seconds(seconds):
                    known = below.signature(path.stat())
                    self.assertEqual(await self.text(answers), "one 1111\n")
                    self.write_within(seconds, path, b"two 2222\n", known)
                    self.assertEqual(await self.text(answers), "two 2222\n")

        self.played(play)

    def test_a_save_over_a_change_in_the_same_second(self):
        async def play(path, answers, ino):
            with whole_seconds(1):
                known = below.signature(path.stat())
                file = (await answers.open(ino, os.O_RDWR, CONTEXT)).fh
                await answers.write(file, 0, b"head")
                self.write_within(1, path, b"two 2222\n", known)
                with self.assertRaises(FUSEError), self.assertLogs("legacy.mount"):
                    await answers.flush(file)
                await answers.release(file)
            self.assertEqual(path.read_bytes(), b"two 2222\n")

        self.played(play)

    def write_within(self, seconds, path, content, known):
        """Writes what has the same signature, which is to be so for the test to tell something."""
        path.write_bytes(content)
        if below.signature(path.stat()) != known:
            self.skipTest(f"the machine took more than {seconds} s")

    def test_a_file_that_was_made_just_now_is_known(self):
        async def play(path, answers, ino):
            path.with_name("a").write_bytes(b"ABCD \xff\n")
            text = await self.text(answers, b"a")
            made, _ = await answers.create(1, b"b", 0o644, os.O_WRONLY, CONTEXT)
            await answers.write(made.fh, 0, text.encode())
            await answers.flush(made.fh)
            await answers.release(made.fh)
            self.assertEqual(path.with_name("b").read_bytes(), b"ABCD \xff\n")

        with mock.patch.object(below, "TICK", 10**15):
            self.played(play)


class Open(Ruled):
    """Who has a file open below goes on with it."""

    def test_what_is_only_appended(self):
        for name in "f.sj", "f.bin":
            path = self.file(name)
            with open(self.below / name, "ab", buffering=0) as other:
                with open(path, "ab") as file:
                    file.write("more あ\n".encode())
                other.write(b"theirs\n")
                self.assertEqual(os.fstat(other.fileno()).st_nlink, 1)
            more = b"more \x82\xa0\n" if name == "f.sj" else "more あ\n".encode()
            self.holds(BYTES + more + b"theirs\n", name)
            with open(path, "ab") as file:
                file.write(b"again\n")
            self.holds(BYTES + more + b"theirs\nagain\n", name)
        self.assertEqual(sorted(os.listdir(self.below)), ["f.bin", "f.sj"])

    @unittest.skipUnless(shutil.which("chattr"), "there is no chattr (Debian's e2fsprogs)")
    def test_files_that_can_only_be_appended_to(self):
        for name in "f.sj", "f.bin":
            path = self.file(name)
            if subprocess.run(["chattr", "+a", self.below / name], stderr=subprocess.DEVNULL).returncode:
                self.skipTest("this user, or the file system, can't have such files")
            try:
                with open(path, "ab") as file:
                    file.write(b"more\n")
            finally:
                subprocess.run(["chattr", "-a", self.below / name], check=True)
            self.holds(BYTES + b"more\n", name)


@unittest.skipIf(WHY, WHY)
class Jobs(unittest.TestCase):
    """What a program writes for long is below while it goes on."""

    def setUp(self):
        self.mount = Mount(*RULES)
        self.addCleanup(self.mount.clear)

    def below(self, name="job.sj"):
        return (self.mount.source / name).read_bytes()

    def test_its_output_reaches_the_disk_as_far_as_characters_are_whole(self):
        file = os.open(self.mount.point / "job.sj", os.O_WRONLY | os.O_CREAT)
        os.write(file, "first あ\n".encode() + "亜".encode()[:2])
        self.assertTrue(until(lambda: self.below() == b"first \x82\xa0\n", SOON), self.mount.log())
        inode = (self.mount.source / "job.sj").stat().st_ino
        os.write(file, "亜".encode()[2:] + b"\nsecond\n")
        self.assertTrue(until(lambda: self.below() == b"first \x82\xa0\n\x88\x9f\nsecond\n", SOON), self.mount.log())
        self.assertEqual((self.mount.source / "job.sj").stat().st_ino, inode)
        self.assertEqual((self.mount.point / "job.sj").read_text(), "first あ\n亜\nsecond\n")
        # A mount that is killed takes none of it along.
        self.mount.process.send_signal(signal.SIGKILL)
        self.mount.process.wait()
        self.assertEqual(self.below(), b"first \x82\xa0\n\x88\x9f\nsecond\n")
        threading.Thread(target=os.close, args=[file], daemon=True).start()

    def test_the_old_text_stays_for_longer_while_another_takes_its_place(self):
        (self.mount.source / "f.sj").write_bytes(BYTES)
        file = os.open(self.mount.point / "f.sj", os.O_WRONLY | os.O_TRUNC)
        text = edited(TEXT).encode()
        os.write(file, text[:5])
        self.assertFalse(until(lambda: self.below("f.sj") != BYTES, 10))
        os.write(file, text[5:])
        os.close(file)
        self.assertEqual(self.below("f.sj"), EDITED)


if __name__ == "__main__":
    unittest.main()
