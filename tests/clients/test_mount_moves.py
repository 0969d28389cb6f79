"""Bytes move as bytes in a mount: what is renamed is read by the rule of its new name, but for a text that was just written in the
mount in order to replace a file, and for a folder, whose files stay what they are."""
import os
import time
import unittest
from unittest import mock

from checkout import BUILT
from mounts import BYTES, TEXT, Ruled
from plays import CONTEXT, HAS_PYFUSE3, Played

if HAS_PYFUSE3:
    from legacy.mount import tree
    from legacy.mount.tree import ROOT

# The seconds behind which rules are looked up anew, and the kernel asks again what a file is.
AGAIN = 1.5


class Moves(Ruled):
    WORDS = ["-e", "*.u16=utf-16le", "-e", "**/sj/**=shift_jis", "-e", "**/w/**=windows-1252"]

    def test_files_that_were_there_before_keep_their_bytes(self):
        for old, new, content, text in (
                # A backup of a mount before is put back.
                ("f.u16~", "f.u16", b"o\0l\0d\0\n\0", "old\n"), ("f.sj~", "f.sj", BYTES, TEXT),
                # A file gets its right name.
                ("x.dat", "x.w", b"caf\xc2\xbb", "caf\ufffd»"), ("x.dat", "x.sj", b"\x82\xa0", "あ"), ("x.w", "y.sj", b"\x82\xa0", "あ")):
            for there in None, b"other\n":
                with self.subTest(old=old, new=new, there=there):
                    path = self.file(old, content)
                    path.read_bytes()
                    if there:
                        self.file(new, there).read_bytes()
                    path.rename(self.shown / new)
                    self.holds(content, new)
                    self.shows(text, new)
                    self.assertEqual(os.listdir(self.below), [new])
                    (self.shown / new).unlink()

    def test_what_a_program_wrote_to_replace_a_file_is_text(self):
        for temporary in "f.tmp", "tmp.w", "tmp.sj":
            (self.shown / temporary).write_bytes("»".encode() if temporary == "tmp.w" else "あ\n".encode())
            (self.shown / temporary).write_bytes("a\n".encode())
            (self.shown / temporary).rename(self.shown / "new.u16")
            self.holds(b"a\0\n\0", "new.u16")
            (self.shown / "new.u16").unlink()

    def test_who_reads_a_file_goes_on_with_what_it_was(self):
        path = self.file("x.dat", b"\x82\xa0\n" * 3)
        with open(path, "rb", buffering=0) as file:
            self.assertEqual(file.read(3), b"\x82\xa0\n")
            path.rename(self.shown / "x.sj")
            self.assertEqual((self.shown / "x.sj").read_text(), "あ\n" * 3)
            self.assertEqual(file.read(100), b"\x82\xa0\n" * 2)
        self.holds(b"\x82\xa0\n" * 3, "x.sj")

    def test_a_folder_keeps_showing_what_its_files_are(self):
        folder, moved = self.below / "sj" / "d", self.shown / "w" / "d"
        names = "f", "deep/g", "known"
        for name in names:
            (folder / name).parent.mkdir(exist_ok=True, parents=True)
            (folder / name).write_bytes(BYTES)
        (self.below / "w").mkdir()
        self.assertEqual((self.shown / "sj" / "d" / "known").read_bytes().decode(), TEXT)
        (self.shown / "sj" / "d").rename(moved)
        time.sleep(AGAIN)
        self.assertEqual([(moved / it).read_bytes().decode() for it in names], [TEXT] * 3)
        # What comes to it later has the rule of its name.
        for name in "new", "f":
            (moved / name).unlink(missing_ok=True)
            (moved / name).write_bytes("»".encode())
            self.holds(b"\xbb", f"w/d/{name}")


class Marks(Ruled):
    """A byte order mark is its file's alone."""

    WORDS = ["-e", "*.u16=utf-16le", "-e", "*.u16b=utf-16le-bom"]

    def test_it_never_goes_from_one_file_to_another(self):
        text = "".join(f"line {number} of some\n" for number in range(8))
        marks = {"u16": b"", "u16b": b"\xff\xfe"}
        for first, second in ("u16", "u16b"), ("u16b", "u16"):
            for changed in text, text.replace("3", "three"):
                with self.subTest(first=first, changed=changed != text):
                    (self.shown / f"a.{first}").write_bytes(text.encode())
                    self.holds(marks[first] + text.encode("utf-16le"), f"a.{first}")
                    self.assertEqual((self.shown / f"a.{first}").read_bytes(), text.encode())
                    (self.shown / f"b.{second}").write_bytes(changed.encode())
                    self.holds(marks[second] + changed.encode("utf-16le"), f"b.{second}")
                    for it in f"a.{first}", f"b.{second}":
                        (self.shown / it).unlink()

    def test_a_file_that_is_made_anew_has_the_one_that_it_had(self):
        text = "".join(f"line {number} of some\n" for number in range(8))
        for name, content in ("a.u16", b"\xff\xfe" + text.encode("utf-16le")), ("b.u16", text.encode("utf-16le")):
            (self.below / name).write_bytes(content)
        time.sleep(0.2)
        for name, mark in ("a.u16", b"\xff\xfe"), ("b.u16", b""):
            for it in "a.u16", "b.u16":
                (self.shown / it).read_bytes()
            (self.shown / name).unlink()
            (self.shown / name).write_bytes(text.encode())
            self.holds(mark + text.encode("utf-16le"), name)

    def test_a_file_that_a_temporary_one_comes_to_once_it_is_renamed_away_has_the_one_that_it_had(self):
        # (as by sed -i.bak, where all three names have the rule)
        path = self.file("f.u16", b"\xff\xfea\0\n\0")
        (self.shown / "sed1.u16").write_text(path.read_text().replace("a", "b"))
        path.rename(self.shown / "f.bak.u16")
        (self.shown / "sed1.u16").rename(path)
        self.holds(b"\xff\xfeb\0\n\0", "f.u16")
        self.holds(b"\xff\xfea\0\n\0", "f.bak.u16")
        self.assertEqual(sorted(os.listdir(self.below)), ["f.bak.u16", "f.u16"])

    def test_nor_does_the_encoding_that_it_stands_for(self):
        text = "one line\nanother\nthe third\n"
        path = self.file("a.sj", b"\xef\xbb\xbf" + text.encode() + "あ\n".encode())
        time.sleep(0.2)  # (what is known of it is certain by then)
        self.assertEqual(path.read_bytes(), (text + "あ\n").encode())
        (self.shown / "b.sj").write_bytes((text + "あ\n").encode())
        self.holds(text.encode() + b"\x82\xa0\n", "b.sj")


@BUILT
class Forgotten(Played):
    def test_a_temporary_file_that_the_kernel_forgets_is_one_nevertheless(self):
        async def play(path, answers, ino):
            made, _ = await answers.create(ROOT, b"new", 0o644, os.O_WRONLY, CONTEXT)
            await answers.write(made.fh, 0, "あ".encode())
            await answers.flush(made.fh)
            await answers.release(made.fh)
            node = answers.tree.paths[b"new"]
            await answers.forget([(node.ino, node.lookups)])
            self.assertNotIn(node.ino, answers.tree.nodes)
            await answers.lookup(ROOT, b"new")
            self.assertTrue(answers.tree.paths[b"new"].is_temporary)
            # Another file at its path is none.
            node = answers.tree.paths[b"new"]
            await answers.forget([(node.ino, node.lookups)])
            path.with_name("other").write_bytes(b"a")
            path.with_name("other").rename(path.with_name("new"))
            await answers.lookup(ROOT, b"new")
            self.assertFalse(answers.tree.paths[b"new"].is_temporary)

        self.played(play)

    def test_behind_a_minute_it_keeps_its_bytes(self):
        async def play(path, answers, ino):
            made, _ = await answers.create(ROOT, b"new", 0o644, os.O_WRONLY, CONTEXT)
            await answers.write(made.fh, 0, "あ".encode())
            await answers.flush(made.fh)
            await answers.release(made.fh)
            with mock.patch.object(tree.time, "monotonic", lambda: later):
                await answers.rename(ROOT, b"new", ROOT, b"f", 0, CONTEXT)
            self.assertEqual(path.read_bytes(), b"\x82\xa0")

        later = tree.time.monotonic() + 2 * tree.TEMPORARY
        self.played(play)


if __name__ == "__main__":
    unittest.main()
