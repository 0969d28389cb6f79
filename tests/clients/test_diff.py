"""`legacy diff` beside diff(1) over the same texts in UTF-8, and `legacy textconv` beneath git."""
import os
import pathlib
import random
import re
import shutil
import subprocess
import sys
import unittest
from unittest import mock

from archives import Folder, run, settings
from checkout import BUILT, CLIENTS, INDEXES, PROGRAM, TOP
from fakes import Fakes, fault
from gate import Gate, Gone
from legacy.diff import diff, textconv, unified_hunks
from legacy.finding import Missing
from legacy.work import Refusal

GIT = unittest.skipUnless(shutil.which("git"), "there is no git")


class Lines(Folder):
    @unittest.skipUnless(shutil.which("patch"), "there is no patch")
    def test_patch_makes_the_one_of_the_other(self):
        draw = random.Random(1)
        for number in range(60):
            old = [draw.choice("abcdefg") * draw.randrange(3) + "\n" for _ in range(draw.randrange(30))]
            new = [it for it in old if draw.random() < 0.9]
            for _ in range(draw.randrange(4)):
                new.insert(draw.randrange(len(new) + 1), draw.choice(["new\n", "あ\n"]))
            texts = ["".join(old), "".join(new)]
            texts = [it[:-1] if draw.random() < 0.3 else it for it in texts]
            with self.subTest(number):
                path = self.file("a", texts[0].encode())
                lines = ["--- a\n", "+++ a\n", *unified_hunks(*texts, draw.randrange(4))]
                if texts[0] != texts[1]:
                    subprocess.run(["patch", "-s", "-u", path], input="".join(lines).encode(), check=True)
                self.assertEqual(pathlib.Path(path).read_bytes() if os.path.exists(path) else b"", texts[1].encode())
                if os.path.exists(path):
                    os.unlink(path)

    def test_line_ends_are_shown_where_they_are_not_all_cr_lf(self):
        self.assertEqual(list(unified_hunks("a\r\nb\r\n", "a\r\nc\r\n", 0)), ["@@ -2,1 +2,1 @@\n", "-b\n", "+c\n"])
        self.assertEqual(list(unified_hunks("a\r\n", "a\n", 0)), ["@@ -1,1 +1,1 @@\n", "-a\u240d\n", "+a\n"])


class Refusing(Fakes, Folder):
    """What isn't compared, with the reason, and what is passed over."""

    def compare_files(self, old, new):
        """The lines of all that differs, and the faults."""
        found = list(diff(str(old), str(new), settings(encoding=[("*.t", "utf-8"), ("*.koi", "koi8-r")])))
        return [line for it in found for line in it.lines], [it.fault for it in found if it.fault]

    def test_a_folder_and_a_file(self):
        file, folder, empty = self.file("b.t", b"2\n"), os.path.dirname(self.file("in/a.t", b"1\n")), str(self.folder / "empty")
        os.mkdir(empty)
        for one in folder, empty:
            for old, new in (one, file), (file, one):
                with self.subTest(old=old, new=new), self.assertRaisesRegex(Missing, f"^a folder and a file can't be compared: {one} and {file}$"):
                    self.compare_files(old, new)
            with self.assertRaisesRegex(Missing, "^/none: No such file or directory$"):
                self.compare_files(one, "/none")
            with self.assertRaisesRegex(Refusal, "^a folder$"):
                textconv(one, settings())

    def test_an_encoding_without_its_index_file(self):
        def refuses(name, label, content):
            if label == "koi8-r":
                raise fault("NoIndex")

        self.refuses = refuses
        for folder in "old", "new":
            self.file(f"{folder}/a.koi", folder.encode())
            self.file(f"{folder}/b.t", folder.encode() + b"\n")
        old, new = self.folder / "old", self.folder / "new"
        said = "gate has no index file of koi8-r"
        lines = [f"{old}/a.koi: not compared: {said}\n", f"--- {old}/b.t\n", f"+++ {new}/b.t\n", "@@ -1,1 +1,1 @@\n", "-old\n", "+new\n"]
        self.assertEqual(self.compare_files(old, new), (lines, [said]))
        with self.assertRaisesRegex(Refusal, f"^{said}$"):
            textconv(str(old / "a.koi"), settings(encoding=[("*", "koi8-r")]))

    def test_a_gate_that_ends_is_started_anew(self):
        def ends_at_first(*_):
            if len(self.started) == 1:
                raise Gone()

        self.refuses = ends_at_first
        old, new = self.file("a.t", b"1\n"), self.file("b.t", b"1\n")
        self.assertEqual(self.compare_files(old, new), ([], []))

    def test_links_in_trees_are_passed_over(self):
        for folder in "old", "new":
            self.file(f"{folder}/a.t", b"1\n")
            os.symlink("a.t", self.folder / folder / "link.t")
        os.symlink("none", self.folder / "old" / "a link alone")
        self.file("new/a link alone", b"a file")
        old, new = self.folder / "old", self.folder / "new"
        self.assertEqual(self.compare_files(old, new), ([f"Only in {new}: a link alone\n"], []))
        self.assertEqual(self.compare_files(old / "link.t", new / "link.t"), ([], []))


@BUILT
class Files(Folder):
    def test_texts_are_compared_and_damage_has_its_bytes(self):
        old = self.file("a.sjis", b"one\n\x82\xa0\nA\xff\n")
        new = self.file("b.euc", b"one\n\xa4\xa2\nA\x80\n")
        words = ["-e", "*.sjis=shift_jis", "-e", "*.euc=euc-jp"]
        printed = f"--- {old}\n+++ {new}\n@@ -1,3 +1,3 @@\n one\n あ\n-A\ufffd<ff>\n+A\ufffd<80>\n"
        self.assertEqual(run("diff", old, new, *words), (printed, "", 1))
        self.file("b.euc", b"one\n\xa4\xa2\nA\xff\n")
        same = f"Files {old} and {new} have the same text in different bytes\n"
        self.assertEqual(run("diff", old, new, *words), (same, "", 1))
        self.assertEqual(run("diff", old, old, *words), ("", "", 0))
        printed, _, status = run("diff", old, "/none", *words)
        self.assertEqual((printed, status), ("/none: not compared: No such file or directory\n", 2))

    def test_trees(self):
        for name, content in ("a/x/1.t", b"1\n"), ("a/2.t", b"2\n"), ("b/x/1.t", b"\xef\xbb\xbf1\n"), ("b/3.t", b"3\n"), ("a/4", b"4"), ("b/4", b"5"):
            self.file(name, content)
        one, other = str(self.folder / "a"), str(self.folder / "b")
        lines = [line for it in diff(one, other, settings(encoding=[("*.t", "utf-8")])) for line in it.lines]
        self.assertEqual(lines, [
            f"Only in {one}: 2.t\n", f"Only in {other}: 3.t\n", f"Files {one}/4 and {other}/4 differ, and no rule names the encodings of both\n",
            f"Files {one}/x/1.t and {other}/x/1.t have the same text in different bytes\n"])

    def test_a_name_is_on_one_line(self):
        for name, content in ("a/\x1b", b"1\n"), ("b/\x1b", b"2\n"), ("b/x\n+++ y", b"3\n"):
            self.file(name, content)
        one, other = str(self.folder / "a"), str(self.folder / "b")
        lines = [line for it in diff(one, other, settings(encoding=[("*", "utf-8")])) for line in it.lines]
        self.assertEqual(lines, [
            f"--- '{one}/\\x1b'\n", f"+++ '{other}/\\x1b'\n", "@@ -1,1 +1,1 @@\n", "-1\n", "+2\n", f"Only in {other}: 'x\\n+++ y'\n"])

    def test_errors_are_asked_for_all_at_once(self):
        # (and U+FFFD that is text is no error)
        for content, text in [
            (b"A\xff\n" * 500, "A\ufffd<ff>\n" * 500), ("\ufffd".encode() + b"\xffB\r\n\xff\rC", "\ufffd\ufffd<ff>B\r\n\ufffd<ff>\rC"),
        ]:
            with mock.patch("gate.Gate.ask", autospec=True, side_effect=Gate.ask) as asked:
                self.assertEqual(textconv(self.file("a", content), settings(encoding=[("*", "utf-8")])).decode(), text)
            self.assertLess(asked.call_count, 20)

    def test_little_is_imported_for_git(self):
        script = "import sys; from legacy.__main__ import parser; parser(['textconv']); print(*sys.modules)"
        ran = subprocess.run([sys.executable, "-c", script], env={**os.environ, "PYTHONPATH": str(CLIENTS)}, stdout=subprocess.PIPE, check=True)
        found = set(ran.stdout.decode().split())
        for name in "legacy.mount", "legacy.check", "legacy.work.running", "multiprocessing", "concurrent.futures", "sqlite3", "pyfuse3":
            self.assertNotIn(name, found)

    @GIT
    def test_git_shows_text(self):
        """By both commands of the page; one of them shows the bytes of errors too."""
        page = (TOP / "docs" / "ARCHIVES.md").read_text(encoding="utf-8")
        convert = re.search(r'textconv "gate (convert .*?)--indexes \S+ --"', page)[1]
        words = re.search(r"`legacy (textconv --default .*?)`", page)[1]
        python = f'env PYTHONPATH="{CLIENTS}" GATE="{PROGRAM}" GATE_INDEXES="{INDEXES}" "{sys.executable}" -m legacy {words}'
        for at, (command, old, new) in enumerate([(f'"{PROGRAM}" {convert} --indexes "{INDEXES}" --', "", ""), (python, "<ff>", "<fe>")]):
            with self.subTest(command):
                self.check_git(self.folder / str(at), command, ["-A\ufffd" + old, "+B\ufffd" + new, " あ"])

    def check_git(self, folder, command, wanted):
        """What git shows of a change in damaged files, one of which has a name like an option, ends with these lines."""
        def git(*words):
            return subprocess.run(["git", "-C", str(folder), *words], check=True, stdout=subprocess.PIPE, env={
                **os.environ, "HOME": str(self.folder), "GIT_CONFIG_NOSYSTEM": "1"}).stdout.decode()

        subprocess.run(["git", "init", "-q", str(folder)], check=True)
        git("config", "diff.shift_jis.textconv", command)
        (folder / ".gitattributes").write_text("*.txt diff=shift_jis\n")
        for name in "a.txt", "-a.txt":
            (folder / name).write_bytes(b"A\xff\n\x82\xa0\n")
        git("add", ".")
        for name in "a.txt", "-a.txt":
            (folder / name).write_bytes(b"B\xfe\n\x82\xa0\n")
            self.assertEqual(git("diff", "--", name).splitlines()[-3:], wanted)


if __name__ == "__main__":
    unittest.main()
