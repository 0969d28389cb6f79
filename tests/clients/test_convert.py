"""`legacy convert`: what it writes is what Python's codecs make of the same text, and comes back to the byte."""
import hashlib
import os
import pathlib
import shutil
import subprocess
import sys
import unittest
import unittest.mock

from archives import Folder, run, settings, tree
from checkout import BUILT, CLIENTS, INDEXES
from legacy.convert import MARKED, OTHER_BYTES, convert
from legacy.finding import Missing
from legacy.work import reading


def run_verify(path):
    """What `legacy verify` printed on both streams, and its status."""
    ran = subprocess.run(
        [sys.executable, "-m", "legacy", "verify", path], env={**os.environ, "PYTHONPATH": str(CLIENTS), "PYTHONIOENCODING": "utf-8"},
        stdout=subprocess.PIPE, stderr=subprocess.PIPE)
    return ran.stdout.decode(), ran.stderr.decode(), ran.returncode


@BUILT
class Trees(Folder):
    def test_there_and_back(self):
        made = tree.make(self.folder, 44, largest=9_000, indexes=INDEXES)
        there, back = str(self.folder / "there"), str(self.folder / "back")
        source = str(self.folder / "tree")
        rows = {os.path.relpath(it.path, source): it for it in convert("utf-8", [source], there, settings(), keep_mark=True)}
        for label in {it["label"] for it in made if it.get("utf8")}:
            list(convert(label, [there], back, settings(encoding=[(f"*.{label}", "utf-8")]), keep_mark=True))
        for it in made:
            with self.subTest(it["path"]):
                new = pathlib.Path(there, it["path"])
                if it.get("utf8"):
                    mark = b"\xef\xbb\xbf" if it["mark"] else b""
                    content = new.read_bytes()
                    self.assertEqual((content[: len(mark)], hashlib.sha256(content[len(mark) :]).hexdigest()), (mark, it["utf8"]))
                    self.assertEqual(pathlib.Path(back, it["path"]).read_bytes(), pathlib.Path(source, it["path"]).read_bytes())
                elif it.get("errors"):
                    self.assertFalse(new.exists())
                    begin, end = it["errors"][0]
                    self.assertRegex(rows[it["path"]].reason, f"^{len(it['errors'])} errors?, the first in .* bytes {begin} to {end}$")

    def test_a_run_goes_on_where_files_are_missing(self):
        path = self.file("in/a", b"\x82\xa0")
        out, state = self.folder / "out", str(self.folder / "state")
        more = {"encoding": [("*", "shift_jis")], "state": state}
        for _ in range(2):
            row, = convert("utf-8", [os.path.dirname(path)], str(out), settings(**more))
            self.assertEqual((row.outcome, (out / "a").read_bytes()), ("done", "あ".encode()))
            (out / "a").unlink()


@BUILT
class Files(Folder):
    def convert(self, to, content, label="shift_jis", **more):
        """The row of a file, and what was written."""
        out = self.folder / "out"
        row, = convert(to, [self.file("a", content)], str(out), settings(encoding=[("*", label)]), **more)
        return row.reason, (out / "a").read_bytes() if (out / "a").exists() else None

    def test_another_encoding(self):
        self.assertEqual(self.convert("euc-jp", b"\x82\xa0"), ("", b"\xa4\xa2"))

    def test_what_cannot_be_encoded_is_refused_with_its_place(self):
        reason = "line 2, character 2: U+3042 HIRAGANA LETTER A has no bytes in windows-1252"
        self.assertEqual(self.convert("windows-1252", b"a\nb\x82\xa0"), (reason, None))
        self.assertEqual(self.convert("windows-1252", b"a\nb\x82\xa0", mode="html"), ("", b"a\nb&#12354;"))

    def test_a_mark_is_left_out_or_converted(self):
        self.assertEqual(self.convert("utf-16be", b"\xef\xbb\xbfA", "windows-1252"), ("", b"\0A"))
        (self.folder / "out" / "a").unlink()
        self.assertEqual(self.convert("utf-16be", b"\xef\xbb\xbfA", "utf-8", keep_mark=True), ("", b"\xfe\xff\0A"))

    def test_bytes_that_would_not_come_back(self):
        # An escape that leads where the decoder is already isn't written again.
        content = b"\x1b(BA\x1b$B$\"\x1b(B"
        self.assertEqual(self.convert("utf-8", content, "iso-2022-jp", exact=True)[0], "converted back it would have other bytes, from byte 0 on")
        self.assertEqual(self.convert("utf-8", content[3:], "iso-2022-jp", exact=True), ("", "Aあ".encode()))

    def test_a_mark_that_would_not_come_back(self):
        for label, content in ("utf-8", b"\xef\xbb\xbfA"), ("utf-16le", b"\xff\xfeA\0"), ("windows-1252", b"\xff\xfeA\0"):
            with self.subTest(label):
                self.assertEqual(self.convert("utf-8", content, label, exact=True), ("its byte order mark would be left out; --keep-mark converts it", None))
        self.assertEqual(self.convert("utf-8", b"\xff\xfeA\0", "utf-16le", exact=True, keep_mark=True), ("", b"\xef\xbb\xbfA"))

    def test_files_that_are_too_large_for_a_document(self):
        text = "あ亜\r\n" * 40
        content, damaged = text.encode("cp932"), text.encode("cp932") + b"\x81"
        place = "line 41, bytes 240 to 241: not Shift_JIS"
        escapes = b"\x1b(BA" * 40
        with unittest.mock.patch.object(reading, "LARGEST", 100):
            for to, given, label, more, wanted in [
                ("euc-jp", content, "shift_jis", {}, ("", text.encode("euc_jp"))),
                ("euc-jp", content, "shift_jis", {"exact": True}, ("", text.encode("euc_jp"))),
                ("utf-8", damaged, "shift_jis", {}, (place, None)),
                ("utf-8", damaged, "shift_jis", {"mode": "html"}, (place, None)),
                ("windows-1252", content, "shift_jis", {}, ("line 1, bytes 0 to 2: U+3042 isn't in windows-1252", None)),
                ("windows-1252", content, "shift_jis", {"mode": "html"}, ("", text.encode("ascii", "xmlcharrefreplace"))),
                ("utf-16be", b"\xef\xbb\xbf" + content, "shift_jis", {}, ("line 1, bytes 3 to 4: not UTF-8", None)),
                ("utf-16be", b"\xef\xbb\xbf" + text.encode(), "shift_jis", {}, ("", text.encode("utf-16be"))),
                ("utf-16be", b"\xef\xbb\xbf" + text.encode(), "utf-8", {"exact": True}, (MARKED, None)),
                ("utf-8", escapes, "iso-2022-jp", {"exact": True}, (OTHER_BYTES.format(at=0), None)),
            ]:
                with self.subTest((to, label, more)):
                    self.assertEqual(self.convert(to, given, label, **more), wanted)
                    shutil.rmtree(self.folder / "out", ignore_errors=True)

    def test_mode_and_times_are_kept(self):
        path = self.file("a", b"A")
        os.chmod(path, 0o640)
        os.utime(path, ns=(10**18, 10**18 + 1))
        list(convert("utf-16le", [path], str(self.folder / "out"), settings(encoding=[("*", "utf-8")])))
        status = (self.folder / "out" / "a").stat()
        self.assertEqual((status.st_mode & 0o777, status.st_mtime_ns), (0o640, 10**18 + 1))

    def test_no_file_is_overwritten(self):
        other = self.file("out/a", b"other")
        self.assertEqual(self.convert("utf-8", b"A"), (f"{other} is there already", b"other"))
        self.assertEqual(sorted(os.listdir(self.folder / "out")), ["a"])

    def test_where_files_go(self):
        one, other = os.path.dirname(self.file("x/one/a", b"A")), os.path.dirname(self.file("x/other/b", b"B"))
        out = str(self.folder / "out")
        more = settings(encoding=[("*", "utf-8")])
        self.assertEqual([it.out for it in convert("utf-8", [one, other], out, more)], [f"{out}/one/a", f"{out}/other/b"])
        for trees, to, said in [
            ([one], f"{one}/out", "lies in"), ([one, os.path.dirname(self.file("y/one/a", b"A"))], out, "two of the trees would be"),
            ([os.path.dirname(one), one], out, f"{one} lies in {os.path.dirname(one)}, with"), ([f"{one}/a", one], out, f"{one}/a lies in {one}, with"),
            ([one, other, one], out, f"{one} is named twice"),
        ]:
            with self.assertRaisesRegex(Missing, said):
                list(convert("utf-8", trees, to, more))

    def test_labels_that_cannot_be_written(self):
        for label, said in ("none", "no encoding"), ("koi8-r", "an encoding without its index file"), ("replacement", "no encoding to write"):
            with self.assertRaisesRegex(Missing, f"^--to: {label} is {said}$"):
                self.convert(label, b"A")

    def test_a_whole_tree(self):
        for name, content in ("in/a.txt", b"\x82\xa0"), ("in/sub/b.bin", b"\0\xff" * 9), ("in/sub/c.txt", b"c"):
            os.chmod(self.file(name, content), 0o640)
        os.symlink("a.txt", self.folder / "in" / "link")
        for folder in "in/sub", "in":
            os.utime(self.folder / folder, ns=(10**18, 10**18 + 7))
        manifest, out = str(self.folder / "manifest"), str(self.folder / "out")
        more = settings(encoding=[("*.txt", "shift_jis")])
        for _ in range(2):
            rows = list(convert("utf-8", [str(self.folder / "in")], out, more, manifest, copies=True))
            self.assertEqual({(it.outcome, it.reason) for it in rows}, {("done", "")})
        found = {it: (self.folder / "out" / it) for it in ("a.txt", "sub/b.bin", "sub/c.txt", "link")}
        self.assertEqual({it: path.read_bytes() for it, path in found.items()}, {
            "a.txt": "あ".encode(), "sub/b.bin": b"\0\xff" * 9, "sub/c.txt": b"c", "link": "あ".encode()})
        self.assertEqual(os.readlink(found["link"]), "a.txt")
        self.assertEqual([os.stat(self.folder / "out" / it).st_mtime_ns for it in ("", "sub")], [10**18 + 7] * 2)
        self.assertEqual(os.stat(found["sub/b.bin"]).st_mode & 0o777, 0o640)
        self.assertEqual(run_verify(manifest), ("", "6 files as the manifest has them; 0 not\n", 0))
        if shutil.which("sha256sum"):
            subprocess.run(["sha256sum", "--quiet", "-c", manifest], check=True)
        found["a.txt"].write_bytes(b"other")
        found["sub/c.txt"].unlink()
        printed, said, status = run_verify(manifest)
        self.assertEqual((printed, status), (f"{found['a.txt']}: it has other bytes\n{found['sub/c.txt']}: No such file or directory\n", 1))
        self.assertEqual(said, "4 files as the manifest has them; 2 not\n")
        self.assertEqual(run_verify(self.file("none", b"x\n"))[1:], (f"legacy verify: {self.folder}/none, line 1 isn't a SHA-256 and a path\n", 2))

    def test_a_copy_replaces_nothing(self):
        self.file("in/b", b"old")
        os.symlink("b", self.folder / "in" / "link")
        for name in "b", "link":
            self.file(f"out/{name}", b"new")
        rows = list(convert("utf-8", [str(self.folder / "in")], str(self.folder / "out"), settings(), copies=True))
        self.assertEqual([it.reason for it in rows], [f"{self.folder}/out/{it} is there already" for it in ("b", "link")])

    def test_names(self):
        for name in b"\x82\xa0/\x82\xa0.txt", "あ/い.txt".encode(), b"\xff.txt":
            self.file(os.path.join("in", os.fsdecode(name)), b"a")
        rows = convert("utf-8", [str(self.folder / "in")], str(self.folder / "out"), settings(encoding=[("*", "utf-8")]), names="shift_jis")
        self.assertEqual(sorted((os.path.relpath(it.out, self.folder / "out") if it.out else "", it.reason) for it in rows), [
            ("", "its name isn't text in shift_jis"), ("あ/あ.txt", ""), ("あ/い.txt", "")])
        self.assertEqual(sorted(os.listdir(self.folder / "out" / "あ")), ["あ.txt", "い.txt"])
        with self.assertRaisesRegex(Missing, "^--names: klingon is no encoding"):
            list(convert("utf-8", [str(self.folder / "in")], str(self.folder / "out"), settings(), names="klingon"))

    def test_what_is_printed_and_the_status(self):
        path = self.file("in/a.txt", b"\xff")
        self.file("in/b.txt", b"A")
        words = ["convert", "--to", "utf-8", "-e", "*.txt=shift_jis", str(self.folder / "in"), str(self.folder / "out")]
        printed = f"{path}: not converted: 1 error, the first in line 1, character 1, bytes 0 to 1\n"
        self.assertEqual(run(*words), (printed, "1 file converted; 1 refused\n", 1))
        os.unlink(path)
        self.assertEqual(run(*words), ("", "1 file converted\n", 0))


if __name__ == "__main__":
    unittest.main()
