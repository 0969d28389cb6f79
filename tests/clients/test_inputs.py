"""What comes in besides trees: standard input, lists of files, and the members of archives."""
import base64
import bz2
import gzip
import io
import lzma
import os
import shutil
import subprocess
import sys
import tarfile
import unittest
import unittest.mock
import zipfile

from archives import Folder, settings
from checkout import BUILT, CLIENTS, INDEXES, PROGRAM
from legacy.check import check
from legacy.work import cuts, reading
from legacy.work.walk import walk

A = b"A\xff\x82\xa0\n"
MAIL = b"""From: a
MIME-Version: 1.0
Content-Type: multipart/mixed; boundary=x

--x
Content-Type: text/plain; charset=iso-2022-jp

\x1b$B$"\x1b(B
--x
Content-Type: text/plain; charset=shift_jis
Content-Transfer-Encoding: base64

gqD/
--x
Content-Type: image/png

none
--x--
"""


def tar(mode, a=A):
    made = io.BytesIO()
    with tarfile.open(fileobj=made, mode=mode) as archive:
        for name, content in ("in/a.txt", a), ("b", b"x"):
            member = tarfile.TarInfo(name)
            member.size = len(content)
            archive.addfile(member, io.BytesIO(content))
        archive.addfile(tarfile.TarInfo("empty.txt"))
    return made.getvalue()


def make_zip():
    made = io.BytesIO()
    with zipfile.ZipFile(made, "w") as archive:
        archive.writestr("in/a.txt", A)
    return made.getvalue()


@BUILT
class Inputs(Folder):
    def run_legacy(self, *words, given=b""):
        ran = subprocess.run(
            [sys.executable, "-m", "legacy", *words, "-e", "*.txt=shift_jis", "--gate", PROGRAM, "--indexes", str(INDEXES)], input=given, cwd=self.folder,
            stdout=subprocess.PIPE, stderr=subprocess.PIPE, env={**os.environ, "PYTHONPATH": str(CLIENTS), "PYTHONIOENCODING": "utf-8"})
        return ran.stdout.decode(), ran.stderr.decode(), ran.returncode

    def test_standard_input(self):
        self.assertEqual(self.run_legacy("check", "-", "--default", "shift_jis", given=A)[::2], ("-:1:2: bytes 1 to 2: ff: A\ufffdあ\n", 1))
        self.assertEqual(self.run_legacy("search", "あ", "-", "--default", "shift_jis", given=A), ("-:1:3: bytes 2 to 4: A\ufffdあ\n", "", 0))
        self.assertEqual(self.run_legacy("check", "-", given=A)[2], 2)
        state = str(self.folder / "state")
        for given, status in (A, 1), (b"a", 0):
            self.assertEqual(self.run_legacy("check", "-", "--default", "shift_jis", "--resume", state, given=given)[2], status)
        printed, _, status = self.run_legacy("check", "-", "--default", "shift_jis", given=b"a" * 17_000_000 + A)
        self.assertEqual((printed, status), (f"-:1:17000002: bytes 17000001 to 17000002: ff: {'a' * 19}A\ufffd\u3042\n", 1))

    def test_a_filter(self):
        words = ["convert", "--to", "utf-8", "--default", "shift_jis", "-", "-"]
        self.assertEqual(self.run_legacy(*words, given=b"\x82\xa0\n"), ("あ\n", "", 0))
        self.assertEqual(self.run_legacy(*words, given=A), ("", "-: not converted: 1 error, the first in line 1, character 2, bytes 1 to 2\n", 1))
        self.assertEqual(self.run_legacy("convert", "--to", "utf-8", "-", "-"), ("", "legacy convert: no rule names the encoding of -, as --default does\n", 2))
        self.assertEqual(os.listdir(self.folder), [])

    def test_lists_of_files(self):
        for name in "in/a.txt", "in/b\n.txt", "c.txt", "d":
            self.file(name, A)
        self.file("in/.gitattributes", b"d working-tree-encoding=shift_jis\n")
        self.file("in/d", A)
        self.file("list", b"in/a.txt\nin/d\n\nnone\n")
        printed, said, status = self.run_legacy("check", "--files-from", "list")
        self.assertEqual([it.split(":")[0] for it in printed.splitlines()], ["in/a.txt", "in/d", "none"])
        self.assertEqual(status, 2)
        printed, _, status = self.run_legacy("check", "--files-from", "-", "-0", "c.txt", given=b"in/b\n.txt\0in\0")
        self.assertEqual([it.partition(":1:")[0] for it in printed.splitlines()], ["c.txt", r"'in/b\n.txt'", "in/a.txt", r"'in/b\n.txt'", "in/d"])
        self.assertIn("error: the following arguments are required: TREE\n", self.run_legacy("check")[1])
        # (words may come in between)
        self.assertEqual(self.run_legacy("search", "あ", "--no-attributes", "c.txt")[2], 0)
        self.assertEqual(self.run_legacy("check", "--files-from", "/none"), ("", "legacy check: /none: No such file or directory\n", 2))

    def test_what_is_ignored(self):
        for name, content in [
            (".gitignore", b"# a comment\n*.log\n/top\nbuild/\n!kept.log\nsub/*.x\nblank \n\\#c\n"), ("sub/.gitignore", b"!*.log\nb.txt\n"), (".ignore", b"ignored\n"),
            *((it, b"") for it in (
                "a.log", "kept.log", "top", "sub/top", "build/a", "sub/build/b", "file/build",
                "sub/c.log", "sub/b.txt", "b.txt", "sub/d.x", "sub/e/d.x", "blank", "#c",
                "ignored", "sub/ignored", "あ.log")),
        ]:
            self.file(f"in/{name}", content)
        tree = str(self.folder / "in")
        left = [it.inside for it in walk([tree], ignores=True)]
        self.assertEqual(left, [".gitignore", ".ignore", "b.txt", "file/build", "kept.log", "sub/.gitignore", "sub/c.log", "sub/e/d.x", "sub/top"])
        self.assertEqual(self.run_legacy("check", "--gitignore", "--default", "utf-8", tree)[1].split(";")[0], "6 files clean")
        if shutil.which("git"):
            subprocess.run(["git", "init", "-q", tree], check=True)
            os.unlink(os.path.join(tree, ".ignore"))
            ran = subprocess.run(["git", "-C", tree, "ls-files", "-o", "--exclude-standard"], check=True, stdout=subprocess.PIPE)
            self.assertEqual(sorted(it.inside for it in walk([tree], ignores=True)), sorted(ran.stdout.decode().splitlines()))

    def test_members(self):
        for name, content in [
            ("a.tar", tar("w")), ("b.tgz", tar("w:gz")), ("c.tar.xz", tar("w:xz")), ("d.zip", make_zip()), ("e.txt.gz", gzip.compress(A)),
            ("f.txt.xz", lzma.compress(A)), ("g.txt.bz2", bz2.compress(A)), ("h.zip", b"no archive"), ("i.tar.gz", tar("w:gz")[:60]), ("j.txt", A),
        ]:
            self.file(f"in/{name}", content)
        rows = [it for it in check([str(self.folder / "in")], settings(encoding=[("*.txt", "shift_jis")], members=True)) if it.outcome != "done"]
        found = {os.path.relpath(it.path, self.folder / "in"): (it.outcome, it.errors) for it in rows}
        self.assertEqual({it: how for it, how in found.items() if how[0] == "found"}, {it: ("found", 1) for it in (
            "a.tar/in/a.txt", "b.tgz/in/a.txt", "c.tar.xz/in/a.txt", "d.zip/in/a.txt", "e.txt.gz/e.txt", "f.txt.xz/f.txt", "g.txt.bz2/g.txt", "j.txt")})
        self.assertEqual([it for it, how in found.items() if how[0] == "passed"], ["a.tar/b", "b.tgz/b", "c.tar.xz/b"])
        self.assertEqual(sorted(it for it, how in found.items() if how[0] == "refused"), ["h.zip", "i.tar.gz"])
        self.assertEqual([it.outcome for it in check([str(self.folder / "in" / "a.tar")], settings(encoding=[("*.txt", "shift_jis")]))], ["passed"])

    def test_parts_of_mail(self):
        self.file("in/a.eml", MAIL)
        self.file("in/b.mbox", b"From x\n" + MAIL + b"\nFrom y\n" + MAIL)
        rows = list(check([str(self.folder / "in")], settings(members=True)))
        found = [(os.path.relpath(it.path, self.folder / "in"), it.label, it.errors) for it in rows]
        one, other = ("iso-2022-jp", 0), ("shift_jis", 1)
        self.assertEqual(found, [
            ("a.eml/2", *one), ("a.eml/3", *other), ("b.mbox/1/2", *one), ("b.mbox/1/3", *other), ("b.mbox/2/2", *one), ("b.mbox/2/3", *other)])

    def test_a_long_member_is_looked_at_by_parts(self):
        content = b"ab\n" * 1000 + A
        mail = MAIL.replace(b"gqD/", base64.encodebytes(content))
        for name, made in ("a.txt.gz", gzip.compress(content)), ("b.tar", tar("w", content)), ("c.eml", mail):
            self.file(f"in/{name}", made)
        known = list(check([str(self.folder / "in")], settings(encoding=[("*.txt", "shift_jis")], members=True)))
        with unittest.mock.patch.object(reading, "WHOLE", 40), unittest.mock.patch.object(cuts, "PART", 500):
            found = list(check([str(self.folder / "in")], settings(encoding=[("*.txt", "shift_jis")], members=True)))
        self.assertEqual([it.errors for it in found if it.label], [1, 1, 0, 0, 1])
        self.assertEqual([it.places for it in found], [it.places for it in known])
        self.assertEqual([it.size for it in found if it.label], [it.size for it in known if it.label])


if __name__ == "__main__":
    unittest.main()
