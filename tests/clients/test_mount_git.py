"""git in a mount: it sees what it sees in the source, and stores what it would store there."""
import os
import pathlib
import re
import shutil
import subprocess
import tempfile
import time
import unittest

from mounts import WHY, Mount
from legacy.mount import indexes

WHO = {f"GIT_{who}_{what}": it for who in ("AUTHOR", "COMMITTER") for what, it in (("NAME", "n"), ("EMAIL", "e@example.org"))}
ATTRIBUTES = "*.sj working-tree-encoding=SHIFT_JIS\n*.u working-tree-encoding=UTF-16LE\n"


@unittest.skipIf(WHY or not shutil.which("git"), WHY or "there is no git")
class Git(unittest.TestCase):
    def setUp(self):
        self.folder = pathlib.Path(tempfile.mkdtemp())
        self.addCleanup(shutil.rmtree, self.folder)
        self.source = self.folder / "source"
        self.source.mkdir()
        self.git("init", "-q", "-b", "main")
        (self.source / ".gitattributes").write_text(ATTRIBUTES)
        (self.source / "f.sj").write_bytes(b"one \x82\xa0\n")
        (self.source / "g.bin").write_bytes(b"\x82\xa0\n")
        self.commits(self.source, "first")

    def git(self, *words, where=None, status=0):
        environment = {**os.environ, **WHO, "HOME": str(self.folder), "LC_ALL": "C.UTF-8"}
        ran = subprocess.run(["git", *words], cwd=where or self.source, env=environment, stdout=subprocess.PIPE, stderr=subprocess.STDOUT)
        self.assertEqual(ran.returncode, status, ran.stdout)
        return ran.stdout

    def commits(self, where, text):
        self.git("add", "-A", where=where)
        self.git("commit", "-qam", text, where=where)

    def mounted(self, *words, point=None):
        mount = Mount("--show-git", *words, source=self.source, point=point)
        self.addCleanup(mount.clear)
        return mount

    def is_clean(self, *wheres):
        for where in wheres:
            time.sleep(1.1)  # (behind which the mount shows what was changed below)
            self.assertEqual((where, self.git("status", "--porcelain", where=where)), (where, b""))
            self.git("diff", "--exit-code", where=where)

    def test_commits_of_each_are_clean_for_the_other(self):
        point = self.mounted().point
        self.is_clean(point, self.source, point)
        (point / "f.sj").write_text("one あ\ntwo 亜\n")
        self.assertEqual(self.git("status", "--porcelain", where=point), b" M f.sj\n")
        self.assertIn("+two 亜".encode(), self.git("diff", where=point))
        self.commits(point, "in the mount")
        self.assertEqual((self.source / "f.sj").read_bytes(), b"one \x82\xa0\ntwo \x88\x9f\n")
        self.assertEqual(self.git("cat-file", "blob", "HEAD:f.sj"), "one あ\ntwo 亜\n".encode())
        self.is_clean(self.source, point)
        (self.source / "f.sj").write_bytes(b"three \x82\xa0\n")
        (self.source / "new.sj").write_bytes(b"\x88\x9f\n")
        self.commits(self.source, "in the source")
        self.is_clean(point, self.source, point)
        self.git("checkout", "-q", "HEAD~2", where=point)
        self.assertEqual((self.source / "f.sj").read_bytes(), b"one \x82\xa0\n")
        self.is_clean(self.source, point)
        self.git("checkout", "-q", "main", where=point)
        self.assertEqual((self.source / "new.sj").read_bytes(), b"\x88\x9f\n")
        (point / "f.sj").write_text("stashed あ\n")
        self.git("stash", where=point)
        self.is_clean(self.source, point)
        self.git("stash", "pop", where=self.source)
        self.assertEqual((self.source / "f.sj").read_bytes(), b"stashed \x82\xa0\n")
        self.git("reset", "-q", "--hard", where=point)
        self.is_clean(self.source, point)
        self.git("fsck", "--strict")

    def test_over_the_source_itself(self):
        self.mounted(point=self.source)
        (self.source / "f.sj").write_text("two あ\n")
        self.commits(self.source, "in the mount")
        self.assertEqual(self.git("cat-file", "blob", "HEAD:f.sj"), "two あ\n".encode())
        self.is_clean(self.source)

    def test_its_own_attributes_are_kept_and_can_be_changed_in_the_source_alone(self):
        own = self.source / ".git" / "info" / "attributes"
        point = self.mounted().point
        shown = point / ".git" / "info" / "attributes"
        self.assertEqual(shown.read_text(), "* !working-tree-encoding\n")
        own.write_text("*.txt diff=x")
        self.assertEqual(shown.read_text(), "*.txt diff=x\n* !working-tree-encoding\n")
        self.assertEqual(shown.stat().st_size, len(shown.read_bytes()))
        self.assertIn(b"diff: x", self.git("check-attr", "diff", "a.txt", where=point))
        self.assertRaises(PermissionError, shown.write_text, "x")
        self.assertEqual((own.read_text(), (point / ".gitattributes").read_text()), ("*.txt diff=x", ATTRIBUTES))

    def test_what_a_repository_keeps_has_no_rule(self):
        point = self.mounted("--default", "shift_jis").point
        for path in (self.source / ".git").rglob("*"):
            if path.is_file() and path.name != "index":
                self.assertEqual((point / path.relative_to(self.source)).read_bytes(), path.read_bytes())

    def test_an_index_of_each_form_has_no_lengths_of_files_with_a_rule(self):
        (self.source / "d").mkdir()
        for name in "long-name.sj", "long-name.u", "long-name-too.bin":
            (self.source / "d" / name).write_bytes(b"x\0")
        self.commits(self.source, "second")
        for version in "2", "3", "4":
            if version == "3":
                (self.source / "later.sj").write_bytes(b"y")
                self.git("add", "-N", "later.sj")
            self.git("update-index", "--index-version", version)
            raw = (self.source / ".git" / "index").read_bytes()
            (self.folder / "index").write_bytes(indexes.without_lengths(raw, lambda path: path.endswith((b".sj", b".u"))))
            found = {}
            for at, path in indexes.entries((self.folder / "index").read_bytes(), 20):
                found[path] = self.lengths((self.folder / "index"))[path.decode()]
            self.assertEqual({path for path, length in found.items() if not length}, {it for it in found if it.endswith((b".sj", b".u"))})
            self.assertEqual(set(found), {os.fsencode(it) for it in self.lengths(self.source / ".git" / "index")})
        self.assertEqual(indexes.without_lengths(raw[:-1], lambda _: True), raw[:-1])

    def lengths(self, index):
        """The lengths that git finds in an index."""
        environment = {**os.environ, "GIT_INDEX_FILE": str(index)}
        ran = subprocess.run(["git", "ls-files", "--debug"], cwd=self.source, env=environment, stdout=subprocess.PIPE, check=True, text=True)
        return {name: int(length) for name, length in re.findall(r"^(\S.*)\n(?:  .*\n)*?  size: (\d+)", ran.stdout, re.MULTILINE)}

    def test_a_repository_that_lies_elsewhere_stays_hidden(self):
        self.git("worktree", "add", "-q", "tree")
        point = self.mounted().point
        self.assertEqual(sorted(os.listdir(point / "tree")), [".gitattributes", "f.sj", "g.bin"])
        self.assertFalse((point / "tree" / ".git").exists())


if __name__ == "__main__":
    unittest.main()
