"""What a command writes besides its rows: that it takes the place of no file of another kind, and comes to lie in no tree by
accident."""
import contextlib
import os
import pathlib
import sqlite3
import unittest

from archives import Folder, run, settings
from checkout import BUILT
from fakes import Fakes
from legacy.check import Check, check
from legacy.convert import convert
from legacy.finding import Missing
from legacy.mend import Repairs, plan
from legacy.report import Report
from legacy.work.rows import Task
from legacy.work.state import State


class Outputs(Fakes, Folder):
    def setUp(self):
        super().setUp()
        self.letter = self.file("in/a.txt", b"a letter\n")
        self.tree = os.path.dirname(self.letter)

    def assert_refused(self, said, act):
        """A call that is refused, after which the folder has what it had."""
        before = {it: it.read_bytes() for it in sorted(self.folder.rglob("*")) if it.is_file()}
        with self.assertRaisesRegex(Missing, said):
            act()
        self.assertEqual({it: it.read_bytes() for it in sorted(self.folder.rglob("*")) if it.is_file()}, before)

    def write(self, path, **more):
        Report(str(path), [self.tree], **more).close()
        return pathlib.Path(path).read_bytes()[:15]

    def keep(self, path, force=False):
        list(check([self.tree], settings(encoding=[("*.txt", "utf-8")], state=str(path), force=force)))
        return pathlib.Path(path).read_bytes()[:15]

    def plan(self, path, force=False):
        list(plan(str(path), [self.tree], Repairs(line_ends="crlf"), settings(encoding=[("*.txt", "utf-8")], force=force)))
        return pathlib.Path(path).read_bytes()[:9]

    def test_a_letter_is_replaced_by_no_report(self):
        other = self.file("other.txt", b"another letter\n")
        for path in self.letter, other:
            self.assert_refused("would replace a file that isn't of its kind; --force takes it all the same$", lambda: self.write(path))
        self.assertEqual(self.write(other, force=True), b"<!doctype html>")
        # (and now it is one of ours)
        self.assertEqual(self.write(other), b"<!doctype html>")

    def test_what_came_meanwhile_is_replaced_by_no_report(self):
        made = Report(str(self.folder / "page"), [self.tree])
        self.file("page", b"another's")
        self.assert_refused("would replace a file", made.close)

    def test_no_output_comes_to_lie_in_a_tree(self):
        inside = pathlib.Path(self.tree, "new")
        os.symlink(self.tree, self.folder / "link")
        for write, first in (self.write, b"<!doctype html>"), (self.keep, b"SQLite format 3"), (self.plan, b'{"path": '):
            for path in inside, self.folder / "link" / "new":
                self.assert_refused(f"{path} would lie in the tree {self.tree}; --force takes it all the same$", lambda: write(path))
            self.assertEqual(write(inside, force=True), first)
            if write != self.plan:
                self.assertEqual(write(inside), first)
            os.unlink(inside)

    def test_a_state_is_made_of_no_letter(self):
        empty, other = self.file("empty.txt", b""), str(self.folder / "other.db")
        self.assert_refused("would replace a file that isn't of its kind", lambda: self.keep(empty))
        self.assertEqual(self.keep(empty, force=True), b"SQLite format 3")
        with contextlib.closing(sqlite3.connect(other)) as base:
            base.execute("CREATE TABLE letters(text)")
        for force in False, True:
            self.assert_refused("other.db is a database of another program$", lambda: self.keep(other, force=force))
            self.assert_refused("isn't of its kind|file is not a database", lambda: self.keep(self.letter, force=force))

    def test_a_plan_is_replaced_by_no_plan(self):
        path = self.file("plan", b"kept")
        for force in False, True:
            self.assert_refused("is there already, and may be what takes repairs back$", lambda: self.plan(path, force=force))

    def test_a_folder_that_is_none(self):
        for trees, out in ([self.tree], "-"), (["-"], str(self.folder / "out")):
            self.assert_refused("^- is standard input and output, which go together alone", lambda: list(convert("utf-8", trees, out, settings())))
        self.assert_refused("^a plan mends files", lambda: list(plan(str(self.folder / "plan"), ["-"], Repairs(line_ends="lf"), settings())))

    def test_a_state_that_is_begun_is_never_empty(self):
        path = self.folder / "state"
        with State(str(path), Task(Check(), settings().found)):
            self.assertGreater(path.stat().st_size, 0)
        self.assertEqual(sorted(os.listdir(self.folder)), ["in", "state"])


@BUILT
class Words(Folder):
    def test_a_report_over_the_first_of_the_files_that_a_shell_named(self):
        letter, other = self.file("a.txt", b"a letter\n"), self.file("b.txt", b"another\n")
        printed, said, status = run("check", "-e", "*.txt=utf-8", "--report", letter, other)
        self.assertEqual((printed, status, pathlib.Path(letter).read_bytes()), ("", 2, b"a letter\n"))
        self.assertEqual(said, f"legacy check: the report {letter} would replace a file that isn't of its kind; --force takes it all the same\n")
        self.assertEqual(run("check", "-e", "*.txt=utf-8", "--force", "--report", letter, other)[2], 0)
        self.assertEqual(pathlib.Path(letter).read_bytes()[:15], b"<!doctype html>")


if __name__ == "__main__":
    unittest.main()
