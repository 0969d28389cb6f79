"""tools/same_code on repositories of these tests, with two commits each."""
import pathlib
import shutil
import subprocess
import tempfile
import unittest

from program import TOP

RATTLE = 'fn f() -> &str {{\n    // {0}\n    "a // b" // {0}\n}}\n'
PROOF = "-- {0}\nf : ℕ → ℕ\nf a--b = a--b -- {0}\n"
PYTHON = '"""{0}"""\n\n\ndef f():\n    """{0}"""\n    return "# a"  # {0}\n'
TOOL = '#!/usr/bin/env python3\n"""{0}"""\nprint(__doc__)\n'
LUA = "-- {0}\n--[[ {0} ]]\nlocal a = '-- b' -- {0}\n---@type {0}\n"
SHELL = "#!/usr/bin/env bash\n# {0}\necho '# a'\n"
PLAIN = "{0}\n"

# A file, its text, the part that differs before and after, and the line that is printed (or none, if the code is the same).
ROWS = [
    ("a.rt", RATTLE, "one", "two, and\n    // three", ""),
    ("a.antt", PROOF, "one", "two", ""),
    ("a.py", PYTHON, "one", "two", ""),
    ("a.lua", LUA, "one", "two", ""),
    ("a", SHELL, "one", "two", ""),
    ("a.md", PLAIN, "one", "two", ""),
    ("a", TOOL, "one", "two", "a: its code differs"),
    ("a.json", PLAIN, "1", "2", "a.json: its code differs"),
    ("a.rt", 'fn f() -> &str {{ "a // {0}" }}\n', "one", "two", "a.rt: its code differs"),
    ("a.rt", "fn f() -> char {{ '\"' {0} '\"' }}\n", "// one", "// two", ""),
    ("a.rt", "fn f<'a>(a: &'a u8) {{}} // {0}\nfn g<'a>(a: &'a u8) {{ 1 }}\n", "one", "two", ""),
    ("a.rt", "fn f() {{ {0} }}\n", "1", "2", "a.rt: its code differs"),
    ("a.rt", "fn f() {{\n    1\n    // a\n{0}}}\n", "", "    2\n", "a.rt: its code differs"),
    ("a.antt", "f a--{0} = a\n", "b", "c", "a.antt: its code differs"),
    ("a.py", "def f():\n    return '{0}'\n", "one", "two", "a.py: its code differs"),
    ("a.lua", "local a = '-- {0}'\n", "one", "two", "a.lua: its code differs"),
    ("a.lua", "local a = [[ -- {0} ]]\n", "one", "two", "a.lua: its code differs"),
    ("a", "#!/usr/bin/env bash\necho '\n# {0}'\n", "one", "two", "a: its code differs"),
]


class SameCode(unittest.TestCase):
    def setUp(self):
        kept = tempfile.TemporaryDirectory()
        self.addCleanup(kept.cleanup)
        self.top = pathlib.Path(kept.name)
        (self.top / "tools").mkdir()
        shutil.copy(TOP / "tools" / "same_code", self.top / "tools")
        self.git("init", "-q")
        self.commit()

    def git(self, *words):
        subprocess.run(["git", "-c", "user.name=a", "-c", "user.email=a", *words], cwd=self.top, check=True, stdout=subprocess.PIPE)

    def commit(self):
        self.git("add", "-A")
        self.git("commit", "-q", "--allow-empty", "-m", "a")

    def write(self, name, text):
        (self.top / name).write_text(text, encoding="utf-8")
        self.commit()

    def run_tool(self, *words):
        ran = subprocess.run([self.top / "tools" / "same_code", *words], stdout=subprocess.PIPE, stderr=subprocess.PIPE)
        return ran.stdout.decode().splitlines(), ran.returncode

    def test_comments_may_differ_and_code_may_not(self):
        for name, text, before, after, line in ROWS:
            with self.subTest(name=name, text=text):
                self.write(name, text.format(before))
                self.write(name, text.format(after))
                lines, status = self.run_tool("HEAD~1")
                self.assertEqual((lines[:-1], status), ([line] if line else [], int(bool(line))))
                self.assertTrue(lines[-1].startswith("1 files changed"))

    def test_files_that_are_new_deleted_or_of_another_kind(self):
        self.write("a.rt", "")
        (self.top / "a.rt").unlink()
        self.write("b.rt", "// a\n")
        self.assertEqual(self.run_tool("HEAD~1", "HEAD"), (["a.rt: is deleted", "b.rt: is new", "2 files changed, 2 of them in more than comments"], 1))
        self.assertEqual(self.run_tool("HEAD", "HEAD"), (["0 files changed; their code is the same"], 0))
        (self.top / "b.rt").unlink()
        (self.top / "b.rt").symlink_to("c.rt")
        self.commit()
        self.assertEqual(self.run_tool("HEAD~1")[0][0], "b.rt: is of another kind")

    def test_a_commit_that_is_missing(self):
        self.assertEqual(self.run_tool("nothing")[1], 2)


if __name__ == "__main__":
    unittest.main()
