"""tools/lint on sources of these tests, each with one fault that its linter names."""
import importlib.machinery
import importlib.util
import pathlib
import shutil
import subprocess
import tempfile
import unittest
from unittest import mock

from program import TOP

LOADER = importlib.machinery.SourceFileLoader("lint", str(TOP / "tools" / "lint"))
SPEC = importlib.util.spec_from_loader("lint", LOADER)
assert SPEC
LINT = importlib.util.module_from_spec(SPEC)
LOADER.exec_module(LINT)


class Lint(unittest.TestCase):
    def setUp(self):
        kept = tempfile.TemporaryDirectory()
        self.addCleanup(kept.cleanup)
        self.top = pathlib.Path(kept.name)
        self.write("tools/lint", (TOP / "tools" / "lint").read_text())
        self.write("clients/pyproject.toml", (TOP / "clients" / "pyproject.toml").read_text())
        self.write("examples/sound", "#!/usr/bin/env bash\necho a\n")
        for name in LINT.TYPED:
            self.write(f"clients/{name}" if name.endswith(".py") else f"clients/{name}/__init__.py", "A: int = 1\n")

    def write(self, name, text):
        path = self.top / name
        path.parent.mkdir(parents=True, exist_ok=True)
        path.write_text(text)
        path.chmod(0o755)

    def run_lint(self):
        ran = subprocess.run([str(self.top / "tools" / "lint")], stdout=subprocess.PIPE, stderr=subprocess.STDOUT)
        return ran.stdout.decode(), ran.returncode

    def test_sound_sources(self):
        said, status = self.run_lint()
        self.assertEqual([it for it in said.splitlines() if "skipped" not in it], [])
        self.assertEqual(status, 0)

    def test_each_linter_names_what_it_finds(self):
        self.write("clients/legacy/it.py", "def f(x): return x\n")
        self.write("examples/python", "#!/usr/bin/env python3\nimport os\n")
        self.write("examples/shell", "#!/usr/bin/env bash\nrm $1\n")
        found, status = self.run_lint()
        wanted = [
            ("mypy", LINT.module("mypy"), r"legacy/it.py:1: .*untyped-def"), ("pyflakes", LINT.module("pyflakes"), "examples/python:2:.*'os'"),
            ("shellcheck", shutil.which("shellcheck"), "examples/shell line 2:"),
        ]
        for name, there, line in wanted:
            self.assertRegex(found, line if there else f"skipped: there is no {name}")
        self.assertEqual(status, 1 if any(there for _, there, _ in wanted) else 0)

    def test_long_lines_of_proofs(self):
        self.write("crates/a/specs/A.antt", "a" * 160 + "\n" + "\u2115" * 161 + "\n")
        self.write("crates/a/src/lib.rt", '"' + "a" * 200 + '"\n')
        said, status = self.run_lint()
        self.assertEqual([it for it in said.splitlines() if "skipped" not in it], ["crates/a/specs/A.antt:2: has 161 characters, more than 160"])
        self.assertEqual(status, 1)

    def test_long_lines_of_scripts(self):
        long = "a = [" + ", ".join(["1"] * 60) + "]\n"
        for path in "tools/it.py", ".ci/it.py", "tests/program/test_it.py", "bench/it.py":
            self.write(path, f"{long}b = '{'b' * 200}'\nc = 1\n")
        said, status = self.run_lint()
        found = [it for it in said.splitlines() if "skipped" not in it]
        self.assertEqual(found, [f"{it}:1: has 184 characters, more than 160" for it in (".ci/it.py", "tests/program/test_it.py", "tools/it.py")])
        self.assertEqual(status, 1)

    @unittest.skipUnless(LINT.module("mypy"), "there is no mypy")
    def test_types_of_other_scripts(self):
        self.write("tools/it.py", "def f(x): return x\n")
        self.write(".ci/that.py", "def f(x): return x\ng: int = ''\n")
        self.write("tests/program/test_it.py", "import unittest\ng: int = ''\n")
        self.write("bench/it.py", "g: int = ''\n")
        said, status = self.run_lint()
        for line in "tools/it.py:1: .*untyped-def", ".ci/that.py:2: .*assignment", "tests/program/test_it.py:2: .*assignment":
            self.assertRegex(said, line)
        self.assertNotIn(".ci/that.py:1", said)
        self.assertNotIn("bench/it.py:1: error", said)
        self.assertEqual(status, 1)

    def test_what_is_not_there_is_named(self):
        with mock.patch.object(LINT, "PYTHONS", ()), mock.patch.object(LINT.shutil, "which", lambda _: None), mock.patch("builtins.print") as said:
            self.assertEqual(LINT.main(), 0)
        names = [f"tools/lint: skipped: there is no {it}" for it in ("shellcheck", "pyflakes", "mypy")]
        self.assertEqual([it.args[0] for it in said.call_args_list], names)

    def test_the_languages_of_this_repository_s_scripts(self):
        found = LINT.scripts()
        for path in "tools/lint", "tools/build", "clients/gate.py", "bench/run.py":
            self.assertIn(path, found["python"])
        for path in "gate", ".ci/run", "tests/editors/run":
            self.assertIn(path, found["shell"])
        self.assertFalse(any(path.startswith(("crates/gate/out", ".git/")) for path in [*found["python"], *found["shell"]]))


if __name__ == "__main__":
    unittest.main()
