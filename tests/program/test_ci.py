"""What CI says at its end of tests that were skipped, and tools/dependencies, with commands of these tests in the place of Debian's."""
import pathlib
import subprocess
import tempfile
import unittest

from program import TOP

# Tests of which two are skipped, and one of another folder that fails.
SKIPPED = """import unittest
@unittest.skip("there is no nvim")
class A(unittest.TestCase):
    def test_a(self): self.fail()
    def test_b(self): self.fail()
class B(unittest.TestCase):
    def test_a(self): pass
"""
FAILED = "import unittest\nclass C(unittest.TestCase):\n    def test_c(self): self.fail()\n"

# dpkg-query knows curl alone, and apt-get, which writes its words down, has no neovim.
DPKG_QUERY = '[ "$3" != curl ] || echo installed'
APT_GET = 'echo "$*" >> "$WORDS"; [ "${!#}" != neovim ]'


class Folder(unittest.TestCase):
    def setUp(self):
        kept = tempfile.TemporaryDirectory()
        self.addCleanup(kept.cleanup)
        self.folder = pathlib.Path(kept.name)

    def runs(self, *words, **how):
        return subprocess.run([str(it) for it in words], stdin=subprocess.DEVNULL, stdout=subprocess.PIPE, stderr=subprocess.PIPE, **how)


class Skipped(Folder):
    def folders_of(self, **sources):
        """Folders of these names, each with a file of tests."""
        for name, source in sources.items():
            folder = self.folder / name
            folder.mkdir()
            (folder / f"test_{name}.py").write_text(source)
        return [self.folder / name for name in sources]

    def test_each_is_listed_with_its_reason(self):
        listed = self.folder / "listed"
        ran = self.runs(TOP / ".ci" / "tests", listed, *self.folders_of(one=SKIPPED, two=SKIPPED))
        self.assertEqual(ran.returncode, 0, ran.stderr)
        wanted = [f"{self.folder / name}/test_{name}.A.test_{test}: there is no nvim" for name in ("one", "two") for test in "ab"]
        self.assertEqual(listed.read_text().splitlines(), wanted)

    def test_a_failure_in_any_folder_counts(self):
        for order in ("one", "two"), ("two", "one"):
            with self.subTest(order):
                folders = self.folders_of(**{name + "".join(order): FAILED if name == "two" else SKIPPED for name in order})
                self.assertEqual(self.runs(TOP / ".ci" / "tests", self.folder / "listed", *folders).returncode, 1)

    def test_they_come_last_with_the_last_line(self):
        for said, last in ("a\nskipped: 1\nx: why\n2 passed\n", 3), ("a\nb\n2 passed\n", 1):
            printed = self.runs(TOP / ".ci" / "costs", "printf", said).stdout.decode().splitlines()
            lines = said.splitlines()
            self.assertEqual((printed[: -last][: len(lines) - last], printed[-last:]), (lines[:-last], lines[-last:]))
            self.assertIn("wall", printed[-last - 1])


class Dependencies(Folder):
    def installs(self, user, *commands):
        """Runs the tool where there are these commands alone beside those of every system, and returns what it says and does."""
        path = self.folder / f"{user}{len(commands)}"
        path.mkdir()
        for name, body in [*commands, ("id", f"echo {user}")]:
            (path / name).write_text(f"#!/bin/bash\n{body}\n")
            (path / name).chmod(0o755)
        (path / "bash").symlink_to("/bin/bash")
        words = path / "words"
        ran = self.runs("/bin/bash", TOP / "tools" / "dependencies", env={"PATH": str(path), "WORDS": str(words)})
        self.assertEqual((ran.returncode, ran.stdout), (0, b""), ran.stderr)
        return ran.stderr.decode(), words.read_text().splitlines() if words.exists() else []

    def test_root_installs_one_by_one_what_is_not_there(self):
        said, words = self.installs(0, ("dpkg-query", DPKG_QUERY), ("apt-get", APT_GET))
        self.assertIn("neovim can't be installed\n", said)
        self.assertNotIn("mandoc can't be installed\n", said)
        installed = [line.split()[-1] for line in words[1:]]
        self.assertTrue(words[0].endswith(" update"))
        self.assertLess({"mandoc", "neovim", "wget"}, set(installed))
        self.assertNotIn("curl", installed)

    def test_others_are_told_what_is_missing(self):
        for user, commands in (1000, [("dpkg-query", DPKG_QUERY), ("apt-get", APT_GET)]), (0, []):
            with self.subTest(user):
                said, words = self.installs(user, *commands)
                self.assertRegex(said, r"aren't installed.*: .*\bneovim\b")
                self.assertEqual(words, [])


if __name__ == "__main__":
    unittest.main()
