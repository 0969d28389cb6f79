"""What may not be read is a row with its reason, and the run goes on: as an ordinary user, which root becomes for it. And
all that bench/archives/verify.py looks at, as that user."""
import os
import pathlib
import shutil
import subprocess
import sys
import tempfile
import unittest

from checkout import BUILT, CLIENTS, INDEXES, PROGRAM, TOP

sys.path.insert(0, str(TOP / "bench" / "archives"))
import runs  # noqa: E402

# The user and the group nobody, as Linux numbers them.
NOBODY = 65534
IS_ROOT = os.geteuid() == 0
AS_USER = ["setpriv", f"--reuid={NOBODY}", f"--regid={NOBODY}", "--clear-groups"] if IS_ROOT else []
ENVIRONMENT = {**os.environ, "PYTHONPATH": str(CLIENTS), "PYTHONDONTWRITEBYTECODE": "1"}


# (what setpriv itself runs may be out of the user's reach)
CAN_RUN = ("import os, sys; os.access(sys.argv[1], os.X_OK) or sys.exit(1); "
           "os.execv(sys.executable, [sys.executable, '-c', 'import legacy, unittest'])")


def works(python):
    """Whether the user can run this interpreter, this checkout and the program."""
    try:
        ran = subprocess.run([*AS_USER, python, "-c", CAN_RUN, PROGRAM], env=ENVIRONMENT, stdout=subprocess.DEVNULL, stderr=subprocess.DEVNULL)
    except OSError:
        return False
    return ran.returncode == 0


@BUILT
class OrdinaryUser(unittest.TestCase):
    @classmethod
    def setUpClass(cls):
        if IS_ROOT and not shutil.which("setpriv"):
            raise unittest.SkipTest("there is no setpriv (Debian's util-linux), by which root becomes an ordinary user")
        cls.python = next(filter(works, (sys.executable, runs.SYSTEM)), None)
        if not cls.python:
            raise unittest.SkipTest("an ordinary user can't read this checkout, or can't run Python or the program")

    def setUp(self):
        kept = tempfile.TemporaryDirectory()
        self.addCleanup(kept.cleanup)
        self.folder = pathlib.Path(kept.name)
        if IS_ROOT:
            os.chown(self.folder, NOBODY, NOBODY)

    def run_as_user(self, *words):
        """What a script printed as the user, on both streams, and its status."""
        ran = subprocess.run(
            [*AS_USER, self.python, *map(str, words)], env={**ENVIRONMENT, "HOME": str(self.folder)}, cwd=self.folder,
            stdout=subprocess.PIPE, stderr=subprocess.PIPE)
        return ran.stdout.decode(), ran.stderr.decode(), ran.returncode

    def legacy(self, subcommand, *words):
        return self.run_as_user("-m", "legacy", subcommand, "--gate", PROGRAM, "--indexes", INDEXES, "-e", "*.txt=shift_jis", *words)

    def test_what_is_printed_and_the_status(self):
        tree = self.folder / "tree"
        for name in "closed.txt", "listed/a.txt", "sealed/a.txt", "z.txt":
            path = tree / name
            path.parent.mkdir(parents=True, exist_ok=True)
            path.write_bytes(b"A\xffB\n")
        for name, mode in ("closed.txt", 0), ("listed", 0o444), ("sealed", 0):
            (tree / name).chmod(mode)
        denied = [f"{tree}/{it}: not %s: Permission denied\n" for it in ("closed.txt", "listed/a.txt", "sealed")]
        damage = f"{tree}/z.txt:1:2: bytes 1 to 2: ff: A\ufffdB\n"
        self.assertEqual(self.legacy("check", tree), (
            "".join(denied) % (("checked",) * 3) + damage, "0 files clean; 1 damaged, with 1 error; 3 not checked\nShift_JIS: 1 error, 25 % of 4 characters; bytes ff 1\n", 2))
        self.assertEqual(self.legacy("search", "B", tree), (
            f"{tree}/z.txt:1:3: bytes 2 to 3: A\ufffdB\n", "".join(denied) % (("searched",) * 3), 2))
        converted = f"{tree}/z.txt: not converted: 1 error, the first in line 1, character 2, bytes 1 to 2\n"
        self.assertEqual(self.legacy("convert", "--to", "utf-8", tree, self.folder / "out"), (
            "".join(denied) % (("converted",) * 3) + converted, "0 files converted; 4 refused\n", 1))
        self.assertEqual(self.legacy("check", tree / "sealed")[::2], (f"{tree}/sealed: not checked: Permission denied\n", 2))

    def test_files_of_rules(self):
        for name in ".gitattributes", ".editorconfig", "a.jp":
            (self.folder / name).write_bytes(b"*.jp working-tree-encoding=shift_jis\n")
        for name in ".gitattributes", ".editorconfig":
            (self.folder / name).chmod(0)
        printed, said, status = self.legacy("check", "--editorconfig", "-v", self.folder)
        self.assertIn(f"{self.folder}/a.jp: not checked, no rule names its encoding\n", printed)
        self.assertEqual((said.splitlines()[:2], status), (
            [f"legacy: {name}: Permission denied, and so it is left out" for name in (".gitattributes", ".editorconfig")], 2))

    def test_a_whole_tree(self):
        bench = TOP / "bench" / "archives"
        said = self.run_as_user(bench / "tree.py", "--files", 66, "--largest", 6000, "--indexes", INDEXES, self.folder)
        self.assertEqual(said[1:], ("", 0))
        printed, said, status = self.run_as_user(bench / "verify.py", "--gate", PROGRAM, "--indexes", INDEXES, self.folder)
        self.assertEqual((said, status), ("", 0), printed)
        self.assertIn(", 7 that can't be looked at, of which 3 may not be)", printed)


if __name__ == "__main__":
    unittest.main()
