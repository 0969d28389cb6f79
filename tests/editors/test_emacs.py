"""editors/emacs: the library compiles without a warning, and its tests pass in an Emacs without a screen."""
import os
import pathlib
import shutil
import subprocess
import sys
import tempfile
import unittest
from typing import Dict, List

sys.path.insert(0, str(pathlib.Path(__file__).resolve().parent.parent))
from base import BUILT, LIMIT, PROGRAM, TOP

INDEXES = pathlib.Path(os.environ.get("INDEXES", TOP / "standard"))
LIBRARY = TOP / "editors" / "emacs"
TESTS = TOP / "tests" / "editors" / "emacs"
# Where Debian has eglot for an Emacs that lacks it.
PACKAGES = sorted(map(str, pathlib.Path("/usr/share/emacs/site-lisp/elpa").glob("*")))

# The tests besides one for each file.
OTHERS = 9


def emacs(words: List[str], **variables: str) -> "subprocess.CompletedProcess[str]":
    """What Emacs prints without a screen and without a user's settings."""
    environment: Dict[str, str] = {**os.environ, **variables}
    return subprocess.run(
        ["emacs", "--batch", "-Q", *(word for path in [str(LIBRARY), str(TESTS), *PACKAGES] for word in ("-L", path)), *words], env=environment, stdin=subprocess.DEVNULL,
        stdout=subprocess.PIPE, stderr=subprocess.STDOUT, timeout=LIMIT * 3, universal_newlines=True, check=False)


@unittest.skipUnless(shutil.which("emacs"), "there is no emacs")
class Emacs(unittest.TestCase):
    def setUp(self) -> None:
        made = tempfile.TemporaryDirectory()
        self.addCleanup(made.cleanup)
        self.folder = pathlib.Path(made.name).resolve()

    def test_it_compiles_without_a_warning(self) -> None:
        copy = shutil.copy(LIBRARY / "legacy.el", self.folder)
        ran = emacs(["--eval", "(setq byte-compile-error-on-warn t)", "-f", "batch-byte-compile", str(copy)])
        self.assertEqual((ran.returncode, ran.stdout), (0, ""))

    def test_its_documentation_is_in_the_form_of_emacs(self) -> None:
        ran = emacs(["--eval", "(setq checkdoc-verb-check-experimental-flag nil)", "--eval", f'(checkdoc-file "{LIBRARY}/legacy.el")'])
        self.assertEqual((ran.returncode, ran.stdout), (0, ""))

    @BUILT
    @unittest.skipUnless((INDEXES / "index-jis0208.txt").exists(), "there are no index files")
    def test_files_are_saved_byte_for_byte(self) -> None:
        subprocess.run([sys.executable, str(TOP / "editors" / "damage" / "files.py"), str(self.folder)], check=True)
        rows = [line.split() for line in (self.folder / "list").read_text(encoding="utf-8").splitlines()]
        rules = [word for name, label in rows for word in ("-e", f"*.{name}={label}")]
        words = [sys.executable, "-m", "legacy", "lsp", "--gate", PROGRAM, "--indexes", str(INDEXES), *rules]
        ran = emacs(
            ["-l", "legacy-tests", "-f", "ert-run-tests-batch-and-exit"], LEGACY_COMMAND="\n".join(words), LEGACY_FILES=str(self.folder),
            PYTHONPATH=str(TOP / "clients"))
        self.assertEqual(ran.returncode, 0, ran.stdout)
        self.assertIn(f"Ran {len(rows) + OTHERS} tests, {len(rows) + OTHERS} results as expected", ran.stdout)


if __name__ == "__main__":
    unittest.main()
