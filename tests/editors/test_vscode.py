"""editors/vscode, in Node: the extension's own code over the real server, with stand-ins for what VS Code gives it."""
import json
import os
import pathlib
import shutil
import subprocess
import sys
import tempfile
import unittest

sys.path.insert(0, str(pathlib.Path(__file__).resolve().parent.parent))
from base import BUILT, LIMIT, PROGRAM, TOP

INDEXES = pathlib.Path(os.environ.get("INDEXES", TOP / "standard"))
TESTS = TOP / "tests" / "editors" / "vscode"


def has_test_runner() -> bool:
    """Whether there is a Node with a test runner, as it has from version 18 on."""
    node = shutil.which("node")
    return bool(node) and subprocess.run([str(node), "-e", "require('node:test')"], stderr=subprocess.DEVNULL, check=False).returncode == 0


@BUILT
@unittest.skipUnless(has_test_runner(), "there is no node, or it has no test runner")
@unittest.skipUnless((INDEXES / "index-jis0208.txt").exists(), "there are no index files")
class Extension(unittest.TestCase):
    def test_in_node(self) -> None:
        with tempfile.TemporaryDirectory() as folder:
            words = [sys.executable, "-m", "legacy", "lsp", "--gate", PROGRAM, "--indexes", str(INDEXES), "-e", "*.sjis=shift_jis"]
            environment = {
                **os.environ, "LEGACY_COMMAND": json.dumps(words), "LEGACY_FILES": os.path.realpath(folder), "PYTHONPATH": str(TOP / "clients")}
            ran = subprocess.run(
                ["node", "--test", str(TESTS / "extension.test.js")], env=environment, stdin=subprocess.DEVNULL, stdout=subprocess.PIPE,
                stderr=subprocess.STDOUT, timeout=LIMIT * 3, universal_newlines=True, check=False)
            self.assertEqual(ran.returncode, 0, ran.stdout)
            self.assertRegex(ran.stdout, r"# pass 7\b")


if __name__ == "__main__":
    unittest.main()
