"""The guide, docs/GUIDE.md: its commands are run in an empty folder, by what tools/install installs, and each prints what the page
shows, as on a terminal: carriage returns aren't seen."""
import os
import pathlib
import re
import shutil
import subprocess
import tempfile
import unittest
from typing import Iterator, List, Tuple

import indexes
from checkout import PROGRAM, TOP
from mounts import PYTHON, WHY

PAGE = TOP / "docs" / "GUIDE.md"
# The seconds that one command may take, on a machine that has much else to do.
LIMIT = 100


def steps() -> Iterator[Tuple[int, str, str]]:
    """Each command of the page, with the number of its line and with what the page says that it prints."""
    text = PAGE.read_text(encoding="utf-8")
    for block in re.finditer(r"^```\n(\$ .*?)^```$", text, re.MULTILINE | re.DOTALL):
        for step in re.finditer(r"^\$ (.*)\n((?:(?!\$ ).*\n)*)", block[1], re.MULTILINE):
            yield text.count("\n", 0, block.start(1) + step.start()) + 1, step[1], step[2]


@unittest.skipIf(WHY, WHY)
@unittest.skipUnless(shutil.which("nvim"), "there is no nvim")
class Guide(unittest.TestCase):
    def setUp(self) -> None:
        kept = tempfile.TemporaryDirectory()
        self.addCleanup(kept.cleanup)
        self.home, self.folder = pathlib.Path(kept.name, "home"), pathlib.Path(kept.name, "folder")
        self.folder.mkdir()
        prefix = self.home / ".local"
        self.run_command([str(TOP / "tools" / "install"), str(prefix), "--python", str(PYTHON), "--gate", PROGRAM])
        standard = prefix / "share" / "gate" / "standard"
        standard.mkdir()
        # (the one index that the guide's encoding needs, so that the program starts fast)
        shutil.copy(indexes.folder() / "index-jis0208.txt", standard)
        self.addCleanup(lambda: subprocess.run(["fusermount3", "-u", "-z", str(self.folder / "text")], stderr=subprocess.DEVNULL, check=False))

    def run_command(self, words: List[str]) -> str:
        """What a command prints, on standard output and then on standard error, in the environment of who has just installed all."""
        names = ("GATE", "GATE_INDEXES", "GATE_LABELS", "GATE_MEMORY", "PYTHONPATH", "XDG_DATA_HOME", "XDG_CONFIG_HOME", "XDG_RUNTIME_DIR")
        environment = {name: value for name, value in os.environ.items() if name not in names}
        environment.update(
            HOME=str(self.home), XDG_STATE_HOME=str(self.home / "state"), XDG_CACHE_HOME=str(self.home / "cache"),
            PATH=f"{self.home / '.local' / 'bin'}:{os.environ['PATH']}", LANG="C.UTF-8", LC_ALL="C.UTF-8")
        ran = subprocess.run(
            words, cwd=self.folder, env=environment, timeout=LIMIT, stdin=subprocess.DEVNULL, stdout=subprocess.PIPE, stderr=subprocess.PIPE)
        return (ran.stdout + ran.stderr).decode().replace("\r\n", "\n")

    def test_each_command_prints_what_the_page_shows(self) -> None:
        found = list(steps())
        self.assertGreater(len(found), 20)
        for number, command, printed in found:
            with self.subTest(line=number, command=command):
                self.assertEqual(self.run_command(["bash", "-c", command]), printed)


if __name__ == "__main__":
    unittest.main()
