"""What the tests of whole trees share: the program and its files, folders, and runs of `legacy`."""
import os
import pathlib
import subprocess
import sys
import tempfile
import unittest

from checkout import CLIENTS, INDEXES, PROGRAM, TOP
from legacy import finding
from legacy.work import Settings

sys.path.insert(0, str(TOP / "bench" / "archives"))
import tree  # noqa: E402

WORDS = [(f"*.{it.label}", it.label) for it in tree.ENCODINGS]


def settings(**more):
    """Settings over the small index files, by whose labels the rules of a tree's names go."""
    return Settings(**{"found": finding.Found(PROGRAM, INDEXES, None), "encoding": WORDS, "attributes": False, "jobs": 1, **more})


def run(*words):
    """What `legacy` printed on both streams, and its status."""
    ran = subprocess.run(
        [sys.executable, "-m", "legacy", *words, "--gate", PROGRAM, "--indexes", str(INDEXES)],
        env={**os.environ, "PYTHONPATH": str(CLIENTS), "PYTHONIOENCODING": "utf-8"}, stdout=subprocess.PIPE, stderr=subprocess.PIPE)
    return ran.stdout.decode(errors="surrogateescape"), ran.stderr.decode(), ran.returncode


class Folder(unittest.TestCase):
    """Tests with a folder of their own."""

    def setUp(self):
        kept = tempfile.TemporaryDirectory()
        self.addCleanup(kept.cleanup)
        self.folder = pathlib.Path(kept.name)

    def file(self, name, content):
        path = self.folder / name
        path.parent.mkdir(parents=True, exist_ok=True)
        path.write_bytes(content)
        return str(path)
