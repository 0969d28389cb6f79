"""What a tree's files .gitignore and .ignore say isn't worth a look, as gitignore(5) has it. Those above the tree, and git's own exclude
files, aren't looked at."""
import functools
import os
import re
from typing import List, NamedTuple

from legacy.rules.attributes import Pattern

NAMES = (".gitignore", ".ignore")
# The most bytes of such a file, and the folders whose files are remembered.
LARGEST, FOLDERS = 1 << 20, 10_000


class Line(NamedTuple):
    """A line: its pattern, and whether it is of folders alone, and takes back what lines before it say."""

    pattern: Pattern
    is_of_folders: bool
    is_negated: bool


def parse_ignores(content: bytes) -> List[Line]:
    """The lines of such a file."""
    found = []
    for text in content.decode("latin-1").split("\n"):
        text = re.sub(r"(?<!\\)[ \t\r]+$", "", text)
        if not text or text.startswith("#"):
            continue
        is_negated = text.startswith("!")
        glob = text[1:] if is_negated else text
        if glob.strip("/"):
            found.append(Line(Pattern(glob.rstrip("/") if glob.endswith("/") else glob), glob.endswith("/"), is_negated))
    return found


class Ignores:
    """What a tree's files of this kind say."""

    def __init__(self, tree: str):
        self._tree = tree
        self._lines = functools.lru_cache(maxsize=FOLDERS)(self._read)

    def _read(self, folder: str) -> List[Line]:
        """The lines of a folder's files, of which the last that matches counts."""
        found: List[Line] = []
        for name in NAMES:
            try:
                number = os.open(os.path.join(self._tree, folder, name), os.O_RDONLY | os.O_NONBLOCK | os.O_NOFOLLOW | os.O_CLOEXEC)
            except OSError:
                continue
            with open(number, "rb") as file:
                try:
                    found += parse_ignores(file.read(LARGEST))
                except OSError:
                    continue
        return found

    def is_ignored(self, inside: str, is_folder: bool) -> bool:
        """Whether a file or a folder, by its path from the tree, is left out."""
        path, folder = os.fsencode(inside).decode("latin-1"), os.path.dirname(inside)
        while True:
            start = len(os.fsencode(os.path.join(folder, ""))) if folder else 0
            for line in reversed(self._lines(folder)):
                if (is_folder or not line.is_of_folders) and line.pattern.matches(path[start:]):
                    return not line.is_negated
            if not folder:
                return False
            folder = os.path.dirname(folder)
