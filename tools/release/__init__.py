"""What the packages of one version are made from: the proved program, its commit, and the files of an installation."""
import hashlib
import os
import pathlib
import re
import subprocess
from typing import Iterator, List, NamedTuple

import contents
from contents import File
from crates import TOP

VERSION = re.compile(r'^const VERSION: &str = "([\d.]+) \(logic (\w+)\)";$', re.MULTILINE)
# The pages that a package has: those for users, operators, and authors of clients.
PAGES = ("README.md", "CHANGELOG.md", "SECURITY.md", "docs/*.md", "docs/*.svg", "docs/reference/*.md", "docs/*.schema.json")


class Refused(Exception):
    """Why no package is made."""


def sum_of(content: bytes) -> str:
    return hashlib.sha256(content).hexdigest()


def git(*words: str) -> str:
    return subprocess.run(["git", *words], cwd=TOP, stdout=subprocess.PIPE, check=True).stdout.decode().strip()


class Release(NamedTuple):
    """A version: its number, the commit that it was made from, the time of all files in seconds since 1970, and the program."""

    version: str
    commit: str
    date: int
    program: bytes

    @staticmethod
    def here() -> "Release":
        """The version of this repository, whose program is proved and built first if it isn't yet."""
        if subprocess.run([TOP / "gate"], stdin=subprocess.DEVNULL, check=False).returncode:
            raise Refused("the program isn't built")
        changed = git("status", "--porcelain", "--untracked-files=no")
        if changed and not os.environ.get("GATE_UNCOMMITTED"):
            raise Refused("there are changes that aren't committed; GATE_UNCOMMITTED=1 makes a package of them for a test")
        found = VERSION.search((TOP / "crates" / "command_line" / "src" / "form.rt").read_text(encoding="utf-8"))
        if not found:
            raise Refused("crates/command_line/src/form.rt names no version")
        date = os.environ.get("SOURCE_DATE_EPOCH") or git("log", "-1", "--format=%ct")
        commit = git("rev-parse", "HEAD") + (" and uncommitted changes" if changed else "")
        return Release(found[1], commit, int(date), (TOP / "crates" / "gate" / "out" / "gate").read_bytes())

    def common_files(self) -> Iterator[File]:
        """The files that both packages have at the same place below their prefix."""
        yield File(contents.PROGRAM, self.program, True)
        yield from contents.manuals()
        yield from contents.standard()
        yield from contents.completions()
        yield from contents.plugin()
        yield from contents.editors()

    def pages(self) -> List[pathlib.Path]:
        """The pages, by their paths in the repository."""
        return sorted(path for form in PAGES for path in TOP.glob(form))
