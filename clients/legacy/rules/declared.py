"""Encodings that files name themselves, near their beginning: Emacs and PEP 263, Vim, XML, HTML, CSS, PO and MIME, and hunspell."""
import os
import re
import stat
from typing import List, Optional, Pattern, Tuple

from legacy.rules.files import Named, Tree

# How many bytes at the beginning of a file are looked at.
HEAD = 4096
NAME = rb"([A-Za-z0-9][-A-Za-z0-9_.:+]*)"
# What names an encoding, and how. Each is looked for in as many lines as it may be in, or in the whole head (0).
FORMS: List[Tuple[str, int, Pattern[bytes]]] = [
    ("its XML declaration", 1, re.compile(rb"\A(?:\xef\xbb\xbf)?<\?xml\s[^>]*?\bencoding\s*=\s*[\"']" + NAME)),
    ("its @charset", 1, re.compile(rb"\A@charset \"" + NAME + rb"\"")),
    ("its coding:", 2, re.compile(rb"-\*-.*?\bcoding:\s*" + NAME + rb".*?-\*-|^[ \t\f]*#.*?coding[:=][ \t]*" + NAME, re.MULTILINE)),
    ("its modeline", 5, re.compile(rb"\bvim?:.*?\b(?:fileencoding|fenc)=" + NAME)),
    ("its meta element", 0, re.compile(rb"<meta\s[^>]*?\bcharset\s*=\s*[\"']?\s*" + NAME, re.IGNORECASE)),
    ("its Content-Type", 0, re.compile(rb"^\"?Content-Type:[^\n]*(?:\n[ \t][^\n]*)*?;\s*charset=\"?" + NAME, re.IGNORECASE | re.MULTILINE)),
    ("its SET", 0, re.compile(rb"^SET[ \t]+" + NAME + rb"[ \t]*\r?$", re.MULTILINE)),
]


def declaration_in(head: bytes) -> Optional[Tuple[str, str]]:
    """The encoding that the beginning of a file names, and how. (A file with NUL isn't text in which names are ASCII.)"""
    if b"\0" in head:
        return None
    lines = head.split(b"\n", 5)
    for how, count, form in FORMS:
        found = form.search(b"\n".join(lines[:count]) if count else head)
        if found:
            name = next(filter(None, found.groups()))
            return re.sub(b"-(unix|dos|mac)$", b"", name).decode("ascii"), how
    return None


class Declared:
    """What the files of a tree name themselves."""

    def __init__(self, tree: Tree):
        self._tree = tree

    def find_encoding(self, path: bytes, _: int) -> Optional[Named]:
        """What a file names, if anything."""
        found = declaration_in(self._head(path))
        return Named(found[0], f"{found[1]} {found[0]}", "*") if found else None

    def _head(self, path: bytes) -> bytes:
        try:
            number = os.open(path, os.O_RDONLY | os.O_NONBLOCK | os.O_NOCTTY | os.O_CLOEXEC, dir_fd=self._tree.top.held.number)
        except OSError:
            return b""
        try:
            return os.read(number, HEAD) if stat.S_ISREG(os.fstat(number).st_mode) else b""
        except OSError:
            return b""
        finally:
            os.close(number)
