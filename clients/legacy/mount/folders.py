"""Folders that programs read."""
import os
import stat
import time
from typing import Dict, Iterable, List, NamedTuple, Optional, Tuple

from legacy.mount.ahead import ROOM, SMALL, Listing, Unmeasured
from legacy.mount.below import signature
from legacy.mount.tree import Node
from legacy.mount.view import View

# The seconds for which an entry is what it was found to be.
RECENT = 0.5


class Folder(NamedTuple):
    """A folder that a program reads: its inode, its entries as they were when it began, and those that are small texts. If one of them
    can't be looked at, `kinds` says which are folders and links. `thread` is the one that opened it."""

    node: Node
    entries: List[bytes]
    texts: Listing
    thread: int = 0
    kinds: Dict[bytes, int] = {}


def names_in(folder: bytes) -> List[bytes]:
    """The names of a folder's entries. `folder` is a path by a descriptor."""
    return os.listdir(folder)


def kinds_in(folder: bytes) -> Dict[bytes, int]:
    """The names with their kinds, as far as the folder itself says them."""
    with os.scandir(folder) as entries:
        return {it.name: stat.S_IFDIR if it.is_dir(follow_symlinks=False) else stat.S_IFLNK if it.is_symlink() else stat.S_IFREG for it in entries}


class Looks:
    """Entries of a folder that are looked at before a list says them, `most` of them, so that the lengths of its small texts are found
    out together. The kernel knows none of the files yet."""

    def __init__(self, view: View, most: int):
        self._view, self.most = view, most
        self._found: Dict[bytes, Tuple[Node, os.stat_result]] = {}
        self._began = time.monotonic()
        self._room = 0
        # Parts of the texts, each of which is decoded together.
        self.parts: List[List[Unmeasured]] = []

    def look(self, folder: bytes, names: Iterable[bytes]) -> None:
        """Looks at files of a folder."""
        view, tree, sizes = self._view, self._view.tree, self._view.reader.sizes
        if view.parts.is_some:
            names = [it for it in names if view.parts.of(os.path.join(folder, it)) is None]
        stats, before = view.stats(folder), folder + b"/" if folder else b""
        for name in names:
            path = before + name
            if path in tree.paths:
                continue
            try:
                found = stats(name)
            except OSError:
                continue
            if not stat.S_ISREG(found.st_mode):
                continue
            node = tree.at(path, found)
            self._found[name] = node, found
            rule = node.rule
            if rule and found.st_size <= SMALL and view.is_text(rule):
                current = signature(found)
                if sizes.get(current, rule.label) is None:
                    self._add(Unmeasured(path, rule.label, current), found.st_size)

    def _add(self, text: Unmeasured, size: int) -> None:
        if size > self._room:
            self.parts.append([])
            self._room = ROOM
        self.parts[-1].append(text)
        self._room -= size

    @property
    def age(self) -> float:
        """The seconds since the first of them was looked at."""
        return time.monotonic() - self._began

    def of(self, name: bytes) -> Optional[Tuple[Node, os.stat_result]]:
        """The inode of an entry and what it is, if it was looked at just now and the kernel still doesn't know it."""
        found = self._found.get(name)
        if found and found[0].lookups <= 0 and self._view.tree.nodes.get(found[0].ino) is found[0] and self.age < RECENT:
            return found
        return None

    def leave(self) -> None:
        """Forgets the files that aren't in the list after all."""
        for node, _ in self._found.values():
            if node.lookups <= 0:
                self._view.tree.forget(node.ino)
