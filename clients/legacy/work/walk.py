"""The entries of trees: each file, in an order that depends on names alone, and each thing that isn't one, with the
reason."""
import os
import stat
from typing import Callable, Dict, Iterator, List, NamedTuple, Sequence, Tuple

from legacy.finding import Missing

# The tree that is standard input. (A file of that name is ./-.)
STDIN = "-"
# Git's own files in `.git` aren't files of the tree.
HIDDEN = ".git"

# A link in a tree is passed over, unless links are followed.
UNFOLLOWED = "a symlink, which isn't followed"
KINDS = [
    (stat.S_ISLNK, UNFOLLOWED), (stat.S_ISFIFO, "a FIFO"), (stat.S_ISSOCK, "a socket"),
    (stat.S_ISCHR, "a device"), (stat.S_ISBLK, "a device")]


class Entry(NamedTuple):
    """A file, by the tree it is in and its path from there, or otherwise why it isn't one."""

    tree: str
    inside: str
    size: int
    time: int  # of its last change, in nanoseconds
    fault: str = ""
    is_link: bool = False

    @property
    def path(self) -> str:
        """The path as it is opened."""
        return os.path.join(self.tree, self.inside)


# A folder by its device and number: those above a folder tell whether a link circles.
Chain = Tuple[Tuple[int, int], ...]


def walk(trees: Sequence[str], follow: bool = False, ignores: bool = False) -> Iterator[Entry]:
    """All entries of these folders and files, folder by folder in the order of the names' bytes. A link is followed if it is
    a tree itself, and others if `follow` says so, except those that lead back. If `ignores` says so, what files .gitignore
    leave out isn't an entry."""
    for tree in trees:
        if tree == STDIN:
            yield Entry("", STDIN, 0, 0)
            continue
        try:
            is_folder = stat.S_ISDIR(os.stat(tree).st_mode)
        except OSError as fault:
            yield Entry(*os.path.split(tree), 0, 0, reason(fault))
            continue
        if is_folder:
            yield from _below(tree, follow, _ignores(tree) if ignores else lambda *_: False)
        else:
            yield entry_of(tree)


def look_apart(trees: Sequence[str]) -> None:
    """Raises `Missing` if a tree is named twice or lies in another, so that its files would be met twice."""
    from pathlib import PurePath

    named: Dict[PurePath, str] = {}
    for tree in trees:
        path = PurePath(os.path.abspath(tree))
        if path in named:
            raise Missing(f"{tree} is named twice")
        named[path] = tree
    for path, tree in named.items():
        above = next((it for it in path.parents if it in named and os.path.isdir(it)), None)
        if above:
            raise Missing(f"{tree} lies in {named[above]}, with which its files are met")


def entry_of(path: str) -> Entry:
    """The entry at a path alone, or at the end of a link there: a file, or why it isn't one, for example a folder."""
    entry, status = _entry(*os.path.split(path), True)
    return entry._replace(fault="a folder") if stat.S_ISDIR(status.st_mode) else entry


def reason(fault: OSError) -> str:
    """What a fault of the system says."""
    return fault.strerror or str(fault)


def _ignores(tree: str) -> Callable[[str, bool], bool]:
    from legacy.work.ignores import Ignores

    return Ignores(tree).is_ignored


def _below(tree: str, follow: bool, is_ignored: Callable[[str, bool], bool]) -> Iterator[Entry]:
    """Everything below a folder; no call for each level, since folders may be nested deeper than calls."""
    open_folders: List[Tuple[Iterator[str], Chain]] = []
    inside, chain = "", _identity(os.stat(tree))
    try:
        open_folders.append((iter(_names(tree, "")), chain))
    except OSError as fault:
        yield Entry(*os.path.split(tree), 0, 0, reason(fault))
    while open_folders:
        names, chain = open_folders[-1]
        inside = next(names, "")
        if not inside:
            open_folders.pop()
            continue
        entry, status = _entry(tree, inside, follow)
        if is_ignored(inside, stat.S_ISDIR(status.st_mode)):
            continue
        if entry.fault or not stat.S_ISDIR(status.st_mode):
            yield entry
        elif entry.is_link and _identity(status)[0] in chain:
            yield entry._replace(fault="a symlink that circles")
        else:
            try:
                open_folders.append((iter(_names(tree, inside)), chain + _identity(status)))
            except OSError as fault:
                yield Entry(tree, inside, 0, 0, reason(fault))


def _names(tree: str, inside: str) -> List[str]:
    names = (it for it in os.listdir(os.path.join(tree, inside)) if it != HIDDEN)
    return [os.path.join(inside, it) for it in sorted(names, key=os.fsencode)]


def _identity(status: os.stat_result) -> Chain:
    return ((status.st_dev, status.st_ino),)


def _entry(tree: str, inside: str, follow: bool) -> Tuple[Entry, os.stat_result]:
    """What is at a path, and its status."""
    path = os.path.join(tree, inside)
    status = os.stat_result([0] * 10)
    try:
        status = os.lstat(path)
        is_link = stat.S_ISLNK(status.st_mode)
        if is_link and follow:
            status = os.stat(path)
    except OSError as fault:
        return Entry(tree, inside, 0, 0, reason(fault)), status
    kind = next((text for holds, text in KINDS if holds(status.st_mode)), "")
    return Entry(tree, inside, status.st_size, status.st_mtime_ns, kind, is_link), status
