"""Which encodings git's attributes name in a tree: its own files of attributes, those of the repositories in and around
it, and those of the user and of the machine.

They are read here and not asked of `git check-attr`. That needs a repository, and a git that trusts its owner; it uses
paths that a mount may hide. And its process doesn't notice that a file of attributes has changed."""
import os
import subprocess
from typing import Callable, Dict, NamedTuple, Optional, Tuple

from legacy.rules.attributes import BUILT_IN, ENCODING, Attributes, Setting, encoding_of, parse_attributes
from legacy.rules.files import LARGEST, Held, Named, Place, Tree, Watched

OF_MACHINE = b"/etc/gitattributes"
# The most folders of which it is remembered which files count for them.
FOLDERS = 10_000


class Levels(NamedTuple):
    """The files of attributes that count for a folder, the one that counts most first. Each has its name for people,
    and the length of the path of the folder to which its patterns belong."""

    files: Tuple[Attributes, ...]
    names: Tuple[str, ...]
    starts: Tuple[int, ...]


def common_folder(place: Place) -> Optional[bytes]:
    """The folder of the repository whose top this folder is, where git keeps what all its work trees have in common."""
    try:
        os.stat(place.name(b".git/HEAD"), dir_fd=place.held.number)
        return b".git"
    except NotADirectoryError:
        return _linked_folder(place)
    except OSError:
        return None


def _linked_folder(place: Place) -> Optional[bytes]:
    """Git's folder of a linked work tree or a submodule, in which `.git` is a file."""
    try:
        key, _, folder = place.held.read(place.name(b".git")).rstrip(b"\r\n").partition(b": ")
        if key != b"gitdir":
            return None
        own = os.path.join(place.path, folder)
        try:
            return os.path.join(own, place.held.read(os.path.join(own, b"commondir")).rstrip(b"\r\n"))
        except FileNotFoundError:
            return own
    except OSError:
        return None


def configuration(tree: bytes, kind: str, key: str) -> Optional[bytes]:
    """The value in git's configuration of a tree, if there is a git, and a value."""
    try:
        ran = subprocess.run(
            ["git", "config", "-z", f"--type={kind}", "--get", key], cwd=tree,
            stdin=subprocess.DEVNULL, stdout=subprocess.PIPE, stderr=subprocess.DEVNULL)
    except OSError:
        return None
    return ran.stdout.rstrip(b"\0") if ran.returncode == 0 else None


def of_user(tree: bytes) -> Optional[bytes]:
    """The user's file of attributes."""
    named = configuration(tree, "path", "core.attributesFile")
    if named is not None:
        return os.path.join(tree, named) if named else None
    folder = os.environb.get(b"XDG_CONFIG_HOME") or os.path.expanduser(b"~/.config")
    return os.path.join(folder, b"git", b"attributes")


class Repositories:
    """The attributes of a tree's files."""

    def __init__(self, tree: Tree, report: Callable[[str], None]):
        self._tree, self._report = tree, report
        self._watched: Dict[Tuple[bytes, bool], Watched[Attributes]] = {}
        self._levels: Dict[bytes, Tuple[int, Levels]] = {}
        # (as git sets it where it makes a repository on a file system that knows no difference)
        self._folds = configuration(tree.path, "bool", "core.ignoreCase") == b"true"
        outside = [of_user(tree.path), None if os.environ.get("GIT_ATTR_NOSYSTEM") else OF_MACHINE]
        self._outside = [self._watch_outside(path) for path in outside if path]

    def find_encoding(self, path: bytes, turn: int) -> Optional[Named]:
        """What the attributes say of a file's encoding, if anything."""
        levels = self.levels(os.path.dirname(path), turn)
        found = self.setting(path, levels)
        if found is None or found.value in (None, ""):
            return None
        origin = f"{levels.names[found.file]}:{found.line.number}"
        if found.value is True:
            self._report(f"{origin}: {ENCODING} has no value; its files pass as bytes")
        return Named(found.value if isinstance(found.value, str) else None, origin, found.line.pattern.glob)

    def setting(self, path: bytes, levels: Levels) -> Optional[Setting]:
        """What sets a file's attribute, by the levels of its folder."""
        whole = os.path.join(self._tree.path, path).decode("latin-1")
        return encoding_of(levels.files, [whole[start:] for start in levels.starts])

    def levels(self, folder: bytes, turn: int) -> Levels:
        """The files of attributes that count for a folder."""
        kept = self._levels.get(folder)
        if not kept or kept[0] != turn:
            if len(self._levels) >= FOLDERS:
                self._levels.clear()
                self._watched.clear()
            kept = self._levels[folder] = turn, self._levels_of(folder, turn)
        return kept[1]

    def _levels_of(self, folder: bytes, turn: int) -> Levels:
        chain = self._tree.chain(folder)
        found = ((at, common) for at, common in enumerate(map(common_folder, chain)) if common)
        at, common = next(found, (chain.index(self._tree.top), None))
        top = chain[at]
        watched = [self._watch(place, b".gitattributes", place is top) for place in chain[: at + 1]]
        starts = [len(os.path.join(place.path, b"")) for place in chain[: at + 1]]
        if common:
            watched.insert(0, self._watch(top, os.path.join(common, b"info", b"attributes"), True))
            starts.insert(0, starts[-1])
        watched += self._outside
        starts += [starts[-1]] * (len(self._outside) + 1)
        names = (*(self._tree.display_path(it.path) for it in watched), "")
        return Levels((*(it.content(turn) for it in watched), BUILT_IN), names, tuple(starts))

    def _watch(self, place: Place, name: bytes, macros: bool) -> "Watched[Attributes]":
        key = os.path.join(place.path, name), macros
        if key not in self._watched:
            # (git doesn't follow a link from the tree, which may lead out of it)
            self._watched[key] = Watched(place, name, self._parser(key[0], macros), self._reporter(key[0]), name != b".gitattributes")
        return self._watched[key]

    def _watch_outside(self, path: bytes) -> "Watched[Attributes]":
        folder, name = os.path.split(path)
        try:
            place: Optional[Place] = Place(Held(folder), b"", folder)
        except OSError:
            place = None
        return Watched(place, name, self._parser(path, True), self._reporter(path))

    def _reporter(self, path: bytes) -> Callable[[str], None]:
        return lambda why: self._report(f"{self._tree.display_path(path)}: {why}")

    def _parser(self, path: bytes, macros: bool) -> Callable[[bytes], Attributes]:
        def parse(content: bytes) -> Attributes:
            if len(content) > LARGEST:
                self._report(f"{self._tree.display_path(path)}: is larger than {LARGEST} bytes, and is left out")
                return Attributes()
            found = parse_attributes(content, macros, self._folds)
            for faulty in found.faulty:
                self._report(f"{self._tree.display_path(path)}:{faulty.number}: {faulty.why}")
            return found
        return parse
