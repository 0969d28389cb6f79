"""Files that say rules, in a tree and above it, each parsed again once it has changed.

Folders are held by descriptors, taken when the tree is opened, and files are opened from these. So a mount over the tree,
or over a folder above it, hides none of them from the process that serves it."""
import os
import stat
import time
import weakref
from typing import Callable, Generic, List, NamedTuple, Optional, Tuple, TypeVar, Union

# The most bytes of a file of rules. (git's own limit is 100 MiB, of which Python would make gigabytes.)
LARGEST = 4 * 1024 * 1024
# A file that changed as lately as this, in nanoseconds, may change again and have the same dates.
LATELY = 100_000_000
# Some file systems keep one time for two seconds or for each second, and are known by that.
COARSE = 2_000_000_000, 1_000_000_000

Parsed = TypeVar("Parsed")


class Named(NamedTuple):
    """What a line says of a file's encoding: its name, or None if it is said to be none. It has the place of the line,
    and its pattern."""

    name: Optional[str]
    origin: str
    glob: str


class Held:
    """A folder that is held by a descriptor of this process."""

    def __init__(self, folder: Union[bytes, int]):
        flags = os.O_PATH | os.O_DIRECTORY | os.O_CLOEXEC
        self.number = os.dup(folder) if isinstance(folder, int) else os.open(folder, flags)
        weakref.finalize(self, os.close, self.number)

    def read(self, name: bytes, follow: bool = True) -> bytes:
        """The bytes of a file below, at most one more than the limit. Raises `OSError` if there is none."""
        flags = os.O_RDONLY | os.O_CLOEXEC | os.O_NONBLOCK | (0 if follow else os.O_NOFOLLOW)
        with open(os.open(name, flags, dir_fd=self.number), "rb") as file:
            return file.read(LARGEST + 1)


class Place(NamedTuple):
    """A folder: the held one that it is below, its path from there, and its real path."""

    held: Held
    below: bytes
    path: bytes

    def name(self, of: bytes) -> bytes:
        """The name of a file in it, from the held folder."""
        return os.path.join(self.below, of)


class Watched(Generic[Parsed]):
    """What a file says, or what no file does. `report` is called with why one that is there can't be read."""

    def __init__(
        self, place: Optional[Place], name: bytes, parse: Callable[[bytes], Parsed], report: Callable[[str], None], follow: bool = True
    ):
        self._place, self._name, self._parse, self._report, self._follow = place, name, parse, report, follow
        self._nothing = self._found = parse(b"")
        self._signature: Optional[Tuple[int, ...]] = None
        self._turn = -1

    @property
    def path(self) -> bytes:
        """Where the file is, or would be."""
        return os.path.join(self._place.path if self._place else b"", self._name)

    def content(self, turn: int) -> Parsed:
        """What the file says, looked at once in each turn."""
        if turn != self._turn and self._place:
            self._look(self._place)
            self._turn = turn
        return self._found

    def _look(self, place: Place) -> None:
        name = place.name(self._name)
        try:
            status = os.stat(name, dir_fd=place.held.number, follow_symlinks=self._follow)
            if not stat.S_ISREG(status.st_mode):
                raise OSError
            signature = (status.st_dev, status.st_ino, status.st_size, status.st_mtime_ns, status.st_ctime_ns)
            if signature != self._signature:
                self._found = self._parse(self._read(place, name))
                self._signature = signature if has_settled(status.st_ctime_ns) else None
        except OSError:
            self._found, self._signature = self._nothing, None

    def _read(self, place: Place, name: bytes) -> bytes:
        try:
            return place.held.read(name, self._follow)
        except PermissionError as fault:
            self._report(f"{fault.strerror}, and so it is left out")
            raise


def has_settled(changed: int) -> bool:
    """Whether a file that was changed at a time would have another one if it changed again."""
    return time.time_ns() - changed > LATELY + next((it for it in COARSE if not changed % it), 0)


class Tree:
    """The folders of a tree, by their paths from its top, and those above it."""

    def __init__(self, source: Union[str, bytes, "os.PathLike[str]", int]):
        held = Held(source if isinstance(source, int) else os.fsencode(source))
        self.path = os.readlink(f"/proc/self/fd/{held.number}".encode())
        self.top = Place(held, b"", self.path)
        self.above = self._above()

    def _above(self) -> List[Place]:
        """The folders above, the nearest first, as far as they may be opened."""
        found: List[Place] = []
        path = self.path
        while path != b"/":
            path = os.path.dirname(path)
            try:
                found.append(Place(Held(path), b"", path))
            except OSError:
                break
        return found

    def chain(self, folder: bytes) -> List[Place]:
        """A folder of the tree and those that it is in, the nearest first, up to the top of all."""
        found = []
        while folder:
            found.append(Place(self.top.held, folder, os.path.join(self.path, folder)))
            folder = os.path.dirname(folder)
        return [*found, self.top, *self.above]

    def display_path(self, path: bytes) -> str:
        """A file's path as people are shown it: from the tree's top where it is in the tree."""
        top = os.path.join(self.path, b"")
        return os.fsdecode(path[len(top) :] if path.startswith(top) else path)
