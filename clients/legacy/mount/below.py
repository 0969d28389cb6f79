"""The tree below: files as the source has them, by descriptors of the folders that they lie in."""
import collections
import contextlib
import ctypes
import errno
import itertools
import os
import re
import threading
import time
from typing import Any, Callable, ContextManager, Deque, Dict, Iterator, List, NamedTuple, Optional, Tuple, TypeVar, Union

from legacy.mount.beneath import ALWAYS, NEVER_WAITING, check_regular, opened_beneath

# How names of files begin that are being written; a process and a number follow, and where a file is written in place, its
# name. They are known again by all of that, since other names that begin so are a user's.
NEW, OLD, END = b".legacy-new-", b".legacy-old-", b".legacy-end-"
OURS = re.compile(rb"\.legacy-(?:new-\d+-\d+|old-(?P<number>\d+-\d+)-(?P<whole>.+)|end-\d+-\d+-(?P<size>\d+)-(?P<longer>.+))", re.DOTALL)
# How such names of the plugin for Neovim are made, which removes its own.
PLUGINS = re.compile(rb"\.legacy-\d+-\d+")
# The nanoseconds within which two changes of a file may bear one time. Other file systems keep one time for each
# second (ext4 with small inodes, HFS+, sshfs), or for two (vfat).
TICK, SECOND = 20_000_000, 1_000_000_000
COARSE = 2 * SECOND, SECOND
# Why a file isn't written.
CHANGED = "the file below was changed by someone else meanwhile"
# When a file was changed that there isn't.
NEVER = -1
# How many folders are held open for the next request, and the seconds for which each is what its path leads to.
FOLDERS, AT_ONCE = 64, 0.02
# The most bytes of a file's name.
LONGEST_NAME = 255

_system = ctypes.CDLL(None, use_errno=True)
_system.lgetxattr.argtypes = ctypes.c_char_p, ctypes.c_char_p, ctypes.c_void_p, ctypes.c_size_t
_system.lgetxattr.restype = ctypes.c_ssize_t
_numbers = itertools.count()
Found = TypeVar("Found")


class Signature(NamedTuple):
    """What a file's bytes are known again by."""

    device: int
    inode: int
    size: int
    modified: int
    changed: int


def signature(found: os.stat_result) -> Signature:
    """The signature of a file."""
    return Signature(found.st_dev, found.st_ino, found.st_size, found.st_mtime_ns, found.st_ctime_ns)


class Reading(NamedTuple):
    """A file's bytes as they were read, with their signature, and whether another change of the file would give it another
    one. If it wouldn't, the bytes are compared before they are treated as the file's again."""

    signature: Signature
    raw: bytes
    settled: bool


def steady(file: int) -> Reading:
    """A file's bytes, with the signature that it had before and after; after some tries the one that it had after."""
    behind = signature(check_regular(file))
    for _ in range(4):
        before, began = behind, time.time_ns()
        content = os.pread(file, before.size + 1, 0)
        if len(content) < before.size:
            content = read_at(file, before.size + 1)
        if len(content) > before.size:
            with open(file, "rb", buffering=0, closefd=False) as whole:
                whole.seek(0)
                content = whole.readall()
        behind = signature(os.fstat(file))
        if before == behind:
            break
    return Reading(behind, content, before == behind and began - behind.changed > tick(behind.changed))


def tick(changed: int) -> int:
    """The nanoseconds within which another change of a file that was changed at a time may bear the same one. (File systems
    that keep whole seconds are known by that.)"""
    return TICK if changed % SECOND else TICK + next(it for it in COARSE if not changed % it)


def steady_beneath(folder: int, path: bytes) -> Reading:
    """The bytes of the file at a path beneath a folder. The time of its last reading stays, where the mount may have it so."""
    return steady_by(lambda flags: opened_beneath(folder, path, flags))


def steady_by(opens: Callable[[int], int]) -> Reading:
    """The bytes of a file that a call opens with some flags, likewise."""
    try:
        file = opens(os.O_RDONLY | os.O_NOATIME)
    except PermissionError:
        file = opens(os.O_RDONLY)
    try:
        return steady(file)
    finally:
        os.close(file)


class Source:
    """The tree that is shown. It is held by a descriptor, so that it may be mounted over itself; `root` leads to it from
    other processes too. Nothing is opened but beneath it."""

    def __init__(self, folder: bytes):
        self.descriptor = os.open(folder, os.O_PATH | os.O_DIRECTORY | os.O_CLOEXEC)
        self.root = b"/proc/%d/fd/%d" % (os.getpid(), self.descriptor)
        # The user's folder for copies of files that are written in place, if there is one.
        self.state: Optional[int] = None
        self._loop = threading.get_ident()
        # The folders that the loop used just now, each until when it needn't be looked for again; and those before.
        self._folders: Dict[bytes, Tuple[int, float]] = {}
        self._late: Deque[int] = collections.deque()

    def at(self, path: bytes) -> "Place":
        """Where a path leads, for a call that comes right now, on the loop."""
        folder, _, name = path.rpartition(b"/")
        return Place(self._folder_of(folder) if folder else self.descriptor, name or b".")

    def _folder_of(self, folder: bytes) -> int:
        """A descriptor of a folder that holds for the call that comes right now."""
        found, until = self._folders.get(folder, (-1, 0.0))
        now = time.monotonic()
        if now > until:
            if found >= 0 or len(self._folders) > FOLDERS:
                self._leave(folder if found >= 0 else next(iter(self._folders)))
            found = opened_beneath(self.descriptor, folder, os.O_PATH | os.O_DIRECTORY)
            self._folders[folder] = found, now + AT_ONCE
        return found

    def _leave(self, folder: bytes) -> None:
        """Closes a folder, except the last ones: a call may have one of them for the other of its two paths."""
        self._late.append(self._folders.pop(folder)[0])
        if len(self._late) > 4:
            os.close(self._late.popleft())

    def forget_folders(self) -> None:
        """Folders have other paths."""
        while self._folders:
            self._leave(next(iter(self._folders)))

    @contextlib.contextmanager
    def place(self, path: bytes) -> Iterator["Place"]:
        """Where a path leads, in any thread; which stays that wherever its folder is moved."""
        folder = self.folder(path)
        try:
            yield Place(folder, os.path.basename(path) or b".")
        finally:
            os.close(folder)

    def here(self, path: bytes) -> ContextManager["Place"]:
        """Where a path leads, for a call that comes right now."""
        if threading.get_ident() == self._loop:
            return contextlib.nullcontext(self.at(path))
        return self.place(path)

    def on(self, path: bytes, call: Callable[..., Found], *words: Any) -> Found:
        """What a call returns that is given what leads to a path and `words`, in any thread. A link isn't followed."""
        with self.here(path) as place, place.hold() as held:
            return call(held, *words)

    def attribute(self, path: bytes, name: bytes) -> bytes:
        """An extended attribute of what is at a path, a link not followed."""
        with self.here(path) as place:
            return os.getxattr(b"/proc/self/fd/%d/%b" % place, name, follow_symlinks=False)

    def lacks(self, path: bytes, name: bytes) -> bool:
        """Whether what is at a path is known to lack an extended attribute, asked on the loop. (Python's call raises an exception then, which
        takes longer than all else.)"""
        folder, _, entry = path.rpartition(b"/")
        try:
            held = self._folder_of(folder) if folder else self.descriptor
        except OSError:
            return False
        size = _system.lgetxattr(b"/proc/self/fd/%d/%b" % (held, entry or b"."), name, None, 0)
        return size < 0 and ctypes.get_errno() == errno.ENODATA

    def link(self, path: bytes) -> bytes:
        """What the link at a path says."""
        with self.here(path) as place:
            return os.readlink(place.name, dir_fd=place.folder)

    def stat(self, path: bytes) -> os.stat_result:
        """What is at a path, a link not followed."""
        if threading.get_ident() == self._loop:
            # (asked more often than anything else)
            folder, _, name = path.rpartition(b"/")
            return os.stat(name or b".", dir_fd=self._folder_of(folder) if folder else self.descriptor, follow_symlinks=False)
        with self.place(path) as place:
            return place.stat()

    def read(self, path: bytes) -> Reading:
        """A file's bytes, with their signature."""
        return steady_beneath(self.descriptor, path)

    def folder(self, path: bytes) -> int:
        """A descriptor of the folder that a path lies in, which stays the same wherever the folder is moved."""
        return opened_beneath(self.descriptor, os.path.dirname(path), os.O_PATH | os.O_DIRECTORY)

    def files(self, path: bytes) -> List[bytes]:
        """The paths of what isn't a folder in a folder and those below it, from there; or nothing of what is no folder."""
        found: List[bytes] = []
        todo = [b""]
        while todo:
            folder = todo.pop()
            with contextlib.suppress(OSError), self.entries(os.path.join(path, folder) if folder else path) as entries:
                for entry in entries:
                    (todo if entry.is_dir(follow_symlinks=False) else found).append(os.path.join(folder, entry.name))
        return found

    @contextlib.contextmanager
    def entries(self, path: bytes) -> Iterator[Iterator["os.DirEntry[bytes]"]]:
        """The entries of a folder, whose names are bytes."""
        folder = opened_beneath(self.descriptor, path, os.O_RDONLY | os.O_DIRECTORY)
        try:
            with os.scandir(b"/proc/self/fd/%d" % folder) as entries:
                yield entries
        finally:
            os.close(folder)


def free(taken: Callable[[bytes], bool], path: bytes, suffix: bytes) -> bytes:
    """The first of a path with a suffix, or with a suffix and a number, that isn't taken."""
    folder, name = os.path.split(path)
    for number in itertools.count(1):
        end = suffix + (b".%d" % number if number > 1 else b"")
        found = os.path.join(folder, name[: LONGEST_NAME - len(end)] + end)
        if not taken(found):
            return found
    raise AssertionError


class Place(NamedTuple):
    """Where a file lies: a descriptor of its folder, and its name there."""

    folder: int
    name: bytes

    def stat(self) -> os.stat_result:
        """What the name leads to, a link not followed."""
        return os.stat(self.name, dir_fd=self.folder, follow_symlinks=False)

    def open(self, flags: int, mode: int = 0o600) -> int:
        """A descriptor of the file, a link not followed, and a FIFO not waited for."""
        flags |= ALWAYS | (0 if flags & os.O_PATH else NEVER_WAITING)
        return os.open(self.name, flags, mode, dir_fd=self.folder)

    @contextlib.contextmanager
    def hold(self) -> Iterator[bytes]:
        """A path to what is there, by a descriptor of it: for calls that would follow a link."""
        file = self.open(os.O_PATH)
        try:
            yield b"/proc/self/fd/%d" % file
        finally:
            os.close(file)

    def content(self) -> Optional[bytes]:
        """The file's bytes, or None if they can't be read."""
        with contextlib.suppress(OSError):
            file = self.open(os.O_RDONLY | os.O_NONBLOCK)
            try:
                return read_at(file, os.fstat(file).st_size)
            finally:
                os.close(file)
        return None

    def is_taken(self) -> bool:
        """Whether there is something of that name."""
        with contextlib.suppress(FileNotFoundError):
            self.stat()
            return True
        return False

    def rename(self, name: bytes) -> None:
        """Gives the file another name in its folder, and replaces what has that."""
        os.rename(self.name, name, src_dir_fd=self.folder, dst_dir_fd=self.folder)

    def rename_before(self, whole: bytes) -> bytes:
        """Gives the file, which has the old bytes of another one, a free name next to that one's, and returns it."""
        name = free(lambda name: self._replace(name=name).is_taken(), whole, b".before")
        self.rename(name)
        return name

    def unlink(self) -> None:
        """Removes the file, if it exists."""
        with contextlib.suppress(FileNotFoundError):
            os.unlink(self.name, dir_fd=self.folder)

    def sync_names(self) -> None:
        """Waits until the disk has the folder's names. (What was renamed is renamed, even if the folder can't be read, or
        its file system knows nothing of this.)"""
        with contextlib.suppress(OSError):
            folder = os.open(b".", os.O_RDONLY | os.O_DIRECTORY | os.O_CLOEXEC, dir_fd=self.folder)
            try:
                os.fsync(folder)
            finally:
                os.close(folder)


def next_number() -> bytes:
    """What no other file that is being written has in its name."""
    return b"%d-%d" % (os.getpid(), next(_numbers))


def read_at(file: int, size: int, at: int = 0) -> bytes:
    """`size` bytes of a file, starting at `at`, or fewer at its end. (One read may have fewer in the middle too.)"""
    parts = []
    while size > 0:
        part = os.pread(file, size, at)
        if not part:
            break
        parts.append(part)
        size, at = size - len(part), at + len(part)
    return b"".join(parts)


def overwrite(file: int, content: bytes) -> None:
    """Replaces a file's content."""
    os.lseek(file, 0, os.SEEK_SET)
    write(file, content)
    os.ftruncate(file, len(content))


def write(file: int, content: Union[bytes, memoryview]) -> None:
    """Writes all of it."""
    left = memoryview(content)
    while left:
        left = left[os.write(file, left):]


def set_times(file: Union[int, bytes], accessed: int, modified: int) -> None:
    """Sets a file's times if that is allowed: whoever may write into another user's file may not."""
    with contextlib.suppress(PermissionError):
        os.utime(file, ns=(accessed, modified))
