"""Locks of files without a rule. The kernel keeps those that programs take in a mount, and asks the mount for none. So if a program has
a file open there for writing, a database for example, all of it is locked below as long as it is open. A program that locks it below
then waits or is refused, like after any other program that has locked it. A file that is locked below isn't opened for writing."""
import contextlib
import errno
import fcntl
import os
import struct
from typing import Dict, Iterator, Optional, Tuple

# A lock of a file's description, for all of it (fcntl(2): F_OFD_SETLK and struct flock).
SET_LOCK, WHOLE = 37, struct.pack("hhqqi4x", fcntl.F_WRLCK, os.SEEK_SET, 0, 0, 0)
# File systems that ask another machine or process for a lock, for which all would wait.
FAR = ("nfs", "cifs", "smb", "fuse", "9p", "ceph", "afs")
TAKEN = errno.EAGAIN, errno.EACCES

Key = Tuple[int, int]


class Locks:
    """The files that are locked below, each as long as some program has it open for writing."""

    def __init__(self) -> None:
        # Whether the locks of a file system, by its device, are wanted.
        self._is_wanted: Dict[int, bool] = {}
        self._held: Dict[Key, Tuple[int, int]] = {}

    def take(self, file: int, found: os.stat_result) -> Optional[Key]:
        """Locks a file that is open for writing, and returns what it is known by. Raises `OSError` if others have it locked."""
        if found.st_dev not in self._is_wanted:
            self._is_wanted[found.st_dev] = not is_far(found.st_dev)
        if not self._is_wanted[found.st_dev]:
            return None
        key = found.st_dev, found.st_ino
        held, count = self._held.get(key, (-1, 0))
        self._held[key] = held if count else lock_whole(file), count + 1
        return key

    def leave(self, key: Optional[Key]) -> None:
        """A program has closed a file."""
        if key is not None:
            held, count = self._held.pop(key)
            if count > 1:
                self._held[key] = held, count - 1
            else:
                os.close(held)


def lock_whole(file: int) -> int:
    """A descriptor as long as which is open a file is locked. Where the file system knows no locks it is not."""
    held = os.dup(file)
    try:
        with unless_unknown():
            fcntl.fcntl(held, SET_LOCK, WHOLE)
        with unless_unknown():
            fcntl.flock(held, fcntl.LOCK_EX | fcntl.LOCK_NB)
    except OSError:
        os.close(held)
        raise
    return held


@contextlib.contextmanager
def unless_unknown() -> Iterator[None]:
    """Has a lock that others have be EBUSY, and one that the file system doesn't know be none."""
    try:
        yield
    except OSError as fault:
        if fault.errno in TAKEN:
            raise OSError(errno.EBUSY, os.strerror(errno.EBUSY)) from fault


def is_far(device: int) -> bool:
    """Whether a file system's locks aren't this machine's alone."""
    number = f"{os.major(device)}:{os.minor(device)}"
    with contextlib.suppress(OSError, ValueError), open("/proc/self/mountinfo", encoding="utf-8", errors="replace") as file:
        for line in file:
            words = line.split()
            if words[2] == number:
                return words[words.index("-") + 1].startswith(FAR)
    return False
