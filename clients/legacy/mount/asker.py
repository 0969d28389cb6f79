"""Calls of the system with no more rights than whoever asked for them. The kernel lets a user do something by what it was told
of a file a second ago. If the mount is root's, and others are let in, the system below decides again, by its access lists too."""
import contextlib
import ctypes
import errno
import os
import stat
import threading
import time
from typing import Any, ContextManager, Iterator, List, Optional

# The numbers of setgroups(2), which the library would do for all threads.
SETGROUPS = {"x86_64": 116, "aarch64": 159, "riscv64": 159, "loongarch64": 159, "ppc64le": 81, "s390x": 206, "armv7l": 206, "i686": 206}

# The seconds in which it is to be known whether others can write in a tree.
PATIENCE = 20.0

_system = ctypes.CDLL(None, use_errno=True)


def is_possible() -> bool:
    """Whether this process can take the rights of others for a call."""
    return os.geteuid() == 0 and os.uname().machine in SETGROUPS


def asker(context: Any, wanted: bool) -> ContextManager[None]:
    """Has calls of the system, until it is left, be those of the program of a request; the loop waits for none meanwhile. For
    root, or where it isn't wanted, nothing changes."""
    return _as_another(context) if wanted and context.uid else contextlib.nullcontext()


@contextlib.contextmanager
def _as_another(context: Any) -> Iterator[None]:
    own = os.getgroups()
    _set_groups(groups_of(context.pid))
    _system.setfsgid(ctypes.c_uint(context.gid))
    _system.setfsuid(ctypes.c_uint(context.uid))
    try:
        yield
    finally:
        _system.setfsuid(ctypes.c_uint(os.geteuid()))
        _system.setfsgid(ctypes.c_uint(os.getegid()))
        _set_groups(own)


def _set_groups(groups: List[int]) -> None:
    """Sets the groups of this thread alone."""
    listed = (ctypes.c_uint32 * len(groups))(*groups)
    if _system.syscall(SETGROUPS[os.uname().machine], len(groups), listed):
        raise OSError(ctypes.get_errno(), os.strerror(ctypes.get_errno()))


def groups_of(thread: int) -> List[int]:
    """The groups that a thread is in besides its own one. Raises `OSError` if that isn't known."""
    with open(f"/proc/{thread}/status", encoding="utf-8", errors="replace") as file:
        for line in file:
            if line.startswith("Groups:"):
                return [int(it) for it in line.split()[1:]]
    raise OSError(errno.EACCES, os.strerror(errno.EACCES))


def open_folder(source: str, seconds: float = PATIENCE) -> Optional[str]:
    """A folder of a tree that other users than root can change, or None if there is none. Raises `TimeoutError` if the tree is too large
    to find that out in some seconds, or a part of it doesn't answer."""
    found: List[Optional[str]] = []
    until = time.monotonic() + seconds
    # (a thread that waits for a file system can't be ended)
    looks = threading.Thread(target=lambda: found.extend(_open_folders(source, until)), daemon=True)
    looks.start()
    looks.join(seconds)
    if not found:
        raise TimeoutError(errno.ETIMEDOUT, os.strerror(errno.ETIMEDOUT))
    return found[0]


def _open_folders(source: str, until: float) -> Iterator[Optional[str]]:
    """The first such folder, or None if there is none; nothing at all if that isn't known in time."""
    for folder, names, _ in os.walk(source):
        for path in [folder, *(os.path.join(folder, name) for name in names)]:
            if time.monotonic() > until:
                return
            with contextlib.suppress(FileNotFoundError):
                found = os.lstat(path)
                if stat.S_ISDIR(found.st_mode) and (found.st_uid or found.st_mode & (stat.S_IWGRP | stat.S_IWOTH)):
                    yield path
                    return
    yield None
