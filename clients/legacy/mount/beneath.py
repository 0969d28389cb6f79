"""Descriptors of what lies beneath a folder. No link is followed on the way, whatever replaced a file or a folder
since its name was looked up. Otherwise a user who can write below would lead the mount to files that its user alone may read or write."""
import ctypes
import errno
import os
import stat

# openat2(2): its number, and how a path is resolved.
OPENAT2 = 437
NO_MAGIC_LINKS, NO_LINKS, BENEATH = 0x02, 0x04, 0x08
# What every descriptor here is opened with. (A FIFO instead of a file would be waited for.)
ALWAYS = os.O_CLOEXEC | os.O_NOFOLLOW
NEVER_WAITING = os.O_NONBLOCK | os.O_NOCTTY
# Refusals that may mean that the system has no such call, or that this process may not make it.
NO_CALL = errno.ENOSYS, errno.EPERM

_system = ctypes.CDLL(None, use_errno=True)


class _How(ctypes.Structure):
    """How a file is opened (open_how, in openat2(2))."""

    _fields_ = [("flags", ctypes.c_uint64), ("mode", ctypes.c_uint64), ("resolve", ctypes.c_uint64)]


def opened_beneath(folder: int, path: bytes, flags: int) -> int:
    """A descriptor of what is at a path beneath a folder. Raises `OSError`, where a part of the path is a link too."""
    if not flags & os.O_PATH:
        flags |= NEVER_WAITING
    how = _How(flags | ALWAYS, 0, BENEATH | NO_LINKS | NO_MAGIC_LINKS)
    found: int = _system.syscall(OPENAT2, folder, path or b".", ctypes.byref(how), ctypes.sizeof(how))
    if found >= 0:
        return found
    fault = ctypes.get_errno()
    if fault in NO_CALL:
        return by_steps(folder, path, flags)
    raise OSError(fault, os.strerror(fault), path)


def by_steps(folder: int, path: bytes, flags: int) -> int:
    """A descriptor like that on a system without the call: one folder after the other."""
    *above, name = (path or b".").split(b"/")
    held = folder
    try:
        for it in above:
            held, before = os.open(it, os.O_PATH | os.O_DIRECTORY | ALWAYS, dir_fd=held), held
            if before != folder:
                os.close(before)
        return os.open(name, flags | ALWAYS, dir_fd=held)
    finally:
        if held != folder:
            os.close(held)


def check_regular(file: int) -> os.stat_result:
    """What a file is that was just opened. Raises `OSError` if it is a FIFO or the like."""
    found = os.fstat(file)
    if not stat.S_ISREG(found.st_mode):
        raise OSError(errno.ESTALE, os.strerror(errno.ESTALE))
    return found
