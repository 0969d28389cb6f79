"""What is mounted where, as the kernel lists it (proc_pid_mountinfo(5)). Reading the list touches no file system, so it waits
for none that doesn't answer."""
import errno
import os
import re
import threading
from typing import List, NamedTuple, Optional

LIST = "/proc/self/mountinfo"
# What the kernel calls mounts of `legacy mount`.
KIND = b"fuse.gate"
# The most links that lead to a mount point, and the seconds for which one is asked whether anything serves it.
LINKS, PATIENCE = 40, 2.0


class Mounted(NamedTuple):
    """A mount: its number, its file system's device, where it is, and what the kernel calls its kind and its source."""

    number: int
    device: bytes
    point: bytes
    kind: bytes
    source: bytes


def mounts() -> List[Mounted]:
    """All mounts. If two are at one point, the later one hides the earlier one."""
    with open(LIST, "rb") as file:
        return [_mount(line) for line in file]


def _mount(line: bytes) -> Mounted:
    here, _, there = line.partition(b" - ")
    number, _, device, _, point = here.split(b" ")[:5]
    kind, source = there.split(b" ")[:2]
    return Mounted(int(number), device, _name(point), kind, _name(source))


def _name(text: bytes) -> bytes:
    """A name as it is: the kernel writes blanks, backslashes and line ends as octal numbers."""
    return re.sub(rb"\\([0-3][0-7]{2})", lambda found: bytes([int(found[1], 8)]), text)


def real_path(path: bytes) -> bytes:
    """The real path of a mount point. The file system that is mounted there isn't asked for anything."""
    for _ in range(LINKS):
        folder, name = os.path.split(os.path.abspath(path))
        whole = os.path.join(os.path.realpath(folder), name)
        try:
            path = os.path.join(os.path.dirname(whole), os.readlink(whole))
        except OSError:
            return whole
    return whole


def mount_at(path: bytes) -> Optional[Mounted]:
    """What is mounted at a real path, if anything is."""
    return next((it for it in reversed(mounts()) if it.point == path), None)


def is_dead(path: bytes) -> bool:
    """Whether the process is gone that served what is mounted at a path. (One that is stopped doesn't answer, and isn't gone.)"""
    gone: List[bool] = []

    def ask() -> None:
        try:
            os.stat(path)
        except OSError as fault:
            gone.append(fault.errno == errno.ENOTCONN)

    asks = threading.Thread(target=ask, daemon=True)
    asks.start()
    asks.join(PATIENCE)
    return any(gone)
