"""What a user may do with a file, by its mode and its access list, as the system decides it (acl(5)). An ordinary user's mount can't
take on the rights of others whom it lets in. So it decides for them what the kernel has decided already, by what the kernel was told
up to a second ago."""
import contextlib
import errno
import os
import struct
from typing import Any, Collection, Iterator, Optional, Tuple

from legacy.lists import ACCESS_LIST
from legacy.mount.asker import groups_of, is_possible

READ, WRITE, SEARCH = 4, 2, 1
# What opening a file for each of the three asks for.
OPENING = {os.O_RDONLY: READ, os.O_WRONLY: WRITE, os.O_RDWR: READ | WRITE}
# A list's entries: a tag, rights, and whose they are; after a number that says the form.
ENTRY, FORM = struct.Struct("<HHI"), 4
OWNER, USER, GROUP_OF_FILE, GROUP, MASK, OTHERS = 1, 2, 4, 8, 16, 32

Entry = Tuple[int, int, int]


def check(path: bytes, caller: Any, wanted: int) -> None:
    """Raises `PermissionError` if the program that asked may not do something with what a path by a descriptor leads to. (Its user
    is another one than the mount's, and not root, who may.)"""
    if is_possible() or caller.uid in (0, os.geteuid()):
        return
    groups = {caller.gid}
    with contextlib.suppress(OSError):  # (others' processes may be hidden)
        groups.update(groups_of(caller.pid))
    if not allows(os.stat(path), access_list(path), caller.uid, groups, wanted):
        raise PermissionError(errno.EACCES, os.strerror(errno.EACCES))


def access_list(path: bytes) -> Optional[bytes]:
    """A file's access list, if it has one."""
    with contextlib.suppress(OSError):
        return os.getxattr(path, ACCESS_LIST)
    return None


def entries(of: bytes) -> Iterator[Entry]:
    """A list's entries, in order."""
    return ENTRY.iter_unpack(of[FORM:])  # type: ignore[return-value]


def allows(found: os.stat_result, listed: Optional[bytes], user: int, groups: Collection[int], wanted: int) -> bool:
    """Whether a user in some groups may do something by a file's mode, or by its access list."""
    if listed is None:
        return not wanted & ~(found.st_mode >> (6 if user == found.st_uid else 3 if found.st_gid in groups else 0))
    given = list(entries(listed))
    mask = next((rights for tag, rights, _ in given if tag == MASK), 7)
    in_groups = False
    for tag, rights, of in given:
        if tag == OWNER and user == found.st_uid:
            return not wanted & ~rights
        if tag == USER and of == user:
            return not wanted & ~(rights & mask)
        if tag == GROUP_OF_FILE and found.st_gid in groups or tag == GROUP and of in groups:
            in_groups = True
            if not wanted & ~rights:
                return not wanted & ~mask
        if tag == OTHERS:
            return not in_groups and not wanted & ~rights
    return False
