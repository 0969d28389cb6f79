"""Files that are written whole before they have their names. On most file systems a draft has no name at all until then, so
that nothing is left of it if the process is killed."""
import contextlib
import errno
import os
import secrets
import stat
from typing import Iterator, NamedTuple, Optional, Tuple, Union

from legacy.lists import ACCESS_LIST, inherit_nothing

# What a system says that has no files without a name, or has none in this folder.
UNKNOWN = (errno.EOPNOTSUPP, errno.EISDIR, errno.EINVAL)
# The bits by which a program gets the rights of its owner or its group.
LENDING = stat.S_ISUID | stat.S_ISGID | stat.S_ISVTX
# The bytes of a block that a file with holes may have none of on the disk.
BLOCK = 4096


class Kept(NamedTuple):
    """Which of another file's owner, group and access list a file has."""

    owner: bool
    group: bool
    access_list: bool


class Draft:
    """A file in the folder of the name that it is for, open for writing, which only this user may read. `name` is empty, or the
    one that it has in addition to that name if the file system has no files without one."""

    def __init__(self, path: str, is_named: bool = False):
        self.path, self.name = path, ""
        number = None if is_named else _make_unnamed(os.path.dirname(path) or ".")
        if number is None:
            self.name = beside(path)
            number = os.open(self.name, os.O_RDWR | os.O_CREAT | os.O_EXCL | os.O_CLOEXEC, 0o600)
        self.number = number
        # (an access list that the folder has for new files gives nobody anything before the file has a mode)
        inherit_nothing(number)

    def write(self, content: bytes) -> None:
        """Writes bytes after those before them."""
        left = memoryview(content)
        while left:
            left = left[os.write(self.number, left) :]

    def write_with_holes(self, content: bytes) -> None:
        """Writes bytes, with a hole for each block of zeros."""
        for at in range(0, len(content), BLOCK):
            block = content[at : at + BLOCK]
            if block.strip(b"\0"):
                os.lseek(self.number, at, os.SEEK_SET)
                self.write(block)
        os.ftruncate(self.number, len(content))

    def sync(self) -> None:
        """Returns once the bytes and the status would outlast a loss of power."""
        os.fsync(self.number)

    def give_name(self, path: str) -> None:
        """Gives the file this name in its folder. Raises `FileExistsError` if there is something of that name, also if it came
        just now."""
        if self.name:
            give_name(self.name, path)
            return
        try:
            # (the system follows the link only if a folder is given, which the absolute path makes it pass over)
            os.link(f"/proc/self/fd/{self.number}", path, src_dir_fd=self.number, follow_symlinks=True)
        except FileExistsError:
            raise
        except OSError:
            # (the file system has links for no file, or there is no /proc)
            self._copy()
            give_name(self.name, path)

    def replace(self, path: str) -> None:
        """Replaces another file in its folder, or none, by this file."""
        if not self.name:
            name = beside(path)
            self.give_name(name)
            self.name = name
        os.rename(self.name, path)
        self.name = ""

    def _copy(self) -> None:
        """Goes on with a named copy."""
        old, status = self.number, os.fstat(self.number)
        copy = Draft(self.path, is_named=True)
        self.number, self.name = copy.number, copy.name
        try:
            at = 0
            while at < status.st_size:
                piece = os.pread(old, 1 << 20, at)
                self.write(piece)
                at += len(piece)
            take_over(self.number, old, status)
            self.sync()
        finally:
            os.close(old)

    def end(self) -> None:
        """Closes the file. What has no name by now is gone."""
        os.close(self.number)
        if self.name:
            with contextlib.suppress(FileNotFoundError):
                os.unlink(self.name)


def ordinary_mode() -> int:
    """The mode that this user's new files have."""
    mask = os.umask(0o077)
    os.umask(mask)
    return 0o666 & ~mask


@contextlib.contextmanager
def draft(path: str) -> Iterator[Draft]:
    """A draft of a file, which is gone afterwards unless it was given a name."""
    made = Draft(path)
    try:
        yield made
    finally:
        made.end()


def _make_unnamed(folder: str) -> Optional[int]:
    """A file without a name, or None if the file system has none."""
    if not hasattr(os, "O_TMPFILE"):
        return None
    try:
        return os.open(folder, os.O_RDWR | os.O_TMPFILE | os.O_CLOEXEC, 0o600)
    except OSError as fault:
        if fault.errno not in UNKNOWN:
            raise
        return None


def beside(path: str) -> str:
    """A name in the same folder that no file has. It is no longer than a name may be, 255 bytes, of which a character has up
    to four."""
    folder, name = os.path.split(path)
    return os.path.join(folder, f".{name[:60]}.{secrets.token_hex(4)}")


def give_name(made: str, path: str) -> None:
    """Gives a file that was made in the same folder this name; its first one may stay. Raises FileExistsError if there is
    something of that name, also if it was made just now."""
    try:
        os.link(made, path)
    except FileExistsError:
        raise
    except OSError:
        # (Some file systems have no hard links. There an empty file takes the name, and that one is ours to replace.)
        os.close(os.open(path, os.O_WRONLY | os.O_CREAT | os.O_EXCL | os.O_CLOEXEC, 0o600))
        try:
            os.rename(made, path)
        except OSError:
            os.unlink(path)
            raise


def take_over(number: int, source: Union[int, str], known: os.stat_result) -> Kept:
    """Gives an open file the times, extended attributes, owner, group and mode of another, as `cp -p` does. If this user may
    not give it the owner or the group, nobody gains by it what only they had."""
    os.utime(number, ns=(known.st_atime_ns, known.st_mtime_ns))
    has_list = _take_attributes(number, source)
    kept = Kept(*_take_owner(number, known), has_list)
    # (after that, since the system takes some bits away as a file gets another owner)
    os.fchmod(number, mode_for(stat.S_IMODE(known.st_mode), kept))
    return kept


def mode_for(mode: int, kept: Kept) -> int:
    """The mode that a file has, of another's, by what else it has of it. Without the owner or the group no program runs by their
    rights; a group that wasn't meant may do what all others may."""
    if not (kept.owner and kept.group):
        mode &= ~LENDING
    return mode if kept.group and kept.access_list else mode & ~0o070 | mode & (mode & 0o007) << 3


def _take_attributes(number: int, source: Union[int, str]) -> bool:
    """Gives a file the extended attributes of another, and returns whether it has its access list, if there is one."""
    try:
        names = os.listxattr(source)
    except OSError:
        return True
    return all([_take_attribute(number, source, it) or it != ACCESS_LIST for it in names])


def _take_attribute(number: int, source: Union[int, str], name: str) -> bool:
    try:
        os.setxattr(number, name, os.getxattr(source, name))
    except OSError:
        return False
    return True


def _take_owner(number: int, known: os.stat_result) -> Tuple[bool, bool]:
    """Gives a file another's owner and group, or the group alone, as far as this user may, and returns which of the two it has."""
    for owner, group in (known.st_uid, known.st_gid), (-1, known.st_gid):
        with contextlib.suppress(OSError):
            os.fchown(number, owner, group)
            break
    now = os.fstat(number)
    return now.st_uid == known.st_uid, now.st_gid == known.st_gid
