"""How a file below gets other bytes: whenever that is cut short, all of the old bytes are there or all of the new ones."""
import contextlib
import errno
import fcntl
import os
import stat
from typing import Callable, Iterator, NamedTuple, Optional, Tuple

from legacy.lists import ACCESS_LIST, inherit_nothing
from legacy.mount.below import CHANGED, NEVER, NEW, Place, Signature, set_times, next_number, overwrite, read_at, signature, write
from legacy.mount.beneath import check_regular
from legacy.mount.copies import copy_of, end_beside
from legacy.saving import Refused

# How many bytes are compared at a time.
PART = 1 << 20
# The bytes of a page of the system's, the least that there are.
PAGE = 4096


class Store(NamedTuple):
    """How a file gets other bytes: what is looked at right before, and the time of its last change. `sync` is whether all is to be
    on the disk before it replaces the old file. Its mode, owner, attributes and access list are those of the file
    there, or of `like`, which is about to take its place. `before` are the bytes that it has, if that is known; `state` is
    the folder for copies that can't lie beside it."""

    check: Callable[[], None]
    modified: Optional[int]
    sync: bool
    like: Optional[Place] = None
    before: bytes = b""
    state: Optional[int] = None

    def put(self, place: Place, content: bytes) -> Signature:
        """Writes a new file beside, and renames it over the old one. What only follows its bytes is appended, so that
        programs that have the file open continue with it. If the file has other names, or can't be made again with its owner and
        access list, it is written in place.

        The signature is that of the file that was written, never of what has its name by now."""
        like = self.like or place
        found = like.stat()
        if self.like is None and self.before and content.startswith(self.before):
            return self._behind(place, content)
        one_name = self.like is not None or found.st_nlink == 1
        return one_name and self._anew(place, content, like, found) or self._in_place(place, content)

    def _anew(self, place: Place, content: bytes, like: Place, found: os.stat_result) -> Optional[Signature]:
        new = Place(place.folder, NEW + next_number())
        try:
            file = new.open(os.O_CREAT | os.O_EXCL | os.O_WRONLY)
        except PermissionError:
            return None
        try:
            fcntl.flock(file, fcntl.LOCK_EX)
            write(file, content)
            if not copy_attributes(like, found, file):
                new.unlink()
                return None
            self._finish(file)
            self.check()
            written = signature(os.fstat(file))
            with lingering(place):
                new.rename(place.name)
            stored = as_written(file, written)
        except BaseException:
            new.unlink()
            raise
        finally:
            os.close(file)
        if self.sync:
            place.sync_names()
        return stored

    def _behind(self, place: Place, content: bytes) -> Signature:
        """Appends what the old bytes lack. (What others append meanwhile comes before it.)"""
        size, tail = len(self.before), content[len(self.before) :]
        with contextlib.ExitStack() as held:
            file = self._open(place, os.O_RDWR | os.O_APPEND)
            held.callback(os.close, file)
            # (a process that is killed stops at the end of a page)
            copy = end_beside(place, size, tail, self.sync) if size // PAGE != (len(content) - 1) // PAGE else None
            if copy:
                held.callback(copy.close)
            try:
                write(file, tail)
                self._finish(file)
            except OSError:
                cut_back(file, size, tail)
                raise
            stored = signature_in_place(file, content)
        return stored

    def _in_place(self, place: Place, content: bytes) -> Signature:
        """Meanwhile a copy of the old bytes is kept, so that the file has these or the new ones, however this ends."""
        with contextlib.ExitStack() as held:
            file = self._open(place, os.O_RDWR)
            held.callback(os.close, file)
            before = read_at(file, os.fstat(file).st_size)
            copy = copy_of(place, before, content, self.sync, self.state)
            if copy:
                held.callback(copy.close)
            try:
                overwrite(file, content)
                self._finish(file)
            except OSError as fault:
                if not is_put_back(file, before):
                    raise half_written(fault, copy.keep_for(place.name) if copy else None) from fault
                raise
            stored = signature_in_place(file, content)
        return stored

    def _open(self, place: Place, flags: int) -> int:
        """A descriptor of the file that is about to be written, which is the one that was looked at."""
        file = place.open(flags)
        try:
            found = check_regular(file)
            self.check()
            if found.st_ino != place.stat().st_ino:
                raise Refused(errno.EBUSY, CHANGED)
            return file
        except BaseException:
            os.close(file)
            raise

    def _finish(self, file: int) -> None:
        if self.modified is not None:
            set_times(file, self.modified, self.modified)
        if self.sync:
            os.fsync(file)


def as_written(file: int, written: Signature) -> Signature:
    """The signature of a file that has got its name, or where someone has changed it since, what no file has."""
    found = signature(os.fstat(file))
    return found if found[:-1] == written[:-1] else written._replace(changed=NEVER)


def signature_in_place(file: int, content: bytes) -> Signature:
    """The signature of a file into which others may have written meanwhile: it is read again, since its times were set since."""
    found = signature(os.fstat(file))
    has_bytes = found.size == len(content) and all(
        content.startswith(read_at(file, PART, at), at) for at in range(0, len(content), PART))
    return found if has_bytes and signature(os.fstat(file)) == found else found._replace(changed=NEVER)


@contextlib.contextmanager
def lingering(place: Place) -> Iterator[None]:
    """Has the bytes of what is at a place, if anything is, freed only after what takes its name away. While a name is taken
    by another file the system lets nobody list the folder, and to free some MiB may take it long."""
    with contextlib.ExitStack() as held:
        with contextlib.suppress(FileNotFoundError):
            held.callback(os.close, place.open(os.O_PATH))
        yield


def cut_back(file: int, size: int, tail: bytes) -> None:
    """Takes back what was appended to a file, unless others have appended to it too."""
    with contextlib.suppress(OSError):
        there = read_at(file, len(tail) + 1, size)
        if tail.startswith(there):
            os.ftruncate(file, size)


def is_put_back(file: int, before: bytes) -> bool:
    """Puts the old bytes of a file back, and says whether it has them."""
    try:
        overwrite(file, before)
    except OSError:
        return False
    return True


def half_written(fault: OSError, kept: Optional[bytes]) -> Refused:
    """What to say of a file that has neither its old bytes nor new ones, and where the old ones are, if anywhere."""
    number = fault.errno or errno.EIO
    where = f"are in {kept.decode(errors='backslashreplace')} beside it" if kept else "are lost"
    return Refused(number, f"{os.strerror(number)}; its old bytes couldn't be put back, and {where}")


def copy_attributes(like: Place, found: os.stat_result, file: int) -> bool:
    """Gives a file another one's owner, attributes, access list and mode. False if it can't have them all, except
    attributes that only the system sets."""
    try:
        inherit_nothing(file)
        if (found.st_uid, found.st_gid) != (os.geteuid(), os.getegid()):
            os.fchown(file, found.st_uid, found.st_gid)
        for name, value in attributes(like):
            try:
                os.setxattr(file, name, value)
            except OSError:
                if name == ACCESS_LIST or name.startswith("user."):
                    raise
        os.fchmod(file, stat.S_IMODE(found.st_mode))
    except OSError:
        return False
    return True


def attributes(place: Place) -> Iterator[Tuple[str, bytes]]:
    """A file's extended attributes, its access list among them."""
    try:
        file = place.open(os.O_RDONLY | os.O_NONBLOCK)
    except PermissionError:
        return
    try:
        with contextlib.suppress(OSError):
            for name in os.listxattr(file):
                yield name, os.getxattr(file, name)
    finally:
        os.close(file)
