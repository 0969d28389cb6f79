"""Copies of files that are written in place, from which the next start of a mount puts back what a killed one has left neither old
nor new. They lie beside their files, or if that isn't allowed in a folder of the user's, by $XDG_STATE_HOME."""
import contextlib
import errno
import fcntl
import os
import re
import stat
import time
from typing import Iterator, NamedTuple, Optional, Sequence

from legacy.mount.beneath import check_regular
from legacy.mount.below import END, LONGEST_NAME, NEW, OLD, OURS, Place, Source, free, next_number, overwrite, read_at, write

# Refusals of a new file that say no more than that there can be none.
NO_LEAVE = errno.EACCES, errno.EPERM, errno.EROFS
# How the names of copies in the user's folder begin: of the old bytes, of the new ones, and of the path of the file. That exists
# once the others do.
OLD_STATE, NEW_STATE, PATH_STATE, PART_STATE = b"old-", b"new-", b"path-", b"part-"
# What names of copies have of the process that made them, and the seconds for which one that is gone may still have them locked.
NUMBER, PATIENCE = re.compile(rb"-(\d+)-\d+"), 30.0
STATES = re.compile(rb"(?P<what>old|new|path|part)-(?P<number>(?P<process>\d+)-\d+)")


class Copy:
    """A file's old bytes, as long as it may have neither these nor the new ones. `more` are the files that lie with them; `held` are
    descriptors of all, which lock them."""

    def __init__(self, old: Place, more: Sequence[Place], held: contextlib.ExitStack):
        self.old, self._more, self._held, self._is_needed = old, more, held, False

    def holds(self, file: int) -> None:
        """Has a file locked as long as this exists."""
        self._held.callback(os.close, file)

    def keep_for(self, name: bytes) -> bytes:
        """Has the old bytes stay, by a name that is found for them where they can get one, and returns that."""
        self._is_needed = True
        for it in self._more:
            it.unlink()
        try:
            return self.old.rename_before(name)
        except OSError:
            return self.old.name  # (the next start of a mount gives it one)

    def close(self) -> None:
        """Removes it, unless it is needed."""
        if not self._is_needed:
            for it in (self.old, *self._more):
                with contextlib.suppress(OSError):
                    it.unlink()
        self._held.close()


def copy_of(place: Place, before: bytes, after: Optional[bytes], sync: bool, state: Optional[int] = None) -> Optional[Copy]:
    """A copy of a file's old bytes, and of those that are about to take their place; none if that is allowed nowhere."""
    number = next_number()
    try:
        return beside(place, number, before, after, sync)
    except OSError as fault:
        if fault.errno not in NO_LEAVE:
            raise
    return elsewhere(place, number, before, after, sync, state) if state is not None and after is not None else None


def beside(place: Place, number: bytes, before: bytes, after: Optional[bytes], sync: bool) -> Copy:
    """A copy in the file's folder. The old bytes have their name once they are all there."""
    old, new = Place(place.folder, (OLD + number + b"-" + place.name)[:LONGEST_NAME]), Place(place.folder, NEW + number)
    with contextlib.ExitStack() as held:
        held.callback(os.close, write_new(new, before, sync))
        try:
            if old.is_taken():
                raise FileExistsError(errno.EEXIST, os.strerror(errno.EEXIST), old.name)
            new.rename(old.name)
        except BaseException:
            new.unlink()
            raise
        copy = Copy(old, [new] if after is not None else [], held.pop_all())
    try:
        if after is not None:
            copy.holds(write_new(new, after, sync))
        if sync:
            old.sync_names()
    except BaseException:
        copy.close()
        raise
    return copy


def end_beside(place: Place, size: int, tail: bytes, sync: bool) -> Optional[Copy]:
    """What is about to be appended to a file of so many bytes, in its folder, if there is leave for that."""
    number = next_number()
    end, new = Place(place.folder, (END + number + b"-%d-" % size + place.name)[:LONGEST_NAME]), Place(place.folder, NEW + number)
    try:
        copy = Copy(end, [], contextlib.ExitStack())
        copy.holds(write_new(new, tail, sync))
        new.rename(end.name)
    except OSError as fault:
        new.unlink()
        copy.close()
        if fault.errno not in NO_LEAVE:
            raise
        return None
    if sync:
        end.sync_names()
    return copy


def elsewhere(place: Place, number: bytes, before: bytes, after: bytes, sync: bool, state: int) -> Optional[Copy]:
    """A copy in the user's folder, with the path of the file."""
    old, new, path, part = (Place(state, it + number) for it in (OLD_STATE, NEW_STATE, PATH_STATE, PART_STATE))
    folder = os.readlink(b"/proc/self/fd/%d" % place.folder)
    copy = Copy(old, [path, part, new], contextlib.ExitStack())
    try:
        for it, content in (old, before), (new, after), (part, os.path.join(folder, place.name)):
            copy.holds(write_new(it, content, sync))
        part.rename(path.name)
    except OSError:
        copy.close()
        return None
    if sync:
        path.sync_names()
    return copy


def write_new(place: Place, content: bytes, sync: bool) -> int:
    """A new file of a content, which is locked as long as it is open."""
    file = place.open(os.O_CREAT | os.O_EXCL | os.O_WRONLY)
    try:
        fcntl.flock(file, fcntl.LOCK_EX)
        write(file, content)
        if sync:
            os.fsync(file)
    except BaseException:
        place.unlink()
        os.close(file)
        raise
    return file


def state_folder() -> Optional[int]:
    """A descriptor of the user's folder for copies, if there can be one that is this user's alone."""
    home = os.environ.get("XDG_STATE_HOME") or (os.path.expanduser("~/.local/state") if os.environ.get("HOME") else "")
    if not os.path.isabs(home):
        return None
    path = os.path.join(home, "legacy", "mount")
    with contextlib.suppress(OSError):
        os.makedirs(path, 0o700, exist_ok=True)
        folder = os.open(path, os.O_RDONLY | os.O_DIRECTORY | os.O_NOFOLLOW | os.O_CLOEXEC)
        found = os.fstat(folder)
        if found.st_uid == os.geteuid() and not found.st_mode & (stat.S_IWGRP | stat.S_IWOTH):
            return folder
        os.close(folder)
    return None


class Left(NamedTuple):
    """What a killed mount has left: the path of the file that it was, and where its old bytes are now. That is the path, another
    one, or nothing if none are needed."""

    path: bytes
    now: bytes


def leftovers(source: Source, state: Optional[int] = None) -> Iterator[Left]:
    """Clears away what mounts that were killed have left below, or puts it back. What a mount that still runs is writing is left
    alone."""
    device = os.stat(source.root).st_dev
    todo = [b""]
    while todo:
        path = todo.pop()
        found = []
        with contextlib.suppress(OSError), source.entries(path) as entries:
            for entry in entries:
                if entry.is_dir(follow_symlinks=False):
                    if entry.stat(follow_symlinks=False).st_dev == device:
                        todo.append(os.path.join(path, entry.name))
                elif OURS.fullmatch(entry.name) and entry.is_file(follow_symlinks=False):
                    found.append(entry.name)
        # (old bytes first, with the new ones that lie with them)
        for name in sorted(found, reverse=True):
            now = _clear(source, os.path.join(path, name))
            if now is not None:
                yield Left(os.path.join(path, name), now)
    if state is not None:
        yield from _left_elsewhere(source, state)


def _clear(source: Source, path: bytes) -> Optional[bytes]:
    """Removes an unfinished file, or has its file get back its old bytes, or gives these a name; None if someone is writing it,
    or it is gone already."""
    with contextlib.suppress(OSError), contextlib.ExitStack() as held:
        place = Place(source.folder(path), os.path.basename(path))
        held.callback(os.close, place.folder)
        content = held.enter_context(_nobody_writes(place))
        found = OURS.fullmatch(place.name)
        whole = found["whole"] if found else None
        if found and found["longer"]:
            _lengthen(place, Place(place.folder, found["longer"]), int(found["size"]), content)
        if not found or whole is None:
            place.unlink()
            return b""
        file, new = Place(place.folder, whole), Place(place.folder, NEW + found["number"])
        now = _put_back(place, file, content, new.content())
        if now is None:
            now = place.rename_before(whole)
        else:
            place.unlink()
        new.unlink()
        return os.path.join(os.path.dirname(path), now) if now else b""
    return None


@contextlib.contextmanager
def _nobody_writes(place: Place) -> Iterator[bytes]:
    """What an unfinished file has. Raises `OSError` if a mount that runs has it locked."""
    file = place.open(os.O_RDONLY)
    try:
        _lock(file, place.name)
        yield read_at(file, os.fstat(file).st_size)
    finally:
        os.close(file)


def _lock(file: int, name: bytes) -> None:
    """Locks an unfinished file. If its mount was killed while it started a process, that has the lock until it begins."""
    process, until = NUMBER.search(name), time.monotonic() + PATIENCE
    while True:
        try:
            fcntl.flock(file, fcntl.LOCK_EX | fcntl.LOCK_NB)
            return
        except BlockingIOError:
            if process is None or os.path.exists(b"/proc/" + process[1]) or time.monotonic() > until:
                raise
        time.sleep(0.05)


def _put_back(copy: Place, place: Place, old: bytes, new: Optional[bytes]) -> Optional[bytes]:
    """Has a file get its old bytes back, if it has nobody else's. Returns its name, nothing if it is whole already, or None
    if it has others."""
    now = place.content()
    if now is None or now in (old, new):
        return None if now is None else b""
    file = place.open(os.O_RDWR)
    try:
        size = check_regular(file).st_size
        if not is_for(copy, file) or not is_mixture(read_at(file, size), old, new):
            return None
        overwrite(file, old)
        os.fsync(file)
    finally:
        os.close(file)
    return place.name


def is_for(copy: Place, file: int) -> bool:
    """Whether a file may be changed by a copy: so that whoever plants one changes none by it that isn't his."""
    found = os.fstat(file)
    return copy.stat().st_uid in (os.geteuid(), found.st_uid) and not found.st_mode & (stat.S_ISUID | stat.S_ISGID)


def _lengthen(copy: Place, place: Place, size: int, tail: bytes) -> None:
    """Appends the rest of what was being appended to a file, if nothing else follows what it had."""
    file = place.open(os.O_RDWR | os.O_APPEND)
    try:
        check_regular(file)
        there = read_at(file, len(tail) + 1, size)
        if there and tail.startswith(there) and is_for(copy, file):
            write(file, tail[len(there) :])
            os.fsync(file)
    finally:
        os.close(file)


def is_mixture(now: bytes, old: bytes, new: Optional[bytes]) -> bool:
    """Whether a file's bytes are what an ended process leaves as it writes the new ones over the old ones; of a file that was made
    again, nothing."""
    if new is None:
        return not now
    alike = common(now, new)
    return now[alike:] == old[alike:]


def common(one: bytes, other: bytes) -> int:
    """How many bytes two contents begin with alike."""
    least, most = 0, min(len(one), len(other))
    while least < most:
        middle = (least + most + 1) // 2
        if one[least:middle] == other[least:middle]:
            least = middle
        else:
            most = middle - 1
    return least


def _left_elsewhere(source: Source, state: int) -> Iterator[Left]:
    """What copies in the user's folder have, of files of this source."""
    top = os.path.join(os.readlink(b"/proc/self/fd/%d" % source.descriptor), b"")
    found = list(filter(None, (STATES.fullmatch(os.fsencode(it)) for it in os.listdir(state))))
    whole = {it["number"] for it in found if it["what"] == b"path"}
    for number in whole:
        path = Place(state, PATH_STATE + number).content() or b""
        if path.startswith(top):
            with contextlib.suppress(OSError):
                yield from _put_back_from(source, path[len(top) :], state, number)
    for it in found:
        if it["number"] not in whole and not os.path.exists(os.path.join(b"/proc", it["process"])):
            Place(state, it[0]).unlink()


def _put_back_from(source: Source, path: bytes, state: int, number: bytes) -> Iterator[Left]:
    old, new, named = (Place(state, it + number) for it in (OLD_STATE, NEW_STATE, PATH_STATE))
    folder = source.folder(path)
    try:
        with _nobody_writes(old) as content:
            place = Place(folder, os.path.basename(path))
            now = _put_back(old, place, content, new.content())
            where = os.path.join(os.path.dirname(path), now) if now else b""
            if now is None:
                kept = free(lambda it: Place(state, it).is_taken(), place.name, b".before")
                old.rename(kept)
                where = os.path.join(os.readlink(b"/proc/self/fd/%d" % state), kept)
            for it in named, new, old:
                it.unlink()
    finally:
        os.close(folder)
    yield Left(path, where)
