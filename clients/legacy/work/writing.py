"""Files written whole: what is there at any moment is the old file or the new one."""
import contextlib
import errno
import hashlib
import io
import os
import stat
from typing import Callable, Iterable, Iterator, Optional, Set, Tuple, Union

from legacy.terminals import quote_path
from legacy.work.drafts import Draft, Kept, draft, mode_for, take_over
from legacy.work.reading import Refusal

# The bytes that are copied at a time.
BLOCK = 1 << 20


def create(path: str, content: bytes, like: str) -> None:
    """Makes a file with the mode, times, extended attributes, owner and group of another, as far as this user may give them. The
    disk has all of it before the file has its name; `sync_names` waits for that. Raises `Refusal` if there is another file of
    that name with other bytes, so that what isn't ours is never overwritten."""
    if not os.path.lexists(path):
        with draft(path) as made:
            made.write(content)
            take_over(made.number, like, os.stat(like))
            made.sync()
            with contextlib.suppress(FileExistsError):
                made.give_name(path)
                return
    if not _has(path, content):
        raise Refusal(f"{quote_path(path)} is there already")
    _sync(path)


def copy(source: str, path: str) -> str:
    """Makes a file that is another's copy, as `create` does, and returns the SHA-256 of both."""
    with derive_draft(source, path) as (file, made):
        for block in iter(lambda: file.read(BLOCK), b""):
            made.write(block or b"")
    return sha256_of(path)


@contextlib.contextmanager
def derive_draft(source: str, path: str) -> Iterator[Tuple[io.FileIO, Draft]]:
    """A file and the draft of one that is made of it, which gets its name at the end as `create` gives it. Raises `Refusal` if the
    first one changes meanwhile."""
    number = os.open(source, os.O_RDONLY | os.O_NONBLOCK | os.O_NOCTTY | os.O_CLOEXEC)
    with open(number, "rb", buffering=0) as file, draft(path) as made:
        before = os.fstat(number)
        if not stat.S_ISREG(before.st_mode):
            raise Refusal("no file any more")
        yield file, made
        if signature(os.fstat(number)) != signature(before):
            raise Refusal("it changed while it was read")
        take_over(made.number, source, before)
        made.sync()
        try:
            made.give_name(path)
        except FileExistsError:
            if not _is_same(path, made.number):
                raise Refusal(f"{quote_path(path)} is there already") from None


def sha256_of(path: Union[str, int]) -> str:
    """The SHA-256 of a whole file, which may be named by a descriptor."""
    known = hashlib.sha256()
    with open(path, "rb", buffering=0, closefd=isinstance(path, str)) as file:
        file.seek(0)
        for block in iter(lambda: file.read(BLOCK), b""):
            known.update(block or b"")
    return known.hexdigest()


def _is_same(path: str, number: int) -> bool:
    """Whether a file has the same bytes as one that is open."""
    status = os.lstat(path)
    if not stat.S_ISREG(status.st_mode) or status.st_size != os.fstat(number).st_size:
        return False
    return sha256_of(path) == sha256_of(number)


def copy_link(source: str, path: str) -> None:
    """Makes a link that leads where another does. Raises `Refusal` if there is something else of its name."""
    target = os.readlink(source)
    try:
        os.symlink(target, path)
    except FileExistsError:
        if not os.path.islink(path) or os.readlink(path) != target:
            raise Refusal(f"{quote_path(path)} is there already") from None


def make_like(folder: str, like: str) -> None:
    """Makes a folder that lets in whom another does, and its owner in any case."""
    known = os.stat(like)
    try:
        os.mkdir(folder, 0o700)
    except FileExistsError:
        return
    for owner, group in (known.st_uid, known.st_gid), (-1, known.st_gid):
        with contextlib.suppress(OSError):
            os.chown(folder, owner, group)
            break
    now = os.stat(folder)
    kept = Kept(now.st_uid == known.st_uid, now.st_gid == known.st_gid, True)
    os.chmod(folder, mode_for(stat.S_IMODE(known.st_mode), kept) | 0o700)


def make_folder(path: str, like: Optional[str] = None) -> None:
    """Makes a folder that lets in whom another does, and the missing ones above it; their names would outlast a loss of
    power."""
    new, above = [], path
    while not os.path.isdir(above or "."):
        new.append(above)
        above = os.path.dirname(above)
    if like and new:
        if not os.path.lexists(os.path.dirname(path) or "."):
            os.makedirs(os.path.dirname(path))
        make_like(path, like)
    os.makedirs(path or ".", exist_ok=True)
    for it in new:
        _sync_folder(os.path.dirname(it))


def sync_names(paths: Iterable[str], top: str) -> None:
    """Returns once the names of these files, and those of folders that they are in, would outlast a loss of power, up to what
    is in the folder `top`."""
    folders: Set[str] = set()
    for path in paths:
        folder = os.path.dirname(path)
        while folder not in folders:
            folders.add(folder)
            folder = os.path.dirname(folder) if len(folder) > len(top) else folder
    for folder in folders:
        _sync_folder(folder)


def replace(path: str, content: bytes, known: os.stat_result) -> None:
    """Replaces a file's bytes, as `rewrite` does."""
    has_holes = known.st_blocks * 512 < known.st_size
    rewrite(path, lambda made: (made.write_with_holes if has_holes else made.write)(content), known)


def rewrite(path: str, write: Callable[[Draft], None], known: os.stat_result) -> None:
    """Replaces a file's bytes by those that are written to a draft; its mode, owner and extended attributes stay. Raises `Refusal`
    if it isn't any more what is known of it, or has an owner that it can't keep. It does so too if the file has several names,
    of which one alone would get the new bytes."""
    path = os.path.realpath(path)
    if known.st_nlink > 1:
        raise Refusal(f"it has {known.st_nlink} names, of which one alone would be mended")
    with draft(path) as made:
        write(made)
        lost = [name for name, is_kept in zip(("owner", "group", "access list"), take_over(made.number, path, known)) if not is_kept]
        if lost:
            raise Refusal(f"its {lost[0]} can't be kept")
        os.utime(made.number)
        made.sync()
        if signature(os.stat(path)) != signature(known):
            raise Refusal("it has changed since")
        made.replace(path)
    _sync_folder(os.path.dirname(path))


def signature(status: os.stat_result) -> Tuple[int, ...]:
    """What tells that a file changed."""
    return status.st_dev, status.st_ino, status.st_size, status.st_mtime_ns, status.st_ctime_ns


@contextlib.contextmanager
def _sync_when_done(path: str) -> Iterator[None]:
    """What is done to a file in here would outlast a loss of power, and what was done before. (It is opened first: with
    another mode it may not be.)"""
    number = os.open(path, os.O_RDONLY | os.O_CLOEXEC)
    try:
        yield
        os.fsync(number)
    finally:
        os.close(number)


def _sync(path: str) -> None:
    """Returns once a file, or a folder's names, would outlast a loss of power."""
    with _sync_when_done(path):
        pass


def _sync_folder(path: str) -> None:
    """Returns once a folder's names would outlast a loss of power. It syncs all that there is to write if the folder can't
    be opened for reading or its file system doesn't sync folders."""
    try:
        _sync(path or ".")
    except OSError as fault:
        if fault.errno not in (errno.EACCES, errno.EINVAL):
            raise
        os.sync()


def _has(path: str, content: bytes) -> bool:
    """Whether a file has just these bytes."""
    status = os.lstat(path)
    if not stat.S_ISREG(status.st_mode) or status.st_size != len(content):
        return False
    with open(path, "rb") as file:
        return file.read() == content
