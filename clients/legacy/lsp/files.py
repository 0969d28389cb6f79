"""Files read whole, and written whole if nobody else has changed them."""
import contextlib
import os
import stat
from typing import NamedTuple, Optional

from legacy.work.reading import Refusal
from legacy.work.writing import replace

# The most bytes of a document.
LARGEST = 1 << 24


class Unreadable(Exception):
    """Why a file's bytes can't be read, for a person."""


class Unwritten(Exception):
    """Why a file wasn't written, for a person."""


class Content(NamedTuple):
    """A file's bytes, and what the system said of the file then; None if there was none."""

    raw: bytes
    status: Optional[os.stat_result]


def read_file(path: str, fresh: bytes) -> Content:
    """Reads a file. One that doesn't exist has the bytes of a fresh one. Raises `Unreadable`."""
    try:
        with open(os.open(path, os.O_RDONLY | os.O_NONBLOCK | os.O_CLOEXEC), "rb") as file:
            status = os.fstat(file.fileno())
            if not stat.S_ISREG(status.st_mode):
                raise Unreadable("it isn't a regular file")
            raw = file.read(LARGEST + 1)
    except FileNotFoundError:
        return Content(fresh, None)
    except OSError as fault:
        raise Unreadable(str(fault.strerror)) from fault
    if len(raw) > LARGEST:
        raise Unreadable(f"it is larger than {LARGEST:,} bytes")
    return Content(raw, status)


def write_file(path: str, raw: bytes, known: Content) -> Content:
    """Writes a file that nobody has changed since it was read, and returns what it is now. Raises `Unwritten`."""
    try:
        if known.status is None:
            _create(path, raw)
        else:
            replace(path, raw, known.status)
        return read_file(path, b"")
    except FileExistsError as fault:
        raise Unwritten("another program has made the file meanwhile; read it again") from fault
    except Refusal as fault:
        raise Unwritten(str(fault)) from fault
    except (OSError, Unreadable) as fault:
        raise Unwritten(str(fault)) from fault


def _create(path: str, raw: bytes) -> None:
    """Makes a file, unless there is one. If it can't be written whole, there is none afterwards."""
    number = os.open(path, os.O_WRONLY | os.O_CREAT | os.O_EXCL | os.O_CLOEXEC, 0o666)
    try:
        with open(number, "wb") as file:
            file.write(raw)
            file.flush()
            os.fsync(file.fileno())
    except BaseException:
        with contextlib.suppress(OSError):
            os.unlink(path)
        raise
