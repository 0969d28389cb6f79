"""The members of archives: files in tar and zip, what gzip, xz and bzip2 hold, and the texts of mail, each with the encoding that
its part names. Nothing is unpacked onto a disk."""
import bz2
import email
import gzip
import io
import lzma
import os
import tarfile
import zipfile
import zlib
from typing import IO, Any, Callable, Dict, Iterator, List, NamedTuple, Optional

from legacy.work import reading
from legacy.work.walk import reason

# How names of archives end.
TARS = (".tar", ".tgz", ".tar.gz", ".txz", ".tar.xz", ".tbz2", ".tar.bz2")
STREAMS: Dict[str, Callable[[Any], Any]] = {
    ".gz": lambda file: gzip.GzipFile(fileobj=file), ".xz": lambda file: lzma.LZMAFile(file), ".bz2": lambda file: bz2.BZ2File(file)}
MAIL, MBOX = ".eml", ".mbox"
NAMES = (*TARS, ".zip", *STREAMS, MAIL, MBOX)
# What a module says of an archive that is damaged, or that it can't read, such as one with a password.
FAULTS = (tarfile.TarError, zipfile.BadZipFile, zlib.error, lzma.LZMAError, EOFError, RuntimeError, NotImplementedError, ValueError)


class Member(NamedTuple):
    """A member by its name: its bytes, or why it has none, and the encoding that is said of it, if any is. A long one has its
    first bytes, and `rest`, from which the others are read before the next member is asked for."""

    name: str
    content: bytes
    fault: str = ""
    charset: Optional[str] = None
    rest: Optional[IO[bytes]] = None


def is_archive(name: str) -> bool:
    """Whether a file has the name of an archive."""
    return name.lower().endswith(NAMES)


def members(path: str) -> Iterator[Member]:
    """The members of an archive, in its order. What can't be read is one, without a name, with the reason."""
    name = os.path.basename(path).lower()
    try:
        number = os.open(path, os.O_RDONLY | os.O_NONBLOCK | os.O_NOCTTY | os.O_CLOEXEC)
        with open(number, "rb") as file:
            if name.endswith(TARS):
                yield from _of_tar(file)
            elif name.endswith(".zip"):
                yield from _of_zip(file)
            elif name.endswith((MAIL, MBOX)):
                yield from _of_mail(file, name.endswith(MBOX))
            else:
                inner, end = os.path.splitext(os.path.basename(path))
                yield _read_member(inner, STREAMS[end.lower()](file))
    except FAULTS as fault:
        yield Member("", b"", f"not a readable archive: {fault}")
    except OSError as fault:
        yield Member("", b"", reason(fault))


def _read_member(name: str, file: Optional[IO[bytes]]) -> Member:
    """A member of what a file has; only the first bytes of a long one are read."""
    content = file.read(reading.WHOLE + 1) if file else b""
    return Member(name, content, rest=file if len(content) > reading.WHOLE else None)


def _of_tar(file: IO[bytes]) -> Iterator[Member]:
    with tarfile.open(fileobj=file, mode="r:*") as archive:
        for it in archive:
            if it.isreg():
                yield _read_member(it.name, archive.extractfile(it))


def _of_zip(file: IO[bytes]) -> Iterator[Member]:
    with zipfile.ZipFile(file) as archive:
        for it in archive.infolist():
            if not it.is_dir():
                with archive.open(it) as inner:
                    yield _read_member(it.filename, inner)


def _messages(file: IO[bytes]) -> Iterator[bytes]:
    """The messages of an mbox, each of which begins with a line From that follows an empty one."""
    begun: List[bytes] = []
    is_begun, is_behind_empty = False, True
    for line in file:
        if is_behind_empty and line.startswith(b"From "):
            if is_begun:
                yield b"".join(begun)
            begun, is_begun = [], True
        else:
            begun.append(line)
        is_behind_empty = not line.strip(b"\r\n")
    if is_begun:
        yield b"".join(begun)


def _of_mail(file: IO[bytes], is_mbox: bool) -> Iterator[Member]:
    """The texts of each message, by the numbers of the message and of the part."""
    for number, message in enumerate(_messages(file) if is_mbox else [file.read()], 1):
        for part, it in enumerate(email.message_from_bytes(message).walk(), 1):
            if it.get_content_maintype() == "text":
                payload = it.get_payload(decode=True)
                text = payload if isinstance(payload, bytes) else b""
                name = f"{number}/{part}" if is_mbox else str(part)
                rest = io.BytesIO() if len(text) > reading.WHOLE else None
                yield Member(name, text, charset=it.get_content_charset() or "", rest=rest)
