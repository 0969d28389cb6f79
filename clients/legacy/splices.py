"""Edits of files that are too long for a document, made block by block."""
import dataclasses
import hashlib
import io
import os
from typing import Iterator, List, Sequence

from legacy import streams
from legacy.finding import Found
from legacy.repairs import Edit
from legacy.terminals import quantity
from legacy.work import Refusal

BLOCK = 1 << 20


def blocks(file: io.FileIO, edits: Sequence[Edit] = ()) -> Iterator[bytes]:
    """The bytes of a file with these edits made, whose places are those of the file as it is."""
    at = 0
    for it in edits:
        yield from _read(file, at, it.at)
        yield bytes.fromhex(it.new)
        at = it.end
    yield from _read(file, at, os.fstat(file.fileno()).st_size)


def _read(file: io.FileIO, begin: int, end: int) -> Iterator[bytes]:
    while begin < end:
        block = os.pread(file.fileno(), min(BLOCK, end - begin), begin)
        if not block:
            return
        yield block
        begin += len(block)


def sha256(file: io.FileIO, edits: Sequence[Edit] = ()) -> str:
    """The SHA-256 of a file with these edits made."""
    known = hashlib.sha256()
    for block in blocks(file, edits):
        known.update(block)
    return known.hexdigest()


def are_there(file: io.FileIO, edits: Sequence[Edit]) -> bool:
    """Whether a file has the old bytes of all edits."""
    return all(os.pread(file.fileno(), it.end - it.at, it.at) == bytes.fromhex(it.old) for it in edits)


def reverse(edits: Sequence[Edit]) -> List[Edit]:
    """The edits that take these back, in the file in which they are made."""
    back, more = [], 0
    for it in edits:
        back.append(dataclasses.replace(it, at=it.at + more, old=it.new, new=it.old))
        more += len(bytes.fromhex(it.new)) - len(bytes.fromhex(it.old))
    return back


def look_at(found: Found, label: str, old: int, new: int) -> None:
    """Raises `Refusal` if a file, by its descriptor, has more errors than an old one, or another encoding."""
    before, after = (streams.check(found, label, it) for it in (old, new))
    if (before["encoding"], before["bom"]) != (after["encoding"], after["bom"]):
        raise Refusal(f"its first bytes would say that it is {after['encoding']}")
    if after["errors"] > before["errors"]:
        raise Refusal(f"it would have {quantity(after['errors'], 'errors')}, and has {before['errors']}")
