"""git's index (gitformat-index(5)) of a repository that a mount shows. It has the length of each file, and to git a file of another
length has changed, whatever it says. In the source and in the mount texts have different lengths. So the lengths of texts are taken
away on both sides: then git reads the file."""
import hashlib
import re
from typing import Callable, Iterator, Tuple

BEGIN = b"DIRC"
# Where an entry has the length of its file, and how many bytes it has before the digest of its blob.
LENGTH, FIELDS = slice(36, 40), 40
# The digests that an index may have, by their lengths.
DIGESTS = {20: "sha1", 32: "sha256"}
# The flag of an entry that has two bytes more of them.
EXTENDED = 0x4000
# How the path of an index ends.
PATH = re.compile(rb"(^|.*/)\.git/(modules/.*/|worktrees/[^/]+/)?index", re.DOTALL)

Ruled = Callable[[bytes], bool]


def is_index(path: bytes) -> bool:
    """Whether a path is that of an index."""
    return PATH.fullmatch(path) is not None


def without_lengths(raw: bytes, ruled: Ruled) -> bytes:
    """An index that has no lengths of the files that have a rule. An index of an unknown form is unchanged."""
    for size, name in DIGESTS.items():
        end = len(raw) - size
        kept = raw[end:]
        if end > 12 and raw.startswith(BEGIN) and kept in (bytes(size), hashlib.new(name, raw[:end]).digest()):
            content = bytearray(raw[:end])
            try:
                for at, path in entries(raw, size):
                    if ruled(path):
                        content[at + LENGTH.start : at + LENGTH.stop] = bytes(4)
            except (IndexError, ValueError):
                return raw
            return bytes(content) + (hashlib.new(name, content).digest() if any(kept) else kept)
    return raw


def entries(raw: bytes, digest: int) -> Iterator[Tuple[int, bytes]]:
    """Where each entry begins, and the path of its file."""
    version, count, at, path = int.from_bytes(raw[4:8], "big"), int.from_bytes(raw[8:12], "big"), 12, b""
    if version not in (2, 3, 4):
        raise ValueError(version)
    for _ in range(count):
        flags = FIELDS + digest
        name = at + flags + (4 if raw[at + flags] << 8 & EXTENDED else 2)
        cut, begin = _cut(raw, name) if version == 4 else (len(path), name)
        end = raw.index(b"\0", begin)
        path = path[: len(path) - cut] + raw[begin:end]
        yield at, path
        # (but in the fourth version an entry is filled up to eight bytes, by one at least)
        at = end + 1 if version == 4 else at + (end - at + 8) // 8 * 8


def _cut(raw: bytes, at: int) -> Tuple[int, int]:
    """How many bytes fewer of the path before a path begins with, and where the rest of it begins."""
    found = raw[at] & 0x7F
    while raw[at] & 0x80:
        at += 1
        found = (found + 1) << 7 | raw[at] & 0x7F
    return found, at + 1
