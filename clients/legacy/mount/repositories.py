"""Repositories of git in a mount that shows them. There a file is UTF-8 already, and so is the blob of a file with the attribute
`working-tree-encoding`: git has nothing to convert. So in the mount the file `info/attributes` of a repository takes that attribute
back. The file counts before all others, and git doesn't track it."""
import errno
import os
import stat
from typing import Optional, Tuple

from legacy.mount import indexes
from legacy.mount.below import Signature, Source, overwrite, read_at, signature
from legacy.mount.beneath import check_regular, opened_beneath
from legacy.rules import Rule
from legacy.rules.attributes import ENCODING

FOLDER = b".git"
# How the path of such a file ends, and what it says in the mount after what it says in the source.
ATTRIBUTES = b"/info/attributes"
TAKEN_BACK = b"* !%b\n" % ENCODING.encode()
# What its text is read by, instead of a label.
LABEL, INDEX = f"{ENCODING} is taken back", "an index without lengths"
RULES = AS_IN_MOUNT, AN_INDEX = Rule(LABEL, LABEL), Rule(INDEX, INDEX)


def is_inside(path: bytes) -> bool:
    """Whether a path is that of a repository, or of what it keeps."""
    return FOLDER in path.split(b"/")


def is_attributes(path: bytes) -> bool:
    """Whether a path is that of a repository's own file of attributes."""
    return path.endswith(ATTRIBUTES) and is_inside(path)


def look(source: Source, path: bytes) -> os.stat_result:
    """What is at the path of a repository, or of something that it keeps. Its file of attributes always exists. If `.git`
    is a file, the repository lies elsewhere, so it stays hidden."""
    try:
        found = source.stat(path)
    except FileNotFoundError:
        if not is_attributes(path):
            raise
        return stand_in(source.stat(os.path.dirname(path)))
    if os.path.basename(path) == FOLDER and not stat.S_ISDIR(found.st_mode):
        raise FileNotFoundError(errno.ENOENT, os.strerror(errno.ENOENT))
    return found


def stand_in(folder: os.stat_result) -> os.stat_result:
    """What a missing file would be in a folder."""
    times = {name: getattr(folder, name) for name in ("st_atime_ns", "st_mtime_ns", "st_ctime_ns")}
    # (no other file has this number, or this many links)
    fields = stat.S_IFREG | 0o444, 0, folder.st_dev, 1, folder.st_uid, folder.st_gid, 0, *(int(it / 10**9) for it in times.values())
    return os.stat_result(fields, {**times, "st_rdev": 0})


class Kept:
    """What repositories keep that is shown otherwise than it is. `ruled` says whether a file has a rule."""

    def __init__(self, source: Source, ruled: indexes.Ruled):
        self._source, self._ruled = source, ruled

    def content(self, path: bytes, label: str) -> Tuple[Signature, bytes, bytes]:
        """The bytes of an index or of a file of attributes, none if it is missing, and what they are in the mount."""
        try:
            found, raw, _ = self._source.read(path)
        except FileNotFoundError:
            found, raw = signature(look(self._source, path)), b""
        if label == INDEX:
            return found, raw, indexes.without_lengths(raw, self._test_for(path))
        return found, raw, b"".join([raw, b"" if raw.endswith(b"\n") or not raw else b"\n", TAKEN_BACK])

    def strip(self, path: bytes, index: bytes) -> None:
        """Takes the lengths away from what is about to become an index. It has the time that it had: git compares files with that."""
        file = opened_beneath(self._source.descriptor, path, os.O_RDWR)
        try:
            found = check_regular(file)
            raw = read_at(file, found.st_size)
            stripped = indexes.without_lengths(raw, self._test_for(index))
            if stripped != raw:
                overwrite(file, stripped)
                os.utime(file, ns=(found.st_atime_ns, found.st_mtime_ns))
        finally:
            os.close(file)

    def _test_for(self, index: bytes) -> indexes.Ruled:
        """Whether files have a rule by their paths in an index; of one whose work tree may be anywhere all may."""
        folder, is_main = os.path.split(os.path.dirname(index))
        if is_main != FOLDER:
            return lambda _: True
        return lambda path: self._ruled(os.path.join(folder, path))


def rule_of(path: bytes) -> Optional[Rule]:
    """The rule of what a repository keeps."""
    return AS_IN_MOUNT if is_attributes(path) else AN_INDEX if indexes.is_index(path) else None
