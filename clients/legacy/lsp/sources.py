"""Where a file's bytes are, and in which encoding: by the rules that the mount and the archives have, or as a mount says."""
import argparse
import contextlib
import os
import pathlib
import re
from typing import Dict, List, NamedTuple, Optional

from legacy.lsp.files import Content, Unreadable, read_file
from legacy.rules import Rule, Rules, rules_from

# The attributes in which a mount says what a file's encoding is, and why.
LABEL, ORIGIN = b"user.gate.label", b"user.gate.origin"
# The kind of a mount by `legacy mount`, as /proc/self/mountinfo (proc(5)) has it.
KIND = "fuse.gate"
MOUNTS = pathlib.Path("/proc/self/mountinfo")
OCTAL = re.compile(rb"\\([0-7]{3})")


class Source(NamedTuple):
    """A file with a rule: its encoding, why, the path at which its bytes are, and the byte order mark of a fresh file. The path is
    None if a mount hides the bytes, or doesn't say where they are."""

    label: str
    origin: str
    path: Optional[str]
    is_mounted: bool
    mark: bytes = b""

    def read(self) -> Content:
        """The file's bytes. Raises `Unreadable`."""
        if self.path is None:
            raise Unreadable("the file's bytes can't be read, since its mount hides them or doesn't say where they are")
        return read_file(self.path, self.mark)


class Sources:
    """What is known of files. `folders` are those of the workspace."""

    def __init__(self, words: argparse.Namespace, labels: Optional[pathlib.Path], folders: List[str]):
        self._words, self._labels, self._folders = words, labels, folders
        self._rules: Dict[str, Rules] = {}

    def find(self, path: str) -> Optional[Source]:
        """What is known of a file; None if it has no rule. Raises `Unreadable`."""
        mounted = _source_in_mount(path)
        if mounted:
            return mounted
        folder = max((it for it in self._folders if _is_in(path, it)), key=len, default=os.path.dirname(path))
        rule = self._rule(folder, os.path.relpath(path, folder))
        return Source(rule.label, rule.origin, path, False, rule.mark) if rule else None

    def _rule(self, folder: str, path: str) -> Optional[Rule]:
        """The rule of a file in a folder."""
        try:
            if folder not in self._rules:
                self._rules[folder] = rules_from(self._words, folder, self._labels)
            return self._rules[folder].rule_of(path)
        except OSError as fault:
            raise Unreadable(f"{folder}: {fault.strerror}") from fault


def _is_in(path: str, folder: str) -> bool:
    return path.startswith(os.path.join(folder, ""))


def _source_in_mount(path: str) -> Optional[Source]:
    """What a mount says of a file, if it is in one and has a rule there."""
    with contextlib.suppress(OSError):
        label, origin = (os.getxattr(path, it).decode(errors="replace") for it in (LABEL, ORIGIN))
        return Source(label, origin, _below(os.path.realpath(path)), True)
    return None


def _below(path: str) -> Optional[str]:
    """The path at which a file of a mount has its bytes; None if the mount hides it, or doesn't say where it is."""
    point, source = "", ""
    for line in MOUNTS.read_bytes().splitlines():
        fields = [os.fsdecode(OCTAL.sub(lambda it: bytes([int(it[1], 8)]), it)) for it in line.split(b" ")]
        kind = fields.index("-") + 1
        if fields[kind] == KIND and _is_in(path, fields[4]) and len(fields[4]) >= len(point):
            point, source = fields[4], fields[kind + 1]
    if not os.path.isabs(source) or _is_in(os.path.join(os.path.realpath(source), ""), point):
        return None
    return os.path.join(source, os.path.relpath(path, point))
