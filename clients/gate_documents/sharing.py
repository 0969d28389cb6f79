"""Files that clients of different makes share, by the convention in docs/PROTOCOL.md, "Files that several clients share"."""
import base64
import hashlib
import itertools
import os
import re
from typing import Any, Callable, List, Tuple, Union

from gate import Fault, Gate
from gate_documents.document import Document

# The document that lists who has which document open, and a line of it: a document's name, and a word.
LIST = "legacy.editors"
Line = Tuple[str, str]

_numbers = itertools.count(1)


def shared_name(path: Union[str, "os.PathLike[str]"]) -> str:
    """The name by which clients share a file."""
    return hashlib.sha256(os.fsencode(os.path.realpath(path))).hexdigest()


def is_editor(word: str) -> bool:
    """Whether a word of the list is an editor whose process runs."""
    number = re.match("[0-9]+", word)
    try:
        if number:
            os.kill(int(number[0]), 0)
    except PermissionError:
        return True
    except (ProcessLookupError, OverflowError):
        return False
    return number is not None


class SharedFile:
    """A file's document, opened from some bytes or joined, and this client's line in the list of editors. In a `with` statement
    the client leaves at its end."""

    def __init__(self, gate: Gate, path: Union[str, "os.PathLike[str]"], label: str, content: bytes):
        self._gate, self.name, self._word = gate, shared_name(path), f"{os.getpid()}.{next(_numbers)}"
        self._closes = True
        try:
            self.document: Document = gate.open(self.name, label, content)
        except Fault as fault:
            if fault.name != "NameTaken":
                raise
            self.document = gate.join(self.name)
            # (who opened it without a line in the list wants it to stay open)
            self._closes = bool(self._editors(self._read()[1]))
        self._change(lambda lines: [*lines, (self.name, self._word)])

    def others(self) -> int:
        """How many other editors have the file open."""
        return len(self._editors(self._read()[1]))

    def leave(self) -> None:
        """Removes this client's line. If no other editor is listed, closes the document, unless it was open before without any."""

        def without(lines: List[Line]) -> List[Line]:
            rest = [it for it in lines if it != (self.name, self._word)]
            return rest if self._editors(rest) or not self._closes else [it for it in rest if it[0] != self.name]

        if not self._editors(self._change(without)) and self._closes:
            self.document.close()

    def _editors(self, lines: List[Line]) -> List[str]:
        """The other editors of the document."""
        return [word for name, word in lines if name == self.name and word != self._word and is_editor(word)]

    def _change(self, change: Callable[[List[Line]], List[Line]]) -> List[Line]:
        """Changes the list, and returns its lines from before. If another client was first, reads it again."""
        while True:
            stat, lines = self._read()
            text = "".join(f"{name} {word}\n" for name, word in change(lines)).encode()
            try:
                self._gate.ask("splice", doc=LIST, rev=stat["rev"], at=0, bytes=text, **{"del": stat["bytes"]})
                return lines
            except Fault as fault:
                if fault.name not in ("Stale", "NoDocument"):
                    raise

    def _read(self) -> Tuple[Any, List[Line]]:
        """What `stat` says of the list, and its lines. Opens it if it is missing."""
        while True:
            try:
                stat = self._gate.ask("stat", doc=LIST)
                source = self._gate.ask("source", doc=LIST, at=0, len=stat["bytes"])
            except Fault as fault:
                if fault.name == "NoDocument":
                    self._open_list()
                elif fault.name != "OutOfRange":
                    raise
                continue
            if source["rev"] == stat["rev"]:
                lines = base64.b64decode(source["bytes"]).decode(errors="replace").split("\n")
                return stat, [(name, word) for name, _, word in (it.partition(" ") for it in lines) if word]

    def _open_list(self) -> None:
        try:
            self._gate.ask("open", doc=LIST, label="utf-8", bytes=b"")
        except Fault as fault:
            if fault.name != "NameTaken":
                raise

    def __enter__(self) -> "SharedFile":
        return self

    def __exit__(self, *_: Any) -> None:
        self.leave()
