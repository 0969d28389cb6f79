"""A process of the mount that decodes and saves what is long, with a `gate` of its own. Neither that work, nor what it
takes of the interpreter, holds up the loop that serves the kernel.

Standard input has jobs, pickled (sending.py): each the name of a call of `Jobs` and its words. Standard output has for each
what the call returns, or the `Refused` that it raises, and the numbers of the contents that the process keeps."""
import contextlib
import errno
import os
import pickle
import sys
from typing import Callable, Dict, List, Optional, Sequence, Tuple, TypeVar, Union

from gate import Fault, Gate, Gone
from legacy.documents import LARGE, Last, open_document
from legacy.mount.below import Place, Signature, steady_by
from legacy.mount.beneath import opened_beneath
from legacy.mount.sending import Content, Kept, Receiver
from legacy.mount.snapshots import Lengths, Text
from legacy.mount.together import Labelled, Together
from legacy.saving import Known, Refused, read, save

Found = TypeVar("Found")


class Jobs:
    """What the process does."""

    def __init__(self, words: Sequence[str]):
        self._words = words
        # (so that it has read its files once the first job comes)
        self._gate: Optional[Gate] = Gate.start(*words)
        self._last = Last()
        self.kept, self._together = Kept(), Together(words)

    def text(self, raw: bytes, label: str, number: int) -> Text:
        """The text of the content of a number."""
        found = self._with(lambda gate: read(gate, label, raw, self._last))
        self.kept.keep(number, found)
        return text_of(found)

    def texts(self, root: bytes, files: Sequence[Tuple[bytes, str]]) -> List[Optional[Tuple[Signature, bytes, Text]]]:
        """What small files below a folder have now, each by its label; nothing of one that is missing, or that may still
        change under the same signature."""
        found, contents = contents_of(root, files)
        texts = self._with(lambda gate: iter(self._together.texts(gate, contents)))
        return [(*it, next(texts)) if it else None for it in found]

    def sizes(self, root: bytes, files: Sequence[Tuple[bytes, str]], signatures: Sequence[Tuple[int, ...]]) -> List[Optional[int]]:
        """How long the texts of these files are, if `texts` finds them and they have these signatures."""
        found, contents = contents_of(root, files)
        sizes = self._with(lambda gate: iter(self._together.sizes(gate, contents)))
        known = [(it[0], next(sizes)) if it else (None, 0) for it in found]
        return [size if it == signature else None for (it, size), signature in zip(known, signatures)]

    def lengths(self, raw: bytes, label: str) -> Lengths:
        """How long the text of these bytes is."""
        def count(gate: Gate) -> Lengths:
            # (whoever asks for the size of a large text is often about to read it)
            with open_document(gate, label, raw, self._last if len(raw) >= LARGE else None) as document:
                asked = document.ask("stat")
                document.wait_until_open()
                counts = asked.get()
            return Lengths(counts["utf8"], counts["errors"])

        return self._with(count)

    def save(self, label: str, base: Union[Content, Known], utf8: bytes, others: Sequence[Union[Content, Known]], number: int) -> Tuple[bytes, str]:
        """The bytes of a text, where what is known of them is a base and other contents; and how they came about. The content
        that they are has a number."""
        new = decode_text(utf8)

        def save_over(gate: Gate) -> Tuple[Known, Known]:
            old, *more = [known_content(gate, label, it) for it in (base, *others)]
            return old, save(gate, label, old, new, more, self._last)

        old, made = self._with(save_over)
        if isinstance(base, Content):
            self.kept.keep(base.number, old)
        self.kept.keep(number, made)
        return made.raw, "unchanged" if made is old else "the difference"

    def _with(self, job: Callable[[Gate], Found]) -> Found:
        """Does a job with `gate`, and once more with a new one where that ended."""
        for _ in range(2):
            if self._gate is None:
                self._gate, self._last = Gate.start(*self._words), Last()
            try:
                return job(self._gate)
            except Gone:
                self._gate = None
            except Fault as fault:
                self._gate = None
                raise Refused(errno.EIO, f"gate answered {fault}") from fault
        raise Refused(errno.EIO, "gate ended before it replied")


def contents_of(root: bytes, files: Sequence[Tuple[bytes, str]]) -> Tuple[List[Optional[Tuple[Signature, bytes]]], List[Labelled]]:
    """The bytes of files below a folder with their signatures, and those that were found with their labels."""
    folders: Dict[bytes, int] = {}
    with contextlib.ExitStack() as held:
        top = os.open(root, os.O_PATH | os.O_DIRECTORY | os.O_CLOEXEC)
        held.callback(os.close, top)

        def content(path: bytes) -> Optional[Tuple[Signature, bytes]]:
            folder, _, name = path.rpartition(b"/")
            try:
                if folder not in folders:
                    folders[folder] = opened_beneath(top, folder, os.O_PATH | os.O_DIRECTORY)
                    held.callback(os.close, folders[folder])
                found = steady_by(Place(folders[folder], name).open)
            except OSError:
                return None
            # (nobody is changing it)
            return (found.signature, found.raw) if found.settled else None

        found = [content(path) for path, _ in files]
    return found, [(label, it[1]) for it, (_, label) in zip(found, files) if it]


def text_of(known: Known) -> Text:
    """What a content says, as the mount keeps it."""
    return Text(known.text.encode(), known.encoding, known.bom)


def known_content(gate: Gate, label: str, content: Union[Content, Known]) -> Known:
    """What a text is compared with."""
    if isinstance(content, Known):
        return content
    _, raw, text = content
    return Known(raw, text.utf8.decode(), text.encoding, text.bom) if text else read(gate, label, raw)


def decode_text(utf8: bytes) -> str:
    """The text that a program wrote."""
    try:
        return utf8.decode()
    except UnicodeDecodeError as fault:
        line, at = utf8.count(b"\n", 0, fault.start) + 1, fault.start - utf8.rfind(b"\n", 0, fault.start)
        reason = f"byte {utf8[fault.start]:02X} is no UTF-8; does the program take the file for one in another encoding?"
        raise Refused(errno.EILSEQ, reason, line, at) from fault


def main(words: List[str]) -> None:
    """Does jobs until standard input ends."""
    jobs = Jobs(words)
    with contextlib.suppress(EOFError, KeyboardInterrupt):
        while True:
            name, given = Receiver(sys.stdin.buffer, jobs.kept).load()
            outcome: Tuple[str, object]
            try:
                outcome = "returned", getattr(jobs, name)(*given)
            except Refused as refused:
                outcome = "refused", (refused.errno, refused.reason, refused.line, refused.character)
            except Exception as fault:
                outcome = "refused", (errno.EIO, f"{type(fault).__name__}: {fault}")
            del given
            pickle.dump((*outcome, set(jobs.kept.of)), sys.stdout.buffer, pickle.HIGHEST_PROTOCOL)
            sys.stdout.buffer.flush()
            del outcome


if __name__ == "__main__":
    main(sys.argv[1:])
