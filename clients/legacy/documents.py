"""Documents of `gate` that are opened for a question or an edit, and closed after it or left open for the next one."""
import base64
import contextlib
import itertools
from typing import ContextManager, Dict, Iterator, List, Optional

from gate import ROOM, Gate, Gone, Reply

# The most code points of a text that are asked for at once.
PAGE = 1_000_000
# From how many bytes on a document is left open.
LARGE = 1 << 18

_NUMBERS = itertools.count()


class Document:
    """A document of `gate`. What is sent is waited for only at the end."""

    def __init__(self, gate: Gate, label: str, raw: bytes, bom: str = "sniff"):
        self.gate, self.label, self.name = gate, label, f"saving-{next(_NUMBERS)}"
        # Its bytes, or None after edits whose result isn't known yet.
        self.raw: Optional[bytes] = raw
        self._parts = gate.send_open(self.name, label, raw, bom)
        self._rev = len(self._parts) - 1

    def edit(self, op: str, **fields: object) -> Reply:
        """Sends an edit of the revision to which those before it lead."""
        self.raw = None
        self._rev += 1
        return self.gate.send(op, doc=self.name, rev=self._rev - 1, **fields)

    def ask(self, op: str, **fields: object) -> Reply:
        """Sends a question."""
        return self.gate.send(op, doc=self.name, **fields)

    def wait_until_open(self) -> None:
        """Waits until it is open."""
        for it in self._parts:
            it.get()
        self._parts = []

    def pages(self, count: int) -> Iterator[Reply]:
        """The text by pages, one being asked for while another is looked at; the first is asked for at once."""
        ranges = ({"from": at, "to": min(at + PAGE, count)} for at in range(0, count, PAGE))
        asked = [self.ask("text", **it) for it in itertools.islice(ranges, 1)]
        return self._pages(asked, ranges)

    def _pages(self, asked: List[Reply], ranges: Iterator[Dict[str, int]]) -> Iterator[Reply]:
        for it in ranges:
            asked.append(self.ask("text", **it))
            yield asked.pop(0)
        yield from asked

    def source(self, count: int) -> bytes:
        """The bytes as `gate` has them."""
        return b"".join(base64.b64decode(self.ask("source", at=at, len=min(ROOM, count - at)).get()["bytes"])
                        for at in range(0, count, ROOM))

    def close(self) -> None:
        """Closes it."""
        with contextlib.suppress(Gone):
            self.ask("close")

    def __enter__(self) -> "Document":
        return self

    def __exit__(self, *_: object) -> None:
        self.close()


class Last:
    """The large document that was last asked or edited over a connection. It is left open for the caller that continues with
    the bytes that it has, since opening it takes longer than editing it."""

    def __init__(self) -> None:
        self._document: Optional[Document] = None

    @contextlib.contextmanager
    def open_document(self, gate: Gate, label: str, raw: bytes) -> Iterator[Document]:
        """A document of these bytes."""
        document, self._document = self._document, None
        if document is None or (document.gate, document.label, document.raw) != (gate, label, raw):
            if document:
                document.close()
            document = Document(gate, label, raw)
        try:
            yield document
        except BaseException:
            document.close()
            raise
        if document.raw is not None and len(document.raw) >= LARGE:
            self._document = document
        else:
            document.close()


def open_document(gate: Gate, label: str, raw: bytes, last: Optional[Last]) -> ContextManager[Document]:
    """A document of these bytes, perhaps the last one."""
    if last:
        return last.open_document(gate, label, raw)
    return Document(gate, label, raw)
