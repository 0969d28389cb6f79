"""The programs `gate` of a server, which start when they are needed, and again when one has ended."""
import itertools
from typing import Dict

from gate import TIMEOUT, Document, Gate
from legacy.finding import Found

# How many documents a program holds, less those that are open for a moment.
MOST = 60


class Programs:
    """Programs that hold documents, each as many as it can."""

    def __init__(self, found: Found):
        self._found = found
        self._counts: Dict[Gate, int] = {}
        self._numbers = itertools.count()

    def one(self) -> Gate:
        """A program that has room for a document. Raises `Missing` if it can't be started."""
        found = next((gate for gate, count in self._counts.items() if count < MOST), None)
        if not found:
            found = self._found.start()
            found.timeout = TIMEOUT
            self._counts[found] = 0
        return found

    def open(self, label: str, raw: bytes) -> Document:
        """Opens a document."""
        gate = self.one()
        document = gate.open(f"lsp-{next(self._numbers)}", label, raw)
        self._counts[gate] += 1
        return document

    def reopen(self, document: Document, label: str) -> Document:
        """Opens a document again, from its copy, in another program than its own, which has ended."""
        self.drop(document.gate)
        return self.open(label, document.bytes)

    def drop(self, gate: Gate) -> None:
        """Ends a program that gave no reply."""
        if self._counts.pop(gate, None) is not None:
            gate.close()

    def close(self, document: Document) -> None:
        """Closes a document."""
        if document.gate in self._counts:
            self._counts[document.gate] -= 1
            document.__exit__()

    def end(self) -> None:
        """Ends all programs."""
        while self._counts:
            self._counts.popitem()[0].close()
