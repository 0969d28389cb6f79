"""What a client asks of a document: each call of clients/gate.py that makes no edit, for tests that go over all of them."""
from typing import Any, Callable, List

from gate import Document

QUESTIONS: List[Callable[[Document], Any]] = [
    Document.text, Document.stat, Document.source, Document.errors, Document.diagnostics, Document.lines,
    lambda it: it.position(1), lambda it: it.offset((0, 1)), lambda it: it.place(1), lambda it: it.span(0, 1),
    lambda it: it.plan("", (0, 0))[1], lambda it: it.encode("utf-16le"), lambda it: it.diagnostics(0),
]
