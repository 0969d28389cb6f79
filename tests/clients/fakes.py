"""What stands in for the program where a test is about what `legacy` does with its answers, and above all with its refusals:
documents that Python decodes, of which the test says which ones are refused, or are the program's end."""
import unittest
from unittest import mock

from gate import Fault
from legacy.ends import LINE_END
from legacy.finding import Found


def fault(name, **members):
    """A refusal of `gate`."""
    return Fault({"fault": name, **members})


class Document:
    """A document whose errors are what Python can't decode."""

    bom = 0

    def __init__(self, gate, name, label, content):
        self._gate, self._name, self.encoding, self.bytes = gate, name, label, content
        self._text = content.decode(label, "replace")

    def stat(self):
        return {"errors": self._text.count("\ufffd"), "utf32": len(self._text), "lines": len(LINE_END.findall(self._text)) + 1}

    def text(self):
        return self._text

    def errors(self):
        return []

    def encode(self, to, begin=0, end=None, mode="fatal"):
        try:
            return self._text[begin:end].encode(to)
        except UnicodeEncodeError as why:
            raise fault("Unencodable", index=begin + why.start, code_point=ord(self._text[begin + why.start])) from why

    def __enter__(self):
        return self

    def __exit__(self, *_):
        self._gate.names.remove(self._name)


class Program:
    """A `gate` that was started. `refuses` is called with each document's name, label and bytes as it is opened, and raises
    what the program answers with; the document then stays open, as one does of which a later part is refused. `names` are
    those of the documents that are open, `opened` those of all, in order."""

    def __init__(self, refuses):
        self.names, self.opened, self._refuses = set(), [], refuses

    def open(self, name, label, content, bom="sniff"):
        if name in self.names:
            raise fault("NameTaken")
        self.names.add(name)
        self.opened.append(name)
        self._refuses(name, label, content)
        return Document(self, name, label, content)

    def close(self):
        pass

    def __enter__(self):
        return self

    def __exit__(self, *_):
        self.close()


class Fakes(unittest.TestCase):
    """Tests over such programs. `started` has those that were started."""

    def setUp(self):
        super().setUp()
        self.started = []
        self.refuses = lambda name, label, content: None
        started = mock.patch.object(Found, "start", self._start)
        started.start()
        self.addCleanup(started.stop)

    def _start(self):
        self.started.append(Program(lambda *opened: self.refuses(*opened)))
        return self.started[-1]
