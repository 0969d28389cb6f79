"""Splices that look random of documents in each family of encodings, with byte order marks looked for and kept, on the
program as it was built: what each leaves is what decoding all bytes from scratch gives, by a plain computation."""
import random
import unittest

from drawing import OWN, splice
from plain import Document
from program import Session, built
from test_changes import Mirror, reply, utf16

# One encoding of each family, and how many splices each has.
FAMILIES = [*OWN, "GBK", "x-user-defined"]
SPLICES = 300
# How many of them have to make or break a byte order mark at least, where one is looked for.
LEAST = 10

# How many errors a page has at most, and how many places are asked for behind each splice.
PAGE, PLACES = 10_000, 3


class Spliced(Mirror):
    """A document that is spliced."""

    def draw(self, rng):
        """Makes a splice, and looks at what it leaves. Returns whether its byte order mark is another."""
        before, data = self.document, self.document.data
        at, gone, put = splice(rng, len(data))
        after = Document(before.given, before.kept, data[:at] + put + data[at + gone :])
        self.splice(at, gone, put, after)
        self.is_left()
        self.has_errors()
        for _ in range(PLACES):
            self.has_place("utf-32", *[rng.randint(0, len(after.text))] * 2)
            count = rng.randint(0, len(after.data))
            self.has_place("byte", count, after.complete(count))
        return (after.bom, after.encoding) != (before.bom, before.encoding)

    def answer(self, op, members, wanted):
        """The program answers a question by the members of its reply beside `id` and `rev`."""
        self.ask(op, members, reply({**wanted, "rev": self.rev}))

    def has_errors(self):
        """The program has the document's errors, and refuses its text in mode fatal where there is one."""
        document, ends = self.document, self.document.ends
        places = ",".join([f"[{ends[it]},{ends[it + 1]}]" for it in document.errors[:PAGE]])
        page = f'{{"errors":[{places}],"id":1,"rev":{self.rev},"total":{len(document.errors)}}}'
        self.ask("errors", f'"from":0,"max":{PAGE}', page)
        whole = f'"from":0,"to":{len(document.text)},"mode":"fatal"'
        if document.errors:
            self.ask("text", whole, reply({"fault": "Malformed", "place": document.place(document.errors[0])}))
        else:
            self.answer("text", whole, {"text": document.text})

    def has_place(self, unit, value, offset):
        """The program has the code point of an offset where it is."""
        front = self.document.text[:offset]
        lengths = {"utf8": len(front.encode()), "utf16": utf16(front), "utf32": offset}
        self.answer("place", f'"unit":"{unit}","value":{value}', {"place": self.document.place(offset), **lengths})


@built
class Splices(unittest.TestCase):
    def test_what_splices_leave_is_decoding_from_scratch(self):
        for given in FAMILIES:
            for kept in False, True:
                with self.subTest(encoding=given, kept=kept), Session() as session:
                    rng = random.Random(given)
                    document = Spliced(session, None, "d", Document(given, kept, b""))
                    marks = sum(document.draw(rng) for _ in range(SPLICES))
                    self.assertTrue(marks == 0 if kept else marks >= LEAST, f"{marks} marks come or go")


if __name__ == "__main__":
    unittest.main()
