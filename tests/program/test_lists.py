"""The longest lists of changes, drawn at random, beside their changes sent one by one, in eleven encodings; and lists of
which the last change is refused."""
import json
import random
import re
import subprocess
import unittest

from encoding_rows import ENCODINGS
from program import PROGRAM, SMALL, built
from base import base64_of

# The most changes of a list.
LONGEST = 1000

# How many code points of text a document has at least.
LENGTH = 4000

# What documents are made of. The texts of changes are one byte each.
FRAGMENTS = {given: it.listed or it.own for given, it in ENCODINGS.items()}
TEXTS = ["a", "Z", "1", "\\", "~", "\r", "\n"]


class Talk:
    """Commands to the program, each with its reply."""

    def __init__(self):
        self.program = subprocess.Popen([PROGRAM, *SMALL], stdin=subprocess.PIPE, stdout=subprocess.PIPE)

    def ask(self, doc, op, **fields):
        """The reply without its number."""
        self.program.stdin.write(json.dumps({"id": 1, "op": op, "doc": doc, **fields}).encode() + b"\n")
        self.program.stdin.flush()
        reply = json.loads(self.program.stdout.readline())
        del reply["id"]
        return reply

    def end(self):
        self.program.stdin.close()
        self.program.stdout.close()
        return self.program.wait()

    def all_of(self, doc):
        """All that a document answers, but for its revision."""
        stat = self.ask(doc, "stat")
        answers = [
            stat,
            self.ask(doc, "text", **{"from": 0, "to": stat["utf32"]}),
            self.ask(doc, "source", at=0, len=stat["bytes"]),
            self.ask(doc, "errors", **{"from": 0, "max": 10_000}),
            self.ask(doc, "lines", **{"from": 0, "max": 10_000}),
        ]
        for answer in answers:
            del answer["rev"]
        return answers


def draw_change(rng, text):
    """A change of one code point or of none at a place of the text, with the place; now and then one that ends before it
    begins."""
    ends = list(re.finditer("\r\n|\r|\n", text))
    line = rng.randint(0, len(ends))
    begin = ends[line - 1].end() if line else 0
    end = ends[line].start() if line < len(ends) else len(text)
    at = rng.randint(begin, end)
    more = 1 if at < end and rng.random() < 0.5 else 0
    position = lambda offset: {"line": line, "character": offset - begin}
    start, end = position(at), position(at + more)
    if rng.random() < 0.01:
        start["line"] += 1
    return {"range": {"start": start, "end": end}, "text": rng.choice(TEXTS)}, at, at + more


@built
class Lists(unittest.TestCase):
    def setUp(self):
        self.talk = Talk()

    def tearDown(self):
        self.assertEqual(self.talk.end(), 0)

    def opens(self, given, content, *docs):
        for doc in docs:
            reply = self.talk.ask(doc, "open", label=given, bytes=base64_of(content))
            self.assertEqual(reply["rev"], 0)

    def one_by_one(self, rng, text):
        """The changes of the document b that were made, how it reads behind them by a plain computation, and the last
        change that was refused, with the number of those made before it and with its refusal."""
        made, refused = [], None
        for _ in range(4 * LONGEST):
            if len(made) == LONGEST:
                break
            change, begin, end = draw_change(rng, text)
            reply = self.talk.ask("b", "change", rev=len(made), unit="utf-32", **change)
            if "fault" in reply:
                refused = len(made), change, reply
            else:
                made.append(change)
                text = text[:begin] + change["text"] + text[end:]
        return made, text, refused

    def test_the_longest_list_is_its_changes_one_by_one(self):
        for number, (given, fragments) in enumerate(FRAGMENTS.items()):
            with self.subTest(encoding=given):
                rng = random.Random(number)
                content = b"".join(rng.choice(fragments) for _ in range(LENGTH // 2))
                docs = ["all at once", "refused"]
                self.opens(given, content, "b")
                before = self.talk.all_of("b")
                made, text, refused = self.one_by_one(rng, before[1]["text"])
                self.assertEqual(len(made), 0 if given == "replacement" else LONGEST)
                self.opens(given, content, *docs)
                self.is_list(docs[0], made, text)
                self.is_refused_list(docs[1], made, refused, before)
                for doc in ["b", *docs]:
                    self.talk.ask(doc, "close")

    def is_list(self, doc, made, text):
        """The list leaves what its changes left of the document b, which has this text."""
        reply = self.talk.ask(doc, "changes", rev=0, unit="utf-32", changes=made)
        self.assertEqual((reply.get("applied"), reply.get("rev")), (len(made), 1), reply)
        found = self.talk.all_of(doc)
        self.assertEqual(found, self.talk.all_of("b"))
        self.assertEqual(found[1]["text"], text)

    def is_refused_list(self, doc, made, refused, before):
        """A list whose last change is refused leaves the document, and is refused for what that change was; without it
        the list is made."""
        number, change, refusal = refused
        reply = self.talk.ask(doc, "changes", rev=0, unit="utf-32", changes=[*made[:number], change])
        self.assertEqual(reply, {"change": number, **refusal})
        self.assertEqual(self.talk.all_of(doc), before)
        reply = self.talk.ask(doc, "changes", rev=0, unit="utf-32", changes=made[:number])
        self.assertEqual(reply["applied"], number)


if __name__ == "__main__":
    unittest.main()
