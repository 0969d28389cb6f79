"""Changes of a range of text that look random, in eleven encodings and each unit, on the program as it was built. Each is
compared with a plain computation over the whole document: whether it is made or why not, which splice it is and whether the
text is kept, as `plan` foretells it, and the bytes and the text that it leaves."""
import collections
import json
import random
import unittest

from drawing import OWN, UNITS, change, content, marked_content, new_text
from plain import ERROR, LIMIT, Change, Document, planned
from program import Session, built
from base import base64_of

# How many small documents each encoding has, of how many bytes at most; how many others, of how many bytes at most, and how
# many changes each of these has, one after another. One in `KEPT` keeps its byte order mark.
SMALL, SMALL_LENGTH = 40, 20
OTHERS, LENGTHS, CHANGES = 20, [20, 3000, 20_000], 100
KEPT = 4

# How many changes there have to be at least, by what becomes of them: in each encoding, in each that lacks some texts, in
# one alone, and in all together.
EACH = {"made": 8_000, "OutOfRange": 200, "SplitsCharacter": 1_000, "NotKept": 20}
LACKING = {**EACH, "Unencodable": 3_000}
LEAST = {given: EACH if given.startswith("UTF") else LACKING for given in OWN}
LEAST["Big5"] = {**LACKING, "SplitsItem": 1_000}
LEAST["replacement"] = {"made": 1_000, "NoEncoder": 1_000, "OutOfRange": 200, "SplitsCharacter": 400}
ALL = {"made": 193_000, "OutOfRange": 2_000, "SplitsCharacter": 10_000, "Unencodable": 30_000, "NotKept": 2_000}

# A full document is a part over and over, the last one cut by `spare` bytes. Each can be decoded alone, and has one change.
FULL = {"UTF-8": ("utf-8", 1), "UTF-16LE": ("utf-16-le", 2), "gb18030": ("ascii", 1)}
PARTS, INSERTIONS = 256, 60
FULL_LEAST = {"made": 1, "TooLarge": 25}
# Bytes that a line carries.
CARRIED = 3_000_000


# A value as a reply has it.
written = json.JSONEncoder(ensure_ascii=False, separators=(",", ":"), sort_keys=True).encode


def reply(members):
    return written({**members, "id": 1})


def range_of(bounds, lines=0):
    """The member `range` of a command, `lines` lines further on."""
    if bounds is None:
        return ""
    start, end = (f'{{"line":{line + lines},"character":{character}}}' for line, character in bounds)
    return f'"range":{{"start":{start},"end":{end}}},'


class Mirror:
    """A document of the program, beside one that is computed plainly."""

    def __init__(self, session, counts, name, document):
        self.session, self.counts, self.name, self.document, self.rev = session, counts, name, document, 0
        marks = '"bom":"keep",' if document.kept else ""
        self.ask("open", f'"label":"{document.given}",{marks}"bytes":"{base64_of(document.data)}"', self.edit_reply())

    def ask(self, op, members, wanted):
        self.session.ask(f'{{"id":1,"op":"{op}","doc":"{self.name}",{members}}}', wanted)

    def edit_reply(self):
        """The reply to an edit that left the document as it is."""
        return f'{{"bom":{self.document.bom},"encoding":"{self.document.encoding}","id":1,"rev":{self.rev}}}'

    def change(self, wanted):
        """Has a change planned and made; its plan, or None where it has to be refused. The document has what it leaves."""
        plan = planned(self.document, wanted)
        return plan if self.answers(wanted, plan) else None

    def answers(self, wanted, plan, lines=0, before=0):
        """The program answers a change by its plan, in a document with `lines` lines and `before` bytes before this one.
        Returns whether it is made."""
        members = f'"rev":{self.rev},{range_of(wanted.range, lines)}"unit":"{wanted.unit}","text":{written(wanted.text)}'
        if isinstance(plan, dict):
            self.counts[plan["fault"]] += 1
            for op in "plan", "change":
                self.ask(op, members, reply(plan))
            return False
        at, old, new, after, kept = plan
        foretold = f'"del":{len(old)},"id":1,"kept":{"true" if kept else "false"},"old":"{base64_of(old)}","rev":{self.rev}'
        self.ask("plan", members, f'{{"at":{before + at},"bytes":"{base64_of(new)}",{foretold}}}')
        if not kept:
            self.counts["NotKept"] += 1
            self.ask("change", members, '{"fault":"NotKept","id":1}')
            return False
        self.counts["made"] += 1
        self.document, self.rev = after, self.rev + 1
        left = f'"bom":{after.bom},"del":{len(old)},"encoding":"{after.encoding}","id":1,"ins":{len(new)},"rev":{self.rev}'
        self.ask("change", members, f'{{"at":{before + at},{left}}}')
        return True

    def splice(self, at, count, data, document):
        """Has bytes replaced, which leaves a document."""
        members = f'"rev":{self.rev},"at":{at},"del":{count},"bytes":"{base64_of(data)}"'
        self.document, self.rev = document, self.rev + 1
        self.ask("splice", members, self.edit_reply())

    def has(self, data, text):
        """The program has these bytes and this text."""
        self.ask("source", f'"at":0,"len":{len(data)}', f'{{"bytes":"{base64_of(data)}","id":1,"rev":{self.rev}}}')
        self.ask("text", f'"from":0,"to":{len(text)}', f'{{"id":1,"rev":{self.rev},"text":{written(text)}}}')

    def is_left(self):
        """The program has the document's bytes and text, and no more."""
        it, text = self.document, self.document.text
        self.has(it.data, text)
        stat = f'"bom":{it.bom},"bytes":{len(it.data)},"encoding":"{it.encoding}","errors":{it.marked.count(ERROR)}'
        stat += f',"given":"{it.given}","id":1,"lines":{it.line_count()},"rev":{self.rev}'
        stat += f',"utf16":{utf16(text)},"utf32":{len(text)},"utf8":{len(text.encode())}'
        self.session.ask(f'{{"id":1,"op":"stat","doc":"{self.name}"}}', f"{{{stat}}}")


def utf16(text):
    return len(text.encode("utf-16-le")) // 2


def borders(document, unit):
    """The position of each code point and of the end, and of each also one a unit further on."""
    for offset in range(len(document.text) + 1):
        line, character = document.position(offset, unit)
        yield line, character
        yield line, character + 1


@built
class Changes(unittest.TestCase):
    def is_telling(self, counts, least, what):
        """There was enough of everything."""
        for kind, count in least.items():
            self.assertGreaterEqual(counts[kind], count, f"{kind}, {what}")

    def every_range(self, rng, mirror):
        """Changes of every range of a document in every unit, each of it as it was."""
        document = mirror.document
        for unit in UNITS:
            found = list(borders(document, unit))
            for number, start in enumerate(found):
                for end in found[number:]:
                    plan = mirror.change(Change((start, end), unit, new_text(rng, document.text)))
                    if plan:
                        mirror.is_left()
                        mirror.splice(plan.at, len(plan.new), plan.old, document)
        mirror.is_left()

    def in_encoding(self, given, counts):
        """Changes of documents in one encoding, of the larger ones in turn."""
        rng = random.Random(given)
        with Session() as session:
            for number in range(SMALL):
                data = marked_content(rng, given, rng.randint(0, SMALL_LENGTH))
                self.every_range(rng, Mirror(session, counts, f"small {number}", Document(given, number % KEPT == 0, data)))
        with Session() as session:
            mirrors = []
            for number in range(OTHERS):
                data = marked_content(rng, given, rng.randint(1, rng.choice(LENGTHS)) * rng.randint(1, 3))
                mirrors.append(Mirror(session, counts, f"other {number}", Document(given, number % KEPT == 0, data)))
            for _ in range(CHANGES):
                for mirror in mirrors:
                    if mirror.change(change(rng, mirror.document)):
                        mirror.is_left()

    def test_changes_are_those_of_a_plain_computation(self):
        every = collections.Counter()
        for given in OWN:
            with self.subTest(encoding=given):
                counts = collections.Counter()
                self.in_encoding(given, counts)
                self.is_telling(counts, LEAST[given], given)
                every.update(counts)
        self.is_telling(every, ALL, "in all")

    def parts(self, rng, given, codec, spare):
        """The parts of a full document, which lacks `spare` bytes to the most that there may be."""
        first, last, length = "a".encode(codec), "\r\n".encode(codec), LIMIT // PARTS
        data = first + content(rng, given, length - len(first) - len(last)) + last
        part = Document(given, True, data)
        return [part] * (PARTS - 1) + [Document(given, True, data[: length - spare - len(last)] + last)]

    def in_full(self, rng, session, counts, given, parts):
        """Insertions into parts of a full document, from the back to the front, so that none moves what comes behind it."""
        data, lines, length = b"".join(it.data for it in parts), len(parts[0].lines) - 1, len(parts[0].data)
        mirror, size = Mirror(session, counts, "full", Document(given, False, parts[0].data)), len(data)
        for at in range(length, size, CARRIED):
            mirror.splice(at, 0, data[at : at + CARRIED], mirror.document)
        for number in sorted(rng.sample(range(1, PARTS - 1), INSERTIONS), reverse=True):
            part, unit = parts[number], rng.choice(UNITS)
            line, character = part.position(rng.randrange(part.starts[-1]), unit)
            start = line, character + (rng.randrange(8) == 0)
            wanted = Change((start, start), unit, new_text(rng, part.text) or "x")
            plan = planned(part, wanted, size - length)
            if mirror.answers(wanted, plan, lines * number, length * number):
                parts[number], size = plan.left, size + len(plan.new)
        mirror.has(b"".join(it.data for it in parts), "".join(it.text for it in parts))

    def test_changes_of_full_documents(self):
        for given, (codec, spare) in FULL.items():
            with self.subTest(encoding=given), Session() as session:
                rng, counts = random.Random(given), collections.Counter()
                self.in_full(rng, session, counts, given, self.parts(rng, given, codec, spare))
                self.is_telling(counts, FULL_LEAST, given)


if __name__ == "__main__":
    unittest.main()
