"""Given bytes in the place of a range, in eleven encodings and each unit, on the program as it was built. What becomes of each
`replace` is compared with a plain computation over the whole document: it is made exactly if the bytes have the text that it
names there, and no other text changes."""
import collections
import random
import unittest

from drawing import OWN, change, content, marked_content, new_text
from plain import Document, put_in
from program import Session, built
from test_changes import Mirror, range_of, reply, written
from base import base64_of

# How many documents each encoding has, of how many bytes at most, and how many `replace`s each has, one after another.
DOCUMENTS, LENGTHS, REPLACES = 16, [20, 20, 300, 3000], 60
KEPT = 4

# How many there have to be at least in each encoding, by what becomes of them, and by what is wrong where they are NotKept.
EACH = {"made": 300, "made as it was": 60, "NotKept": 150, "OutOfRange": 5, "SplitsCharacter": 5}


class Replaced(Mirror):
    """A document of which parts are replaced by given bytes."""

    def draw(self, rng):
        """A change, and bytes for it: often those of a part of the document, with their text there."""
        document, found = self.document, change(rng, self.document)
        at = rng.randint(0, len(document.data))
        own = document.data[at : at + rng.choice([0, 1, 2, 3, 4, 8, 40])]
        new = own if rng.randrange(3) else content(rng, document.given, rng.randint(0, 8))
        plan = put_in(document, found, new)
        if isinstance(plan, dict) or rng.randrange(4) == 0:
            return found._replace(text=new_text(rng, document.text)), new
        # (the text that is there then, if no other has changed)
        start, end = self.ends(found)
        return found._replace(text=plan.left.text[start : len(plan.left.text) - (len(document.text) - end)]), new

    def ends(self, found):
        if found.range is None:
            return 0, len(self.document.text)
        return [self.document.offset(it, found.unit) for it in found.range]

    def replace(self, found, new):
        """Has a range replaced by given bytes, and returns the plan if it was made."""
        plan = put_in(self.document, found, new)
        members = f'"rev":{self.rev},{range_of(found.range)}"unit":"{found.unit}","text":{written(found.text)},"bytes":"{base64_of(new)}"'
        fault = plan if isinstance(plan, dict) else None if plan.kept else {"fault": "NotKept"}
        if fault:
            self.counts[fault["fault"]] += 1
            self.ask("replace", members, reply(fault))
            return None
        self.counts["made"] += 1
        self.document, self.rev = plan.left, self.rev + 1
        it = self.document
        made = {"at": plan.at, "bom": it.bom, "del": len(plan.old), "encoding": it.encoding, "ins": len(new), "rev": self.rev}
        self.ask("replace", members, reply(made))
        return plan

    def take_back(self, found, plan, before):
        """Replaces what was put in by the bytes that were there, with the text that they had."""
        start, end = found.range or ((0, 0), before.position(len(before.text), found.unit))
        offset, until = before.offset(start, found.unit), before.offset(end, found.unit)
        where = tuple(self.document.position(it, found.unit) for it in (offset, offset + len(found.text)))
        if self.replace(found._replace(range=where, text=before.text[offset:until]), plan.old):
            self.counts["made as it was"] += self.document.data == before.data


@built
class Replaces(unittest.TestCase):
    def in_encoding(self, given, counts):
        rng = random.Random(given)
        with Session() as session:
            for number in range(DOCUMENTS):
                data = marked_content(rng, given, rng.randint(0, rng.choice(LENGTHS)))
                it = Replaced(session, counts, f"document {number}", Document(given, number % KEPT == 0, data))
                for _ in range(REPLACES):
                    before, (found, new) = it.document, it.draw(rng)
                    plan = it.replace(found, new)
                    if plan and rng.randrange(2):
                        it.take_back(found, plan, before)
                it.is_left()

    def test_given_bytes_are_put_in_exactly_if_they_have_the_text(self):
        for given in OWN:
            with self.subTest(encoding=given):
                counts = collections.Counter()
                self.in_encoding(given, counts)
                for kind, least in EACH.items():
                    self.assertGreaterEqual(counts[kind], least, kind)


if __name__ == "__main__":
    unittest.main()
