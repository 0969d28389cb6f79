"""What the op `since` tells of edits drawn at random, in eleven encodings, by applying it: from the bytes at any revision
that the log reaches back to it leads to those now. The bytes of each revision are kept here."""
import base64
import random
import unittest

from program import built
from base import base64_of
from test_lists import FRAGMENTS, Talk, draw_change

# How many edits a log has at most, and how many each document gets.
LOG = 1024
EDITS = LOG + 60

UNITS = ["utf-8", "utf-16", "utf-32"]


@built
class Since(unittest.TestCase):
    def setUp(self):
        self.talk = Talk()

    def tearDown(self):
        self.assertEqual(self.talk.end(), 0)

    def ask(self, op, **fields):
        return self.talk.ask("d", op, **fields)

    def source(self):
        return base64.b64decode(self.ask("source", at=0, len=self.ask("stat")["bytes"])["bytes"])

    def edit_bytes(self, rng, rev, content, fragments):
        """The bytes behind an edit that is drawn: most are splices, others a change or a list of two."""
        if rng.random() < 0.7:
            at = rng.randint(0, len(content))
            gone = min(len(content) - at, rng.choice([0, 0, 1, 2, 9]))
            put = b"" if rng.random() < 0.2 else rng.choice(fragments)
            self.assertEqual(self.ask("splice", rev=rev, at=at, bytes=base64_of(put), **{"del": gone})["rev"], rev + 1)
            self.told_of_the_last(rev, (at, gone, len(put)) if gone or put else (0, 0, 0))
            return content[:at] + put + content[at + gone :]
        text = self.ask("text", **{"from": 0, "to": self.ask("stat")["utf32"]})["text"]
        change, _, _ = draw_change(rng, text)
        if rng.random() < 0.5:
            reply = self.ask("change", rev=rev, unit="utf-32", **change)
            if "fault" not in reply:
                self.told_of_the_last(rev, (reply["at"], reply["del"], reply["ins"]) if reply["del"] or reply["ins"] else (0, 0, 0))
        else:
            reply = self.ask("changes", rev=rev, unit="utf-32", changes=[change, {"range": change["range"], "text": ""}])
        return content if "fault" in reply else self.source()

    def told_of_the_last(self, rev, wanted):
        """The last edit alone is reported as it was made."""
        told = self.ask("since", rev=rev)
        self.assertEqual((told["at"], told["del"], told["ins"]), wanted)

    def leads(self, versions, rev):
        """The splice since a revision leads from its bytes to those now."""
        old, new = versions[rev], versions[-1]
        told = self.ask("since", rev=rev)
        at, gone, came = told["at"], told["del"], told["ins"]
        self.assertEqual(told["rev"], len(versions) - 1)
        self.assertTrue(at + gone <= len(old) and at + came <= len(new), told)
        self.assertEqual(old[:at] + new[at : at + came] + old[at + gone :], new)
        return at, at + came

    def ranges(self, rng, rev, begin, end):
        """The range of the bytes begin to end is where `place` and `position` have them."""
        unit = rng.choice(UNITS)
        first = self.ask("place", unit="byte", value=begin)["utf32"]
        place = self.ask("place", unit="byte", value=end)
        if place["place"] is not None and place["place"][0] < end:
            place = self.ask("place", unit="byte", value=place["place"][1])
        told = self.ask("since", rev=rev, unit=unit)
        for key, offset in (("start", first), ("end", place["utf32"])):
            position = self.ask("position", offset=offset, unit=unit)
            self.assertEqual(told[key], {"line": position["line"], "character": position["character"]})

    def test_each_splice_leads_from_an_earlier_revision_to_the_one_now(self):
        for number, (given, fragments) in enumerate(FRAGMENTS.items()):
            with self.subTest(encoding=given):
                rng = random.Random(number)
                content = b"".join(rng.choice(fragments) for _ in range(60))
                self.ask("open", label=given, bytes=base64_of(content))
                versions = [content]
                while len(versions) <= EDITS:
                    rev = len(versions) - 1
                    content = self.edit_bytes(rng, rev, versions[-1], fragments)
                    if self.ask("stat")["rev"] > rev:
                        versions.append(content)
                        rev = max(0, len(versions) - 1 - rng.choice([1, 2, 3, 5, 20, LOG]))
                        self.ranges(rng, rev, *self.leads(versions, rev))
                self.assertEqual(self.source(), versions[-1])
                self.reaches_back(versions)
                self.ask("close")

    def reaches_back(self, versions):
        """As far as the log has edits, and not further."""
        now = len(versions) - 1
        for rev in range(now - LOG, now + 1):
            self.leads(versions, rev)
        for rev in range(now - LOG):
            self.assertEqual(self.ask("since", rev=rev), {"fault": "Forgotten", "rev": now - LOG})
        self.assertEqual(self.ask("since", rev=now + 1), {"fault": "OutOfRange"})


if __name__ == "__main__":
    unittest.main()
